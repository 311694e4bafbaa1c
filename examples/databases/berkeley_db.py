"""Berkeley DB: a library, by Debian's python3-bsddb3. A register is a file with one record."""
from database import Client, module

ENVIRONMENT = "DB_CREATE DB_PRIVATE DB_THREAD DB_INIT_LOCK DB_INIT_LOG DB_INIT_MPOOL DB_INIT_TXN"
LEVELS = {  # how a transaction begins that only reads, and any other one
    "read-uncommitted": ("DB_READ_UNCOMMITTED", "DB_READ_UNCOMMITTED"),
    "read-committed": ("DB_READ_COMMITTED", "DB_READ_COMMITTED"),
    "snapshot-readers": ("DB_TXN_SNAPSHOT", ""),
    "serializable": ("", ""),
}


def flags(db, names):
    return sum(getattr(db, name) for name in set(names.split()))


class Transactions(Client):
    def __init__(self, database, level):
        self.database, self.level, self.transaction = database, level, None
        self.ERRORS = (database.db.DBError,)

    def begin(self, mops):
        writes = any(f == "w" for f, _, _ in mops)
        how = flags(self.database.db, LEVELS[self.level][writes])
        self.transaction = self.database.environment.txn_begin(flags=how)

    def read(self, key):
        value = self.database.tables[key].get(b"value", txn=self.transaction)
        return int(value) if value else None

    def write(self, key, value):
        self.database.tables[key].put(b"value", str(value).encode(), txn=self.transaction)

    def commit(self):
        self.transaction.commit()

    def rollback(self):
        self.transaction.abort()

    def close(self):
        pass


class Database:
    LEVELS = tuple(LEVELS)

    def __init__(self, folder, keys, stack, locks=20000, megabytes=64):
        db = self.db = module("bsddb3.db", "python3-bsddb3")
        self.version = db.DB_VERSION_STRING.partition(":")[0]
        self.stack, self.environment = stack, db.DBEnv()
        self.environment.set_lk_detect(db.DB_LOCK_DEFAULT)
        self.environment.set_cachesize(0, megabytes << 20)
        self.environment.set_lk_max_locks(locks)
        self.environment.set_lk_max_objects(locks)
        self.environment.set_lk_max_lockers(2000)
        self.environment.set_tx_max(2000)
        self.environment.set_flags(db.DB_TXN_NOSYNC, 1)
        self.environment.open(str(folder), flags(db, ENVIRONMENT))
        stack.callback(self.environment.close)
        how = "DB_MULTIVERSION DB_READ_UNCOMMITTED"
        self.tables = {key: self.table(f"register_{key}", how) for key in keys}
        for table in self.tables.values():
            table.put(b"value", b"", flags=db.DB_AUTO_COMMIT)

    def table(self, name, how="", page=4096):
        """Makes a table with pages of so many bytes."""
        table = self.db.DB(self.environment)
        table.set_pagesize(page)
        how = flags(self.db, f"DB_CREATE DB_THREAD DB_AUTO_COMMIT {how}")
        table.open(name, dbtype=self.db.DB_BTREE, flags=how)
        self.stack.callback(table.close)
        return table

    def client(self, level, _=0):
        return Transactions(self, level)
