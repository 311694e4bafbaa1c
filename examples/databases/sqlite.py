"""SQLite: a file, or a cache in memory that all clients share. A register is a table of one row."""
import contextlib
import sqlite3

from database import Client


class Transactions(Client):
    ERRORS = (sqlite3.Error,)

    def __init__(self, path, level):
        how = {"uri": True, "isolation_level": None, "timeout": 0.05, "check_same_thread": False}
        self.connection = sqlite3.connect(path, **how)
        self.ask = self.connection.execute
        self.ask(f"pragma journal_mode = {'delete' if level == 'rollback-journal' else 'wal'}")
        self.ask("pragma synchronous = off")
        self.ask(f"pragma read_uncommitted = {level == 'read-uncommitted'}")

    def begin(self, mops):
        self.ask("begin")

    def read(self, key):
        return self.ask(f"select value from register_{key}").fetchone()[0]

    def write(self, key, value):
        self.ask(f"update register_{key} set value = {value}")

    def commit(self):
        self.ask("commit")

    def is_refused(self, error):
        return "locked" in str(error)  # the transaction is still open then

    def rollback(self):
        if self.connection.in_transaction:
            self.ask("rollback")

    def close(self):
        self.connection.close()


class Database:
    LEVELS = ("write-ahead-log", "rollback-journal", "shared-cache", "read-uncommitted")
    version = f"SQLite {sqlite3.sqlite_version}"

    def __init__(self, folder, keys, stack):
        cache = "file:registers?mode=memory&cache=shared"
        paths = (f"file:{folder}/logged", f"file:{folder}/journaled", cache, cache)
        self.paths = dict(zip(self.LEVELS, paths))
        for level in self.LEVELS[:3]:  # these stay open, and keep the cache
            first = stack.enter_context(contextlib.closing(self.client(level)))
            for key in keys:
                first.ask(f"create table register_{key} (value integer)")
                first.ask(f"insert into register_{key} values (null)")

    def client(self, level, _=0):
        return Transactions(self.paths[level], level)
