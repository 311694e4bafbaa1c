"""MariaDB: a server with a socket in a folder and no TCP port. A connection is its own client."""
import contextlib
import getpass
import re

from database import Client, Shell, SqlError, make, program, start

CLIENT = "--no-defaults --socket=socket --user=root --force --batch --unbuffered -N"


class Transactions(Client):
    def __init__(self, folder, level):
        words = [program("mariadb", "mariadb-client"), *CLIENT.split()]
        self.shell = Shell(words, "select 'the end';", "the end", cwd=folder)
        is_snapshot = level == "snapshot"  # REPEATABLE READ that loses no updates
        self.ask(f"set innodb_snapshot_isolation = {is_snapshot}, innodb_lock_wait_timeout = 1")
        level = "repeatable read" if is_snapshot else level.replace("-", " ")
        self.ask(f"set session transaction isolation level {level}")

    def ask(self, statement):
        lines = self.shell.ask(statement)
        for line in lines:
            if error := re.match(r"ERROR (\d+) (.*)", line):
                raise SqlError(*error.groups())
        return lines

    def begin(self, mops):
        self.ask("start transaction")

    def read(self, key):
        [value] = self.ask(f"select value from test.registers where name = '{key}'")
        return None if value == "NULL" else int(value)

    def write(self, key, value):
        self.ask(f"update test.registers set value = {value} where name = '{key}'")

    def commit(self):
        self.ask("commit")

    def rollback(self):
        self.ask("rollback")

    def close(self):
        self.shell.close()


class Database:
    LEVELS = ("read-uncommitted", "read-committed", "repeatable-read", "snapshot", "serializable")

    def __init__(self, folder, keys, stack):
        self.folder = folder
        words = ["--no-defaults", f"--datadir={folder}/data", f"--user={getpass.getuser()}"]
        install = program("mariadb-install-db", "mariadb-server")
        make([install, *words, "--auth-root-authentication-method=normal"])
        words += ["--skip-networking", f"--socket={folder}/socket", f"--pid-file={folder}/pid"]
        words += ["--innodb-flush-log-at-trx-commit=0"]
        words = [program("mariadbd", "mariadb-server"), *words]
        connection = start(stack, folder, words, lambda: self.client("serializable"))
        with contextlib.closing(connection):
            self.version = f"MariaDB {connection.ask('select version()')[0].partition('-')[0]}"
            registers = "name varchar(20) primary key, value bigint"
            connection.ask(f"create table test.registers ({registers})")
            for key in keys:
                connection.ask(f"insert into test.registers values ('{key}', null)")

    def client(self, level, _=0):
        return Transactions(self.folder, level)
