"""Firebird: a file that each client opens without a server. A connection is its own client."""
import contextlib
import os
import pathlib

from database import Client, Missing, Shell, SqlError, make, program

HOME = "/usr/lib/*/firebird/3.0"  # where Debian has its libraries and its settings
LEVELS = {
    "table-stability": "snapshot table stability",
    "table-stability-reserving": "snapshot table stability",  # its tables are locked as it begins
    "snapshot": "snapshot",
    "read-committed": "read committed record_version",
}


class Transactions(Client):
    def __init__(self, folder, level, how="connect"):
        words = [program("isql-fb", "firebird3.0-utils"), "-quiet", "-user", "SYSDBA"]
        where = {"cwd": folder, "env": {**os.environ, "FIREBIRD": f"{folder}/home"}}
        self.shell, self.level = Shell(words, "show sql dialect;", "SQL dialect", **where), level
        self.ask(f"{how} 'registers.fdb' user 'SYSDBA'")
        self.ask("set heading off")

    def ask(self, statement):
        lines = self.shell.ask(statement)
        if any(line.startswith("Statement failed") for line in lines):
            raise SqlError(lines[0].rpartition(" ")[2], " ".join(lines[1:]))
        return lines

    def begin(self, mops):
        self.ask("commit")  # what the connection has begun by itself
        reserved = ""
        if self.level == "table-stability-reserving":
            how = {key: "read" for _, key, _ in mops}
            how |= {key: "write" for f, key, _ in mops if f == "w"}
            tables = [f"register_{key} for protected {how[key]}" for key in sorted(how)]
            reserved = f" reserving {', '.join(tables)}"
        level = LEVELS[self.level]
        self.ask(f"set transaction wait lock timeout 2 isolation level {level}{reserved}")

    def read(self, key):
        [value] = self.ask(f"select held from register_{key}")
        return None if value == "<null>" else int(value)

    def write(self, key, value):
        self.ask(f"update register_{key} set held = {value}")

    def commit(self):
        self.ask("commit")

    def rollback(self):
        self.ask("rollback")

    def close(self):
        self.shell.close()


class Database:
    LEVELS = tuple(LEVELS)

    def __init__(self, folder, keys, stack):
        self.folder, home = folder, pathlib.Path(folder, "home")
        home.mkdir()
        for path in pathlib.Path("/").glob(f"{HOME[1:]}/*"):
            if path.name != "firebird.conf":
                (home / path.name).symlink_to(path)
        settings = "ServerMode = Classic\n"  # several programs may open a file
        (home / "firebird.conf").write_text(settings, encoding="utf-8")
        try:
            connection = Transactions(folder, "snapshot", "create database")
        except SqlError as error:
            raise Missing(f"Firebird makes no database: {error}") from error
        with contextlib.closing(connection):
            version = "select rdb$get_context('SYSTEM', 'ENGINE_VERSION') from rdb$database"
            self.version = f"Firebird {connection.ask(version)[0]}"
            for key in keys:
                connection.ask(f"create table register_{key} (held integer)")
            connection.ask("commit")
            for key in keys:
                connection.ask(f"insert into register_{key} values (null)")
            connection.ask("commit")
        fix = program("gfix", "firebird3.0-utils")
        make([fix, "-user", "SYSDBA", "-write", "async", f"{folder}/registers.fdb"])

    def client(self, level, _=0):
        return Transactions(self.folder, level)
