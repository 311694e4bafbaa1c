"""PostgreSQL: a server with a socket in a folder and no TCP port. Root runs it as postgres."""
import os
import shutil
import signal
import socket

from database import LIMIT, Client, SqlError, make, program, start

SETTINGS = (
    "--listen_addresses=",
    "--port=5432",
    "--fsync=off",
    "--deadlock_timeout=20ms",
    "--enable_seqscan=off",
)
MAKE = "-D data -A trust -U postgres -E UTF8 --no-locale --no-sync"
REFUSED = ("40001", "40P01")  # a serialization failure, a deadlock


class Connection:
    """As much of PostgreSQL's protocol as is needed here, without a driver."""

    def __init__(self, folder):
        self.socket = socket.socket(socket.AF_UNIX)
        self.socket.settimeout(LIMIT)
        self.socket.connect(f"{folder}/.s.PGSQL.5432")
        self.replies = self.socket.makefile("rb")
        self.ask("\0\3\0\0user\0postgres\0database\0postgres\0", kind=b"")

    def ask(self, text, kind=b"Q"):
        """Sends a statement. Returns the first value of the last row, or else what it did."""
        body = text.encode() + b"\0"
        self.socket.sendall(kind + (len(body) + 4).to_bytes(4, "big") + body)
        rows, done, error = [], None, None
        while len(head := self.replies.read(5)) == 5:
            kind, reply = head[:1], self.replies.read(int.from_bytes(head[1:], "big") - 4)
            if kind == b"D":  # how many values, the length of the first or -1 for null, its text
                size = int.from_bytes(reply[2:6], "big", signed=True)
                rows.append(None if size < 0 else reply[6 : 6 + size].decode())
            elif kind == b"C":
                done = reply[:-1].decode()
            elif kind == b"E":
                fields = {field[:1]: field[1:].decode() for field in reply.split(b"\0")}
                error = SqlError(fields[b"C"], fields[b"M"])
            elif kind == b"Z":  # ready for the next statement
                if error:
                    raise error
                return rows[-1] if rows else done
        raise ConnectionError("the server closed the connection")

    def close(self):
        self.replies.close()
        self.socket.close()


class Transactions(Client):
    """A client: transactions over a connection."""

    def __init__(self, folder, level):
        self.connection, self.level = Connection(folder), level.replace("-", " ")
        self.ask = self.connection.ask

    def begin(self, mops):
        self.ask(f"begin isolation level {self.level}")

    def read(self, key):
        value = self.ask(f"select value from registers where key = '{key}'")
        return None if value is None else int(value)

    def write(self, key, value):
        self.ask(f"update registers set value = {value} where key = '{key}'")

    def commit(self):
        if (done := self.ask("commit")) != "COMMIT":
            raise SqlError("40000", f"the server replies {done}")

    def is_refused(self, error):
        return error.args[0] in (*REFUSED, "40000")

    def rollback(self):
        self.ask("rollback")

    def close(self):
        self.connection.close()


class Database:
    LEVELS = ("read-committed", "repeatable-read", "serializable")

    def __init__(self, folder, keys, stack, settings=()):
        initdb = program("initdb", "postgresql", "/usr/lib/postgresql/*/bin")
        self.folder, self.programs = folder, os.path.dirname(os.path.realpath(initdb))
        self.settings, self.how = [*SETTINGS, *settings], {"cwd": folder, "start_new_session": True}
        if os.geteuid() == 0:
            shutil.chown(folder, "postgres", "postgres")
            self.how |= {"user": "postgres", "group": "postgres", "extra_groups": ()}
        make([initdb, *MAKE.split()], **self.how)
        connection = self.serve(stack, "data", folder)
        self.version = connection.ask("select version()").split(" (")[0]
        connection.ask("create table registers (key text primary key, value int)")
        for key in keys:
            connection.ask(f"insert into registers values ('{key}', null)")
        connection.close()

    def serve(self, stack, data, socket_folder):
        """Starts a server of a data folder, and returns a connection."""
        words = [f"{self.programs}/postgres", "-D", data, "-k", socket_folder, *self.settings]
        connect = lambda: Connection(socket_folder)
        return start(stack, self.folder, words, connect, signal.SIGQUIT, **self.how)

    def client(self, level, _=0):
        return Transactions(self.folder, level)
