"""Redis: a server with a socket in a folder and no TCP port.

A transaction reads its keys, and then writes its keys at once, unless one of those that it read
was written meanwhile.
"""
import contextlib
import socket

from database import LIMIT, RolledBack, SqlError, program, start


class Connection:
    """Redis's protocol."""

    def __init__(self, path):
        self.socket = socket.socket(socket.AF_UNIX)
        self.socket.settimeout(LIMIT)
        self.socket.connect(path)
        self.replies = self.socket.makefile("rb")

    def ask(self, *words):
        words = [str(word).encode() for word in words]
        text = b"".join(b"$%d\r\n%s\r\n" % (len(word), word) for word in words)
        self.socket.sendall(b"*%d\r\n%s" % (len(words), text))
        return self.reply()

    def reply(self):
        line = self.replies.readline()
        kind, rest = line[:1], line[1:-2].decode()
        if kind == b"":
            raise ConnectionError("the server closed the connection")
        if kind == b"-":
            raise SqlError(*rest.split(" ", 1))
        if rest == "-1" and kind in (b"$", b"*"):
            return None
        if kind == b"$":
            return self.replies.read(int(rest) + 2)[:-2].decode()
        if kind == b"*":
            return [self.reply() for _ in range(int(rest))]
        return rest

    def close(self):
        self.replies.close()
        self.socket.close()


class Transactions:
    def __init__(self, path, level):
        self.connection, self.is_watching = Connection(path), level == "watch"
        self.ask, self.close = self.connection.ask, self.connection.close

    def run(self, mops, pause=lambda: None):
        keys = [key for f, key, _ in mops if f == "r"]
        writes = [("set", key, value) for f, key, value in mops if f == "w"]
        if self.is_watching and not writes:
            return [value and int(value) for value in self.at_once([("get", key) for key in keys])]
        if self.is_watching:
            self.ask("watch", *keys)
        seen = []
        for key in keys:
            value = self.ask("get", key)
            seen.append(value and int(value))
            pause()
        if not self.is_watching:
            for write in writes:
                self.ask(*write)
                pause()
        elif self.at_once(writes) is None:
            raise RolledBack("a key that was read has been written")
        return seen

    def at_once(self, commands):
        self.ask("multi")
        for command in commands:
            self.ask(*command)
        return self.ask("exec")


class Database:
    LEVELS = ("watch", "one-by-one")

    def __init__(self, folder, keys, stack):
        self.path = f"{folder}/socket"
        words = [program("redis-server", "redis-server"), "--port", "0", "--unixsocket", self.path]
        words += ["--save", "", "--dir", str(folder)]
        connection = start(stack, folder, words, lambda: Connection(self.path))
        with contextlib.closing(connection):
            lines = connection.ask("info", "server").splitlines()
            [version] = [line for line in lines if line.startswith("redis_version:")]
            self.version = f"Redis {version.partition(':')[2]}"

    def client(self, level, _=0):
        return Transactions(self.path, level)
