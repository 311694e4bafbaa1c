"""etcd: one server, over its JSON gateway.

A transaction reads its keys at once, and then writes its keys at once, if none of those that it
read was changed meanwhile.
"""
import base64
import http.client
import json
import socket

from database import LIMIT, RolledBack, SqlError, free_port, program, start


def coded(it):
    return base64.b64encode(str(it).encode()).decode()


class Transactions:
    def __init__(self, port, level):
        self.connection = http.client.HTTPConnection("127.0.0.1", port, timeout=LIMIT)
        self.connection.connect()
        self.connection.sock.setsockopt(socket.IPPROTO_TCP, socket.TCP_NODELAY, 1)
        self.at_once = level == "transactions"

    def ask(self, call, **body):
        self.connection.request("POST", f"/v3/{call}", json.dumps(body))
        reply = self.connection.getresponse()
        text = reply.read().decode()
        if reply.status != 200:
            raise SqlError(reply.status, text)
        return json.loads(text)

    def read(self, keys):
        """What these keys hold, and their revisions."""
        if self.at_once:
            reads = [{"request_range": {"key": coded(key)}} for key in keys]
            replies = self.ask("kv/txn", success=reads)["responses"]
            replies = [it["response_range"] for it in replies]
        else:
            replies = [self.ask("kv/range", key=coded(key)) for key in keys]
        held = [reply.get("kvs", [{}])[0] for reply in replies]
        values = [int(base64.b64decode(it["value"])) if it else None for it in held]
        return values, [it.get("mod_revision", "0") for it in held]

    def run(self, mops, pause=lambda: None):
        keys = [key for f, key, _ in mops if f == "r"]
        seen, revisions = self.read(keys)
        writes = [{"key": coded(key), "value": coded(value)} for f, key, value in mops if f == "w"]
        if writes:
            pause()
            same = [{"key": coded(key), "mod_revision": it} for key, it in zip(keys, revisions)]
            same = [{"target": "MOD", **it} for it in same]
            writes = [{"request_put": it} for it in writes]
            if not self.ask("kv/txn", compare=same, success=writes).get("succeeded"):
                raise RolledBack("a key that was read has been written")
        return seen

    def close(self):
        self.connection.close()


class Database:
    LEVELS = ("transactions", "one-by-one")  # how the keys of a transaction are read

    def __init__(self, folder, keys, stack):
        self.port = free_port()
        client, peer = f"http://127.0.0.1:{self.port}", f"http://127.0.0.1:{free_port()}"
        words = [program("etcd", "etcd-server"), "--data-dir", f"{folder}/data"]
        words += ["--listen-client-urls", client, "--advertise-client-urls", client]
        words += ["--listen-peer-urls", peer, "--initial-advertise-peer-urls", peer]
        words += ["--initial-cluster", f"default={peer}", "--unsafe-no-fsync"]
        connection = start(stack, folder, words, lambda: self.client("transactions"))
        self.version = f"etcd {connection.ask('maintenance/status')['version']}"
        connection.close()

    def client(self, level, _=0):
        return Transactions(self.port, level)
