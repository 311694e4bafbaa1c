"""Tests of two databases with pytest and recorder.py: `pytest test_registers.py`. One database is
broken, and its test fails with the cycle that shows this. JEPCHECK is the program to run, if it
isn't the one of this repository."""
import asyncio
import concurrent.futures
import random
import threading

import pytest
from recorder import Recorder, assert_promised

CLIENTS = 4
TRANSACTIONS = 25  # of each client
KEYS = 3


class OneAtATime:
    """Registers that run one transaction after the other."""

    def __init__(self):
        self.values, self.lock = {}, threading.Lock()

    def run(self, mops):
        """Runs a transaction, and returns what its reads saw."""
        seen = []
        with self.lock:
            for f, key, value in mops:
                if f == "r":
                    seen.append(self.values.get(key))
                else:
                    self.values[key] = value
        return seen


class Copies:
    """Registers whose transactions work on copies, and write them back whatever others wrote."""

    def __init__(self):
        self.values = {}

    async def run(self, mops):
        copy, seen = dict(self.values), []
        for f, key, value in mops:
            if f == "r":
                seen.append(copy.get(key))
            else:
                copy[key] = value
            await asyncio.sleep(0)
        self.values.update({key: value for f, key, value in mops if f == "w"})
        return seen


@pytest.fixture(name="recorder")
def in_a_file(tmp_path):
    with Recorder(tmp_path / "history.edn") as recorder:
        yield recorder


def some_mops(recorder):
    """The reads and writes of a transaction. Each key is read before it is written, which shows the
    order of the writes."""
    mops = []
    for key in random.sample(range(KEYS), 2):
        mops.append(("r", key))
        if random.random() < 0.5:
            mops.append(("w", key, recorder.value()))
    return mops


def test_threads(recorder):
    registers = OneAtATime()

    def client(_):
        for _ in range(TRANSACTIONS):
            with recorder.begin(some_mops(recorder)) as transaction:
                transaction.ok(registers.run(transaction.mops))

    with concurrent.futures.ThreadPoolExecutor(CLIENTS) as pool:
        list(pool.map(client, range(CLIENTS)))
    assert_promised(recorder.path, "strict serializable")


def test_tasks(recorder):
    registers = Copies()

    async def client():
        for _ in range(TRANSACTIONS):
            with recorder.begin(some_mops(recorder)) as transaction:
                transaction.ok(await registers.run(transaction.mops))

    async def clients():
        await asyncio.gather(*(client() for _ in range(CLIENTS)))

    asyncio.run(clients())
    assert_promised(recorder.path, "snapshot isolation")
