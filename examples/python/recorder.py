"""Records the history of a test of a database, as a file or with `jepcheck serve`, and checks it.

    from recorder import Recorder, assert_promised

    with Recorder("history.edn") as recorder:
        # In each thread or task, over and over:
        with recorder.begin([("r", "x"), ("w", "x", recorder.value())]) as transaction:
            try:
                seen = database.run(transaction.mops)  # what each read returned, in their order
                transaction.ok(seen)
            except database.RolledBack:
                transaction.fail()  # only if it certainly didn't happen
    assert_promised("history.edn", "snapshot isolation")

Whatever threads and asyncio tasks do with it, the history is one that the program takes, with its
lines in the order in which things happened: `begin` returns once the invocation is recorded, and
each task, or thread outside of tasks, has a process of its own, and a new one after each
transaction whose end isn't known.

    Recorder(target)         a file that is created or emptied, by its path; or a session of
                             `serve`, by the paths of its pipes, (IN, OUT)
    Recorder(target, 3, 8)   number 3 of 8 recorders, as of 8 programs that have a session each: it
                             leaves the other numbers to them. If the session has a past, from a
                             program that died, this goes on where that one was: what was left open
                             is unknown, and no process and no value comes again
      .begin(mops)           records an invocation, and returns the Transaction. Reads are
                             ("r", key), writes ("w", key, value). Begin it before the database can
                             see anything of it, and don't run it if this raises NotRecorded
      .value()               an integer that no recorder of this history gave before. No value may
                             be written twice to a key
      .verdict()             the Verdict of what was recorded so far
      .close()               what is open then remains unknown
    Transaction
      .ok(values)            it committed, and its reads returned these, in the order of the reads
      .fail(error)           it certainly didn't happen
      .info(error)           nobody knows. Leaving `with`, by an exception too, records this if
                             nothing else was
      .mops, .name, .index   [("r", "x", None), ("w", "x", 1)]; "T21", as verdicts call it; 21
      .process, .status      its process; "open", "ok", "fail" or "info"
    Session(IN, OUT)         the pipes of a session, for threads that share them
      .ask("verdict")        writes a line, and returns the lines of the reply
      .settle()              ends the line that a client left unfinished, and returns the replies
                             that it left unread
      .events()              each event so far
    check(history, keys)     the Verdict of a file. ValueError if it isn't checked, or has no
                             operation of a client
    explain(history, keys)   what examples/explain tells of it
    assert_promised(history, level, keys)
                             raises an AssertionError with that if this run broke the level (strict
                             serializability, if none is given), or if nothing in it could have
                             shown that it did

Keys and values are integers of 64 bits and strings; what a register holds at first is None. An
`error` may be anything, and is recorded as text. For Verdict and `keys` see history.py, which has
to be in this folder or the one above it, and so have explain and levels if they are used. Needs
Python 3.9 and nothing but its standard library.
"""
import asyncio
import contextlib
import itertools
import operator
import os
import random
import re
import subprocess
import sys
import threading
import time
import weakref

HERE = os.path.dirname(os.path.realpath(__file__))
BESIDE = HERE if os.path.exists(os.path.join(HERE, "history.py")) else os.path.dirname(HERE)
sys.path.append(BESIDE)
from history import ESCAPED, check, checked, operation, read_verdict, waiting

ESCAPES = str.maketrans(ESCAPED)
WRITTEN = re.compile(r"\[:w .*? (\d+)\]")  # an integer that was written, or what looks like one
MOST_EVENTS = 1048576
LONGEST_ERROR = 1000


def atom(it):
    """A key or a value as EDN."""
    if it is None:
        return "nil"
    if isinstance(it, str):
        return f'"{it.translate(ESCAPES)}"'
    try:
        number = None if isinstance(it, bool) else operator.index(it)
    except TypeError:
        number = None
    if number is None:
        raise TypeError(f"a key or a value is an integer, a string or None, not {it!r}")
    if not -(1 << 63) <= number < 1 << 63:
        raise ValueError(f"{number} has more than 64 bits")
    return str(number)


def readable(error):
    """An error as a text that any line has room for."""
    return str(error)[:LONGEST_ERROR].encode(errors="replace").decode()


def micro_operation(mop):
    """A read or a write of an invocation, checked."""
    it = () if isinstance(mop, str) else tuple(mop)
    is_read = it[:1] == ("r",) and len(it) > 1 and it[2:] in ((), (None,))
    if not is_read and not (it[:1] == ("w",) and len(it) == 3):
        raise ValueError(f"a read is ('r', key), a write ('w', key, value), and not {mop!r}")
    f, key, value = (*it, None)[:3]
    if f == "w" and value is None:
        raise ValueError(f"None is what key {key!r} holds at first, and is never written")
    return f, key, value


class NotRecorded(Exception):
    """An operation that a session refused, with its reply: it isn't part of the history."""


class Session:
    """The client's end of the pipes of a session. Waits until `serve` opens them, IN first."""

    def __init__(self, path_in, path_out):
        with waiting(f"waiting until `jepcheck serve` opens {path_in} and {path_out}"):
            lines = os.open(path_in, os.O_WRONLY)  # never makes a file
            self.lines = open(lines, "w", encoding="utf-8", newline="\n")
            self.replies = open(path_out, encoding="utf-8", newline="\n")
        self.lock, self.is_settled = threading.Lock(), True

    def close(self):
        with contextlib.suppress(BrokenPipeError):
            self.lines.close()
        self.replies.close()

    def write(self, *lines):
        try:
            print(*lines, sep="\n", file=self.lines, flush=True)
        except BrokenPipeError as error:
            raise EOFError("jepcheck has ended") from error

    def line(self):
        reply = self.replies.readline()
        if not reply.endswith("\n"):
            raise EOFError("jepcheck has ended")
        return reply[:-1]

    def ask(self, line):
        """Writes a line, and returns the lines of the reply: one, but of `read` and `verdict`."""
        with self.lock:
            if not self.is_settled:  # an exception came between a line and its reply
                self._settle()
            self.is_settled = False
            self.write(line)
            reply = [self.line()]
            if reply[0].startswith("events "):
                reply += [self.line() for _ in range(int(reply[0].split()[1]))]
            elif reply[0].startswith("prefix "):
                while not reply[-1].startswith("strict "):
                    reply.append(self.line())
            self.is_settled = True
        return reply

    def settle(self):
        with self.lock:
            return self._settle()

    def _settle(self):
        # An unfinished line ends, and one is asked whose reply nobody has asked for before.
        mark = random.randint(1, 9999)
        self.write("", " " * mark + "0")
        replies = list(iter(self.line, f"refused 27 NotAMap byte {mark}"))
        self.is_settled = True
        return replies

    def events(self):
        last, more = 0, MOST_EVENTS
        while last < more:
            middle = (last + more + 1) // 2
            if self.ask(f"read {middle} {middle}") == ["events 0"]:
                last = middle
            else:
                more = middle - 1
        for at in range(0, last, 1024):
            yield from self.ask(f"read {at} {min(at + 1024, last)}")[1:]


class Transaction:
    """A transaction that was begun."""

    def __init__(self, recorder, mops, free, process):
        self.mops, self.process, self.status, self.index = mops, process, "open", None
        self._recorder, self._free = recorder, free

    @property
    def name(self):
        return f"T{self.index}"

    def ok(self, values=()):
        values = list(values)
        reads = [f for f, _, _ in self.mops].count("r")
        if len(values) != reads:
            raise ValueError(f"{reads} reads returned {len(values)} values: {values!r}")
        seen = iter(values)
        mops = [(f, key, next(seen) if f == "r" else value) for f, key, value in self.mops]
        self._end("ok", mops)

    def fail(self, error=None):
        self._end("fail", self.mops, error)

    def info(self, error=None):
        self._end("info", self.mops, error)

    def _end(self, kind, mops, error=None):
        if self.status != "open":
            raise ValueError(f"{self.name} has ended before, as {self.status}")
        self._recorder._write(kind, self.process, mops, error)
        self.status, self.mops = kind, mops
        if kind != "info":
            self._free.append(self.process)

    def __enter__(self):
        return self

    def __exit__(self, kind, error, _):
        if self.status == "open":
            self.info(repr(error) if error else "left without an end")


class Recorder:
    """Records a history. All threads and tasks may share one."""

    def __init__(self, target, number=0, of=1):
        self.session = self.path = self._file = None
        if isinstance(target, (str, os.PathLike)):
            self.path = target
            self._file = open(target, "w", encoding="utf-8", newline="\n")
        else:
            self.session = Session(*target)
        self._number, self._of, self._processes, self._values = number, of, None, None
        # Of each task or thread the processes that have nothing open.
        self._free = weakref.WeakKeyDictionary()
        self._numbering, self._writing = threading.Lock(), threading.Lock()
        self._events, self._start = 0, time.monotonic_ns()

    def _numbers(self):
        """The processes and the values that nobody has taken. What was left open is closed first.
        Only for who has the lock."""
        if self._processes is None:
            running, process, value = self._past() if self.session else ((), -self._of, 0)
            for it in running:
                self._write("info", it, [])
            first = -(-value // self._of) * self._of + self._number + 1
            self._values = itertools.count(first, self._of)
            self._processes = itertools.count(process + self._of + self._number, self._of)
        return self._processes, self._values

    def _past(self):
        """What a recorder with this number left behind: the processes that are open, and the
        greatest process and value."""
        running, process, value = set(), -self._of, 0
        self.session.settle()
        for line in self.session.events():
            it = operation(line, 0)
            value = max(value, *map(int, WRITTEN.findall(line)), 0)
            if it.process % self._of == self._number:
                process = max(process, it.process - self._number)
                (running.add if it.kind == "invoke" else running.discard)(it.process)
        return running, process, value

    def begin(self, mops):
        mops = list(map(micro_operation, mops))
        with self._numbering:
            free = self._free.setdefault(current_client(), [])
            process = free.pop() if free else next(self._numbers()[0])
        transaction = Transaction(self, mops, free, process)
        try:
            transaction.index = self._write("invoke", process, mops)
        except (NotRecorded, TypeError, ValueError):
            free.append(process)
            raise
        return transaction

    def value(self):
        with self._numbering:
            return next(self._numbers()[1])

    def verdict(self):
        if self.session:
            return read_verdict("\n".join(self.session.ask("verdict")))
        return check(self.path)

    def close(self):
        (self.session or self._file).close()

    def _write(self, kind, process, mops, error=None):
        """Records an operation. Returns the number of the event."""
        mops = " ".join(f"[:{f} {atom(key)} {atom(value)}]" for f, key, value in mops)
        said = f", :error {atom(readable(error))}" if error is not None else ""
        operation = f":type :{kind}, :process {process}, :f :txn, :value [{mops}]{said}}}"
        if self.session:
            [reply] = self.session.ask("{" + operation)
            if not reply.startswith("event "):
                raise NotRecorded(reply)
            return int(reply.split()[1])
        with self._writing:
            event, now = self._events, time.monotonic_ns() - self._start
            self._file.write(f"{{:index {event}, :time {now}, {operation}\n")
            self._file.flush()
            self._events += 1
        return event

    def __enter__(self):
        return self

    def __exit__(self, *_):
        self.close()


def current_client():
    """The task that runs, or the thread if none does."""
    try:
        task = asyncio.current_task()
    except RuntimeError:
        task = None
    return task or threading.current_thread()


def explain(history, keys="basic"):
    return script(["explain", history], checked(history, keys))[1]


def assert_promised(history, level="strict serializable", keys="basic"):
    __tracebackhide__ = True  # for pytest
    verdict = checked(history, keys)
    status, said = script(["levels", "--promised", level, "--keys", keys, history], verdict)
    if status != 0:
        [line] = [line for line in said.splitlines() if line.startswith(f"{level}:")]
        raise AssertionError(f"{line}\n\n{script(['explain', history], verdict)[1]}")


def script(words, verdict):
    """Runs explain or levels on a verdict. Returns its status and what it prints."""
    run = subprocess.run(
        [sys.executable, "-B", os.path.join(BESIDE, words[0]), *words[1:]],
        input=verdict,
        stdout=subprocess.PIPE,
        stderr=subprocess.PIPE,
        encoding="utf-8",
        check=False,
    )
    if run.returncode not in (0, 1, 67) or not run.stdout:
        raise ValueError(f"{words[0]} ended with status {run.returncode}: {run.stderr.strip()}")
    sys.stderr.write(run.stderr)
    return run.returncode, run.stdout
