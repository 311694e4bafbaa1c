"""What the adapters of this folder share, and what an adapter is: a module with a class Database.

    class Database:
        LEVELS = ("read-committed", "serializable")  # isolation levels, or what else differs
        def __init__(self, folder, keys, stack):     # starts one, in an empty folder
        version = "PostgreSQL 15.18"                 # what was started
        def client(self, level, number):             # the n-th client, which one thread uses

    class Transactions:                              # such a client
        def run(self, mops, pause):                  # carries out a transaction
        def close(self):

There is a register for each key, which holds nothing at first. `stack` is a contextlib.ExitStack
that ends what was started. What can't be started raises Missing.

The operations of a transaction are ("r", key, None) and ("w", key, value), in this order. `run`
calls `pause` between them, and returns what the reads saw, None for what a register holds at
first. It raises RolledBack if the transaction certainly didn't happen; any other exception leaves
that unknown. Keys are integers or words, and values are integers.

Client has a `run` for transactions that begin, read or write a key at a time, and commit.
"""
import contextlib
import glob
import os
import pathlib
import shutil
import signal
import socket
import subprocess
import sys
import time

LIMIT = 60  # seconds until a server has started, or has replied
SIGNALS = (signal.SIGINT, signal.SIGQUIT, signal.SIGTERM, signal.SIGHUP)


class Missing(Exception):
    """What is missing for a database to run, in a sentence."""


class RolledBack(Exception):
    """A transaction certainly didn't happen."""


class SqlError(Exception):
    """What a server reports: a code and a message."""


class Client:
    """A client with begin(mops), read(key), write(key, value), commit() and rollback()."""

    ERRORS = (SqlError,)  # what these raise if the database refuses something

    def is_refused(self, _):
        """Whether an error of `commit` says that nothing was committed."""
        return False

    def run(self, mops, pause=lambda: None):
        seen = []
        try:
            self.begin(mops)
            for f, key, value in mops:
                if f == "r":
                    seen.append(self.read(key))
                else:
                    self.write(key, value)
                pause()
        except self.ERRORS as error:
            self.rollback()
            raise RolledBack(error) from error
        try:
            self.commit()
        except self.ERRORS as error:
            if not self.is_refused(error):
                raise
            self.rollback()
            raise RolledBack(error) from error
        return seen


class Shell:
    """The command-line client that comes with a database, as a connection.

    It is given a statement at a time, and after each one `end`, which makes it print a line with
    the mark.
    """

    def __init__(self, words, end, mark, **how):
        how |= {"stdin": subprocess.PIPE, "stdout": subprocess.PIPE, "stderr": subprocess.STDOUT}
        self.process = subprocess.Popen(words, start_new_session=True, text=True, **how)
        self.end, self.mark = end, mark

    def ask(self, statement):
        """Returns the lines that it prints of a statement."""
        self.process.stdin.write(f"{statement};\n{self.end}\n")
        self.process.stdin.flush()
        lines = []
        while self.mark not in (line := self.process.stdout.readline()):
            if not line:
                raise ConnectionError(f"the client has ended: {lines}")
            lines.append(line.strip())
        return [line for line in lines if line]

    def close(self):
        self.process.kill()
        for pipe in (self.process.stdin, self.process.stdout):
            with contextlib.suppress(BrokenPipeError):
                pipe.close()
        self.process.wait()


def program(name, package, *folders):
    """The path of a program, which may be in folders that PATH doesn't have."""
    places = [os.environ["PATH"], "/usr/sbin"]
    for folder in folders:
        places += sorted(glob.glob(folder), reverse=True)
    path = shutil.which(name, path=os.pathsep.join(places))
    if path is None:
        raise Missing(f"{name} isn't installed (on Debian: apt-get install {package})")
    return path


def module(name, package):
    """A Python module of a Debian package. If Debian's Python has it, and this is another Python,
    that one runs the script again, and this one ends as that does."""
    try:
        return __import__(name, fromlist=["*"])
    except ImportError as error:
        debian = "/usr/bin/python3"
        if os.path.realpath(sys.executable) != os.path.realpath(debian):
            words = [debian, "-c", f"import {name}"]
            if subprocess.run(words, stderr=subprocess.DEVNULL, check=False).returncode == 0:
                sys.exit(subprocess.run([debian, *sys.argv], check=False).returncode)
        raise Missing(f"{name} isn't installed (on Debian: apt-get install {package})") from error


@contextlib.contextmanager
def undisturbed():
    """Signals that end this program wait, since what is started here would outlive it."""
    signal.pthread_sigmask(signal.SIG_BLOCK, SIGNALS)
    try:
        yield
    finally:
        signal.pthread_sigmask(signal.SIG_UNBLOCK, SIGNALS)


def make(words, **how):
    """Runs a program that makes the files of a database."""
    how |= {"stdin": subprocess.DEVNULL, "capture_output": True, "text": True, "check": False}
    with undisturbed():
        made = subprocess.run(words, **how)
    if made.returncode != 0:
        said = " ".join(made.stderr.split())
        raise Missing(f"{os.path.basename(words[0])} fails: {said[-300:]}")


def start(stack, folder, words, connect, stop=signal.SIGKILL, **how):
    """Starts a server, which writes a log in the folder. Returns the first connection to it."""
    path = pathlib.Path(folder, "log")
    how = {"cwd": folder, "stdin": subprocess.DEVNULL, "start_new_session": True, **how}
    with open(path, "ab") as log, undisturbed():
        server = stack.enter_context(subprocess.Popen(words, stdout=log, stderr=log, **how))
        stack.callback(server.send_signal, stop)
    end = time.monotonic() + LIMIT
    while server.poll() is None and time.monotonic() < end:
        with contextlib.suppress(OSError, SqlError):
            return connect()
        time.sleep(0.1)
    lines = path.read_text(encoding="utf-8", errors="replace").splitlines()
    raise Missing(f"{os.path.basename(words[0])} doesn't start: {' / '.join(lines[-3:])}")


def free_port():
    with socket.socket() as it:
        it.bind(("127.0.0.1", 0))
        return it.getsockname()[1]
