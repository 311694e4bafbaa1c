"""What the reproducers share: transactions whose steps are printed and recorded, and their end."""
import argparse
import contextlib
import os
import pathlib
import signal
import sys
import tempfile
import threading

HERE = pathlib.Path(__file__).resolve().parent
sys.path += [str(HERE.parent / "databases"), str(HERE.parent / "python")]
from database import SIGNALS, Missing
from recorder import Recorder, explain

from history import check, checked


class Transaction:
    """A transaction of a client, which is over once the database refuses something."""

    def __init__(self, recorder, name, client, mops):
        self.name, self.client, self.recorded = name, client, recorder.begin(mops)
        self.mops, self.seen, self.thread = self.recorded.mops, [], None
        self.step(f"begins ({self.recorded.name} below)", lambda: client.begin(self.mops))

    def step(self, what, action, told=lambda _: ""):
        """Carries out a step, and prints it."""
        if self.recorded.status != "open":
            return None
        try:
            result = action()
        except self.client.ERRORS as error:
            self.tell(f"{what}: refused, {error.args[-1]}")
            self.client.rollback()
            self.recorded.fail()
            return None
        self.tell(f"{what}{told(result)}")
        return result

    def tell(self, text):
        sys.stdout.write(f"  {self.name} {text}\n")  # in one piece, whatever other threads print
        sys.stdout.flush()

    def read(self, key):
        value = self.step(f"reads {key}", lambda: self.client.read(key), seen)
        self.seen.append(value)

    def write(self, key):
        [value] = [value for f, of, value in self.mops if (f, of) == ("w", key)]
        self.step(f"writes {key} = {value}", lambda: self.client.write(key, value))

    def commit(self):
        self.step("commits: COMMIT returns", self.client.commit)
        if self.recorded.status == "open":
            self.recorded.ok(self.seen)

    def start(self, action, *words):
        """Begins a step that takes its time. `wait` waits until it is over."""
        self.thread = threading.Thread(target=action, args=words)
        self.thread.start()

    def wait(self):
        self.thread.join()


def seen(value):
    return ": nothing" if value is None else f": {value}"


class Words(argparse.ArgumentParser):
    def format_help(self):
        return self.description

    def error(self, message):
        leave(2, f"{message}; try --help")


def reproduce(text, play, **choices):
    """Runs a reproducer, a function of a folder, a stack, a recorder and the command line, and ends
    the program. The choices are those of further options, the first of which is the default."""
    words = Words(description=text, allow_abbrev=False)
    words.add_argument("--control", action="store_true")
    words.add_argument("--history", default="history.edn")
    for name, values in choices.items():
        words.add_argument(f"--{name}", choices=values, default=values[0])
    asked = words.parse_args()
    for number in SIGNALS:
        signal.signal(number, lambda number, _: sys.exit(128 + number))
    try:
        with contextlib.ExitStack() as stack:
            folder = stack.enter_context(tempfile.TemporaryDirectory(prefix="jepcheck-"))
            recorder = stack.enter_context(Recorder(asked.history))
            play(folder, stack, recorder, asked)
        print("", checked(asked.history), explain(asked.history), sep="\n", end="")
        refuted = check(asked.history).refuted
    except Missing as error:
        leave(69, error)
    except Exception as error:  # whatever it is, since status 1 means that nothing was found
        leave(3, f"it failed: {error!r}")
    sys.exit(0 if refuted else 1)


def leave(status, message):
    print(f"{os.path.basename(sys.argv[0])}: {message}", file=sys.stderr)
    sys.exit(status)
