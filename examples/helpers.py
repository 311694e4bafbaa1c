#!/usr/bin/env python3
"""What checks share: the helper programs, which make calls that `jepcheck` doesn't make,
crates/seat_calls and crates/layer_calls; and runs that say nothing of a build without proofs.

    from helpers import helper, without_notices

    helper("seat_calls")     # the path of the program, or None if it isn't there and can't be built
    with without_notices():  # leaves out what the launcher says of such a build on standard error

The proved program is taken if no source file is newer. Else one is built without proofs, in a
minute or two, unless JEPCHECK_PROVED is 1. As a program, helpers.py NAME prints the path, and
helpers.py builds both, side by side.
"""
import concurrent.futures
import contextlib
import fcntl
import os
import pathlib
import subprocess
import sys
import tempfile
import time

TOP = pathlib.Path(__file__).resolve().parent.parent
NAMES = ("seat_calls", "layer_calls")


def is_current(program):
    """Whether a program is there and no source file is newer."""
    if not program.exists():
        return False
    paths = [path for part in ("src", "specs") for path in TOP.glob(f"crates/*/{part}/**/*")]
    files = [TOP / "crates.txt", *(path for path in paths if path.is_file())]
    return all(file.stat().st_mtime <= program.stat().st_mtime for file in files)


def build(name, program):
    """Builds a program without proofs, unless another run does meanwhile. False if it can't."""
    program.parent.mkdir(parents=True, exist_ok=True)
    with open(program.parent / "building", "w", encoding="utf-8") as lock:
        fcntl.flock(lock, fcntl.LOCK_EX)
        if is_current(program):
            return True
        started = time.time()
        words = [TOP / "tools" / "build-unproved", program, name]
        ran = subprocess.run(words, stderr=subprocess.PIPE, text=True, check=False)
        if ran.returncode:
            print(f"{name} can't be built: {ran.stderr.strip()}", file=sys.stderr)
            return False
        # What is edited during the build is newer than the program.
        os.utime(program, (started, started))
        return True


def helper(name):
    """The path of a helper program. None if there is none."""
    out = TOP / "crates" / name / "out"
    if is_current(out / name):
        return out / name
    if os.environ.get("JEPCHECK_PROVED") == "1":
        return None
    program = out / "unproved" / name
    return program if is_current(program) or build(name, program) else None


@contextlib.contextmanager
def without_notices():
    with tempfile.TemporaryFile("w+", encoding="utf-8") as said:
        sys.stderr.flush()
        stderr = os.dup(2)
        os.dup2(said.fileno(), 2)
        try:
            yield
        finally:
            sys.stderr.flush()
            os.dup2(stderr, 2)
            said.seek(0)
            sys.stderr.writelines(line for line in said if "this build isn't proved" not in line)


if __name__ == "__main__":
    if sys.argv[1:]:
        found = helper(sys.argv[1])
        sys.exit(print(found) if found else 1)
    with concurrent.futures.ThreadPoolExecutor() as pool:
        sys.exit(0 if all(pool.map(helper, NAMES)) else 1)
