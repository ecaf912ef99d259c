"""The program that a tool asks, and how a tool ends where its input is wrong."""

import os
import subprocess
import sys
import tempfile

TOP = os.path.dirname(os.path.dirname(os.path.dirname(os.path.abspath(__file__))))
BUILT = os.path.join(TOP, "crates", "aio", "out", "aio")
NAMED = "AIO_PROGRAM"


def refuse(words):
    """Says in one line what is wrong, and ends with status 2."""
    tool = os.path.basename(sys.argv[0])
    print(f"{tool}: {' '.join(str(words).split())}", file=sys.stderr)
    sys.exit(2)


def bytes_of(name):
    """What is in a file, as bytes."""
    try:
        with open(name, "rb") as file:
            return file.read()
    except OSError as fault:
        refuse(f"{name}: {fault.strerror.lower()}")


def program(named=None):
    """The name of the program: that of an option, of the environment, or what ./aio built."""
    chosen = named or os.environ.get(NAMED) or BUILT
    if os.path.isfile(chosen) and os.access(chosen, os.X_OK):
        return chosen
    if chosen is BUILT:
        refuse(f"there is no program yet: ./aio builds it, or {NAMED} names one")
    refuse(f"{chosen}: no program that can be run")


def ran(words, seconds=None):
    """The standard output, as bytes, and the status of the program called with these words."""
    try:
        run = subprocess.run(words, stdin=subprocess.DEVNULL, stdout=subprocess.PIPE, stderr=subprocess.DEVNULL, timeout=seconds)
    except OSError as fault:
        refuse(f"{words[0]}: {fault.strerror.lower()}")
    return run.stdout, run.returncode


def replayed(named, script, answers, trace=False, seconds=None):
    """What a replay of a script over a journal's bytes writes, as bytes, and its status."""
    with tempfile.NamedTemporaryFile(suffix=".journal") as journal:
        journal.write(answers)
        journal.flush()
        return ran([named, "replay", script, journal.name, *(["--trace"] if trace else [])], seconds)
