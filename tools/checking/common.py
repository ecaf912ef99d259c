"""What the checks share: a tool called as a user calls it, and a list of what was wrong."""

import os
import subprocess
import sys
import tempfile

TOOLS = os.path.dirname(os.path.dirname(os.path.abspath(__file__)))
TOP = os.path.dirname(TOOLS)
EXAMPLES = os.path.join(TOP, "examples")


class Checks:
    """The program that the tools ask, a folder for files, and what was wrong so far."""

    def __init__(self, program):
        self.program, self.wrong, self.done = program, [], 0
        self.kept = tempfile.TemporaryDirectory(prefix="tools-")
        self.folder = self.kept.name

    def that(self, holds, words):
        self.done += 1
        if not holds:
            self.wrong.append(words)

    def same(self, got, wanted, words):
        self.that(got == wanted, f"{words}: {got!r}, and not {wanted!r}")

    def file(self, name, text):
        path = os.path.join(self.folder, name)
        with open(path, "w" if isinstance(text, str) else "wb") as file:
            file.write(text)
        return path

    def tool(self, name, *words, seconds=60, program=None):
        """The standard output, the standard error and the status of a tool."""
        known = {**os.environ, "AIO_PROGRAM": program or self.program}
        run = subprocess.run([sys.executable, os.path.join(TOOLS, name), *words], stdin=subprocess.DEVNULL, env=known,
                             stdout=subprocess.PIPE, stderr=subprocess.PIPE, timeout=seconds)
        return run.stdout.decode("utf-8", "replace"), run.stderr.decode("utf-8", "replace"), run.returncode

    def refused(self, name, words, says, program=None):
        """A tool says in one line what is wrong, prints nothing, and ends with status 2."""
        out, told, status = self.tool(name, *words, program=program)
        line = told.rstrip("\n")
        right = status == 2 and not out and line.startswith(f"{name}: ") and "\n" not in line and says in line
        self.that(right, f"{name} {' '.join(words)} must be refused with `{says}`: status {status}, {told!r}, {out[:80]!r}")


def examples():
    """The names of the examples that have a journal."""
    return sorted(name[:-8] for name in os.listdir(EXAMPLES) if name.endswith(".journal"))


def example(name, ending):
    return os.path.join(EXAMPLES, name + ending)
