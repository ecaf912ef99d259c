"""A loop of asyncio whose clock is stepped, as a replay's time is.

Where nothing is ready the clock goes on to the next deadline at once, and the system is never asked. A time is a number of
virtual seconds, where the script has as many milliseconds. All else is asyncio's own.
"""

import asyncio
import selectors
import sys


class Stepped(selectors.DefaultSelector):
    """No time passes in it, and nothing comes."""

    now = 0

    def select(self, timeout=None):
        if timeout is None:
            raise RuntimeError("stalled")
        self.now += max(timeout, 0)
        return []


class Loop(asyncio.SelectorEventLoop):
    def __init__(self, stepped):
        self.stepped = stepped
        super().__init__(stepped)

    def time(self):
        return self.stepped.now


def run(bench, loop=lambda: Loop(Stepped())):
    """Runs a coroutine function with the size that the first word gives, as asyncio.run does."""
    with asyncio.Runner(loop_factory=loop) as runner:
        runner.run(bench(int(sys.argv[1])))
