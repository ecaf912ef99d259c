"""An outside for asyncio that isn't there: sockets and programs, whose news stand in a row.

What is asyncio's own: the loop, its transports for sockets and pipes, servers, streams, processes and tasks. What isn't: the
selector, and what lies behind a descriptor. There `accept`, `recv` and `read` give at once what came, `send` and `write`
take all, and a program has nothing but its pipes and its exit. No call of the system is made, as a replay makes none.

When something comes is the same as in the journals of ../journals.py: nothing while something is to run, and where the loop
would wait the next of the news, or, once there are none, the next deadline. What comes is the same to the byte. Not the same
is how many turns lie between two news: asyncio takes more than the script's loop to set up a connection or a program.
"""

import asyncio
import collections
import itertools
import os
import selectors
import socket
import stat
import types
import weakref
from asyncio import unix_events

import virtual

# above all that the system gives
NUMBERS = itertools.count(1_000_000)


class End:
    """What lies behind a descriptor: the pieces that came, of which an empty one is the end."""

    def __init__(self):
        self.number = next(NUMBERS)
        self.pieces = collections.deque()

    def fileno(self):
        return self.number

    def take(self):
        if not self.pieces:
            raise BlockingIOError
        return self.pieces.popleft()

    def close(self):
        pass


class Socket(End):
    """A socket; of one that listens the pieces are connections."""

    family, type, proto = socket.AF_INET, socket.SOCK_STREAM, socket.IPPROTO_TCP
    address = ("127.0.0.1", 9)

    def accept(self):
        return self.take(), self.address

    def recv(self, _):
        return self.take()

    def send(self, piece):
        return len(piece)

    def connect(self, _):
        raise BlockingIOError

    def getsockname(self):
        return self.address

    def getpeername(self):
        return self.address

    def getsockopt(self, *_):
        return 0

    def listen(self, _):
        pass

    def setblocking(self, _):
        pass

    def setsockopt(self, *_):
        pass

    def shutdown(self, _):
        pass


class Program:
    """What stands for a Popen."""

    all = weakref.WeakValueDictionary()
    pipes = weakref.WeakValueDictionary()
    returncode = None

    def __init__(self):
        self.pid = next(NUMBERS)
        self.stdin, self.stdout, self.stderr, self.exit = End(), End(), End(), End()
        Program.all[self.pid] = self
        for pipe in (self.stdin, self.stdout, self.stderr):
            Program.pipes[pipe.number] = pipe


class Transport(unix_events._UnixSubprocessTransport):
    """Asyncio's own, but for the start of the program."""

    started = []

    def _start(self, **_):
        self._proc = Program()
        Transport.started.append(self._proc)


class Watcher(asyncio.AbstractChildWatcher):
    """Learns of an exit by the selector, as PidfdChildWatcher does."""

    def add_child_handler(self, pid, callback, *args):
        program = Program.all[pid]
        asyncio.get_running_loop()._add_reader(program.exit.number, self.ended, program, callback, args)

    def ended(self, program, callback, args):
        asyncio.get_running_loop()._remove_reader(program.exit.number)
        callback(program.pid, program.exit.take(), *args)

    def is_active(self):
        return True

    def attach_loop(self, _):
        pass

    def close(self):
        pass

    def __enter__(self):
        return self

    def __exit__(self, *_):
        pass


class System:
    """What asyncio's pipes ask of `os`."""

    def __init__(self):
        mode = types.SimpleNamespace(st_mode=stat.S_IFIFO)
        self.fstat = lambda _: mode
        self.set_blocking = lambda *_: None
        self.read = lambda number, _: Program.pipes[number].take()
        self.write = lambda _, piece: len(piece)

    def __getattr__(self, name):
        return getattr(os, name)


unix_events._UnixSubprocessTransport = Transport
unix_events.os = System()
asyncio.set_child_watcher(Watcher())


class Selector(selectors._BaseSelectorImpl):
    """Gives the news, each of which is a row of what is ready."""

    def __init__(self, news):
        super().__init__()
        self.news = news
        self.now = 0

    def select(self, timeout=None):
        if timeout is not None and timeout <= 0:
            return []
        ready = next(self.news, None)
        if ready is None:
            if timeout is None:
                raise RuntimeError("stalled")
            self.now += timeout
            return []
        return self.found(ready)

    def found(self, ready):
        keys = (self._fd_to_key[end.number] for end in ready)
        return [(key, key.events) for key in keys]


class Loop(virtual.Loop):
    def _write_to_self(self):
        """Nobody waits in the selector."""


def run(bench, selector):
    virtual.run(bench, lambda: Loop(selector))
