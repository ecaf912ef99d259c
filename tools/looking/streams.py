"""Listeners, connections and children of a run that is followed. docs/STREAMS.md tells the rules, and `crates/model_stream`
defines them.
"""

from .loop import Future
from .values import Exc, Raised

MOST_OFFERED, LIMIT, MOST_HIGH, MOST_ACCEPTS = 65536, 65536, 2147483647, 100


def failure(kind, text):
    return Raised(Exc(kind, text))


class Sender:
    """The writing side: of a connection, or of a child, whose standard input it is."""

    def __init__(self, run, name, is_child):
        self.run, self.name, self.is_child = run, name, is_child
        self.unsent, self.high, self.low = b"", 65536, 16384
        self.paused = self.eof = self.ended = False
        self.drains, self.phase, self.closed = [], "open", Future()
        self.sends, self.closes = ("feed", "end") if is_child else ("send", "close")

    @property
    def closing(self):
        return self.phase != "open"

    def error(self):
        return Exc("BrokenPipeError" if self.is_child else "ConnectionResetError", "Connection lost")

    def pause_over(self):
        self.paused = self.paused or len(self.unsent) > self.high

    def took(self, count):
        self.unsent = self.unsent[count:]
        self.pause_over()
        if len(self.unsent) <= (0 if self.is_child else self.low):
            self.paused = False

    def write(self, piece):
        if self.is_child and self.closing:
            return
        if self.eof:
            raise failure("RuntimeError", "Cannot call write() after write_eof()")
        if not piece or self.ended:
            return
        if self.unsent:
            self.unsent += piece
            self.pause_over()
            return
        self.unsent = piece
        answer = self.offer()
        if answer[0] == "broken":
            self.fail()
        else:
            self.took(answer[1] if answer[0] == "took" else 0)

    def offer(self):
        return self.run.ask(self.sends, self.name, self.unsent[:MOST_OFFERED])

    def send_more(self):
        answer = self.offer()
        if answer[0] == "broken":
            self.fail()
        elif answer[0] == "took":
            was = self.paused
            self.took(answer[1])
            if was and not self.paused:
                self.wake_drains("value", None)

    def wake_drains(self, *outcome):
        drains, self.drains = self.drains, []
        for future in drains:
            self.run.loop.settle(future, *outcome)

    def flushed(self):
        return not self.unsent and not self.ended

    def end(self, phase):
        self.unsent, self.ended, self.phase = b"", True, phase

    def schedule_loss(self, broken):
        self.run.loop.soon("lost", self.name, broken)
        self.end("losing")

    def fail(self):
        if not self.ended:
            self.schedule_loss(True)

    def close(self):
        if not self.closing:
            if self.unsent:
                self.phase = "closing"
            else:
                self.schedule_loss(False)

    def lose(self, broken):
        outcome = ("failed", self.error()) if broken else ("value", None)
        self.run.loop.settle(self.closed, *outcome)
        if self.paused:
            self.wake_drains(*outcome)
        self.run.ask(self.closes, self.name)
        self.end("lost")
        self.drains = []

    def limits(self, high, low):
        if high is None:
            high = 65536 if low is None else 4 * low
        if low is None:
            low = 16384 if high == 65536 else high // 4
        if not high >= low >= 0 or high > MOST_HIGH:
            raise failure("ValueError", "limits")
        self.high, self.low = high, low
        self.pause_over()


class Receiver:
    """The reading side, with the future that a read waits on."""

    def __init__(self, run):
        self.run, self.held, self.eof, self.failed, self.paused, self.waiter = run, b"", False, None, False, None

    def takes_more(self):
        return not self.eof and not self.paused

    def wake(self):
        waiter, self.waiter = self.waiter, None
        if waiter:
            self.run.loop.settle(waiter, "value", None)

    def receive(self, piece):
        self.held += piece
        self.paused = self.paused or len(self.held) > 2 * LIMIT
        self.wake()

    def receive_end(self):
        self.eof = True
        self.wake()

    def receive_loss(self, exception):
        if exception is None:
            self.receive_end()
        else:
            self.failed = exception
            self.wake()

    def gives(self, count):
        piece, self.held = self.held[:count], self.held[count:]
        self.may_resume()
        return piece

    def may_resume(self):
        if len(self.held) <= LIMIT:
            self.paused = False

    def wait(self):
        """The future on which a read that needs more waits."""
        if self.waiter:
            raise failure("RuntimeError", "read called while another coroutine is already waiting for incoming data")
        self.paused, self.waiter = False, Future()
        return self.waiter

    def unless_failed(self):
        if self.failed:
            raise Raised(self.failed)

    def incomplete(self, wanted):
        held, self.held = self.held, b""
        text = f"{len(held)} bytes read on a total of {wanted} expected bytes"
        return Raised(Exc("IncompleteReadError", text, held))

    # ---- each answers bytes, or None where it needs more
    def up_to(self, count):
        self.unless_failed()
        return self.gives(count) if not count or self.held or self.eof else None

    def exactly(self, count):
        if count < 0:
            raise failure("ValueError", "readexactly size can not be less than zero")
        self.unless_failed()
        if count <= len(self.held):
            return self.gives(count)
        if self.eof:
            raise self.incomplete(count)
        return None

    def until(self, separator):
        if not separator:
            raise failure("ValueError", "Separator should be at least one-byte string")
        self.unless_failed()
        at = self.held.find(separator)
        if at > LIMIT:
            raise failure("LimitOverrunError", "Separator is found, but chunk is longer than limit")
        if at >= 0:
            return self.gives(at + len(separator))
        if len(self.held) + 1 - len(separator) > LIMIT:
            raise failure("LimitOverrunError", "Separator is not found, and chunk exceed the limit")
        if self.eof:
            raise self.incomplete("undefined")
        return None

    def line(self):
        self.unless_failed()
        at = self.held.find(b"\n")
        if at > LIMIT:
            self.held = self.held[at + 1:]
            self.may_resume()
            raise failure("ValueError", "Separator is found, but chunk is longer than limit")
        if at >= 0:
            return self.gives(at + 1)
        if len(self.held) > LIMIT:
            self.held, self.paused = b"", False
            raise failure("ValueError", "Separator is not found, and chunk exceed the limit")
        return self.gives(len(self.held)) if self.eof else None


class Server:
    def __init__(self, handler):
        self.handler, self.open = handler, True


class Connection:
    def __init__(self, run, name, making=None, handler=None):
        self.run, self.name, self.making, self.handler, self.began = run, name, making, handler, False
        self.sender, self.receiver = Sender(run, name, False), Receiver(run)

    def reads(self):
        return self.began and not self.sender.closing and self.receiver.takes_more()

    def readable(self):
        if self.reads():
            answer = self.run.ask("recv", self.name, 262144)
            if answer[0] == "data":
                self.receiver.receive(answer[1])
            elif answer[0] == "eof":
                self.receiver.receive_end()
            elif answer[0] == "broken":
                self.sender.fail()

    def writable(self):
        sender = self.sender
        if sender.unsent:
            sender.send_more()
            if sender.flushed() and sender.closing:
                self.lost(False)
            elif sender.flushed() and sender.eof:
                self.run.ask("shut", self.name)

    def lost(self, broken):
        self.receiver.receive_loss(self.sender.error() if broken else None)
        self.sender.lose(broken)

    def up(self):
        if self.making:
            making, self.making = self.making, None
            self.run.loop.soon("made", self.name)
            self.run.loop.soon("startread", self.name)
            self.run.loop.settle(making, "value", self.name)

    def unmade(self):
        self.making = None
        self.run.ask("close", self.name)
        self.sender.end("lost")

    def down(self):
        if self.making:
            self.run.loop.settle(self.making, "failed", Exc("ConnectionRefusedError", "connect refused"))
            self.unmade()

    def drop_connect(self):
        if self.making:
            self.unmade()
        else:
            self.sender.close()

    def write_eof(self):
        if not self.sender.closing and not self.sender.eof:
            self.sender.eof = True
            if not self.sender.unsent:
                self.run.ask("shut", self.name)


class Child:
    def __init__(self, run, name):
        self.run, self.name, self.code, self.waits = run, name, None, []
        self.sender, self.out, self.errs = Sender(run, name, True), Receiver(run), Receiver(run)

    def writable(self):
        if self.sender.unsent:
            self.sender.send_more()
            if self.sender.flushed() and self.sender.closing:
                self.lost(False)

    def lost(self, broken):
        self.sender.lose(broken)

    def told(self, kind, content):
        if kind == "broken":
            if not self.sender.ended:
                self.sender.schedule_loss(bool(self.sender.unsent))
        elif kind == "exit":
            if self.code is None:
                self.code = content
                for future in self.waits:
                    self.run.loop.settle(future, "value", content)
                self.waits = []
        else:
            pipe = self.out if kind.startswith("out") else self.errs
            if pipe.takes_more():
                pipe.receive_end() if kind.endswith("end") else pipe.receive(content)
