"""Follows a run of a script: does what the program did over the same answers, and tells what the trace leaves out.

A trace doesn't say which line of the script asked, what a task waits for, or whom a cancel reached. So the coroutines run once
more here, over the answers that the trace has. Each line that comes of it is compared with the trace's: where one differs, what
was told so far stands, and nothing is told of what follows. docs/MACHINE.md has the rules.
"""

import sys

from . import values as V
from .extras import Extras
from .loop import Loop, exception, input_of
from .requests import Waits, request
from .streams import MOST_ACCEPTS, Connection
from .trace import answer_of
from .values import Id, Raised, shown

MOST_STATEMENTS, MOST_FRAMES = 100000, 64


class Ends(Exception):
    """The run ends here, with this last line, or where the trace no longer agrees."""


class Runaway(BaseException):
    """A step began too many statements."""


def call_words(call):
    """A call as the trace writes it."""
    def word(part):
        if isinstance(part, tuple) and not isinstance(part, Id):
            return "[" + ", ".join(V.inside(one) for one in part) + "]"
        return shown(part) if isinstance(part, (bytes, Id)) else str(part)
    return " ".join(map(word, call))


class Run:
    """One run. `lines` are what it wrote so far; `expected`, if it is given, what the trace has."""

    def __init__(self, script, answers, notes, expected=None, turns=None):
        self.script, self.answers, self.notes, self.expected, self.turns = script, iter(answers), notes, expected, turns
        self.loop, self.alive = Loop(script.profile, notes), True
        self.coroutines = script.coroutines(V)
        self.lines, self.task, self.statements, self.main_done = [], None, 0, False
        self.servers, self.connections, self.children, self.opened, self.futures = [], [], [], [], []
        self.extras = Extras(self)
        notes.run = self
        sys.setrecursionlimit(20000)

    # ---- what coroutines call
    def tick(self, line):
        self.task.line = line
        self.statements += 1
        if self.statements > MOST_STATEMENTS:
            self.alive = False
            raise Runaway

    def call(self, coroutine, line, name, arguments):
        frames = self.task.frames
        if len(frames) >= MOST_FRAMES:
            raise V.fault("RecursionError", "too many frames")
        frames.append((name, line))
        try:
            return (yield from coroutine(self, *arguments))
        finally:
            frames.pop()

    # ---- the lines
    def write(self, line):
        if self.expected is not None:
            at = len(self.lines)
            if at >= len(self.expected) or self.expected[at] != line:
                raise Ends("")
        self.lines.append(line)
        self.notes.wrote(line)

    def ask(self, *call):
        words = call_words(call)
        self.write(f"> {words}")
        answer = next(self.answers, None)
        if answer is None:
            raise Ends(f"! over {words}")
        self.write(f"< {answer}")
        return answer_of(answer)

    # ---- a run, a turn
    def follow(self):
        """The last line, or "" where the trace no longer agreed."""
        try:
            main = self.loop.spawn("main", self.coroutines["main"](self))
            self.notes.spawned(main, None)
            self.loop.register(main.future, "maindone")
            while not self.turn():
                pass
            return self.end_of(main.future.outcome)
        except Ends as end:
            return str(end)
        except Runaway:
            return f"= runaway T{self.task.number}"
        finally:
            self.alive = False

    def end_of(self, outcome):
        if outcome[0] == "value":
            return f"= returned {shown(outcome[1])}"
        return f"= raised {shown(outcome[1])}" if outcome[0] == "failed" else "= cancelled"

    def turn(self):
        loop, watched = self.loop, self.watched()
        if not loop.pending and loop.earliest() is None and not watched:
            raise Ends("= stalled")
        if self.turns == 0:
            raise Ends("= turns")
        self.turns = None if self.turns is None else self.turns - 1
        wait = loop.wait()
        answer = self.ask("select", "none" if wait is None else wait, *watched)
        if answer[0] != "turn":
            raise Ends("")
        loop.time, loop.running = max(loop.time, answer[1]), -1
        for item in answer[2]:
            self.news(*item)
        loop.due()
        done_before = self.main_done
        for handle in [loop.pending.popleft() for _ in range(len(loop.pending))]:
            if not handle.dead:
                self.run_handle(handle)
        if self.main_done and not done_before:
            loop.running = len(self.lines)
            for task in list(loop.tasks):
                loop.cancel(task.future, ("end",))
        return self.main_done and not loop.live

    def watched(self):
        words = []
        for one in self.opened:
            letters = self.letters(one)
            if letters:
                words += [one, letters]
        return words + ["X"] * self.extras.watches()

    def letters(self, one):
        if one.letter == "L":
            return "r" if self.servers[one.number].open else ""
        if one.letter == "C":
            c = self.connections[one.number]
            return "c" if c.making else "r" * c.reads() + "w" * bool(c.sender.unsent)
        p = self.children[one.number]
        letters = (("w", p.sender.unsent), ("b", p.sender.phase != "lost"), ("o", p.out.takes_more()),
                   ("e", p.errs.takes_more()), ("x", p.code is None))
        return "".join(letter for letter, holds in letters if holds)

    def news(self, name, what, held=None):
        if name == "X":
            self.loop.soon("extraitem", what, held)
            return
        one = Id(name[0], int(name[1:]))
        if one.letter == "P":
            self.loop.soon(*(("writable", one) if what == "w" else ("childitem", one, what, held)))
        elif what in ("up", "down"):
            self.loop.soon(what, one)
        else:
            for letter in what:
                self.loop.soon("readable" if letter == "r" else "writable", one)

    # ---- handles
    def run_handle(self, handle):
        name, *what = handle.action
        word = {"cycle": "step", "extraitem": "extra"}.get(name, name)
        parts = [f"{part.letter}{part.number}" if isinstance(part, Id) else name_of(part) for part in self.shown_parts(name, what)]
        self.loop.running = len(self.lines)
        self.write(" ".join([".", word, *parts]))
        self.notes.ran(handle, name, what)
        getattr(self, "do_" + name)(*what)

    def shown_parts(self, name, what):
        if name == "childitem":
            return what[:2]
        if name == "groupdone":
            return what
        return what[:1]

    def do_step(self, task):
        self.step(task, None, None)

    def do_cycle(self, task, text):
        self.step(task, None, exception("RuntimeError", text))

    def do_wakeup(self, task):
        try:
            self.step(task, input_of(task.waiter.outcome), None)
        except Raised as raised:
            self.step(task, None, raised.exception)

    def do_sleepdone(self, task, future):
        self.loop.settle(future, "value", None)

    def do_extra(self, key):
        self.extras.act(key)

    def do_extraitem(self, code, told):
        self.extras.news(code, told)

    def do_groupdone(self, group, task):
        self.loop.child_done(group, task)

    def do_timeout(self, timeout):
        self.loop.fire(timeout)

    def do_maindone(self):
        self.main_done = True

    def do_made(self, name):
        c = self.connections[name.number]
        if c.handler is not None:
            task = self.spawn(c.handler, (name,), None, name)
            self.loop.register(task.future, "handlerdone", name, task)

    def do_startread(self, name):
        c = self.connections[name.number]
        c.began = c.began or not c.sender.closing

    def do_handlerdone(self, name, task):
        if task.future.outcome[0] != "value":
            self.connections[name.number].sender.close()

    def do_lost(self, name, broken):
        self.of(name).lost(broken)

    def do_readable(self, name):
        if name.letter == "C":
            self.connections[name.number].readable()
        elif self.servers[name.number].open:
            self.accept(name)

    def accept(self, name):
        for _ in range(MOST_ACCEPTS):
            if self.ask("accept", name)[0] != "conn":
                return
            made = self.opens(Connection(self, Id("C", len(self.connections)), handler=self.servers[name.number].handler))
            self.loop.soon("made", made)
            self.loop.soon("startread", made)

    def do_writable(self, name):
        self.of(name).writable()

    def do_up(self, name):
        self.of(name).up()

    def do_down(self, name):
        self.of(name).down()

    def do_childitem(self, name, kind, held):
        self.of(name).told(kind, held)

    # ---- what is opened, by name
    def of(self, name):
        return {"L": self.servers, "C": self.connections, "P": self.children}[name.letter][name.number]

    def opens(self, connection):
        self.connections.append(connection)
        self.opened.append(connection.name)
        return connection.name

    def spawn(self, coroutine, arguments, group, by):
        """A new task; `by` is the task that asked, or the connection that the task handles."""
        generator = self.coroutines[coroutine](self, *arguments)
        task = self.loop.create(group, coroutine, generator) if group else self.loop.spawn(coroutine, generator)
        self.notes.spawned(task, by)
        return task

    # ---- a step
    def step(self, task, value, thrown):
        loop, self.task, self.statements = self.loop, task, 0
        task.waiter = None
        if task.must_cancel:
            task.must_cancel = False
            if thrown is None or thrown.kind != "CancelledError":
                value, thrown = None, exception("CancelledError")
        standing, task.standing = task.standing, None
        try:
            try:
                if standing:
                    value, thrown = standing(value, thrown), None
                while True:
                    value, thrown = self.say(task, value, thrown), None
            except Raised as raised:
                # what a standing raises is thrown into the coroutine; what comes out of that ends the task
                value, thrown = None, raised.exception
                while True:
                    value, thrown = self.say(task, value, thrown), None
        except Waits as waits:
            self.notes.waits(task, waits)
            if waits.standing:
                task.standing = waits.standing
            if waits.future is None:
                loop.soon("step", task)
            else:
                loop.suspend(task, waits.future)
        except StopIteration as stop:
            loop.finish(task, ("value", stop.value))
        except Raised as raised:
            loop.finish(task, ("failed", raised.exception))

    def say(self, task, value, thrown):
        """Goes on with the coroutine up to its next request, which is answered: a value, or Raised goes back into it."""
        while True:
            if thrown is None:
                line, name, arguments = task.generator.send(value)
            else:
                line, name, arguments = task.generator.throw(Raised(thrown))
            task.line = line
            try:
                return request(self, task, line, name, arguments)
            except Raised as raised:
                value, thrown = None, raised.exception


def name_of(part):
    """T0, G0, O0, or a word as it stands."""
    return {"Task": "T", "Group": "G", "Timeout": "O"}[type(part).__name__] + str(part.number) if hasattr(part, "number") else str(part)
