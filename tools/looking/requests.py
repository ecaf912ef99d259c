"""The requests of a script, as a run that is followed answers them. docs/LANGUAGE.md, "Requests", has the table."""

from .loop import CANCELLED, Future, Waits, input_of, passed
from .streams import Child, Connection, Server, failure
from .values import Exc, Id, Raised, shown


class Unknown(Exception):
    """A request that can't be followed."""


def bad_argument():
    return Raised(Exc("TypeError", "bad argument"))


def of_kind(value, letters):
    if not isinstance(value, Id) or value.letter not in letters:
        raise bad_argument()
    return value


def number(value):
    if type(value) is not int:
        raise bad_argument()
    return value


def maybe_number(value):
    return value if value is None else number(value)


def raw(value):
    if type(value) is not bytes:
        raise bad_argument()
    return value


def request(run, task, line, name, arguments):
    """What a request answers; it may raise Raised or Waits."""
    form = globals().get("ask_" + name)
    if form is None:
        raise Unknown(name)
    run.notes.asked(task, line, name, arguments)
    return form(run, task, *arguments)


def future_of(run, value):
    of_kind(value, "TF")
    return run.loop.tasks[value.number].future if value.letter == "T" else run.futures[value.number]


def waits_for(run, future, why, standing=None):
    """The outcome of what is done, at once; else the step ends."""
    if future.outcome is not None:
        return input_of(future.outcome)
    raise Waits(future, why, standing)


def ask_pause(run, task):
    raise Waits(None, "yields")


def ask_await(run, task, x):
    return waits_for(run, future_of(run, x), f"awaits {shown(x)}")


def ask_print(run, task, *values):
    run.write(f"T{task.number} {' '.join(map(shown, values))}")


# ---- futures
def ask_future(run, task):
    run.futures.append(Future())
    return Id("F", len(run.futures) - 1)


def settled(run, f, *outcome):
    future = future_of(run, of_kind(f, "F"))
    if future.outcome is not None:
        raise failure("InvalidStateError", "invalid state")
    run.loop.settle(future, *outcome)


def ask_set(run, task, f, value):
    settled(run, f, "value", value)


def ask_fail(run, task, f, error):
    of_kind(f, "F")
    if not isinstance(error, Exc) or error.kind == "CancelledError":
        raise bad_argument()
    settled(run, f, "failed", error)


def ask_done(run, task, x):
    return future_of(run, x).outcome is not None


def ask_cancelled(run, task, x):
    return future_of(run, x).outcome == CANCELLED


def ask_result(run, task, x):
    future = future_of(run, x)
    if future.outcome is None:
        raise failure("InvalidStateError", "Result is not set.")
    return input_of(future.outcome)


def ask_cancel(run, task, x):
    return run.loop.cancel(future_of(run, x), ("task", task))


# ---- tasks and time
def task_of(run, value):
    return run.loop.tasks[of_kind(value, "T").number]


def ask_cancelling(run, task, t):
    return task_of(run, t).count


def ask_uncancel(run, task, t):
    return run.loop.uncancel(task_of(run, t))


def ask_current(run, task):
    return Id("T", task.number)


def ask_time(run, task):
    return run.loop.time


def ask_spawn(run, task, coroutine, *arguments):
    return Id("T", run.spawn(coroutine, arguments, None, task).number)


def ask_sleep(run, task, delay):
    if number(delay) <= 0:
        raise Waits(None, f"sleep({delay})")
    future = Future()
    when = run.loop.deadline(delay)
    handle = run.loop.later(when, "sleepdone", task, future)

    def woken(value, thrown):
        handle.dead = True
        return passed(value, thrown)
    raise Waits(future, f"sleeps until {when} ms", woken)


# ---- timeouts and groups
def ask_enter_timeout(run, task, delay):
    timeout = run.loop.enter_timeout(task, maybe_number(delay))
    run.notes.entered_timeout(timeout, delay)
    return Id("O", timeout.number)


def ask_exit_timeout(run, task, o, raised):
    timeout = run.loop.timeouts[o.number]
    timed_out = run.loop.exit_timeout(timeout, raised)
    run.notes.left_timeout(timeout)
    if timed_out:
        raise failure("TimeoutError", "")


def ask_reschedule(run, task, o, when):
    timeout = run.loop.timeouts[of_kind(o, "O").number]
    maybe_number(when)
    if timeout.state != "active":
        raise failure("RuntimeError", f"Cannot change state of {timeout.state} Timeout")
    run.loop.schedule(timeout, None if when is None else max(when, 0))


def ask_expired(run, task, o):
    return run.loop.timeouts[of_kind(o, "O").number].state in ("expiring", "expired")


def ask_enter_group(run, task):
    group = run.loop.enter_group(task)
    run.notes.entered_group(group)
    return Id("G", group.number)


def left_group(run, group, came):
    if came[0] == "waits":
        raise Waits(came[1], f"waits for the tasks of G{group.number}", lambda value, thrown: exit_on(run, group, thrown))
    run.notes.left_group(group)
    if came[0] == "raises":
        raise Raised(came[1])


def exit_on(run, group, thrown):
    return left_group(run, group, run.loop.exit_woken(group, thrown))


def ask_exit_group(run, task, g, raised):
    group = run.loop.groups[g.number]
    return left_group(run, group, run.loop.begin_exit(group, raised))


def ask_create(run, task, g, coroutine, *arguments):
    group = run.loop.groups[of_kind(g, "G").number]
    refused = run.loop.refusal(group)
    if refused:
        raise failure("RuntimeError", refused)
    return Id("T", run.spawn(coroutine, arguments, group, task).number)


def ask_extra(run, task, code, arguments):
    if type(code) is not int or type(arguments) is not tuple:
        raise bad_argument()
    if run.extras.serves(code):
        return run.extras.ask(task, code, arguments)
    run.notes.guessed(f"extra {code}")
    raise failure("NameError", f"extra {code}")


# ---- connections
def port(value):
    if not 1 <= value <= 65535:
        raise failure("ValueError", "port")
    return value


def ask_listen(run, task, n, coroutine):
    if run.ask("listen", port(number(n)))[0] != "ok":
        raise failure("OSError", "listen refused")
    run.servers.append(Server(coroutine))
    run.opened.append(Id("L", len(run.servers) - 1))
    return run.opened[-1]


def ask_connect(run, task, n):
    if run.ask("connect", port(number(n)))[0] != "conn":
        raise failure("ConnectionRefusedError", "connect refused")
    making = Future()
    c = Connection(run, Id("C", len(run.connections)), making=making)
    name = run.opens(c)

    def woken(value, thrown):
        if thrown is not None:
            c.drop_connect()
        return passed(value, thrown)
    raise Waits(making, f"connects {shown(name)}", woken)


def writer(run, x, letters="CP"):
    return run.of(of_kind(x, letters))


def ask_write(run, task, x, piece):
    writer(run, x)
    writer(run, x).sender.write(raw(piece))


def ask_write_eof(run, task, c):
    writer(run, c, "C").write_eof()


def ask_close(run, task, x):
    of_kind(x, "CPL")
    if x.letter != "L":
        run.of(x).sender.close()
    elif run.of(x).open:
        run.ask("close", x)
        run.of(x).open = False


def ask_wait_closed(run, task, x):
    return waits_for(run, writer(run, x).sender.closed, f"waits until {shown(x)} is closed")


def ask_drain(run, task, x):
    return drained(run, writer(run, x), x, False)


def drained(run, one, x, yielded):
    sender = one.sender
    if x.letter == "C" and one.receiver.failed and not yielded:
        raise Raised(one.receiver.failed)
    if sender.closing and not yielded:
        def again(value, thrown):
            passed(value, thrown)
            return drained(run, one, x, True)
        raise Waits(None, f"drains {shown(x)}", again)
    if sender.phase == "lost":
        raise failure("ConnectionResetError", "Connection lost")
    if sender.paused:
        future = Future()
        sender.drains.append(future)
        raise Waits(future, f"drains {shown(x)}")


def ask_limits(run, task, x, high, low):
    one = writer(run, x)
    one.sender.limits(maybe_number(high), maybe_number(low))


# ---- reads
def reader(run, x):
    of_kind(x, "CPE")
    if x.letter == "C":
        return run.connections[x.number].receiver
    child = run.children[x.number]
    return child.out if x.letter == "P" else child.errs


def reads(receiver, x, look):
    """A read looks at what is held as it begins, and again at each waking."""
    found = look()
    if found is not None:
        return found
    future = receiver.wait()

    def woken(value, thrown):
        if receiver.waiter is future:
            receiver.waiter = None
        passed(value, thrown)
        return reads(receiver, x, look)
    raise Waits(future, f"reads {shown(x)}", woken)


def ask_read(run, task, x, n):
    receiver = reader(run, x)
    if number(n) >= 0:
        return reads(receiver, x, lambda: receiver.up_to(n))
    taken = []

    def look():
        receiver.unless_failed()
        taken.append(receiver.gives(len(receiver.held)))
        return b"".join(taken) if receiver.eof else None
    return reads(receiver, x, look)


def ask_readexactly(run, task, x, n):
    receiver = reader(run, x)
    number(n)
    return reads(receiver, x, lambda: receiver.exactly(n))


def ask_readuntil(run, task, x, separator):
    receiver = reader(run, x)
    raw(separator)
    return reads(receiver, x, lambda: receiver.until(separator))


def ask_readline(run, task, x):
    receiver = reader(run, x)
    return reads(receiver, x, receiver.line)


# ---- children
def ask_launch(run, task, words):
    if type(words) is not tuple or not words or any(type(word) is not str for word in words):
        raise bad_argument()
    if run.ask("launch", words)[0] != "child":
        raise failure("OSError", "launch refused")
    name = Id("P", len(run.children))
    run.children.append(Child(run, name))
    run.opened.append(name)
    return name


def child(run, p):
    return run.children[of_kind(p, "P").number]


def ask_stderr(run, task, p):
    return Id("E", of_kind(p, "P").number)


def ask_wait(run, task, p):
    one = child(run, p)
    if one.code is not None:
        return one.code
    future = Future()
    one.waits.append(future)
    raise Waits(future, f"waits for {shown(p)}")


def ask_returncode(run, task, p):
    return child(run, p).code


def ask_kill(run, task, p):
    if child(run, p).code is None:
        run.ask("kill", p)
