"""Journals of an outside with clients and programs: what it answers to the scripts `echo_server` and `supervisor`.

Nothing comes while something is to run, and where the loop would wait all that is said next comes at once. The time is 0 but
at the end, where main's sleep is over. asyncio/outside.py has the same news for asyncio, to the byte.
"""

END = 1_000_000


def line_of(number):
    """A line of 31 bytes, as a literal."""
    return f'b"a line with the number {number:06d}\\n"'


def ready(conns):
    return "turn 0" + "".join(f" C{conn} r" for conn in conns)


def listened():
    return ["turn 0", "ok"]


def calls(conns):
    """These clients call, a hundred at a time. Of a hundred the loop asks for no further one. Each connection is made, and
    begins to read, in the next turn; its handler has its first step in the one after, and waits for a line."""
    for first in range(conns.start, conns.stop, 100):
        some = conns[first - conns.start :][:100]
        yield "turn 0 L0 r"
        yield from ["conn"] * len(some)
        if len(some) < 100:
            yield "again"
        yield from ["turn 0"] * 2


def say(conns, number):
    """Each of these clients says a line, which comes back in the turn in which its handler goes on."""
    line = line_of(number)
    yield ready(conns)
    yield from [f"data {line}"] * len(conns)
    yield "turn 0"
    yield from ["took 30"] * len(conns)


def hang_up(conns):
    """Each of these clients hangs up. Its handler closes the connection in the next turn, which is lost in the one after."""
    yield ready(conns)
    yield from ["eof"] * len(conns)
    yield from ["turn 0"] * 2
    yield from ["ok"] * len(conns)


def ended():
    """Main's sleep is over; it goes on and closes the listener; the loop learns that main is done."""
    return [f"turn {END}"] * 2 + ["ok", f"turn {END}"]


def many(clients, lines):
    """All clients call, say so many lines, and hang up."""
    conns = range(clients)
    yield from listened()
    yield from calls(conns)
    for number in range(lines):
        yield from say(conns, number)
    yield from hang_up(conns)
    yield from ended()


def singly(clients):
    """A client calls, says a line and hangs up before the next one calls."""
    yield from listened()
    for conn in range(clients):
        conns = range(conn, conn + 1)
        yield from calls(conns)
        yield from say(conns, conn % 1_000_000)
        yield from hang_up(conns)
    yield from ended()


def idle(clients):
    """One client says a thousand lines, and so many others nothing."""
    conns = range(clients + 1)
    yield from listened()
    yield from calls(conns)
    for number in range(1_000):
        yield from say(conns[:1], number)
    yield from hang_up(conns)
    yield from ended()


def programs(count):
    """All programs say a line, a hundred times; then their pipes end, and then they do."""
    # main makes the tasks; they launch; the standard inputs are closed
    yield from ["turn 0"] * 2 + ["child"] * count + ["turn 0"] + ["ok"] * count
    for number in range(100):
        yield "turn 0" + "".join(f" P{child} out {line_of(number)}" for child in range(count))
        yield "turn 0"
    yield "turn 0" + "".join(f" P{child} outend P{child} errend" for child in range(count))
    yield "turn 0"
    yield "turn 0" + "".join(f" P{child} exit 0" for child in range(count))
    # the tasks end; the group is told; main goes on; the loop learns that main is done
    yield from ["turn 0"] * 4
