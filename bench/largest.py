"""The scripts and journals of the largest of everything, by their size; largest_cases.py tells which are replayed."""

SCRIPT = 1_048_576  # bytes of a script
LINE = 2_097_152  # bytes of a journal's line
WEIGHT = 1_048_576  # of a value
PIECE = 64  # bytes that each child of a full turn says
MESSAGE = "unhandled errors in a TaskGroup"


def body(lines):
    return "".join(f"{line}\n" for line in lines)


def main_of(lines):
    return "def main()\n" + body(lines) + "end\n"


def still(turns):
    """The time stays 0 for so many turns."""
    return "turn 0\n" * turns


def returned(*lines):
    """What main says, which then returns."""
    return "".join(f"T0 {line}\n" for line in lines) + "= returned None\n"


def many(n, lines, pause):
    """Does these lines n times, and lets the loop go round after so many of them, since a step is bounded."""
    return ["i = 0", f"while i < {n}", *lines, "i = i + 1", f"if i % {pause} == 0", "yield", "end", "end"]


# ---- texts
SLEEPS = 4_998


def longest_script(n):
    """A main that sleeps so many times, between comments that are numbered. A comment before it fills the size."""
    lines = ["def main()", '  print "begins"']
    for sleep in range(1, n + 1):
        lines += [f"  # sleep {sleep} of {SLEEPS} ".ljust(185, "."), "  yield from sleep(0)"]
        if sleep % 1_000 == 0:
            lines.append(f'  print "after", {sleep}')
    text = "\n".join([*lines, '  print "ends"', "end", ""])
    return "# ".ljust(max(2, SCRIPT * n // SLEEPS - len(text) - 1), "-") + "\n" + text


def long_script_says(n):
    return returned("begins", *(f"after {sleep}" for sleep in range(1_000, n + 1, 1_000)), "ends")


def coroutines(n):
    """So many coroutines, all of which main calls."""
    calls = [f"yield from f{i}()" for i in range(n)]
    for place in range(0, n, 5_000):
        calls[place] += "\nyield"
    return "".join(f"def f{i}()\nreturn 1\nend\n" for i in range(n)) + main_of([*calls, 'print "all"'])


# ---- connections and children
OPENED = "turn 0\nconn\nturn 0 C0 up\nturn 0\n"


def read_by(line):
    return lambda n: main_of(["c = yield from connect(9)", line.format(n=n), "print len(b)"])


def received(pieces):
    """A connection that is open receives these, a turn each; main goes on after the last."""
    return OPENED + "".join(f'turn 0 C0 r\ndata b"{piece}"\nturn 0\n' for piece in pieces) + still(3)


def escaped_data(n):
    line = 'data b"' + "\\x41" * n + '"'
    return OPENED + "turn 0 C0 r\n" + line.ljust(LINE if n == 262_144 else 0) + "\n" + still(4)


def separator(n):
    """The bytes are like the separator up to its last one, at each place."""
    return main_of(
        ["c = yield from connect(9)", f'b = yield from readuntil(c, bytes("a" * {n - 1} + "b"))', "print len(b)"]
    )


def before_separator(n):
    whole = "a" * (2 * n - 1) + "b"
    return received(whole[at : at + 8_192] for at in range(0, len(whole), 8_192))


def children(n):
    """So many children, each of which says so many bytes in one turn."""
    said = "x" * PIECE
    reads = [
        "def reads(p)",
        f"b = yield from readexactly(p, {PIECE})",
        f'if b != b"{said}"',
        'raise error(ValueError, "other bytes")',
        "end",
        "end",
    ]
    launches = ["i = 0", "with group as g", f"while i < {n}", 'p = yield from launch(["p"])', "yield from create(g, reads, p)"]
    return body(reads) + main_of([*launches, "i = i + 1", "end", "end", 'print "read", i'])


def full_turn(n, more=""):
    items = "".join(f' P{child} out b"{"x" * PIECE}"' for child in range(n))
    return "turn 0\n" + "child\n" * n + f"turn 0\nturn 0{items}{more}\n" + still(6)


def too_full(n):
    """The answers up to the turn are one for each child, and three selects."""
    watch = "".join(f" P{child} boex" for child in range(n))
    return f"! mismatch {n + 3} select none{watch}\n"


def slow_writer(n):
    """Bytes of the greatest weight are written, and taken one by one."""
    return main_of(
        [
            "c = yield from connect(9)",
            f'yield from write(c, b"x" * {WEIGHT - 1})',
            "yield from sleep(1)",
            'print "written"',
        ]
    )


def one_by_one(n):
    return OPENED + "took 1\n" + "turn 0 C0 w\ntook 1\n" * (n - 1) + "turn 1\n" * 3


# ---- tasks
CHAIN = """\
def link(x)
  yield from x
end
def last()
  yield from sleep(1000)
end
"""


def cancelled_chain(n):
    """A chain of so many awaits, whose first task is cancelled."""
    made = many(n, ["t = yield from spawn(link, t)"], 16_000)
    waits = ["try", "yield from t", "except CancelledError", 'print "cancelled", i', "end"]
    return CHAIN + main_of(["t = yield from spawn(last)", *made, "yield", "yield from cancel(t)", *waits])


def cancels_of_chain(n):
    """A chain of so many awaits, whose first task is cancelled as often, in one step."""
    made = many(n, ["t = yield from spawn(link, t)"], 16_000)
    cancels = many(n, ["yield from cancel(t)"], 16_000)
    waits = ["try", "yield from t", "except CancelledError", 'print "cancelled", i', "end"]
    return CHAIN + main_of(["t = yield from spawn(last)", *made, "yield", *cancels, *waits])


def left_chain(n):
    """A chain of so many awaits at main's end, which cancels each of its tasks."""
    return CHAIN + main_of(["t = yield from spawn(last)", *many(n, ["t = yield from spawn(link, t)"], 16_000), "yield", 'print "left", i'])


def searched_chain(n):
    """A chain of so many awaits, and as many tasks that are awaited themselves and await its first task."""
    late = "def late(x)\nyield\nyield from x\nend\n"
    made = many(n, ["t = yield from spawn(link, t)"], 16_000)
    others = many(n, ["w = yield from spawn(late, t)", "yield from spawn(link, w)"], 8_000)
    waits = ["try", "yield from t", "except CancelledError", 'print "cancelled", i', "end"]
    over = ["yield", "yield", "yield"]
    return CHAIN + late + main_of(["t = yield from spawn(last)", *made, "yield", *others, *over, "yield from cancel(t)", *waits, *over])


IDLE = "def idle()\nyield from sleep(1000)\nend\n"


def left_at_the_end(n):
    return IDLE + main_of([*many(n, ["yield from spawn(idle)"], 16_000), 'print "left", i'])


def aborted_group(n):
    fails = 'def fails()\nraise error(ValueError, "no")\nend\n'
    made = many(n - 1, ["yield from create(g, idle)"], 16_000)
    ends = ["except ExceptionGroup as e", 'print "failed", len(members(e))', "end"]
    return IDLE + fails + main_of(["try", "with group as g", *made, "yield from create(g, fails)", "end", *ends])


def failing_group(n, text):
    """Each task of the group fails, all of them in one turn."""
    fails = f'def fails(f)\nyield from f\nraise error(ValueError, "{text}")\nend\n'
    made = many(n, ["yield from create(g, fails, f)"], 16_000)
    ends = ["except ExceptionGroup as e", 'print "failed", len(members(e))', "end"]
    begins = ["f = yield from future()", "try", "with group as g"]
    return fails + main_of([*begins, *made, "yield", "yield from set(f, 1)", "end", *ends])


def timers(n):
    """Tasks of 31 open blocks, each a timeout, and a sleep. All timeouts are left before they are over."""
    blocks = [f"with timeout({place + 1000}) as o{place}" for place in range(31)]
    waits = body(["def waits()", *blocks, "yield from sleep(1)", *["end"] * 31, "end"])
    return waits + main_of([*many(n, ["yield from spawn(waits)"], 16_000), "yield from sleep(5)", 'print "made", i * 32'])


def fired(n):
    """Tasks of 30 timeouts that are over at once. Each asks for a cancel, and the outermost one raises."""
    blocks = [f"with timeout(2) as o{place}" for place in range(30)]
    late = ["except TimeoutError", "return 1", "end"]
    waits = body(["def waits()", "try", *blocks, "yield from sleep(1000)", *["end"] * 30, *late, "end"])
    return waits + main_of([*many(n, ["yield from spawn(waits)"], 16_000), "yield from sleep(5)", 'print "over", i * 30'])


def by_time(last):
    """So many turns at 0, and then some at each time up to the last."""
    return lambda n: still(n // 16_000 + 3) + "".join(f"turn {time}\n" * 4 for time in range(1, last + 1))


def frames(n):
    """Calls to the greatest depth, each with blocks open, that are all left by the exception of the last call."""
    blocks = ["try"] * 30
    ends = ["finally", "pass", "end"] * 30
    deep = body(["def deep()", *blocks, "yield from deep()", *ends, "end"])
    rounds = many(n, ["try", "yield from deep()", "except RecursionError as e", "pass", "end"], 8)
    return deep + main_of([*rounds, "print i, message(e)"])


# ---- values
def greatest_list(n):
    """A list of one item less than a power of two, of items of the most digits."""
    lines = ["x = [-9223372036854775807 - 1]", "y = []", "i = 0"]
    return [*lines, f"while i < {n}", "y = y + x", f"if i < {n - 1}", "x = x + x", "end", "i = i + 1", "end"]


def full_list(n):
    more = ["try", "y = y + [1, 2]", 'print "more"', "except OverflowError as e", "print message(e)", "end"]
    return main_of([*greatest_list(n), "print len(y), y == y", *more])


def list_says(n):
    return returned(f"{2**n - 1} True", "out of range" if n == 20 else "more")


def shown_list(n):
    return main_of([*greatest_list(n), "print y"])


def shown_list_says(n):
    return returned("[" + ", ".join(["-9223372036854775808"] * (2**n - 1)) + "]")


def nested(n):
    """The deepest list, compared and shown again and again."""
    same = [f"x = {'[' * 30}1{']' * 30}", *["x = [x]"] * 34, f"y = {'[' * 30}1{']' * 30}", *["y = [y]"] * 34]
    over = ["try", "z = [x]", "except OverflowError as e", "pass", "end"]
    rounds = many(n, ["b = x == y", "t = str(x)"], 10_000)
    return main_of([*same, *over, *rounds, "print b, len(t), message(e)"])


def heavy_exception(n):
    """An exception of the greatest weight is raised and caught again and again, through five calls."""
    calls = "".join(f"def f{i}(e)\nyield from f{i - 1}(e)\nend\n" for i in range(1, 5))
    raises = f'e = error(ValueError, "x" * {WEIGHT - 1})'
    rounds = many(n, ["try", "yield from f4(e)", "except ValueError as e", "pass", "end"], 4_000)
    return "def f0(e)\nraise e\nend\n" + calls + main_of([raises, *rounds, "print i, len(message(e))"])


def nested_groups(n):
    """Groups in one another, of which the innermost fails. An exception deeper than 64 has no members."""
    nest = ["def nest(n)", "if n == 0", 'raise error(ValueError, "x")', "end", "with group as g"]
    nest += ["yield from create(g, nest, n - 1)", "end", "end"]
    ends = ["except ExceptionGroup as e", "print e", "end"]
    return body(nest) + main_of(["try", f"yield from nest({n})", *ends])


def group_text(depth):
    """What is shown of the exception of so many groups in one another."""
    if depth == 0:
        return 'ValueError("x")'
    return f'ExceptionGroup("{MESSAGE}", [{"" if depth == 64 else group_text(depth - 1)}])'
