"""The shapes of programs that bench/replay measures: a script for each, in three sizes, and the journal that it asks for.

A script is `scripts/NAME.aio` with a main that gives its `bench`, or another coroutine, the size, and `asyncio/NAME.py` is the
same program for CPython. The journal of tasks alone is a list of times, as long as the run asks. A task's sleep takes two turns,
the one in which its timer falls due and the one in which the task goes on; a `yield`, a task's first step and a wakeup take one,
and main's end one. Journals of connections and children are told in journals.py, and what a number makes in made.py.
"""

import os
from typing import Callable, NamedTuple, Optional

import journals
import made

HERE = os.path.dirname(os.path.abspath(__file__))
THOUSANDS = (1_000, 10_000, 100_000)
# as many as one step makes
SOME_THOUSANDS = (2_000, 6_000, 20_000)


class Shape(NamedTuple):
    name: str
    says: str
    # in the plural
    unit: str
    sizes: tuple
    # the journal's lines, or its times
    answers: Callable
    # how many units the size has
    units: Callable = lambda n: n
    status: int = 0
    # the name of the script and of the program for CPython, where it isn't the shape's own
    program: Optional[str] = None
    # the coroutine of the script that takes the size
    bench: str = "bench"

    def script(self, n):
        if self.name == "work":
            return made.script(n)
        main = f"\ndef main()\n  yield from {self.bench}({n})\nend\n"
        path = os.path.join(HERE, "scripts", f"{self.program or self.name}.aio")
        if not os.path.exists(path):
            return variables(n) + main
        with open(path) as file:
            return file.read() + main

    def journal(self, n):
        return "".join(f"{it}\n" if isinstance(it, str) else f"turn {it}\n" for it in self.answers(n))

    def asyncio(self, n):
        """The words that run the program for CPython, if there is one."""
        path = os.path.join(HERE, "asyncio", f"{self.program or self.name}.py")
        return [path, str(n), self.name] if os.path.exists(path) else None


def variables(n):
    """A script with n variables, to each of which 1 is added 90 times."""
    lines = [f"x{i} = 0" for i in range(n)]
    lines += ["rounds = 0", "while rounds < 90"]
    lines += [f"x{i} = x{i} + 1" for i in range(n)]
    lines += ["rounds = rounds + 1", "end", f'print "sum", x{n - 1}']
    return "def bench(n)\n" + "".join(f"  {line}\n" for line in lines) + "end\n"


def still(turns):
    """The time stays 0 for so many turns."""
    return [0] * turns


def twice(last):
    """Main and then tasks run at 0. Each time from 1 on has a turn in which timers fall due, and one in which tasks go on."""
    return [0] + [now for time in range(1, last + 1) for now in (time, time)]


SHAPES = [
    Shape("nothing", "a main that prints a line", "runs", (1,), lambda n: still(2)),
    Shape(
        "sleeps",
        "tasks that sleep 100 times each, all at once",
        "sleeps",
        (10, 100, 1_000),
        lambda n: [0] + twice(100) + [100, 100],
        lambda n: 100 * n,
    ),
    Shape(
        "sleeps_apart",
        "tasks that sleep 100 times each, one at a time",
        "sleeps",
        (10, 100, 1_000),
        lambda n: [0] + twice(100 * n) + [100 * n, 100 * n],
        lambda n: 100 * n,
    ),
    # The second time comes in the turn in which the tasks of the first go on.
    Shape(
        "wakes",
        "tasks that wake in two neighbouring milliseconds",
        "tasks",
        SOME_THOUSANDS,
        lambda n: [0, 0, 1, 2, 2, 2, 2],
    ),
    Shape("chain", "a chain of awaits, each of a new task", "awaits", (100, 1_000, 10_000), lambda n: still(2 * n + 2)),
    Shape(
        "chain_upwards",
        "a chain of awaits, each of a task that waits",
        "awaits",
        (100, 1_000, 10_000),
        lambda n: still(n + 4),
    ),
    Shape("futures", "futures made, set and awaited", "futures", THOUSANDS, lambda n: still(n // 1_000 + 2)),
    Shape("waiters", "tasks that await one future", "tasks", THOUSANDS, lambda n: still(n // 1_000 + 4)),
    Shape("cancels", "tasks spawned and cancelled, one by one", "tasks", THOUSANDS, lambda n: still(3 * n + 2)),
    Shape("left", "tasks that live at main's end", "tasks", THOUSANDS, lambda n: still(n // 1_000 + 3)),
    Shape("group", "a group of children, one failing", "children", (100, 1_000, 10_000), lambda n: still(7)),
    Shape(
        "group_passes",
        "a group of children that sleep once",
        "children",
        (100, 1_000, 10_000),
        lambda n: [0] + twice(1) + [1, 1, 1],
    ),
    Shape("group_sleeps", "a group of children that sleep 5", "children", SOME_THOUSANDS, lambda n: [0, 0, 5, 5, 5, 5, 5]),
    Shape("timeouts_passed", "tasks, each with a timeout of 0", "tasks", SOME_THOUSANDS, lambda n: still(4)),
    Shape("timeouts", "sleeps within timeouts", "timeouts", THOUSANDS, lambda n: twice(n) + [n]),
    Shape("timeouts_over", "timeouts that come", "timeouts", THOUSANDS, lambda n: twice(n) + [n]),
    Shape("yields", "a main that yields", "turns", (10_000, 100_000, 1_000_000), lambda n: still(n + 2)),
    Shape("early", "one long sleep, whose wait ends early", "turns", (10_000, 100_000, 1_000_000), still, status=6),
    Shape("prints", "prints", "lines", THOUSANDS, lambda n: still(n // 1_000 + 2)),
    Shape(
        "additions",
        "additions, in steps of 90,000 statements",
        "additions",
        (100_000, 1_000_000, 10_000_000),
        lambda n: still(-(-n // 45_000) + 2),
    ),
    Shape(
        "calls",
        "calls, 60 deep again and again",
        "calls",
        (100, 1_000, 10_000),
        lambda n: still(n // 100 + 2),
        lambda n: 60 * n,
    ),
    Shape("yields_deep", "a yield, 60 calls deep", "turns", THOUSANDS, lambda n: still(n + 2)),
    Shape("raises", "exceptions raised and caught", "exceptions", THOUSANDS, lambda n: still(n // 1_000 + 2)),
    Shape("wraps", "lists that hold a list of 524,288 items", "lists", SOME_THOUSANDS, lambda n: still(2)),
    Shape(
        "appends",
        "a list that grows by one item again and again, each a new one",
        "items copied",
        SOME_THOUSANDS,
        lambda n: still(2),
        lambda n: n * (n + 1) // 2,
    ),
    Shape(
        "variables",
        "variables of one coroutine, each assigned 90 times",
        "assignments",
        (10, 100, 1_000),
        lambda n: still(2),
        lambda n: 90 * n,
    ),
    Shape(
        "echo_clients",
        "a server of clients, all at once, that say 100 lines each",
        "clients",
        (100, 300, 1_000),
        lambda n: journals.many(n, 100),
        program="echo_server",
    ),
    Shape(
        "echoes",
        "a server of clients, all at once, that say 1,000 lines each",
        "clients",
        (100, 300, 1_000),
        lambda n: journals.many(n, 1_000),
        program="echo_server",
    ),
    Shape(
        "echo_lines",
        "a server of 1,000 clients, all at once",
        "lines of each client",
        (100, 300, 1_000),
        lambda n: journals.many(1_000, n),
        program="echo_server",
    ),
    Shape(
        "echo_singly",
        "a server of clients, one after the other, that say a line each",
        "clients",
        (1_000, 10_000, 100_000),
        journals.singly,
        program="echo_server",
    ),
    Shape(
        "echo_idle",
        "a server of a client that says 1,000 lines, and others that say nothing",
        "others",
        (100, 300, 1_000),
        journals.idle,
        program="echo_server",
    ),
    Shape(
        "supervisor",
        "a supervisor of programs, all at once, that say 100 lines each",
        "programs",
        (20, 60, 200),
        journals.programs,
    ),
    # Members end in the turn of their second step; then they are counted, and then main goes on.
    Shape("gather_members", "a gather of tasks", "tasks", (100, 1_000, 10_000), lambda n: still(6)),
    # The tasks' turn, the one in which they are counted, and the one in which main goes on.
    Shape("gather_pairs", "gathers of two tasks, one by one", "gathers", (100, 1_000, 10_000), lambda n: still(3 * n + 2)),
    Shape("gathers_nested", "gathers in gathers, each of one task", "gathers", (100, 300, 1_000), lambda n: still(3 * n + 2)),
    Shape("locks", "a lock acquired and released", "times", THOUSANDS, lambda n: still(n // 1_000 + 2)),
    Shape(
        "lock_passes",
        "tasks that wait for a lock, which goes through them",
        "tasks",
        THOUSANDS,
        lambda n: still(n + n // 1_000 + 3),
    ),
    Shape(
        "lock_cancels",
        "tasks that wait for a lock, cancelled in order",
        "tasks",
        THOUSANDS,
        lambda n: still(n // 500 + 2),
        bench="in_order",
    ),
    Shape(
        "lock_cancels_reversed",
        "tasks that wait for a lock, cancelled in reverse",
        "tasks",
        THOUSANDS,
        lambda n: still(n // 500 + 2),
        program="lock_cancels",
        bench="in_reverse",
    ),
    Shape(
        "lock_cancels_mixed",
        "tasks that wait for a lock, cancelled in another order",
        "tasks",
        THOUSANDS,
        lambda n: still(n // 500 + 2),
        program="lock_cancels",
        bench="in_mixed_order",
    ),
    # Each puts ten and waits, and then the other gets them and waits.
    Shape(
        "queue_values",
        "values that go through a queue of 10",
        "values",
        (10_000, 100_000, 1_000_000),
        lambda n: still(n // 5 + 2),
    ),
    Shape("work", "the work that a number from 0 to 9 makes", "tasks", tuple(range(10)), made.journal, made.group_size),
]
