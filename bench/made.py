"""The script and the journal that a number makes, as `crates/model_work` has them, written once more in Python.

    bench/made.py N FOLDER      writes them as FOLDER/s and FOLDER/j

`aio work N` runs the two in memory.
"""

import os
import sys

LINES, TURNS = 300, 1_500

SLEEPER = """\
def w(i, d)
  try
    with timeout(500) as o
      yield from sleep(d)
    end
    print i, "slept"
  except TimeoutError
    print i, "late"
  end
end
"""
OPENING = """\
def main()
  c = yield from connect(9)
  n = 0
  with group as g
"""
READING = """\
    while n < 300
      b = yield from readline(c)
      n = n + 1
    end
  end
  print n
end
"""


def draw(seed, place):
    """The number that is drawn at this place, as C++'s minstd_rand draws it; the first stands at 1."""
    number = seed + 1
    for _ in range(place):
        number = number * 48_271 % 2_147_483_647
    return number


def group_size(seed):
    return 100 + draw(seed, 1) % 100


def delay(seed, task):
    """How long a task of the group sleeps; its tasks are counted from 1."""
    return draw(seed, task + 1) % 1_000


def line_at(time):
    """The line that comes at this time."""
    return b"x" * (time % 61) + b"\n"


def script(seed):
    creates = (f"    yield from create(g, w, {task}, {delay(seed, task)})\n" for task in range(1, group_size(seed) + 1))
    return SLEEPER + OPENING + "".join(creates) + READING


def journal(_):
    """The lines of the journal, which is the same for each number."""
    yield from ["turn 0", "conn", "turn 0 C0 up", "turn 0"]
    for time in range(1, TURNS + 1):
        yield from [f"turn {time} C0 r", f'data b"{"x" * (time % 61)}\\n"'] if time <= LINES else [f"turn {time}"]


def main():
    seed, folder = int(sys.argv[1]), sys.argv[2]
    for name, text in (("s", script(seed)), ("j", "".join(f"{line}\n" for line in journal(seed)))):
        with open(os.path.join(folder, name), "w", encoding="ascii") as file:
            file.write(text)


if __name__ == "__main__":
    main()
