#!/usr/bin/env python3
"""How many calls of the outside each script makes that `try_rows --faults` runs, as it must print it.

Counted from the journals and the transcripts alone; no program of the repository is asked.

The wire answers a call with each line of the journal, and each run here takes them all. Where the transcript ends by `! over`,
one more call was made, which found no answer. A turn begins with its select, whose answer is the one line that begins with
`turn`. A shelf is read twice for the script, of which its first read gives all and its second the end, and then appended to once
for each turn that had answers. A sink is written to once a turn, since the trace has a line at least for its select; and once
more where the last line stands alone, in a turn that has no answer: one that is over or stalled.

    python3 bench/faults/calls.py | diff - <(grep calls crates/try_rows/stdout)
"""

import itertools
import os

HERE = os.path.dirname(os.path.abspath(__file__))
CRATE = os.path.join(HERE, "..", "..", "crates", "try_rows")


def lines(name):
    with open(os.path.join(CRATE, name), encoding="ascii") as file:
        return file.read().splitlines()


def calls(name):
    """How many calls of wire, shelf and sink a script makes."""
    journal = lines(f"data/{name}.journal")
    last = lines(f"data/{name}.transcript")[-1]
    turns = sum(line.startswith("turn ") for line in journal)
    over = last.startswith("! over")
    alone = over or last == "= stalled"
    return {"wire": len(journal) + over, "shelf": 2 + turns, "sink": turns + alone}


def main():
    words = lines("args")
    begun = words.index("--faults") + 1
    names = list(itertools.takewhile(lambda word: not word.startswith("--"), words[begun:]))
    total = 0
    for name in names:
        for part, count in calls(name).items():
            total += count
            print(f"{name} {part} {count} calls: each a front")
    print(f"{len(names)} scripts, {total} calls, 0 differ")


main()
