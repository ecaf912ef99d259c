"""A supervisor of n programs, each of which says 100 lines, and their news. Compare scripts/supervisor.aio; outside.py has what
is asyncio's own here."""

import asyncio
import sys
from asyncio.subprocess import PIPE

from outside import Selector, Transport, run


async def keeps(number):
    program = await asyncio.create_subprocess_exec("worker", str(number), stdin=PIPE, stdout=PIPE, stderr=PIPE)
    program.stdin.close()
    count = 0
    while await program.stdout.readline():
        count = count + 1
    return [count, await program.wait()]


async def bench(n):
    workers = []
    async with asyncio.TaskGroup() as group:
        while len(workers) < n:
            workers.append(group.create_task(keeps(len(workers))))
    print("lines", sum(worker.result()[0] for worker in workers))


def news():
    """All programs say a line, a hundred times; then their pipes end, and then they do."""
    for number in range(100):
        for program in Transport.started:
            program.stdout.pieces.append(b"a line with the number %06d\n" % number)
        yield [program.stdout for program in Transport.started]
    for program in Transport.started:
        program.stdout.pieces.append(b"")
        program.stderr.pieces.append(b"")
        program.exit.pieces.append(0)
    yield [pipe for program in Transport.started for pipe in (program.stdout, program.stderr)]
    yield [program.exit for program in Transport.started]


run(bench, Selector(news()))
