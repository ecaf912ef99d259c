"""A group of n children: all but the last sleep, and that one fails. Compare scripts/group.aio."""

import asyncio

from virtual import run


async def idle():
    await asyncio.sleep(1000)


async def fails():
    raise ValueError("no")


async def bench(n):
    try:
        async with asyncio.TaskGroup() as g:
            i = 1
            while i < n:
                g.create_task(idle())
                i = i + 1
            g.create_task(fails())
    except ExceptionGroup as e:
        print("failed", len(e.exceptions))


run(bench)
