"""A group of n children that sleep 5 and return, on a stepped clock. Compare scripts/group_sleeps.aio."""

import asyncio

from virtual import run


async def child():
    await asyncio.sleep(5)


async def bench(n):
    async with asyncio.TaskGroup() as g:
        for _ in range(n):
            g.create_task(child())
    print("passed at", int(asyncio.get_running_loop().time()))


run(bench)
