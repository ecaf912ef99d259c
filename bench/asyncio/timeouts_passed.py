"""n tasks, each with a timeout whose time has passed round nothing. Compare scripts/timeouts_passed.aio."""

import asyncio

from virtual import run


async def hurried():
    async with asyncio.timeout(0):
        pass


async def bench(n):
    tasks = []
    for _ in range(n):
        tasks.append(asyncio.create_task(hurried()))
    await tasks[-1]
    print("passed at", int(asyncio.get_running_loop().time()))


run(bench)
