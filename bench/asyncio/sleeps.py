"""n tasks sleep 100 times each, and all wake in the same turns, on a stepped clock. Compare scripts/sleeps.aio."""

import asyncio

from virtual import run


async def sleeper():
    left = 100
    while left > 0:
        await asyncio.sleep(1)
        left = left - 1


async def bench(n):
    tasks = []
    for _ in range(n):
        tasks.append(asyncio.create_task(sleeper()))
    await tasks[-1]
    print("slept until", int(asyncio.get_running_loop().time()))


run(bench)
