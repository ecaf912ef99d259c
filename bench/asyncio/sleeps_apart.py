"""n tasks sleep 100 times each, and one wakes at a time, on a stepped clock. Compare scripts/sleeps_apart.aio."""

import asyncio

from virtual import run


async def sleeper(first, n):
    await asyncio.sleep(first)
    left = 99
    while left > 0:
        await asyncio.sleep(n)
        left = left - 1


async def bench(n):
    tasks = []
    for i in range(n):
        tasks.append(asyncio.create_task(sleeper(i + 1, n)))
    await tasks[-1]
    print("slept until", int(asyncio.get_running_loop().time()))


run(bench)
