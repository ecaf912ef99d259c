"""n tasks sleep at a time, and wake by turns at one time and at the next, on a stepped clock. Compare scripts/wakes.aio."""

import asyncio

from virtual import run


async def sleeper(ms):
    await asyncio.sleep(ms)


async def bench(n):
    tasks = []
    for i in range(n):
        tasks.append(asyncio.create_task(sleeper(1 + i % 2)))
    await tasks[-1]
    print("slept until", int(asyncio.get_running_loop().time()))


run(bench)
