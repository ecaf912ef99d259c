"""n tasks sleep as main returns, and all are cancelled then, as asyncio.run does it. Compare scripts/left.aio. The tasks are
kept in a set, as asyncio asks for; a script's loop keeps them itself."""

import asyncio

from virtual import run

TASKS = set()


async def idle():
    await asyncio.sleep(1000)


async def bench(n):
    made = 0
    while made < n:
        for _ in range(1000):
            TASKS.add(asyncio.create_task(idle()))
        await asyncio.sleep(0)
        made = made + 1000
    print("left", made)


run(bench)
