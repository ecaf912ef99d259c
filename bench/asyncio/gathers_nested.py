"""n gathers, each of a task that gathers the next. Compare scripts/gathers_nested.aio."""

import asyncio

from virtual import run


async def level(n):
    if n == 0:
        return 0
    r = await asyncio.gather(asyncio.create_task(level(n - 1)))
    return r[0] + 1


async def bench(n):
    print("depth", await level(n))


run(bench)
