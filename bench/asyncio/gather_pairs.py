"""n gathers of two tasks, one after the other. Compare scripts/gather_pairs.aio."""

import asyncio

from virtual import run


async def member(k):
    return k


async def bench(n):
    total = 0
    gathered = 0
    while gathered < n:
        a = asyncio.create_task(member(1))
        b = asyncio.create_task(member(gathered))
        r = await asyncio.gather(a, b)
        total = total + r[0] * r[1]
        gathered = gathered + 1
    print("gathered", gathered, total)


run(bench)
