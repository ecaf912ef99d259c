"""n turns: main goes on in each, 60 calls deep. Compare scripts/yields_deep.aio."""

import asyncio

from virtual import run


async def turn(n):
    turns = 0
    while turns < n:
        await asyncio.sleep(0)
        turns = turns + 1
    return turns


async def down(depth, n):
    if depth == 1:
        return await turn(n)
    return await down(depth - 1, n)


async def bench(n):
    print("turns", await down(60, n))


run(bench)
