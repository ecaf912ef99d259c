"""n turns: main goes on in each, by asyncio.sleep(0), which is a bare yield. Compare scripts/yields.aio."""

import asyncio

from virtual import run


async def bench(n):
    turns = 0
    while turns < n:
        await asyncio.sleep(0)
        turns = turns + 1
    print("turns", turns)


run(bench)
