"""A chain of n awaits: each task makes the one that it awaits. Compare scripts/chain.aio."""

import asyncio

from virtual import run


async def link(n):
    if n == 0:
        return 0
    below = await asyncio.create_task(link(n - 1))
    return below + 1


async def bench(n):
    print("links", await link(n))


run(bench)
