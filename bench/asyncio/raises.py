"""n exceptions are raised and caught. Compare scripts/raises.aio."""

import asyncio

from virtual import run


async def thousand():
    caught = 0
    while caught < 1000:
        try:
            raise ValueError("no")
        except ValueError as e:
            caught = caught + 1
    return caught


async def bench(n):
    caught = 0
    while caught < n:
        caught = caught + await thousand()
        await asyncio.sleep(0)
    print("caught", caught)


run(bench)
