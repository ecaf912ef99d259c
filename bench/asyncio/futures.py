"""n futures are made, set and awaited, one after the other. Compare scripts/futures.aio."""

import asyncio

from virtual import run


async def thousand():
    loop = asyncio.get_running_loop()
    left = 1000
    while left > 0:
        f = loop.create_future()
        f.set_result(left)
        await f
        left = left - 1


async def bench(n):
    made = 0
    while made < n:
        await thousand()
        await asyncio.sleep(0)
        made = made + 1000
    print("futures", made)


run(bench)
