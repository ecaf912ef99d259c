"""A chain of n awaits: each task awaits the one that was made before it, which waits already. Compare
scripts/chain_upwards.aio. A cycle of awaits would wait for ever here, so asyncio doesn't look for one."""

import asyncio

from virtual import run


async def link(x):
    below = await x
    return below + 1


async def bench(n):
    f = asyncio.get_running_loop().create_future()
    t = f
    for _ in range(n):
        t = asyncio.create_task(link(t))
    await asyncio.sleep(0)
    f.set_result(0)
    print("links", await t)


run(bench)
