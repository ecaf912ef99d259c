"""n awaits, each with a timeout round it that doesn't come, on a stepped clock. Compare scripts/timeouts.aio."""

import asyncio

from virtual import run


async def bench(n):
    done_awaits = 0
    while done_awaits < n:
        async with asyncio.timeout(1000):
            await asyncio.sleep(1)
        done_awaits = done_awaits + 1
    print("awaited until", int(asyncio.get_running_loop().time()))


run(bench)
