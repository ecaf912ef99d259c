"""n awaits, each with a timeout round it that comes, on a stepped clock. Compare scripts/timeouts_over.aio."""

import asyncio

from virtual import run


async def bench(n):
    over = 0
    while over < n:
        try:
            async with asyncio.timeout(1):
                await asyncio.sleep(1000)
        except TimeoutError:
            over = over + 1
    print("timed out until", int(asyncio.get_running_loop().time()))


run(bench)
