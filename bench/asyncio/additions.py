"""n additions, with a turn of the loop after each 45,000. Compare scripts/additions.aio."""

import asyncio

from virtual import run


async def bench(n):
    x = 0
    while x < n:
        stop = x + 45000
        while x < stop and x < n:
            x = x + 1
        await asyncio.sleep(0)
    print("sum", x)


run(bench)
