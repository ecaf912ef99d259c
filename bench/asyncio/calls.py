"""n times calls that go 60 deep, of coroutines that are awaited. Compare scripts/calls.aio."""

import asyncio

from virtual import run


async def down(n):
    if n == 1:
        return 1
    below = await down(n - 1)
    return below + 1


async def bench(n):
    made = 0
    while made < n:
        for _ in range(100):
            depth = await down(60)
        await asyncio.sleep(0)
        made = made + 100
    print("times", made, "deep", depth)


run(bench)
