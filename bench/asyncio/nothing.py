"""Nothing: what it takes to start Python and import asyncio. Compare scripts/nothing.aio."""

from virtual import run


async def bench(n):
    print("nothing")


run(bench)
