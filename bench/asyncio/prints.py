"""n lines. Compare scripts/prints.aio. Python's output is buffered as a whole; a replay writes at the end of each turn."""

import asyncio

from virtual import run


async def thousand(from_line):
    for i in range(1000):
        print("line", from_line + i)


async def bench(n):
    printed = 0
    while printed < n:
        await thousand(printed)
        await asyncio.sleep(0)
        printed = printed + 1000


run(bench)
