"""A gather of n tasks. Each lets the loop go round once. Compare scripts/gather_members.aio."""

import asyncio

from virtual import run


async def member(k):
    await asyncio.sleep(0)
    return k


async def bench(n):
    members = [asyncio.create_task(member(k)) for k in range(n)]
    r = await asyncio.gather(*members)
    print("gathered", len(r), r[n - 1])


run(bench)
