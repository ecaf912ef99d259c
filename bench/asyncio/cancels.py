"""n tasks are spawned and cancelled, one after the other. Each sleeps as its cancel comes. Compare scripts/cancels.aio."""

import asyncio

from virtual import run


async def idle():
    await asyncio.sleep(1000)


async def bench(n):
    cancelled_tasks = 0
    while cancelled_tasks < n:
        t = asyncio.create_task(idle())
        await asyncio.sleep(0)
        t.cancel()
        try:
            await t
        except asyncio.CancelledError:
            cancelled_tasks = cancelled_tasks + 1
    print("cancelled", cancelled_tasks)


run(bench)
