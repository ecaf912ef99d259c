"""n tasks wait for one lock, which goes from each to the next. Compare scripts/lock_passes.aio. The tasks are kept in a set, as
asyncio asks for; a script's loop keeps them itself."""

import asyncio

from virtual import run


async def wants(lock):
    await lock.acquire()
    lock.release()


async def bench(n):
    lock = asyncio.Lock()
    await lock.acquire()
    tasks = set()
    made = 0
    while made < n:
        for _ in range(1000):
            t = asyncio.create_task(wants(lock))
            tasks.add(t)
        await asyncio.sleep(0)
        made = made + 1000
    lock.release()
    await t
    print("passed", made)


run(bench)
