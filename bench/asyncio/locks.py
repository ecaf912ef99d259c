"""A lock is acquired and released n times, and nobody else wants it. Compare scripts/locks.aio."""

import asyncio

from virtual import run


async def bench(n):
    lock = asyncio.Lock()
    taken = 0
    while taken < n:
        for _ in range(1000):
            await lock.acquire()
            lock.release()
        await asyncio.sleep(0)
        taken = taken + 1000
    print("taken", taken)


run(bench)
