"""n tasks wait for a lock, and are cancelled: in order of asking, in reverse, or in another order, by the name of the shape.
Compare scripts/lock_cancels.aio."""

import asyncio
import sys

from virtual import run

# the place of the first to go, and how far on the next one is
ORDERS = {"lock_cancels": (0, 1), "lock_cancels_reversed": (-1, -1), "lock_cancels_mixed": (0, 61803)}


async def wants(lock):
    await lock.acquire()


async def bench(n):
    lock = asyncio.Lock()
    await lock.acquire()
    tasks = []
    while len(tasks) < n:
        some = [asyncio.create_task(wants(lock)) for _ in range(1000)]
        await asyncio.sleep(0)
        tasks += some
    place, step = ORDERS[sys.argv[2]]
    gone = 0
    while gone < n:
        tasks[place].cancel()
        place = (place + step) % n
        gone = gone + 1
        if gone % 1000 == 0:
            await asyncio.sleep(0)
    lock.release()
    print("cancelled", gone)


run(bench)
