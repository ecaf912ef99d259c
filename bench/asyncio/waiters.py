"""n tasks live together and await one future. Compare scripts/waiters.aio. The tasks are kept in a set, as asyncio asks for;
a script's loop keeps them itself."""

import asyncio

from virtual import run


async def waiter(f):
    return await f


async def bench(n):
    f = asyncio.get_running_loop().create_future()
    tasks = set()
    made = 0
    while made < n:
        for _ in range(1000):
            t = asyncio.create_task(waiter(f))
            tasks.add(t)
        await asyncio.sleep(0)
        made = made + 1000
    f.set_result(1)
    print("waiters", made, await t)


run(bench)
