"""n values go through a queue of 10: one task puts them, another gets them. Compare scripts/queue_values.aio."""

import asyncio

from virtual import run


async def puts(queue, n):
    i = 0
    while i < n:
        await queue.put(i)
        i = i + 1


async def bench(n):
    queue = asyncio.Queue(10)
    task = asyncio.create_task(puts(queue, n))
    total = 0
    got = 0
    while got < n:
        v = await queue.get()
        total = total + v
        got = got + 1
    print("got", got, total)
    await task


run(bench)
