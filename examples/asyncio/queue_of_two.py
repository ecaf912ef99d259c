import asyncio


async def produces(queue, n):
    for i in range(n):
        queue.put_nowait(i)
        print("put", i)
        await asyncio.sleep(0.01)
    queue.put_nowait(None)


async def consumes(queue):
    item = await queue.get()
    while item is not None:
        print("got", item)
        item = await queue.get()


async def main():
    queue = asyncio.Queue()
    async with asyncio.TaskGroup() as g:
        g.create_task(produces(queue, 3))
        g.create_task(consumes(queue))
    print("all taken")


asyncio.run(main())
