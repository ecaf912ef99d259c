import asyncio


async def produces(queue):
    for i in range(4):
        await queue.put(i)
        print("put", i)
    await queue.put(None)


async def consumes(queue):
    item = await queue.get()
    while item is not None:
        print("got", item)
        await asyncio.sleep(0.01)
        item = await queue.get()


async def main():
    queue = asyncio.Queue(2)
    async with asyncio.TaskGroup() as g:
        g.create_task(produces(queue))
        g.create_task(consumes(queue))


asyncio.run(main())
