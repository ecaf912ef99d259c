import asyncio


async def waits(event, name):
    print(name, "waits")
    await event.wait()
    print(name, "goes on")


async def main():
    event = asyncio.Event()
    async with asyncio.TaskGroup() as g:
        g.create_task(waits(event, "first"))
        g.create_task(waits(event, "second"))
        await asyncio.sleep(0.01)
        print("set")
        event.set()
        g.create_task(waits(event, "late"))


asyncio.run(main())
