import asyncio


async def works(lock, name):
    async with lock:
        print(name, "has it")
        await asyncio.sleep(0.01)
        print(name, "lets go")


async def main():
    lock = asyncio.Lock()
    a, b, c = (asyncio.create_task(works(lock, name)) for name in "abc")
    await asyncio.sleep(0.005)
    b.cancel()
    await a
    await c


asyncio.run(main())
