import asyncio


async def w():
    print("once")


async def main():
    t = asyncio.create_task(w())
    await asyncio.sleep(0)
    print(t.cancel())
    await asyncio.sleep(0)


asyncio.run(main())
