import asyncio


async def w():
    try:
        await asyncio.sleep(1)
    finally:
        print("left")


async def main():
    t = asyncio.create_task(w())
    await asyncio.sleep(0)
    t.cancel()
    await asyncio.sleep(0)


asyncio.run(main())
