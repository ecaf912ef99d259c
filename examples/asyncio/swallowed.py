import asyncio


async def w():
    try:
        await asyncio.sleep(0.1)
    except asyncio.CancelledError:
        print("swallowed")
    async with asyncio.timeout(0.01):
        await asyncio.sleep(0.1)


async def main():
    t = asyncio.create_task(w())
    await asyncio.sleep(0)
    t.cancel()
    try:
        await t
    except TimeoutError:
        print("timed out", t.cancelling())


asyncio.run(main())
