import asyncio


async def main():
    t = asyncio.current_task()
    t.cancel()
    print(t.uncancel())
    await asyncio.sleep(0)
    print("not thrown")


asyncio.run(main())
