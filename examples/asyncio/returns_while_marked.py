import asyncio


async def me():
    asyncio.current_task().cancel()
    return 1


async def main():
    t = asyncio.create_task(me())
    try:
        print("returned", await t)
    except asyncio.CancelledError:
        print("cancelled")


asyncio.run(main())
