import asyncio


async def child():
    try:
        await asyncio.sleep(1)
    finally:
        print("left")


async def parent():
    async with asyncio.TaskGroup() as g:
        g.create_task(child())


async def main():
    t = asyncio.create_task(parent())
    await asyncio.sleep(0)
    await asyncio.sleep(0)
    t.cancel()
    try:
        await t
    except asyncio.CancelledError:
        print("cancelled", t.cancelling())


asyncio.run(main())
