import asyncio


async def work():
    await asyncio.sleep(0.02)
    return "done"


async def waits(t):
    try:
        print("got", await asyncio.shield(t))
    except asyncio.CancelledError:
        print("waits no more")
        raise


async def main():
    t = asyncio.create_task(work())
    w = asyncio.create_task(waits(t))
    await asyncio.sleep(0.01)
    w.cancel()
    print("work is", await t)


asyncio.run(main())
