import asyncio


async def slow(n):
    try:
        await asyncio.sleep(n / 1000)
        return "done"
    except asyncio.CancelledError:
        print("cancelled")
        raise
    finally:
        print("left")


async def main():
    try:
        async with asyncio.timeout(0.05) as t:
            r = await slow(1000)
            print(r)
    except TimeoutError:
        print("too late", t.expired())


asyncio.run(main())
