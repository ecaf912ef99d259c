import asyncio


async def main():
    when = asyncio.get_running_loop().time() + 0.01
    try:
        async with asyncio.timeout_at(when):
            try:
                async with asyncio.timeout_at(when):
                    await asyncio.sleep(0.1)
            except asyncio.CancelledError:
                print("inner passed")
                raise
    except TimeoutError:
        print("outer is over")


asyncio.run(main())
