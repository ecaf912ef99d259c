import asyncio


async def main():
    t = asyncio.current_task()
    async with asyncio.timeout(0.01):
        try:
            await asyncio.sleep(0.1)
        except asyncio.CancelledError:
            t.uncancel()
            raise


asyncio.run(main())
