import asyncio


async def races(n):
    await asyncio.sleep(n / 1000)
    return n


async def main():
    tasks = [asyncio.create_task(races(30)), asyncio.create_task(races(10))]
    done, pending = await asyncio.wait(tasks, return_when=asyncio.FIRST_COMPLETED)
    print("first", *(t.result() for t in done))
    for t in pending:
        t.cancel()


asyncio.run(main())
