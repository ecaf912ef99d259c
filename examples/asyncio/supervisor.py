import asyncio


async def worker(name, n, fails):
    try:
        await asyncio.sleep(n / 1000)
        if fails:
            raise ValueError(name)
        print(name, "is done")
    except asyncio.CancelledError:
        print(name, "is cancelled")
        raise


async def main():
    try:
        async with asyncio.TaskGroup() as g:
            g.create_task(worker("quick", 5, False))
            g.create_task(worker("faulty", 10, True))
            g.create_task(worker("slow", 100, False))
    except ExceptionGroup as e:
        print("failed", repr(e).replace("'", '"'))


asyncio.run(main())
