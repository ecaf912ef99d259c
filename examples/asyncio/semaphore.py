import asyncio


async def works(semaphore, name):
    async with semaphore:
        print(name, "in")
        await asyncio.sleep(0.01)
        print(name, "out")


async def main():
    semaphore = asyncio.Semaphore(2)
    async with asyncio.TaskGroup() as g:
        for name in "abc":
            g.create_task(works(semaphore, name))


asyncio.run(main())
