import asyncio


async def consumes(condition, name):
    async with condition:
        print(name, "waits")
        await condition.wait()
        print(name, "goes on")


async def tells(condition, text):
    async with condition:
        print(text)
        condition.notify()


async def main():
    condition = asyncio.Condition()
    async with asyncio.TaskGroup() as g:
        g.create_task(consumes(condition, "a"))
        g.create_task(consumes(condition, "b"))
        await asyncio.sleep(0.01)
        await tells(condition, "one")
        await asyncio.sleep(0.01)
        await tells(condition, "the other")


asyncio.run(main())
