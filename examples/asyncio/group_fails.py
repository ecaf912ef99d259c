import asyncio


async def bad():
    raise ValueError("a")


async def main():
    t = asyncio.current_task()
    try:
        async with asyncio.TaskGroup() as g:
            g.create_task(bad())
    except ExceptionGroup as e:
        print(repr(e).replace("'", '"'), t.cancelling())


asyncio.run(main())
