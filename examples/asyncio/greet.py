import asyncio


async def greets(name, n):
    await asyncio.sleep(n / 1000)
    print("hello", name)
    return len(name)


async def main():
    t = asyncio.create_task(greets("Ada", 20))
    print("begun")
    n = await t
    print("letters", n)


asyncio.run(main())
