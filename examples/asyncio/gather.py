import asyncio


async def square(n):
    await asyncio.sleep(n / 1000)
    return n * n


async def main():
    squares = await asyncio.gather(*(square(n) for n in (3, 2, 1)))
    print(squares)


asyncio.run(main())
