import asyncio


async def part(name, n):
    try:
        await asyncio.sleep(n / 1000)
        print(name, "came")
    finally:
        print(name, "left")


async def main():
    try:
        async with asyncio.timeout(0.05):
            async with asyncio.TaskGroup() as parts:
                parts.create_task(part("quick", 20))
                parts.create_task(part("slow", 200))
    except TimeoutError:
        print("too late")


asyncio.run(main())
