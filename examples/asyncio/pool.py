import asyncio


async def asks(pool, name):
    conn = await pool.get()
    try:
        print(name, "over", conn)
        await asyncio.sleep(0.01)
    finally:
        await pool.put(conn)


async def main():
    pool = asyncio.Queue(2)
    await pool.put("first")
    await pool.put("second")
    async with asyncio.TaskGroup() as g:
        for name in "abcd":
            g.create_task(asks(pool, name))
    print(pool.qsize(), "are back")


asyncio.run(main())
