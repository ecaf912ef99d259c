import asyncio


async def site(reader, writer):
    path = await reader.readline()
    if len(path) < 4:
        writer.write(b"0" + path)
        writer.write(b"1" + path)
    writer.close()


async def fetches(pool, path):
    token = await pool.get()
    try:
        reader, writer = await asyncio.open_connection("127.0.0.1", 8769)
        try:
            writer.write(path)
            links = []
            while line := await reader.readline():
                links.append(line)
            return links
        finally:
            writer.close()
    finally:
        await pool.put(token)


async def works(pages, pool, told):
    while True:
        path = await pages.get()
        links = await fetches(pool, path)
        for link in links:
            await pages.put(link)
        await told.put((path, len(links)))


async def main():
    server = await asyncio.start_server(site, "127.0.0.1", 8769)
    pages, told, pool = asyncio.Queue(), asyncio.Queue(), asyncio.Queue(2)
    await pool.put("first")
    await pool.put("second")
    await pages.put(b"/\n")
    workers = [asyncio.create_task(works(pages, pool, told)) for _ in range(3)]
    left, seen = 1, 0
    while left > 0:
        path, links = await told.get()
        seen, left = seen + 1, left - 1 + links
    print("pages", seen)
    for worker in workers:
        worker.cancel()
    server.close()


asyncio.run(main())
