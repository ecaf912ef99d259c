import asyncio


async def site(reader, writer):
    path = await reader.readline()
    if path == b"10/\n":
        await asyncio.sleep(60)
    if len(path) < 4:
        writer.write(b"0" + path)
        writer.write(b"1" + path)
    writer.close()


async def fetches(path):
    reader, writer = await asyncio.open_connection("127.0.0.1", 8768)
    try:
        writer.write(path)
        return [line async for line in reader]
    finally:
        writer.close()


async def works(path):
    try:
        return await asyncio.wait_for(fetches(path), 1)
    except TimeoutError:
        print(shown(path), "is too late")
        return []


def shown(value):
    return repr(value).replace("'", '"')


async def main():
    server = await asyncio.start_server(site, "127.0.0.1", 8768)
    paths = [b"/\n"]
    while paths:
        print(shown(paths))
        found = await asyncio.gather(*(works(path) for path in paths))
        paths = [link for links in found for link in links]
    server.close()


asyncio.run(main())
