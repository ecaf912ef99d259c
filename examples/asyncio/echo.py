import asyncio


async def echo(reader, writer):
    while piece := await reader.read(65536):
        writer.write(piece)
        await writer.drain()
    writer.close()


async def says(piece):
    reader, writer = await asyncio.open_connection("127.0.0.1", 8765)
    writer.write(piece)
    writer.write_eof()
    heard = await reader.read()
    writer.close()
    await writer.wait_closed()
    return heard


def shown(heard):
    return repr(heard).replace("'", '"')


async def main():
    server = await asyncio.start_server(echo, "127.0.0.1", 8765)
    one = asyncio.create_task(says(b"hello\n"))
    two = asyncio.create_task(says(b"first\nsecond\n"))
    none = asyncio.create_task(says(b""))
    print("one", shown(await one))
    print("two", shown(await two))
    print("none", shown(await none))
    server.close()


asyncio.run(main())
