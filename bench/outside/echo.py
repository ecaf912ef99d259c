"""The server of echo.aio on asyncio, or with the word uvloop on that."""

import asyncio
import sys

HOST = "127.0.0.1"


async def echo(reader, writer):
    while piece := await reader.read(65536):
        writer.write(piece)
        await writer.drain()
    writer.close()


async def main():
    server = await asyncio.start_server(echo, HOST, 8891)
    bell, writer = await asyncio.open_connection(HOST, 8890)
    await bell.read()
    writer.close()
    server.close()


if sys.argv[1] == "uvloop":
    import uvloop

    uvloop.install()
asyncio.run(main())
