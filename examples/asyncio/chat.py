import asyncio


async def hears(name, guest, guests):
    reader, writer = guest
    while line := await reader.readline():
        said = name + line
        print(repr(said).replace("'", '"'))
        for other in guests:
            if other is not guest:
                other[1].write(said)
    writer.close()


async def ann(reader, writer):
    writer.write(b"is anybody here?\n")
    await reader.readuntil(b"cleo: good night\n")
    writer.close()


async def ben(reader, writer):
    await reader.readuntil(b"ann: is anybody here?\n")
    writer.write(b"I am\n")
    await reader.readuntil(b"cleo: good night\n")
    writer.close()


async def cleo(reader, writer):
    await reader.readuntil(b"ben: I am\n")
    writer.write(b"good night\n")
    writer.close()


async def main():
    first = await asyncio.start_server(ann, "127.0.0.1", 8771)
    second = await asyncio.start_server(ben, "127.0.0.1", 8772)
    third = await asyncio.start_server(cleo, "127.0.0.1", 8773)
    a = await asyncio.open_connection("127.0.0.1", 8771)
    b = await asyncio.open_connection("127.0.0.1", 8772)
    c = await asyncio.open_connection("127.0.0.1", 8773)
    async with asyncio.TaskGroup() as room:
        room.create_task(hears(b"ann: ", a, [a, b, c]))
        room.create_task(hears(b"ben: ", b, [a, b, c]))
        room.create_task(hears(b"cleo: ", c, [a, b, c]))
    print("all are gone")
    first.close()
    second.close()
    third.close()


asyncio.run(main())
