import asyncio


async def greets(reader, writer):
    writer.write(b"welcome\n")
    writer.close()


async def keeps_silent(reader, writer):
    await reader.read()
    writer.close()


async def scans(port):
    writer = None
    try:
        async with asyncio.timeout(1):
            reader, writer = await asyncio.open_connection("127.0.0.1", port)
            line = await reader.readline()
            return repr(line).replace("'", '"')
    except ConnectionRefusedError:
        return "closed"
    except TimeoutError:
        return "silent"
    finally:
        if writer:
            writer.close()


async def main():
    one = await asyncio.start_server(greets, "127.0.0.1", 8782)
    two = await asyncio.start_server(keeps_silent, "127.0.0.1", 8785)
    tasks = [asyncio.create_task(scans(port)) for port in range(8780, 8790)]
    for port, task in enumerate(tasks, 8780):
        answer = await task
        if answer != "closed":
            print(port, answer)
    one.close()
    two.close()


asyncio.run(main())
