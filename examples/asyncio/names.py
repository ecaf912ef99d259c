import asyncio


class Came(asyncio.DatagramProtocol):
    def __init__(self):
        self.queue = asyncio.Queue()

    def datagram_received(self, data, address):
        self.queue.put_nowait((address[1], data))


async def opens(port):
    return await asyncio.get_running_loop().create_datagram_endpoint(Came, ("127.0.0.1", port))


def address_of(name):
    return b"127.0.0.1" if name == b"one.test" else b"?"


async def serves(transport, came):
    while True:
        port, name = await came.queue.get()
        transport.sendto(address_of(name), ("127.0.0.1", port))


async def asks(transport, came, name):
    async with asyncio.timeout(0.5):
        transport.sendto(name, ("127.0.0.1", 8853))
        port, heard = await came.queue.get()
    return heard


def shown(heard):
    return repr(heard).replace("'", '"')


async def main():
    server, asked = await opens(8853)
    client, heard = await opens(8854)
    t = asyncio.create_task(serves(server, asked))
    print("one.test", shown(await asks(client, heard, b"one.test")))
    print("two.test", shown(await asks(client, heard, b"two.test")))
    t.cancel()
    server.close()
    client.close()


asyncio.run(main())
