"""A server that sends back lines, and its news: python3 echo_server.py SIZE NEWS. Compare scripts/echo_server.aio; outside.py
has what is asyncio's own here."""

import asyncio
import sys

from outside import Selector, Socket, run

LISTENER = Socket()


async def echo(reader, writer):
    while line := await reader.readline():
        writer.write(line)
        await writer.drain()
    writer.close()


async def serve(_):
    server = await asyncio.start_server(echo, sock=LISTENER)
    await asyncio.sleep(1_000_000)
    server.close()
    print("served until", int(asyncio.get_running_loop().time()))


def calls(count):
    """So many clients call, a hundred at a time; gives their sockets."""
    clients = []
    while len(clients) < count:
        some = [Socket() for _ in range(min(100, count - len(clients)))]
        LISTENER.pieces.extend(some)
        clients += some
        yield [LISTENER]
    return clients


def says(clients, piece):
    for client in clients:
        client.pieces.append(piece)
    return clients


def line_of(number):
    return b"a line with the number %06d\n" % number


def many_news(clients, lines):
    """All clients say so many lines, and hang up."""
    clients = yield from calls(clients)
    for number in range(lines):
        yield says(clients, line_of(number))
    yield says(clients, b"")


def single_news(count):
    """A client calls, says a line and hangs up before the next one calls."""
    for number in range(count):
        clients = yield from calls(1)
        yield says(clients, line_of(number % 1_000_000))
        yield says(clients, b"")


def idle_news(count):
    """One client says a thousand lines, and so many others nothing."""
    clients = yield from calls(count + 1)
    for number in range(1_000):
        yield says(clients[:1], line_of(number))
    yield says(clients, b"")


NEWS = {
    "echo_clients": lambda n: many_news(n, 100),
    "echoes": lambda n: many_news(n, 1_000),
    "echo_lines": lambda n: many_news(1_000, n),
    "echo_singly": single_news,
    "echo_idle": idle_news,
}

run(serve, Selector(NEWS[sys.argv[2]](int(sys.argv[1]))))
