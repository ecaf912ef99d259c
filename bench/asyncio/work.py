"""The program and the news that a number makes. Compare ../made.py, which writes its script and its journal; outside.py has
what is asyncio's own here. Each answer of the selector is the next of the journal's, whether or not the loop would wait; but
the time stays 0 until asyncio reads from the connection. The numbers are drawn here, where the script has them in its text."""

import asyncio
import os
import sys

from outside import Selector, Socket, run

sys.path.append(os.path.dirname(os.path.dirname(os.path.abspath(__file__))))
from made import delay, group_size, line_at  # noqa: E402

SOCKET = Socket()


async def w(i, d):
    try:
        async with asyncio.timeout(500):
            await asyncio.sleep(d)
        print(i, "slept")
    except TimeoutError:
        print(i, "late")


async def bench(seed):
    await asyncio.get_running_loop().sock_connect(SOCKET, SOCKET.address)
    reader, _ = await asyncio.open_connection(sock=SOCKET)
    n = 0
    async with asyncio.TaskGroup() as g:
        for task in range(1, group_size(seed) + 1):
            g.create_task(w(task, delay(seed, task)))
        while n < 300:
            await reader.readline()
            n = n + 1
    print(n)


class Answers(Selector):
    def select(self, timeout=None):
        key = self._fd_to_key.get(SOCKET.number)
        if self.now == 0 and (key is None or key.data[0] is None):
            return [(key, key.events)] if key else []
        self.now += 1
        if self.now > 300:
            return []
        SOCKET.pieces.append(line_at(self.now))
        return self.found([SOCKET])


run(bench, Answers(None))
