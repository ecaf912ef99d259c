"""The programs of children.aio on asyncio, or on uvloop: python3 children.py LOOP TASKS COUNT."""

import asyncio
import sys
from asyncio.subprocess import PIPE


async def launches(count):
    while count > 0:
        program = await asyncio.create_subprocess_exec("true", stdin=PIPE, stdout=PIPE, stderr=PIPE)
        program.stdin.close()
        code = await program.wait()
        if code != 0:
            print("code", code)
        count = count - 1


async def bench(tasks, count):
    async with asyncio.TaskGroup() as group:
        for _ in range(tasks):
            group.create_task(launches(count // tasks))


if sys.argv[1] == "uvloop":
    import uvloop

    uvloop.install()
asyncio.run(bench(int(sys.argv[2]), int(sys.argv[3])))
