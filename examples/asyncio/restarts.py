import asyncio
from asyncio.subprocess import PIPE


def shown(said):
    return repr(said).replace("'", '"')


async def keeps_up(name, words, most):
    starts, code = 0, None
    while starts < most and code != 0:
        if starts > 0:
            await asyncio.sleep(0.1 * starts)
        starts += 1
        p = await asyncio.create_subprocess_exec(*words, stdin=PIPE, stdout=PIPE)
        p.stdin.close()
        said = await p.stdout.read()
        code = await p.wait()
        print(name, shown(said), code)
    return starts


async def main():
    fails = ["sh", "-c", "echo up; exit 3"]
    ends = ["sh", "-c", "sleep 0.05; echo well"]
    one = asyncio.create_task(keeps_up("fails", fails, 3))
    two = asyncio.create_task(keeps_up("ends", ends, 3))
    n, m = await one, await two
    print("starts", n, m)


asyncio.run(main())
