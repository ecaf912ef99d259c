import asyncio
from asyncio.subprocess import DEVNULL, PIPE


async def lines(p):
    return [line async for line in p.stdout]


async def watches(words, most):
    try:
        p = await asyncio.create_subprocess_exec(*words, stdin=DEVNULL, stdout=PIPE)
    except OSError:
        return "there is no such program"
    reader = asyncio.create_task(lines(p))
    try:
        async with asyncio.timeout(most):
            await p.wait()
    except TimeoutError:
        p.kill()
    return [await p.wait(), await reader]


def shown(said):
    return str(said).replace("'", '"')


async def main():
    counts = asyncio.create_task(watches(["sh", "-c", "echo one; sleep 0.1; echo two"], 10))
    fails = asyncio.create_task(watches(["sh", "-c", "echo oh no; exit 3"], 10))
    hangs = asyncio.create_task(watches(["sh", "-c", "echo wait; exec sleep 60"], 1))
    missing = asyncio.create_task(watches(["/no/such/program"], 10))
    print("counts", shown(await counts))
    print("fails", shown(await fails))
    print("hangs", shown(await hangs))
    print("missing", shown(await missing))


asyncio.run(main())
