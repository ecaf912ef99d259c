import asyncio
from asyncio.subprocess import PIPE


async def writes(writer, lines):
    for line in lines:
        writer.write(line)
        await writer.drain()
    writer.close()


async def reads(reader):
    async for line in reader:
        print(repr(line).replace("'", '"'))


async def main():
    p = await asyncio.create_subprocess_exec("sort", stdin=PIPE, stdout=PIPE)
    async with asyncio.TaskGroup() as both:
        both.create_task(writes(p.stdin, [b"pear\n", b"apple\n", b"fig\n"]))
        both.create_task(reads(p.stdout))
    print("sort ended with", await p.wait())


asyncio.run(main())
