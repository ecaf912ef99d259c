import asyncio


def reversed_text(data):
    return data[::-1].decode()


def hexadecimal(data):
    return data.hex()


def newlines(data):
    return str(data.count(b"\n"))


async def ticks():
    print("tick")
    await asyncio.sleep(0.05)
    print("tick")


async def main():
    t = asyncio.create_task(ticks())
    a = asyncio.create_task(asyncio.to_thread(reversed_text, b"abc"))
    b = asyncio.create_task(asyncio.to_thread(hexadecimal, b"abc"))
    c = asyncio.create_task(asyncio.to_thread(newlines, b"one\ntwo\n"))
    rs = await asyncio.gather(a, b, c)
    print(rs[0], rs[1], rs[2])
    await t


asyncio.run(main())
