"""n variables of one coroutine, to each of which 1 is added 90 times. Its source is made here, as the script's is."""

from virtual import run


def source(n):
    lines = ["async def bench(n):"]
    lines += [f"    x{i} = 0" for i in range(n)]
    lines += ["    rounds = 0", "    while rounds < 90:"]
    lines += [f"        x{i} = x{i} + 1" for i in range(n)]
    lines += ["        rounds = rounds + 1", f'    print("sum", x{n - 1})']
    return "\n".join(lines)


def made(n):
    names = {}
    exec(source(n), names)
    return names["bench"](n)


run(made)
