"""A list that grows by one item, n times: each is a new list. Compare scripts/appends.aio."""

from virtual import run


async def bench(n):
    xs = []
    i = 0
    while i < n:
        xs = xs + [i]
        i = i + 1
    print("appended", len(xs))


run(bench)
