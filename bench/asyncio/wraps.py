"""A list of 524,288 items, of which n others are made that hold it alone. Compare scripts/wraps.aio."""

from virtual import run


async def bench(n):
    items = [0]
    doublings = 0
    while doublings < 19:
        items = items + items
        doublings = doublings + 1
    wraps = 0
    while wraps < n:
        wrapped = [items]
        wraps = wraps + 1
    print("wrapped", len(wrapped[0]), wraps)


run(bench)
