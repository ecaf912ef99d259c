"""Checks tools/explain and tools/journal: what they say of scripts that are refused, read, or long enough, and what they refuse."""

from .common import example

# A script, the line and the cause at which it is refused, and a slip that is named.
REFUSED = (
    ("def main()\n  for i in x\n  end\nend\n", 2, 2, "there is no `for`"),
    ("def main()\n  x = 'a'\nend\n", 2, 1, "texts have double quotes"),
    ("def main()\n  if True\n    pass\nend\n", 5, 3, "an `end` is missing"),
    ("def main()\n  text = 1\nend\n", 2, 4, "the language's own name"),
)


def check_explain(checks):
    for number, (script, line, cause, slip) in enumerate(REFUSED):
        path = checks.file(f"refused{number}.aio", script)
        out, told, status = checks.tool("explain", path)
        checks.same(status, 3, f"the status of a refused script {number}")
        checks.that(f"line {line}:" in out and f"cause {cause}," in out and slip in out, f"script {number} is explained by {out!r}")
    out, told, status = checks.tool("explain", example("deadline", ".aio"))
    checks.that(status == 0 and "nothing is wrong" in out, f"a script that is read is explained by {out!r}")
    checks.refused("explain", [], "its words are")
    checks.refused("explain", ["/nowhere"], "no such file")


def check_journal(checks):
    out, told, status = checks.tool("journal", example("sleep", ".aio"))
    # the sleep is over at 10; the first select and the last two don't wait
    checks.same((out, told, status), ("turn 0\nturn 10\nturn 10\nturn 10\n", "= returned None\n", 0), "a journal for examples/sleep.aio")
    checks.refused("journal", [], "its words are")
    checks.refused("journal", ["/nowhere"], "no such file")


def check(checks):
    check_explain(checks)
    check_journal(checks)
