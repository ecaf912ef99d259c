"""Checks tools/shrink: journals that it makes as small as the rules allow, one of ten thousand lines among them, and what it
refuses. The least journals are worked out by hand from docs/JOURNAL.md and docs/STREAMS.md.
"""

import os
import re
import signal
import subprocess
import sys
import time

from looking.program import replayed

from .common import TOOLS, example

SERVER = """def handle(c)
  line = yield from readline(c)
  while len(line) > 0
    if line == b"bad\\n"
      print "broken by", c
      raise error(ValueError, "bad line")
    end
    yield from write(c, line)
    yield from drain(c)
    line = yield from readline(c)
  end
  yield from close(c)
end
def main()
  s = yield from listen(8765, handle)
  yield from sleep(1000000)
  yield from close(s)
end
"""
# Main listens; the connection is accepted; its handler is made and it begins to read; the line comes; the handler reads it.
BROKEN = """turn 0
ok
turn 0 L0 r
conn
again
turn 0
turn 0 C0 r
data b"bad\\n"
turn 0
"""
# Main listens; T1 connects, and T2 and T3 find nothing to do; the second is over; T1 gives its connection up, and says so.
LATE = "turn 0\nok\nturn 0\nconn\nturn 1000\nturn 1000\nok\n"
# The timeout is over after 50; the step in which it is heard; and the turn in which the loop learns that main is done.
DEADLINE = "turn 0\nturn 50\nturn 50\nturn 50\n"


def served(clients, bad):
    """What a server is told by clients that come one after the other, each with two lines and its end; one of them is bad."""
    lines, now = ["turn 0", "ok"], 0
    for client in range(clients):
        now += client % 5
        said = 'b"a line of some length\\nbad\\n"' if client == bad else 'b"a line of some length\\nand more\\n"'
        lines += [f"turn {now} L0 r", "conn", "again", f"turn {now}", f"turn {now} C{client} r", f"data {said}", f"turn {now}", "took 22"]
        if client == bad:
            lines += [f"turn {now}", f"turn {now}", "ok"]
            continue
        lines += ["took 9", f"turn {now} C{client} r", "eof", f"turn {now}", f"turn {now}", "ok"]
    return "\n".join(lines) + "\n"


def shrunk(checks, name, words, wanted, seconds=60):
    out, told, status = checks.tool("shrink", *words, seconds=seconds + 20)
    checks.same((status, out), (0, wanted), f"shrink of {name}")
    checks.that(" -> " in told and "shrink: kept `" in told, f"shrink of {name} tells {told!r}")
    return told


def check_least(checks):
    shrunk(checks, "the crawler", [example("crawler", ".aio"), example("crawler", ".journal"), "--keeps", "is too late"], LATE)
    padded = checks.file("padded.journal", "".join(f"turn {now}\n" for now in (0, 3, 17, 49, 50, 61, 90, 91, 92)) + "no answer\n")
    shrunk(checks, "deadline", [example("deadline", ".aio"), padded, "--keeps", "^= returned None$"], DEADLINE)


def check_server(checks, clients):
    script, journal = checks.file("server.aio", SERVER), checks.file("server.journal", served(clients, clients - 8))
    with open(journal, "rb") as file:
        last = replayed(checks.program, script, file.read())[0].decode().split("\n")
    checks.that(f"T{clients - 7} broken by C{clients - 8}" in last, f"the server's journal says {last[-3:]}")
    began = time.monotonic()
    told = shrunk(checks, f"a server of {clients} clients", [script, journal, "--keeps", "broken by C"], BROKEN)
    checks.that(time.monotonic() - began < 60, f"a server of {clients} clients takes {time.monotonic() - began:.0f} s: {told}")
    check_interrupted(checks, script, journal)


def check_interrupted(checks, script, journal):
    """Ended by Ctrl-C it writes what it came to, and so does the file that it keeps."""
    kept = os.path.join(checks.folder, "kept.journal")
    words = [sys.executable, os.path.join(TOOLS, "shrink"), script, journal, "--keeps", "broken by C", "--to", kept, "--program", checks.program]
    run = subprocess.Popen(words, stdin=subprocess.DEVNULL, stdout=subprocess.PIPE, stderr=subprocess.PIPE)
    first = run.stderr.readline()
    run.send_signal(signal.SIGINT)
    out, told = run.communicate(timeout=60)
    if b" -> " not in first:
        checks.that(False, f"a shrink that is to be stopped tells {first!r}")
        return
    checks.same(run.returncode, 0, "the status of a shrink that was stopped")
    checks.that(b"was stopped" in told or out.decode() == BROKEN, f"a shrink that was stopped tells {told!r}")
    with open(kept, "rb") as file:
        checks.that(file.read() == out, "the file that is kept isn't what is written")
    checks.that(re.search(rb"broken by C", replayed(checks.program, script, out)[0]) is not None, "a shrink that was stopped lost the line")


def check_refusals(checks):
    script, journal = example("deadline", ".aio"), example("deadline", ".journal")
    keeps = ["--keeps", "late"]
    checks.refused("shrink", [script, journal], "its words are")
    checks.refused("shrink", [script, "--keeps", "x"], "its words are")
    checks.refused("shrink", [script, journal, "--keeps"], "wants something behind it")
    checks.refused("shrink", [script, journal, "--keeps", "("], "no regular expression")
    checks.refused("shrink", [script, journal, *keeps, "--seconds", "soon"], "no number of seconds")
    checks.refused("shrink", [script, journal, *keeps, "--nope"], "no such option")
    checks.refused("shrink", [script, journal, "--keeps", "never said"], "no line of the run matches")
    checks.refused("shrink", [script, "/nowhere", *keeps], "/nowhere: no such file")
    checks.refused("shrink", ["/nowhere", journal, *keeps], "/nowhere: no such file")
    checks.refused("shrink", [example("two_faults", ".aio"), journal, *keeps], "line 3 is refused by cause 2")
    checks.refused("shrink", [script, checks.file("noise", bytes(range(256))), *keeps], "! journal 1 1")
    checks.refused("shrink", [script, journal, *keeps, "--program", "/nowhere"], "no program that can be run")


def check(checks):
    check_least(checks)
    check_server(checks, 770)
    check_refusals(checks)
