"""Random changes of scripts and journals, for `fuzz`.

A change works on bytes, on lines or on words, several at a time. Words are taken from the languages of both, from the
numbers at which something ends or begins, and from another text.
"""

import re

NUMBERS = [0, 1, 2, 3, 7, 15, 16, 17, 31, 32, 33, 63, 64, 65, 100, 127, 128, 255, 256, 257, 1_000, 4_095, 4_096, 65_535, 65_536]
NUMBERS += [65_537, 99_999, 100_000, 262_144, 262_145, 1_048_575, 1_048_576, 86_400_000, 2_147_483_647, 2_147_483_648]
NUMBERS += [4_294_967_295, 4_294_967_296, 2**63 - 1, 2**63, 2**64 - 1, 2**64, 10**20]
KINDS = """BaseException CancelledError Exception ArithmeticError LookupError OSError RuntimeError TypeError ValueError NameError
EOFError LimitOverrunError InvalidStateError ExceptionGroup OverflowError ZeroDivisionError IndexError RecursionError
IncompleteReadError TimeoutError ConnectionError ConnectionResetError ConnectionRefusedError BrokenPipeError""".split()
RESERVED = """profile def end yield from print raise return pass if else while try except as finally with group timeout and or not
True False None""".split()
FUNCTIONS = "len str bytes text error kind message partial members".split()
REQUESTS = """future() set(f, 1) fail(f, e) done(t) cancelled(t) result(t) cancel(t) cancelling(t) uncancel(t) current() time()
spawn(w) sleep(1) sleep(0) reschedule(o, 5) expired(o) create(g, w) listen(9, w) connect(9) write(c, b"ab") write_eof(c) close(c)
wait_closed(c) drain(c) limits(c, 4, 2) read(c, 3) readexactly(c, 3) readuntil(c, b"x") readline(c) launch(["p"]) stderr(c)
wait(c) returncode(c) kill(c) extra(1, [])""".replace(", ", ",").split()
SYMBOLS = "( ) [ ] , = == != < <= > >= + - * // % # \\ \" b\" \\n \\x41 \\x80 \r \t \x00 \x7f \xff '".split(" ")
LINES = """end
else
finally
pass
yield
return
return 1
try
except Exception as e
except CancelledError
except BaseException as e
while True
if x == 1
with group as g
with timeout(5) as o
with timeout(0) as o
with timeout(None) as o
raise error(ValueError, "v")
raise e
raise 1
def w()
def w(x)
def main()
profile 1
print x
print e
x = x + 1
x = [x]
x = x + x
x = x * 2
x = "a" * 1048575
x = str(x)
t = yield from current()
t = yield from spawn(w)
yield from t
yield from cancel(t)
f = yield from future()
yield from f
x = yield from w()
yield from sleep(10)
c = yield from connect(9)
c = yield from launch(["p"])""".split("\n")
ENTRIES = """turn 0
turn 5
turn 3
turn 9223372036854775807
turn 0 L0 r
turn 0 C0 r
turn 0 C0 w
turn 0 C0 rw
turn 0 C0 up
turn 0 C0 down
turn 0 C1 r
turn 0 P0 w
turn 0 P0 broken
turn 0 P0 out b"ab\\n"
turn 0 P0 outend
turn 0 P0 err b"x"
turn 0 P0 errend
turn 0 P0 exit 0
turn 0 P0 exit -9
turn 0 P0 outend P0 errend P0 exit 1
turn 0 X 1 b"x"
ok
refused
conn
again
broken
eof
child
data b"ab\\n"
data b""
took 1
took 2
took 0
extra b"x\"""".split("\n")
JOURNAL_WORDS = ["turn", "C0", "C1", "L0", "P0", "r", "w", "rw", "up", "down", "out", "outend", "err", "errend", "exit", "broken"]
JOURNAL_WORDS += ['b"x"', 'b"\\xff"', 'b"', "data", "took", "-1", "X", " ", "  "]
SCRIPT_WORDS = [*KINDS, *RESERVED, *FUNCTIONS, *REQUESTS, *SYMBOLS, "x", "t", "f", "e", "g", "o", "c", "w", '"ab"', 'b"ab"', "[1, 2]"]
WORD = re.compile(rb'b?"(?:[^"\\\n]|\\.)*"|\w+|[^\w\s]| +')


def encoded(text):
    return text.encode("latin-1")


def word_of(chance, words):
    return encoded(str(chance.choice(NUMBERS)) if chance.random() < 0.25 else chance.choice(words))


def change_bytes(chance, text, _other, _words, _lines):
    at = chance.randrange(len(text) + 1)
    kind = chance.randrange(3)
    if kind == 0:
        return text[:at] + bytes([chance.randrange(256)]) + text[at + 1 :]
    if kind == 1:
        return text[:at] + text[at + chance.randrange(1, 9) :]
    return text[:at] + bytes([chance.randrange(32, 127)]) + text[at:]


def change_word(chance, text, _other, words, _lines):
    places = list(WORD.finditer(text))
    if not places:
        return word_of(chance, words)
    place = chance.choice(places)
    new = word_of(chance, words)
    kind = chance.randrange(5)
    if kind == 0:
        new = chance.choice(places).group()
    elif kind == 1:
        new = b""
    elif kind == 2:
        new = place.group() + b" " + new
    elif re.fullmatch(rb"\d+", place.group()) and kind == 3:
        new = str(chance.choice(NUMBERS)).encode()
    return text[: place.start()] + new + text[place.end() :]


def change_lines(chance, text, other, _words, lines):
    own = text.split(b"\n")
    at = chance.randrange(len(own))
    size = chance.randrange(1, 5)
    kind = chance.randrange(6)
    if kind == 0:
        del own[at : at + size]
    elif kind == 1:
        own[at:at] = own[at : at + size] * chance.choice((1, 1, 1, 2, 40))
    elif kind == 2:
        with_line = chance.randrange(len(own))
        own[at], own[with_line] = own[with_line], own[at]
    elif kind == 3:
        own.insert(at, encoded(chance.choice(lines)))
    elif kind == 4:
        theirs = other.split(b"\n")
        begin = chance.randrange(len(theirs))
        own[at:at] = theirs[begin : begin + size]
    else:
        return b"\n".join(own[: at + 1])
    return b"\n".join(own)


def wrap(chance, text, _other, _words, lines):
    """A block round some lines, so that a script stays one."""
    own = text.split(b"\n")
    begin = chance.randrange(len(own))
    end = chance.randrange(begin, min(len(own), begin + 8))
    heads = ["if True", "while True", "with group as g", "with timeout(5) as o", "with timeout(None) as o"]
    if lines is LINES and chance.random() < 0.5:
        head, tail = [b"try"], [encoded(chance.choice(LINES[8:11])), b"x = 1", b"end"]
    else:
        head, tail = [encoded(chance.choice(heads))], [b"end"]
    return b"\n".join(own[:begin] + head + own[begin:end] + tail + own[end:])


def add_request(chance, text, _other, _words, _lines):
    """A whole line that is a form, so that more scripts are read."""
    own = text.split(b"\n")
    at = chance.randrange(len(own))
    request = encoded(chance.choice(REQUESTS))
    own.insert(at, chance.choice((b"yield from ", b"x = yield from ", b"e = yield from ")) + request)
    return b"\n".join(own)


def changed(chance, text, other, words, lines, changes):
    for _ in range(chance.choice((1, 1, 1, 2, 2, 3, 5, 8))):
        text = chance.choice(changes)(chance, text, other, words, lines)
    return text


def change_script(chance, text, other):
    changes = [change_bytes, change_word, change_word, change_lines, change_lines, change_lines, wrap, add_request, add_request]
    return changed(chance, text, other, SCRIPT_WORDS, LINES, changes)


def change_journal(chance, text, other):
    changes = [change_bytes, change_word, change_lines, change_lines, change_lines]
    return changed(chance, text, other, JOURNAL_WORDS, ENTRIES, changes)
