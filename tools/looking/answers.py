"""A journal's answers as data that can be made smaller: turns with their items, and the answers to other calls."""

from .trace import content, items_of, words_of
from .values import shown

# What is the simplest answer to a call, where one is missing.
PLAIN = {"listen": "ok", "accept": "again", "connect": "refused", "recv": "again", "shut": "ok", "close": "ok", "end": "ok",
         "kill": "ok", "launch": "refused", "extra": "refused"}
FITS = {"select": {"turn"}, "listen": {"ok", "refused"}, "accept": {"conn", "again", "broken"}, "connect": {"conn", "refused"},
        "recv": {"data", "eof", "again", "broken"}, "send": {"took", "again", "broken"}, "feed": {"took", "again", "broken"},
        "shut": {"ok"}, "close": {"ok"}, "end": {"ok"}, "kill": {"ok"}, "launch": {"child", "refused"}, "extra": {"extra", "refused"}}


class Turn:
    """The answer to a select: its time, and its items as tuples of whom, what and perhaps a content."""

    __slots__ = ("time", "items", "line", "size")

    def __init__(self, time, items):
        self.time, self.items = time, tuple(items)
        self.line = " ".join(["turn", str(time), *(" ".join(map(worded, item)) for item in self.items)]) + "\n"
        self.size = (len(self.items), sum(len(item[-1]) for item in self.items if isinstance(item[-1], bytes)))

    def at(self, time):
        return self if time == self.time else Turn(time, self.items)

    def having(self, items):
        return Turn(self.time, items)


class Other:
    """Another answer: its word, and a content where it has one."""

    __slots__ = ("word", "content", "line", "size")

    def __init__(self, word, content=None):
        self.word, self.content = word, content
        self.line = (word if content is None else f"{word} {worded(content)}") + "\n"
        self.size = (0, len(content) if isinstance(content, bytes) else 0)


def worded(part):
    return shown(part) if isinstance(part, bytes) else str(part)


def read(line):
    """The answer of a journal's line."""
    words = words_of(line)
    if words[0] == "turn":
        return Turn(int(words[1]), items_of(words))
    return Other(words[0], content(words[1]) if len(words) > 1 else None)


def written(answers):
    return "".join([answer.line for answer in answers]).encode("latin-1")


def is_turn(answer):
    return isinstance(answer, Turn)


def fits(call, answer):
    """Whether an answer is one of those that a call may have, its items and numbers not looked at."""
    return ("turn" if is_turn(answer) else answer.word) in FITS.get(call[0], ())


def plain(call, time):
    """The simplest answer to a call: of a select the time at which its wait is over, or None where nobody can tell."""
    if call[0] == "select":
        return Turn(time + int(call[1]), ()) if call[1] != "none" else None
    if call[0] in ("send", "feed"):
        return Other("took", len(content(call[2])))
    return Other(PLAIN[call[0]]) if call[0] in PLAIN else None


def watched(call):
    """The letters that a select watches, by whom."""
    words = call[2:]
    return {words[at]: words[at + 1] if at + 1 < len(words) else "" for at in range(0, len(words), 2)}


def is_watched(item, letters):
    if item[0] == "X":
        return "X" in letters
    held = letters.get(item[0], "")
    wanted = {"up": "c", "down": "c", "broken": "b", "out": "o", "outend": "o", "err": "e", "errend": "e", "exit": "x"}.get(item[1])
    return bool(held) and set(wanted or item[1]) <= set(held)


def weight(answers):
    """What is made smaller: how many answers and items there are, then their bytes, then the time that passes and the text."""
    times = max([answer.time for answer in answers if is_turn(answer)], default=0)
    sizes = [answer.size for answer in answers]
    return (len(answers), sum(items for items, _ in sizes), sum(held for _, held in sizes), times, strange(answers))


def strange(answers):
    """How many bytes are neither the letter a nor a newline."""
    pieces = [piece for answer in answers if answer.size[1] for piece in pieces_of(answer)]
    return sum(len(piece) - piece.count(b"a") - piece.count(b"\n") for piece in pieces)


def pieces_of(answer):
    parts = [item[-1] for item in answer.items] if is_turn(answer) else [answer.content]
    return [part for part in parts if isinstance(part, bytes)]
