"""Makes a journal smaller while its replay still says something that a pattern matches.

Each try leaves something out, or makes it simpler, and asks `replay`. Where that says which answer doesn't fit, the journal is
put right there: an item that nobody watches goes, an answer to a call that isn't asked goes, one that is missing is added.
"""

import time

from .answers import Other, Turn, fits, is_turn, is_watched, plain, read, watched, weight, written
from .trace import words_of

# How often one try is put right, and how many answers are added behind its last.
MOST_REPAIRS, MOST_ADDED = 48, 8


class Enough(Exception):
    """The time is over, or somebody asked to stop."""


class Shrinking:
    """The least journal so far, in `best`. `ask` replays bytes and answers the text; `tell` is told of each step."""

    def __init__(self, ask, pattern, tell, seconds):
        self.ask, self.pattern, self.tell = ask, pattern, tell
        self.until, self.replays, self.seen = time.monotonic() + seconds, 0, set()
        # the calls of the best, as texts, and the line that it keeps
        self.best, self.called, self.line = [], [], ""
        # parts of a journal are left out down to so small a share of it; None: down to the smallest
        self.shares = None

    # ---- one replay
    def replay(self, answers, trace=False):
        if time.monotonic() > self.until:
            raise Enough
        self.replays += 1
        return self.ask(written(answers), trace).split("\n")[:-1]

    def matched(self, lines):
        """The place of the first line that matches, of those that a run says without a trace, or None."""
        return next((at for at, line in enumerate(lines) if self.pattern.search(line)), None)

    def cut(self, answers):
        """What of the answers is had before the line that matches, or None; and that line."""
        had, calls = 0, []
        for line in self.replay(answers, trace=True):
            if line.startswith("< "):
                had += 1
            elif line.startswith("> "):
                calls.append(line[2:])
            elif not line.startswith(". ") and self.pattern.search(line):
                self.called = calls
                return answers[:had], line
        return None, ""

    # ---- a try, with what follows put right
    def kept(self, answers):
        """Whether a journal keeps the line, perhaps put right; then it is the best so far, if it is less."""
        if not answers or weight(answers) >= weight(self.best):
            return False
        last, added = -1, 0
        for _ in range(MOST_REPAIRS):
            text = hash(written(answers))
            if text in self.seen or len(answers) > len(self.best) or added > MOST_ADDED:
                return False
            self.seen.add(text)
            lines = self.replay(answers)
            if self.matched(lines) is not None:
                return self.takes(answers)
            held, (at, answers) = len(answers), repaired(lines[-1] if lines else "", answers)
            if answers is None or at < last:
                return False
            last, added = at, added + (at == held)
        return False

    def takes(self, answers):
        before = self.called
        less, line = self.cut(answers)
        if less is None or weight(less) >= weight(self.best):
            self.called = before
            return False
        self.best, self.line = less, line
        self.tell(self)
        return True

    def begin(self, answers):
        """Whether the journal as it is has a line that matches."""
        less, line = self.cut(answers)
        if less is None:
            return False
        self.best, self.line = less, line
        self.tell(self)
        return True

    # ---- the passes; each answers whether something became less
    def shrink(self):
        """What was opened first, then large parts of the rest, so that a run that needs much gets somewhere; then all parts."""
        self.drop_opened()
        self.shares = 32
        for passes in (self.drop_turns, self.drop_items, self.drop_answers, self.hasten_all):
            passes()
        self.shares, before = None, None
        while before != weight(self.best):
            before = weight(self.best)
            for passes in (self.drop_opened, self.drop_turns, self.drop_items, self.join_turns, self.drop_answers,
                           self.shorten, self.hasten_all, self.hasten, self.simplify):
                passes()

    def without(self, parts_of, drop):
        """Leaves out parts of the best, half of them at first, then fewer at once, from the end on."""
        size = max(len(parts_of(self.best)) // 2, 1)
        least = max(len(parts_of(self.best)) // self.shares, 1) if self.shares else 1
        while True:
            end = len(parts_of(self.best))
            while end > 0:
                parts = parts_of(self.best)
                end = min(end, len(parts))
                if end > 0:
                    self.kept(drop(self.best, parts[max(end - size, 0):end]))
                end -= size
            if size <= least:
                return
            size = max(size // 2, 1)

    def drop_opened(self):
        """Connections that were accepted or made, and children, with all that is said of them; later ones get their numbers."""
        self.without(opened, lambda answers, names: without_opened(self.called, answers, names))

    def drop_turns(self):
        self.without(blocks, lambda answers, gone: [answer for at, answer in enumerate(answers) if not within(at, gone)])

    def drop_items(self):
        self.without(items_in, lambda answers, gone: without_items(answers, gone, self.called))
        self.without(items_in, without_items)

    def drop_answers(self):
        self.without(lambda answers: [at for at, answer in enumerate(answers) if not is_turn(answer)],
                     lambda answers, gone: [answer for at, answer in enumerate(answers) if at not in set(gone)])

    def join_turns(self):
        """What comes in two turns comes in one."""
        at = len(blocks(self.best)) - 2
        while at >= 0:
            parts = blocks(self.best)
            if at + 1 < len(parts):
                (a, b), (c, d) = parts[at], parts[at + 1]
                one, two = self.best[a], self.best[c]
                joined = [Turn(two.time, one.items + two.items), *self.best[a + 1:b], *self.best[c + 1:d]]
                self.kept([*self.best[:a], *joined, *self.best[d:]])
            at -= 1

    def shorten(self):
        """Bytes become fewer: half of them goes, then a quarter, and so on."""
        for place in places_of_bytes(self.best):
            size = len(held_at(self.best, place) or b"") // 2
            while size >= 1:
                start = 0
                while start < len(held_at(self.best, place) or b""):
                    data = held_at(self.best, place)
                    less = data[:start] + data[start + size:]
                    if not less or not self.kept(with_bytes(self.best, place, less)):
                        start += size
                size //= 2

    def simplify(self):
        """Bytes become the letter a, but for newlines; what was taken in parts is taken whole."""
        for place in places_of_bytes(self.best):
            data = held_at(self.best, place)
            if data is not None:
                self.kept(with_bytes(self.best, place, bytes(byte if byte == 10 else 97 for byte in data)))

    def hasten_all(self):
        """Times come nearer: the waits between turns go, many at once and then fewer."""
        self.without(later_turns, lambda answers, gone: hastened(answers, gone, 0))

    def hasten(self):
        """The waits that are left become shorter, one by one."""
        for at in reversed(later_turns(self.best)):
            low, high = 0, delta(self.best, at)
            while high - low > 1:
                middle = (low + high) // 2
                if self.kept(hastened(self.best, [at], middle)):
                    high = middle
                else:
                    low = middle


# ---- what a replay says, and what is put right
def repaired(last, answers):
    """Where the replay ended, and the answers put right there; None where that can't be."""
    words = last.split(" ", 3 if last.startswith("! mismatch") else 2)
    if last.startswith("! mismatch "):
        at = int(words[2]) - 1
        return at, put_right(words_of(words[3]), at, answers)
    if last.startswith("! over "):
        answer = plain(words_of(words[2]), time_before(answers, len(answers)))
        return len(answers), None if answer is None else [*answers, answer]
    return -1, None


def time_before(answers, at):
    return max((answer.time for answer in answers[:at] if is_turn(answer)), default=0)


def put_right(call, at, answers):
    answer = answers[at]
    if call[0] == "select" and is_turn(answer):
        letters = watched(call)
        kept = [item for item in once(answer.items) if is_watched(item, letters)]
        return None if len(kept) == len(answer.items) else [*answers[:at], answer.having(kept), *answers[at + 1:]]
    if answer_of_kind(call, answer):
        return [*answers[:at], Other("took", len(plain_bytes(call))), *answers[at + 1:]] if answer.word == "took" else None
    more = at
    while more < len(answers) and not fits(call, answers[more]) and not is_turn(answers[more]):
        more += 1
    if more > at and more < len(answers) and fits(call, answers[more]):
        return [*answers[:at], *answers[more:]]
    if call[0] == "select":
        return None
    answer = plain(call, time_before(answers, at))
    return None if answer is None else [*answers[:at], answer, *answers[at:]]


def answer_of_kind(call, answer):
    return not is_turn(answer) and fits(call, answer)


def plain_bytes(call):
    return plain(call, 0).content * b" " if call[0] in ("send", "feed") else b""


def once(items):
    """Items without those that stand twice."""
    seen = set()
    for item in items:
        mark = (item[0], item[1] if item[0][0] == "P" else "")
        if item[0] == "X" or mark not in seen:
            seen.add(mark)
            yield item


# ---- parts of a journal
def blocks(answers):
    """The turns: each from its own answer up to the next turn's."""
    starts = [at for at, answer in enumerate(answers) if is_turn(answer)]
    return list(zip(starts, [*starts[1:], len(answers)]))


def within(at, spans):
    return any(first <= at < end for first, end in spans) if len(spans) < 3 else spans[0][0] <= at < spans[-1][1]


def items_in(answers):
    return [(at, place) for at, answer in enumerate(answers) if is_turn(answer) for place in range(len(answer.items))]


def without_items(answers, gone, calls=None):
    """Items go, and by the calls also the answers that were asked for them; without those `repaired` finds it out."""
    gone, asked = set(gone), set()
    for at, place in gone if calls else ():
        asked.update(asked_for(answers, at, answers[at].items[place], calls))
    return [answer.having(item for place, item in enumerate(answer.items) if (at, place) not in gone)
            if is_turn(answer) else answer for at, answer in enumerate(answers) if at not in asked]


def asked_for(answers, at, item, calls):
    """The places of the answers, of the same turn, that an item of it has asked for."""
    words = {"r": (f"recv {item[0]} ", f"accept {item[0]}"), "w": (f"send {item[0]} ", f"feed {item[0]} ")}
    starts = tuple(start for letter in item[1] for start in words.get(letter, ()))
    place = at + 1
    while starts and place < len(answers) and not is_turn(answers[place]):
        if (calls[place] + " ").startswith(starts) and answers[place].word != "conn":
            yield place
            if item[0][0] != "L":
                return
        place += 1


def opened(answers):
    """What was opened: (the answer's place, its name)."""
    made, names = {"C": 0, "P": 0}, []
    for at, answer in enumerate(answers):
        letter = {"conn": "C", "child": "P"}.get(None if is_turn(answer) else answer.word)
        if letter:
            names.append((at, f"{letter}{made[letter]}"))
            made[letter] += 1
    return names


def without_opened(calls, answers, gone):
    """Answers without some connections and children; the others are numbered anew. `calls` are the texts of theirs."""
    names, made = dict(gone), {"C": 0, "P": 0}
    dropped, numbers = set(names.values()), {}
    for _, name in opened(answers):
        if name not in dropped:
            numbers[name] = f"{name[0]}{made[name[0]]}"
            made[name[0]] += 1
    out = []
    for at, answer in enumerate(answers):
        if is_turn(answer):
            items = [(numbers.get(item[0], item[0]), *item[1:]) for item in answer.items if item[0] not in dropped]
            out.append(answer.having(items) if items != list(answer.items) else answer)
            continue
        word, whom = (*calls[at].split(" ", 2), "")[:2]
        if at in names:
            out += [] if word == "accept" else [Other("refused")]
        elif whom not in dropped:
            out.append(answer)
    return out


# ---- bytes: a place is an answer's, and an item's in it or None
def places_of_bytes(answers):
    for at in range(len(answers) - 1, -1, -1):
        answer = answers[at]
        if is_turn(answer):
            yield from ((at, place) for place, item in enumerate(answer.items) if isinstance(item[-1], bytes))
        elif isinstance(answer.content, bytes):
            yield at, None


def held_at(answers, place):
    """The bytes of a place, or None where it is no more."""
    at, item = place
    if at >= len(answers) or (item is None) == is_turn(answers[at]):
        return None
    if item is None:
        return answers[at].content if isinstance(answers[at].content, bytes) else None
    held = answers[at].items[item][-1] if item < len(answers[at].items) else None
    return held if isinstance(held, bytes) else None


def with_bytes(answers, place, data):
    at, item = place
    if item is None:
        changed = Other(answers[at].word, data)
    else:
        items = list(answers[at].items)
        items[item] = (*items[item][:-1], data)
        changed = answers[at].having(items)
    return [*answers[:at], changed, *answers[at + 1:]]


# ---- times
def delta(answers, at):
    return max(answers[at].time - time_before(answers, at), 0)


def later_turns(answers):
    """The turns before which time goes on."""
    places, now = [], 0
    for at, answer in enumerate(answers):
        if is_turn(answer) and answer.time > now:
            places.append(at)
            now = answer.time
    return places


def hastened(answers, places, wait):
    """Before these turns time goes on by so much and no more; what follows comes as much earlier."""
    places, now, before, out = set(places), 0, 0, []
    for at, answer in enumerate(answers):
        if is_turn(answer):
            passed = max(answer.time - before, 0)
            before = max(before, answer.time)
            now += min(passed, wait) if at in places else passed
            out.append(answer.at(now))
        else:
            out.append(answer)
    return out


def answers_of(lines):
    return [read(line) for line in lines]
