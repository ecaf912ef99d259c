"""What a run's picture shows: lanes with marks, and links between them, of a trace and of the script that made it.

A mark is [from, to, kind, text, line]: columns of the trace, what it is, what it says, and the script's line, 0 where that isn't
known. A link is [kind, lane, column, lane, column, text].
"""

from .following import Run
from .requests import Unknown
from .script import Script, Unread
from .trace import LANES, Trace, content
from .values import Id, shown

# Requests that tell of themselves by what they do, and others, as a card shows them.
QUIET = {"pause", "enter_timeout", "exit_timeout", "enter_group", "exit_group"}
ENDED = {"value": "returned", "failed": "raised", "cancelled": "cancelled"}


class Lanes:
    """Lanes by name, in order; each has a label and its marks."""

    def __init__(self):
        self.lanes = {}

    def lane(self, name):
        return self.lanes.setdefault(name, {"name": name, "label": "", "owner": "", "from": None, "to": None, "marks": []})

    def mark(self, name, first, last, kind, text="", line=0):
        lane = self.lane(name)
        lane["marks"].append([first, last, kind, text, line])
        lane["from"] = first if lane["from"] is None else min(lane["from"], first)
        lane["to"] = last if lane["to"] is None else max(lane["to"], last)
        return lane["marks"][-1]


def size(data):
    return f"{len(data):,} B"


class Told:
    """What the trace alone tells."""

    def __init__(self, trace):
        self.trace, self.lanes, self.made, self.at = trace, Lanes(), {"L": 0, "C": 0, "P": 0}, {}
        for at, column in enumerate(trace.columns):
            try:
                self.column(at, column)
            except (ValueError, IndexError, KeyError) as fault:
                raise Unread(f"line {column.first + 1}, or one behind it, is none of a trace") from fault

    def column(self, at, column):
        word, *what = column.words
        if word == "select":
            return
        lane = self.at[at] = self.lane_of(word, what)
        if not lane and word != "maindone":
            return
        if word in ("step", "wakeup"):
            self.lanes.mark(lane, at, at, word)
        elif word == "timeout":
            self.lanes.mark(lane, at, at, "fires", "fires")
        elif lane:
            self.lanes.mark(lane, at, at, "handle", " ".join(column.words))
        if word == "childitem":
            self.child_item(at, what, column.items.get((what[0], what[1])))
        for call, answer in self.trace.asked(column):
            if len(call) > 1:
                self.call(at, call, answer or [""])
        for task, text in self.trace.said(column):
            self.lanes.mark(task, at, at, "said", text[:200])

    def lane_of(self, word, what):
        if word in ("groupdone", "sleepdone"):
            what = what[-1:]
        return what[0] if what and LANES.fullmatch(what[0]) else None

    def child_item(self, at, what, held):
        if isinstance(held, bytes):
            self.lanes.mark(what[0], at, at, "received", f"{what[1]} {size(held)}")
        elif what[1] == "exit":
            self.lanes.mark(what[0], at, at, "exit", f"exit {held}")

    def call(self, at, call, answer):
        word, what = call[:2]
        letter = {"listen": "L", "connect": "C", "accept": "C", "launch": "P"}.get(word)
        if letter and answer[0] in ("ok", "conn", "child"):
            name = f"{letter}{self.made[letter]}"
            self.made[letter] += 1
            self.lanes.mark(name, at, at, "opens", " ".join(call))
            self.lanes.lane(name)["label"] = " ".join(call) if word != "accept" else f"accepted by {what}"
        elif not LANES.fullmatch(what):
            return
        elif word == "recv":
            self.received(at, what, answer)
        elif word in ("send", "feed"):
            sent = f"{int(answer[1]):,} B of {size(content(call[2]))}" if answer[0] == "took" else f"{answer[0] or 'no answer'}"
            self.lanes.mark(what, at, at, "sent" if answer[0] == "took" else "broken", sent)
        elif word in ("close", "shut", "end", "kill"):
            self.lanes.mark(what, at, at, "closes", word)

    def received(self, at, name, answer):
        if answer[0] == "data":
            self.lanes.mark(name, at, at, "received", size(content(answer[1])))
        elif answer[0] in ("eof", "broken"):
            self.lanes.mark(name, at, at, "closes" if answer[0] == "eof" else "broken", answer[0])


class Notes:
    """What a run that is followed tells besides, as it goes."""

    def __init__(self, told):
        self.lanes, self.at, self.links, self.cards = told.lanes, told.at, [], {}
        self.column, self.waiting, self.open, self.columns = -1, {}, {}, {-1: -1}
        self.wrote_lines, self.guess = 0, ""

    def guessed(self, request):
        """A request was answered as one that nobody knows, which it may not be."""
        self.guess = self.guess or request

    def wrote(self, line):
        if line.startswith(("> select", ". ")):
            self.column += 1
            self.columns[self.wrote_lines] = self.column
        self.wrote_lines += 1

    def card(self, text, line=0):
        self.cards.setdefault(self.column, []).append([text, line])

    def span(self, name, kind, text, line=0):
        self.open[name] = self.lanes.mark(name, self.column, self.column, kind, text, line)

    # ---- tasks
    def spawned(self, task, by):
        lane, name = self.lanes.lane(f"T{task.number}"), f"T{task.number}"
        lane["label"], lane["from"] = task.coroutine, max(self.column, 0)
        lane["to"] = lane["from"] if lane["to"] is None else lane["to"]
        if by is not None:
            self.links.append(["spawn", name_of(by), self.column, name, self.column, f"{name} is made: {task.coroutine}"])

    def asked(self, task, line, name, arguments):
        if name == "print":
            self.card(f"T{task.number} prints", line)
        elif name not in QUIET:
            self.card(f"T{task.number} asks {name}({', '.join(map(worded, arguments))})", line)

    def waits(self, task, waits):
        self.card(f"T{task.number} {waits.why}", task.line)
        self.waiting[task] = (self.column, waits.why, task.line)

    def ran(self, handle, name, what):
        if name in ("step", "cycle", "wakeup"):
            task = what[0]
            began = self.waiting.pop(task, None)
            if began:
                self.lanes.mark(f"T{task.number}", began[0], self.column, "wait", began[1], began[2])
            by = self.columns.get(handle.by, -1)
            if name == "wakeup" and by >= 0:
                self.links.append(["wake", self.at.get(by) or "", by, f"T{task.number}", self.column, f"wakes T{task.number}"])
        elif name == "groupdone":
            self.at[self.column] = f"G{what[0].number}"
            self.lanes.mark(f"G{what[0].number}", self.column, self.column, "handle", f"T{what[1].number} is done")

    def ended(self, task, outcome):
        kind = ENDED[outcome[0]]
        text = f"{kind} {shown(outcome[1])[:80]}" if len(outcome) > 1 else kind
        self.card(f"T{task.number} {text}", task.line)
        self.lanes.mark(f"T{task.number}", self.column, self.column, kind, text, task.line)

    # ---- cancels
    def cancelled(self, by, future, reached, answer):
        if by[0] == "end" and not reached:
            return
        who = name_of(by[1]) if len(by) > 1 and by[0] != "extra" else ""
        asks = {"task": f"{who} cancels", "timeout": f"{who} is over and cancels", "group": f"{who} cancels",
                "wait": f"{who} must cancel, and so cancels what it waits for", "extra": "a time is over, which cancels",
                "end": "main is over: the run cancels"}[by[0]]
        at = who
        for task in reached:
            name = f"T{task.number}"
            text = f"{asks} {name}, {'at its next step' if task.must_cancel else 'where it waits'}"
            self.links.append(["cancel", at, self.column, name, self.column, text])
            self.card(text)
            at, asks = name, f"the cancel of {name} goes down to"
        if not reached and by[0] != "wait":
            self.card(f"{asks} a future" if answer else f"{asks} what is done: nothing happens")

    # ---- timeouts and groups
    def entered_timeout(self, timeout, delay):
        name, task = f"O{timeout.number}", timeout.task
        lane = self.lanes.lane(name)
        lane["label"], lane["owner"] = f"timeout({shown(delay)})", f"T{task.number}"
        self.span(name, "timeout", lane["label"], task.line)

    def scheduled(self, timeout, when):
        text = f"O{timeout.number} is over at {when} ms" if when is not None else f"O{timeout.number} has no deadline"
        self.card(text, timeout.task.line)

    def left_timeout(self, timeout):
        self.close(f"O{timeout.number}", timeout.state)

    def entered_group(self, group):
        name = f"G{group.number}"
        lane = self.lanes.lane(name)
        lane["label"], lane["owner"] = "group", f"T{group.parent.number}"
        self.span(name, "group", "group", group.parent.line)

    def left_group(self, group):
        failed = f", {len(group.errors)} failed" if group.errors else ""
        tasks = f"{group.made} task" + ("" if group.made == 1 else "s")
        self.open[f"G{group.number}"][3] = f"group of {tasks}"
        self.close(f"G{group.number}", f"over{failed}")

    def close(self, name, state):
        span = self.open.pop(name)
        span[1], span[3] = self.column, f"{span[3]}, {state}"
        self.lanes.lane(name)["to"] = self.column
        self.card(f"{name} {state}")

    def finish(self):
        """What is still open goes on to the last column."""
        for span in self.open.values():
            span[1] = self.column
        for task, (first, why, line) in self.waiting.items():
            self.lanes.mark(f"T{task.number}", first, self.column, "wait", why, line)


def worded(value):
    return shown(value)[:60] if not isinstance(value, str) else value[:60]


def name_of(one):
    if isinstance(one, Id):
        return shown(one)
    return {"Task": "T", "Timeout": "O", "Group": "G"}[type(one).__name__] + str(one.number)


def followed(trace, text, notes):
    """Follows the trace by its script: how many of its lines agreed, and why no more did, in words."""
    answers = [line[2:] for line in trace.lines if line.startswith("< ")]
    if trace.last.startswith("! mismatch") and answers:
        answers.pop()
    lines = trace.lines[:-1] if trace.last else trace.lines
    try:
        run = Run(Script(text), answers, notes, expected=lines)
        run.follow()
    except Unknown as request:
        return notes.wrote_lines, f"the request {request} can't be followed"
    except Exception as fault:  # whatever is not known here: the trace is shown all the same
        return notes.wrote_lines, f"the script can't be followed: {fault or type(fault).__name__}"
    agreed = notes.wrote_lines
    missing = len(lines) - agreed - (1 if trace.last.startswith("! mismatch") else 0)
    if missing > 0 and notes.guess:
        return agreed, f"from line {agreed + 1} of the trace on nothing else is told: {notes.guess} can't be followed"
    return agreed, "" if missing <= 0 else f"from line {agreed + 1} of the trace on the script did otherwise"


def shared(lanes):
    """Groups and timeouts of a task share a lane where they don't meet: the lanes, and of each name its lane's."""
    kept, rows, free = [], {}, {}
    for lane in sorted(lanes, key=lambda lane: (lane["from"] is None, lane["from"] or 0)):
        if lane["name"][0] not in "OG" or lane["from"] is None:
            kept.append(lane)
            continue
        beside = free.setdefault((lane["owner"], lane["name"][0]), [])
        first = next((row for row in beside if row["to"] <= lane["from"]), None)
        for mark in lane["marks"]:
            mark[3] = f"{lane['name']} {mark[3]}"
        if first is None:
            beside.append(lane)
            kept.append(lane)
            continue
        rows[lane["name"]] = first["name"]
        first["marks"] += lane["marks"]
        first["to"] = lane["to"]
        first["label"] = "groups" if lane["name"][0] == "G" else "timeouts"
    return kept, rows


def order(lanes):
    """Tasks in order, each with its groups and timeouts below it; then listeners, connections and children."""
    def number(lane):
        return int(lane["name"][1:])
    tasks = sorted((lane for lane in lanes if lane["name"][0] == "T"), key=number)
    owned = {}
    for lane in lanes:
        if lane["name"][0] in "OG":
            owned.setdefault(lane["owner"], []).append(lane)
    for task in tasks:
        yield task
        yield from sorted(owned.pop(task["name"], []), key=lambda lane: (lane["from"] or 0, lane["name"][0], number(lane)))
    for rest in owned.values():
        yield from sorted(rest, key=number)
    for letter in "LCP":
        yield from sorted((lane for lane in lanes if lane["name"][0] == letter), key=number)


def lives(lane, last):
    """The span of a lane's life; what the trace doesn't see end goes on to the last column."""
    ends = {"L": ("closes",), "C": ("closes", "broken"), "P": ("exit", "closes")}.get(lane["name"][0])
    to = lane["to"]
    if ends and not any(mark[2] in ends for mark in lane["marks"]):
        to = last
    return [lane["from"], to, "life", "", 0]


def story(text, script=None, title=""):
    """All that the page shows, of a trace's text and perhaps the script's."""
    trace = Trace(text)
    told = Told(trace)
    links, cards, agreed, why = [], {}, 0, "no script was given"
    if script is not None:
        notes = Notes(told)
        agreed, why = followed(trace, script, notes)
        notes.finish()
        links, cards = notes.links, notes.cards
    last = max(len(trace.columns) - 1, 0)
    lanes, rows = shared(told.lanes.lanes.values())
    lanes = [lane for lane in order(lanes) if lane["from"] is not None]
    for lane in lanes:
        if lane["name"][0] in "TLCP":
            lane["marks"].append(lives(lane, last))
        lane["marks"].sort(key=lambda mark: (mark[0], -mark[1]))
    names = {lane["name"] for lane in lanes}
    return {
        "title": title, "last": shortened(trace.last), "lines": [shortened(line) for line in trace.lines],
        "script": None if script is None else script.split("\n"), "why": why, "agreed": agreed,
        "columns": [[c.turn, c.time, c.first, c.end] for c in trace.columns], "cards": cards,
        "lanes": [[lane["name"], lane["label"], lane["marks"]] for lane in lanes],
        "links": [[kind, rows.get(a, a), at, rows.get(b, b), to, text] for kind, a, at, b, to, text in links if b in names],
        "rows": rows,
    }


def shortened(line):
    return line if len(line) <= 400 else f"{line[:360]} .. ({len(line):,} bytes)"
