"""The lines of a run with `--trace`, and of a journal: its words, its answers, and what each turn and each handle of it did.

docs/JOURNAL.md has the forms.
"""

import re

from .script import Unread, literal

WORD = re.compile(r'\s*((?:b?"(?:\\.|[^"\\])*"|[^\s"\[]|\[[^\]]*\])+)')
BYTES = re.compile(r'b"(?:\\.|[^"\\])*"')
SAID = re.compile(r"T\d+ |T\d+$")
LANES = re.compile(r"[TCPLO]\d+")


def words_of(line):
    """The words of a call, an answer or an action; a literal or a list is one."""
    return WORD.findall(line)


def content(word):
    """What a word stands for: the bytes of a literal, a number, or the word."""
    if BYTES.fullmatch(word):
        return literal(word)
    return int(word) if re.fullmatch(r"-?\d+", word) else word


def items_of(words):
    """The items of a turn, behind its two first words: tuples of whom, what and perhaps a content."""
    at = 2
    while at < len(words):
        if words[at] == "X":
            yield ("X", int(words[at + 1]), content(words[at + 2]))
            at += 3
        elif words[at + 1] in ("out", "err", "exit"):
            yield (words[at], words[at + 1], content(words[at + 2]))
            at += 3
        else:
            yield (words[at], words[at + 1])
            at += 2


def answer_of(line):
    """An answer as a tuple: ("turn", time, items), ("took", n), ("data", bytes), ("ok",) and so on."""
    words = words_of(line)
    if words[0] == "turn":
        return ("turn", int(words[1]), list(items_of(words)))
    return (words[0], *map(content, words[1:]))


def is_trace(text):
    """Whether a text is what a run with `--trace` writes: its first line is a call, or it has nothing but a last line."""
    return text.startswith(("> select", "! ", "= "))


class Column:
    """A select, or a handle: the turn and time, the lines from `first` up to `end`, and its words."""

    __slots__ = ("turn", "time", "first", "end", "words", "items")

    def __init__(self, turn, time, first, words):
        self.turn, self.time, self.first, self.end, self.words, self.items = turn, time, first, first + 1, words, {}


class Trace:
    """The lines of a trace, and its columns."""

    def __init__(self, text):
        self.lines = text.split("\n")
        if self.lines and not self.lines[-1]:
            self.lines.pop()
        self.columns, self.last = [], self.lines[-1] if self.lines else ""
        if not self.last.startswith(("= ", "! ")):
            self.last = ""
        turn, time, items = 0, 0, {}
        for number, line in enumerate(self.lines):
            if line.startswith("> select"):
                turn, items = turn + 1, {}
                self.columns.append(Column(turn, time, number, words_of(line[2:])))
            elif line.startswith(". "):
                self.columns.append(Column(turn, time, number, words_of(line[2:])))
                self.columns[-1].items = items
            elif line.startswith("< turn ") and self.columns:
                answer = self.answer(number, line)
                time = max(time, answer[1])
                items = {item[:2]: item[2] for item in answer[2] if len(item) > 2}
                self.columns[-1].time = time
            if self.columns and not (number == len(self.lines) - 1 and self.last):
                self.columns[-1].end = number + 1

    def answer(self, number, line):
        try:
            return answer_of(line[2:])
        except (ValueError, IndexError) as fault:
            raise Unread(f"line {number + 1} is no answer: {line[:60]}") from fault

    def asked(self, column):
        """The calls of a column with their answers, as words; the answer is None where there is none."""
        call = None
        for line in self.lines[column.first:column.end]:
            if line.startswith("> "):
                if call:
                    yield call, None
                call = words_of(line[2:])
            elif line.startswith("< ") and call:
                yield call, words_of(line[2:])
                call = None
        if call:
            yield call, None

    def said(self, column):
        """What tasks printed in a column: (the task, the text)."""
        for line in self.lines[column.first:column.end]:
            if SAID.match(line):
                task, _, text = line.partition(" ")
                yield task, text


def fault_of(text):
    """Why a text is no trace, in words, or None."""
    for number, line in enumerate(text.split("\n"), 1):
        if line and not (line.startswith(("> ", "< ", ". ", "= ", "! ")) or SAID.match(line)):
            return f"line {number} is none of a trace: {line[:40]}"
    return None if text.startswith(("> ", "= ", "! ")) else "it has no line of a trace"
