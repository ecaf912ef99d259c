"""Checks editors/: the grammar and the Vim files know every word of the language, and colour all examples as its tokens are."""

import os
import plistlib
import re
import shutil
import subprocess

from looking.script import FUNCTIONS, TOKEN

from .common import EXAMPLES, TOP

GRAMMAR = os.path.join(TOP, "editors", "aio.tmLanguage")
VIM = os.path.join(TOP, "editors", "vim")
# What a token of the language is, by the scope that the grammar gives it and the group that Vim does.
SCOPES = {
    "comment": "comment.line", "text": "string.quoted", "number": "constant.numeric", "operator": "keyword.operator.aio",
    "bracket": "punctuation.section", "reserved": ("keyword.control", "storage.type", "keyword.operator.logical", "constant.language"),
    "request": "support.function.request", "function": "support.function.builtin", "kind": "support.class",
    "name": ("variable.other", "entity.name.function"),
}
GROUPS = {
    "comment": ("aioComment",), "text": ("aioText", "aioBytes"), "number": ("aioNumber",), "operator": ("aioOperator",),
    "bracket": ("aioBracket",), "request": ("aioRequest",), "function": ("aioFunction",), "kind": ("aioKind",),
    "reserved": ("aioDefine", "aioStatement", "aioBranch", "aioException", "aioBlock", "aioWord", "aioConstant"),
    "name": ("aioName", "aioCoroutine"),
}
# Texts that no token begins, and where the fault is.
WRONG = (("x = 'a'", 4), ("def main():", 10), ("x = a.b", 5), ("x = {}", 4), ("\tpass", 0), ('print "open', 6))
DUMP = """
for name in argv()
  execute 'edit' fnameescape(name)
  let &filetype = $KIND
  let lines = []
  for l in range(1, line('$'))
    let groups = []
    for c in range(1, len(getline(l)))
      call add(groups, synIDattr(synID(l, c, 1), 'name'))
    endfor
    call add(lines, join(groups, ','))
  endfor
  call writefile(lines + ['--'], $GROUPS, 'a')
endfor
qa!
"""


def language():
    """The words of the language by what they are, as docs/LANGUAGE.md has them."""
    with open(os.path.join(TOP, "docs", "LANGUAGE.md"), encoding="utf-8") as file:
        text = file.read()
    reserved = re.search(r"Reserved words.*?:\n\n((?:    .*\n)+)", text).group(1).split()
    requests = text[text.index("\n## Requests"):text.index("**Which of them")]
    names = {name for row in re.findall(r"^\| (.*?) \|", requests, re.MULTILINE) for name in re.findall(r"`(\w+)\(", row)}
    kinds = set(re.findall(r"\b[A-Z]\w+\b", re.search(r"## Kinds of exceptions\n\n((?:    .*\n)+)", text).group(1)))
    return {"reserved": set(reserved), "request": names, "kind": kinds, "function": set(FUNCTIONS)}


class Grammar:
    """A TextMate grammar of `match` rules: at each place the earliest match counts, and of those the first rule's."""

    def __init__(self, path):
        with open(path, "rb") as file:
            self.whole = plistlib.load(file)
        self.rules = {name: self.rule(rule) for name, rule in self.whole["repository"].items()}

    def rule(self, rule):
        return {**rule, "regex": re.compile(rule["match"]) if "match" in rule else None,
                "inner": [self.rule(one) for one in rule.get("patterns", ()) if "match" in one]}

    def patterns(self, rules):
        for rule in rules:
            rule = self.rules[rule["include"][1:]] if "include" in rule else self.rule(rule)
            yield from [rule] if rule["regex"] else rule["inner"]

    def colour(self, line, first=0, end=None, rules=None, scopes=None):
        """The scope of each byte of a line."""
        scopes = [""] * len(line) if scopes is None else scopes
        end = len(line) if end is None else end
        patterns = list(self.patterns(self.whole["patterns"] if rules is None else rules))
        while first < end:
            found = [(match.start(), number, match, rule) for number, rule in enumerate(patterns)
                     for match in [rule["regex"].search(line[:end], first)] if match and match.end() > match.start()]
            if not found:
                return scopes
            match, rule = min(found, key=lambda one: one[:2])[2:]
            self.paint(line, match, rule, scopes)
            first = match.end()
        return scopes

    def paint(self, line, match, rule, scopes):
        if "name" in rule:
            scopes[match.start():match.end()] = [rule["name"]] * (match.end() - match.start())
        for group, capture in rule.get("captures", {}).items():
            start, end = match.span(int(group))
            if start < 0:
                continue
            if "name" in capture:
                scopes[start:end] = [capture["name"]] * (end - start)
            if "patterns" in capture:
                self.colour(line, start, end, capture["patterns"], scopes)


def tokens(line, words):
    """The tokens of a script's line: (from, to, what it is)."""
    at = 0
    while line[at:].strip():
        found = TOKEN.match(line, at)
        comment, text, name, number, symbol = found.groups()
        what = "comment" if comment else "text" if text else "number" if number else ""
        if name:
            what = next((what for what, names in words.items() if name in names), "name")
        elif symbol:
            what = "bracket" if symbol in "()[]," else "operator"
        yield found.start(found.lastindex), found.end(), what
        at = found.end()


def texts(endings):
    for folder in (EXAMPLES, os.path.join(TOP, "live")):
        for name in sorted(os.listdir(folder)):
            if name.endswith(endings) and not name.startswith("two_faults"):
                with open(os.path.join(folder, name), encoding="utf-8") as file:
                    yield os.path.join(folder, name), file.read().split("\n")


def check_grammar(checks, words):
    grammar = Grammar(GRAMMAR)
    for path, lines in texts((".aio",)):
        for number, line in enumerate(lines, 1):
            scopes = grammar.colour(line)
            for start, end, what in tokens(line, words):
                wanted = SCOPES[what] if isinstance(SCOPES[what], tuple) else (SCOPES[what],)
                inside = ("constant.character.escape", "string.quoted") if what == "text" else wanted
                right = scopes[start].startswith(wanted) and all(scope.startswith(inside) for scope in scopes[start:end])
                told = f"`{line[start:end]}` is {sorted(set(scopes[start:end]))}, and not {what}"
                checks.that(right, f"{os.path.basename(path)}, line {number}: {told}")
    for path, lines in texts((".journal", ".transcript")):
        for number, line in enumerate(lines, 1):
            loose = [line[at] for at, scope in enumerate(grammar.colour(line)) if line[at] != " " and (not scope or scope.startswith("invalid"))]
            checks.that(not loose, f"{os.path.basename(path)}, line {number}: {loose} have no colour in `{line[:60]}`")
    for line, at in WRONG:
        checks.that(grammar.colour(line)[at].startswith("invalid"), f"`{line}` isn't marked at {at}")
    for what, names in words.items():
        for name in names:
            scope = grammar.colour(f"x = {name}")[4]
            wanted = SCOPES[what] if isinstance(SCOPES[what], tuple) else (SCOPES[what],)
            checks.that(scope.startswith(wanted), f"the grammar takes the {what} `{name}` for {scope}")


def groups_of(vim, checks, paths, kind):
    """The group of each byte of each line of files, as Vim colours them."""
    dump, to = checks.file("dump.vim", DUMP), os.path.join(checks.folder, f"{kind}.groups")
    words = [vim, "-e", "-s", "-N", "-u", "NONE", "-i", "NONE", "--cmd", f"set rtp^={VIM} enc=utf-8", "-c", "filetype on"]
    words += ["-c", "syntax on"]
    known = {**os.environ, "GROUPS": to, "KIND": kind}
    subprocess.run([*words, "-S", dump, *paths], stdin=subprocess.DEVNULL, stdout=subprocess.DEVNULL, stderr=subprocess.DEVNULL,
                   timeout=60, env=known)
    if not os.path.exists(to):
        return []
    with open(to, encoding="utf-8") as file:
        return [part.split("\n")[:-1] for part in file.read().split("--\n")[:-1]]


def check_vim(checks, words):
    vim = shutil.which("vim")
    if not vim:
        return "vim isn't here: its files weren't tried"
    files = list(texts((".aio",)))
    wrong = checks.file("wrong.aio", "".join(line + "\n" for line, _ in WRONG))
    coloured = groups_of(vim, checks, [path for path, _ in files] + [wrong], "aio")
    if not coloured:
        return "this vim has no colours: its files weren't tried"
    checks.same(len(coloured), len(files) + 1, "the files that Vim coloured")
    for (path, lines), rows in zip(files, coloured):
        for number, (line, row) in enumerate(zip(lines, rows), 1):
            groups = row.split(",")
            for start, end, what in tokens(line, words):
                right = groups[start] in GROUPS[what] and (what == "text" or set(groups[start:end]) <= {*GROUPS[what], "aioTodo"})
                told = f"`{line[start:end]}` is {groups[start]} in Vim, and not {what}"
                checks.that(right, f"{os.path.basename(path)}, line {number}: {told}")
    for (line, at), row in zip(WRONG, coloured[-1]):
        checks.same(row.split(",")[at], "aioError", f"`{line}` at {at} in Vim")
    files = list(texts((".journal", ".transcript")))
    for (path, lines), rows in zip(files, groups_of(vim, checks, [path for path, _ in files], "aiojournal")):
        for number, (line, row) in enumerate(zip(lines, rows), 1):
            checks.that("journalError" not in row and bool(row.strip(",")) == bool(line.strip()), f"{os.path.basename(path)}, line {number}: `{line[:60]}` is {row[:60]} in Vim")
    return None


def check(checks):
    words = language()
    checks.that(all(len(words[what]) > 5 for what in words), f"docs/LANGUAGE.md has lost a list: {words}")
    check_grammar(checks, words)
    return check_vim(checks, words)
