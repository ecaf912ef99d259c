#!/usr/bin/env python3
"""Three hundred lists of words with the command that each asks for, as `try_rows --words` reads them.

The answers come from the rules below alone, which are those of README.md ("Commands and statuses"), read word by word;
no program of the repository is asked.

    python3 bench/words/lists.py > crates/try_rows/data/lists
"""
import itertools
import re

MOST = 1099511627776
# a command: how many names it has, and which options
COMMANDS = {
    "check": (1, ()),
    "replay": (2, ("--trace", "--turns")),
    "run": (1, ("--trace", "--turns", "--record")),
    "work": (1, ()),
}
WITH_VALUE = ("--turns", "--record")


def asked(words):
    """What a list of words asks for; None where it is refused."""
    if not words or words[0] not in COMMANDS:
        return None
    verb, rest = words[0], list(words[1:])
    wanted, options = COMMANDS[verb]
    names, given = [], {}
    while rest:
        word = rest.pop(0)
        if word == "":
            return None
        if not word.startswith("-"):
            names.append(word)
            continue
        option, equals, value = word.partition("=")
        if option not in options or option in given:
            return None
        if option in WITH_VALUE:
            if not equals:
                if not rest:
                    return None
                value = rest.pop(0)
            if value == "" or value.startswith("-"):
                return None
        elif equals:
            return None
        given[option] = value
    if len(names) != wanted:
        return None
    turns = given.get("--turns", str(MOST))
    if not re.fullmatch("[0-9]{1,13}", turns, re.ASCII) or not 1 <= int(turns) <= MOST:
        return None
    trace = "trace" if "--trace" in given else "plain"
    if verb == "check":
        return f"check {names[0]}"
    if verb == "replay":
        return f"replay {names[0]} {names[1]} {trace} {int(turns)}"
    if verb == "run":
        return f"run {names[0]} {given.get('--record', '-')} {trace} {int(turns)}"
    if not re.fullmatch("[0-9]{1,6}", names[0], re.ASCII):
        return None
    return f"work {int(names[0])}"


def with_options(verb, names, *options):
    """The names in order, with each option's words at each place among them."""
    for order in itertools.permutations(options):
        for places in itertools.combinations_with_replacement(range(len(names) + 1), len(order)):
            words = [verb]
            for at in range(len(names) + 1):
                for place, option in zip(places, order):
                    if place == at:
                        words += option
                words += names[at:at + 1]
            yield words


TRACE, TURNS, TURNS_ONE = ["--trace"], ["--turns", "5"], ["--turns=5"]
RECORD, RECORD_ONE = ["--record", "r"], ["--record=r"]
NUMBERS = [
    "0", "1", "9", "00", "01", "+1", "-1", "1.0", "1_0", "0x1", " 1", "1 ", "x", "\u0663", "0000000000000", "0000000000001",
    "1099511627775", "1099511627776", "1099511627777", "9999999999999", "00000000000001", "01099511627776", "5s",
]


def lists():
    yield from ([], [""], ["-"], ["--"], ["play", "s", "j"], ["Check", "s"], ["checks", "s"], ["--trace", "replay", "s", "j"],
                ["check ", "s"], ["work1"], ["--help"], ["run=s"])
    # each command with too few and too many names
    for verb in COMMANDS:
        for count in range(4):
            yield [verb] + ["7", "8", "9"][:count]
    # what is no name, at each place
    for odd in ("", "-", "--", "-s", "--s", "--x=", "--x=1", "--trace=", "--turns", "--turns=", "--record", "--record=", "---"):
        yield ["check", odd]
        yield ["check", "s", odd]
        yield ["replay", odd, "j"]
        yield ["replay", "s", "j", odd]
        yield ["run", odd]
        yield ["run", "s", odd]
        yield ["work", "7", odd]
    # names that only look odd
    for name in ("a-b", "=", "s=--trace", " ", "check", "\u00df", "7"):
        yield ["check", name]
        yield ["run", name]
    # options at each place, alone and together, in both forms
    for option in (TRACE, TURNS, TURNS_ONE, RECORD, RECORD_ONE):
        yield from with_options("replay", ["s", "j"], option)
        yield from with_options("run", ["s"], option)
        yield from with_options("check", ["s"], option)
    yield from with_options("replay", ["s", "j"], TRACE, TURNS)
    yield from with_options("run", ["s"], TURNS_ONE, RECORD)
    yield from with_options("run", ["s"], TRACE, TURNS, RECORD_ONE)
    # twice
    for one, other in itertools.product((TURNS, TURNS_ONE), repeat=2):
        yield ["replay", *one, "s", *other, "j"]
    for one, other in itertools.product((RECORD, RECORD_ONE), repeat=2):
        yield ["run", *one, "s", *other]
    yield ["replay", "--trace", "s", "j", "--trace"]
    yield ["run", "s", "--trace", "--trace"]
    # odd values
    for value in ("", "-", "-r", "--", "--trace", "--turns=5", "=", "a=b", "r "):
        yield ["run", "s", "--record", value]
        yield ["run", "s", f"--record={value}"]
    # numbers of turns, in both forms, and seeds
    for number in NUMBERS:
        yield ["replay", "s", "j", "--turns", number]
        yield ["run", f"--turns={number}", "s"]
    for seed in ("0", "000000", "0000000", "999999", "1000000", "000007", "", "-1", "+1", "1x", " 1", "\u0663", "0x1"):
        yield ["work", seed]
    for option in (TRACE, TURNS, RECORD_ONE):
        yield ["work", "7", *option]
        yield ["work", *option, "7"]


def main():
    seen = []
    for words in lists():
        if words not in seen:
            seen.append(words)
    assert len(seen) >= 300, len(seen)
    for words in seen:
        for word in words:
            print(f"word {word}")
        print(f"asks {asked(words) or 'nothing'}")


main()
