"""Expressions of Python as expressions of a script, with the lines that must run before them."""

import ast
import re

from . import kinds as k
from .refusals import refuse

RESERVED = """profile def end yield from print raise return pass if else while try except as finally with group timeout and or not
True False None len str bytes text error kind message partial members future set fail done cancelled result cancel cancelling
uncancel current time spawn sleep reschedule expired create extra listen connect write write_eof close wait_closed drain limits read
readexactly readuntil readline launch stderr wait returncode kill""".split()
KINDS = """BaseException CancelledError Exception ArithmeticError LookupError OSError RuntimeError TypeError ValueError NameError
EOFError LimitOverrunError InvalidStateError ExceptionGroup OverflowError ZeroDivisionError IndexError RecursionError
IncompleteReadError TimeoutError ConnectionError ConnectionResetError ConnectionRefusedError BrokenPipeError""".split()
OPERATORS = {ast.Add: "+", ast.Sub: "-", ast.Mult: "*", ast.FloorDiv: "//", ast.Mod: "%"}
COMPARES = {ast.Eq: "==", ast.NotEq: "!=", ast.Lt: "<", ast.LtE: "<=", ast.Gt: ">", ast.GtE: ">="}
LOCALS = ("127.0.0.1", "localhost")
ROWS = {
    "asyncio.gather": "gather(a, b), with return_exceptions=True",
    "asyncio.wait": "wait(xs, timeout=0.05, return_when=..)",
    "asyncio.as_completed": "as_completed(xs)",
    "asyncio.wait_for": "wait_for(x, 0.05)",
    "asyncio.shield": "shield(x)",
    "asyncio.Queue": "Queue",
    "asyncio.Event": "Event",
    "asyncio.Lock": "Lock",
    "asyncio.Semaphore": "Semaphore, Condition",
    "asyncio.Condition": "Semaphore, Condition",
    "asyncio.to_thread": "to_thread(f, b)",
}


def literal(value):
    """A text or bytes as a literal of a script."""
    body = "".join(escaped(it, isinstance(value, bytes)) for it in value)
    return f'b"{body}"' if isinstance(value, bytes) else f'"{body}"'


def escaped(it, in_bytes):
    code = it if in_bytes else ord(it)
    words = {10: "\\n", 13: "\\r", 9: "\\t", 92: "\\\\", 34: '\\"'}
    return words.get(code) or (chr(code) if 32 <= code < 127 else f"\\x{code:02x}")


def exception_kind(node):
    """The kind of an exception's class."""
    name = (k.dotted(node) or "").split(".")[-1]
    if name not in KINDS:
        refuse(node, f"there is no exception {name or 'of this form'}", "raise ValueError(\"no\"), raise")
    return name


class Expressions:
    """What one function's expressions become. `emit` adds a line; `fresh` gives a name that nothing else has."""

    def __init__(self, program, function, names):
        self.program, self.function, self.names = program, function, names
        self.lines = []

    def kinds(self, node):
        return self.program.kinds.of(self.function, node)

    def emit(self, line):
        self.lines.append(line)

    def fresh(self):
        return self.names.fresh()

    def name(self, word):
        return self.names.of(word)

    def apart(self, node, translate):
        """What a node becomes, and the lines that must run before it."""
        whole, self.lines = self.lines, []
        try:
            return translate(node), self.lines
        finally:
            self.lines = whole

    def each(self, nodes, translate=None):
        """What several become that run from the left: one that isn't safe to be looked at later is kept in a name."""
        parts = [self.apart(node, translate or self.of) for node in nodes]
        last = max((place for place, (_, lines) in enumerate(parts) if lines), default=-1)
        said = []
        for place, (text, lines) in enumerate(parts):
            self.lines += lines
            if place < last and not self.is_stable(nodes[place]):
                kept = self.fresh()
                self.emit(f"{kept} = {text}")
                text = kept
            said.append(text)
        return said

    def is_stable(self, node):
        """Whether it is the same after whatever is evaluated behind it."""
        return isinstance(node, ast.Constant) or isinstance(node, ast.Name) and not self.names.is_walrus(node.id)

    def of(self, node):
        """The expression of a node."""
        method = getattr(self, f"of_{type(node).__name__}", None)
        if not method:
            refuse(node, f"{type(node).__name__} has no translation", "LANGUAGE.md, Expressions")
        return method(node)

    def operand(self, node):
        return self.closed(self.of(node), node)

    def closed(self, text, _node):
        """In brackets where it is an operation."""
        return text if is_whole(text) else f"({text})"

    def of_Constant(self, node):
        if node.value is None or isinstance(node.value, bool):
            return str(node.value)
        if isinstance(node.value, int):
            if node.value >= 2**63:
                refuse(node, "a number over 64 bits", "Integers have no bound")
            return str(node.value)
        if isinstance(node.value, str) and node.value.isascii() or isinstance(node.value, bytes):
            return literal(node.value)
        if isinstance(node.value, str):
            refuse(node, "a text that isn't ASCII", "LANGUAGE.md, Text")
        return refuse(node, "a number that isn't whole", "await asyncio.sleep(0.05), sleep(0)")

    def of_Name(self, node):
        if node.id in self.function.kinds:
            return self.name(node.id)
        if node.id in self.program.constants:
            return self.closed(self.of(self.program.constants[node.id]), self.program.constants[node.id])
        return refuse(node, f"{node.id} is no name of the function", "contextvars, globals")

    def of_NamedExpr(self, node):
        name = self.name(node.target.id)
        self.emit(f"{name} = {self.of(node.value)}")
        return name

    def of_List(self, node):
        if any(isinstance(it, ast.Starred) for it in node.elts):
            refuse(node, "a star in a list", "LANGUAGE.md, Expressions")
        return "[" + ", ".join(self.each(node.elts)) + "]"

    of_Tuple = of_List

    def of_UnaryOp(self, node):
        if isinstance(node.op, ast.Not):
            return f"not {self.in_brackets(self.truth(node.operand))}"
        if isinstance(node.op, ast.USub) and k.is_only(self.kinds(node.operand), k.INT):
            return f"-{self.operand(node.operand)}"
        return refuse(node, "this sign", "LANGUAGE.md, Expressions")

    def in_brackets(self, text):
        return text if is_whole(text) else f"({text})"

    def of_BinOp(self, node):
        kinds = self.kinds(node)
        if k.may_be(kinds, k.SECONDS) and not k.ANY in kinds:
            return str(self.milliseconds(node))
        if k.TIME in kinds:
            return self.time(node)
        sign = OPERATORS.get(type(node.op))
        if not sign:
            refuse(node, "this operator", "LANGUAGE.md, Expressions")
        if sign == "%" and k.may_be(self.kinds(node.left), k.TEXT, k.BYTES):
            refuse(node, "% of a text", "print(f\"{a} {b}\")")
        if sign == "*" and not k.is_only(self.kinds(node.right), k.INT):
            refuse(node, "* by what isn't known to be a number", "LANGUAGE.md, Expressions")
        left, right = self.each([node.left, node.right], self.operand)
        return f"{left} {sign} {right}"

    def time(self, node):
        """A time of the loop, in milliseconds."""
        if isinstance(node, ast.BinOp) and isinstance(node.op, (ast.Add, ast.Sub)):
            sign = OPERATORS[type(node.op)]
            left, right = self.each([node.left, node.right], self.time)
            return f"{left} {sign} {self.in_brackets(right)}"
        return self.of(node) if k.is_only(self.kinds(node), k.TIME) else str(self.milliseconds(node))

    def milliseconds(self, node):
        """Seconds, in milliseconds."""
        value = constant_seconds(node)
        if value is not None:
            if value != int(value):
                refuse(node, "a part of a millisecond", "await asyncio.sleep(0.05), sleep(0)")
            return int(value)
        if isinstance(node, ast.BinOp) and isinstance(node.op, ast.Div) and isinstance(node.right, ast.Constant):
            known = k.is_only(self.kinds(node.left), k.INT)
            if known and isinstance(node.right.value, int) and node.right.value > 0 and 1000 % node.right.value == 0:
                factor = 1000 // node.right.value
                return self.of(node.left) if factor == 1 else f"{self.operand(node.left)} * {factor}"
        if k.is_only(self.kinds(node), k.INT):
            return f"{self.operand(node)} * 1000"
        if k.is_only(self.kinds(node), k.SECONDS) and isinstance(node, ast.Name):
            return self.of(node)
        return refuse(node, "seconds that aren't known to be whole milliseconds", "await asyncio.sleep(0.05), sleep(0)")

    def of_Compare(self, node):
        if len(node.ops) > 1 and not all(self.is_stable(it) for it in node.comparators[:-1]):
            refuse(node, "a chain of comparisons", "LANGUAGE.md, Expressions")
        nodes = [node.left, *node.comparators]
        said = self.each(nodes, self.operand)
        parts = [self.compare(node, *it) for it in zip(node.ops, nodes, nodes[1:], said, said[1:])]
        return parts[0] if len(parts) == 1 else " and ".join(f"({it})" for it in parts)

    def compare(self, node, op, one, other, left, right):
        kinds = self.kinds(one), self.kinds(other)
        if isinstance(op, (ast.Is, ast.IsNot)):
            is_none = any(isinstance(it, ast.Constant) and it.value is None for it in (one, other))
            if not is_none and not all(k.is_only(it, k.STREAMS) for it in kinds):
                refuse(node, "`is` of what is neither None nor a pair of streams", "LANGUAGE.md, Expressions")
            return f"{left} {'==' if isinstance(op, ast.Is) else '!='} {right}"
        sign = COMPARES.get(type(op))
        if not sign:
            refuse(node, "`in`", "LANGUAGE.md, Expressions")
        if sign in ("==", "!=") and not self.is_other_text(kinds[0], other) and not self.is_other_text(kinds[1], one):
            self.compares_alike(node, *kinds)
        return f"{left} {sign} {right}"

    def is_other_text(self, kinds, node):
        """Whether the node is a text that nothing is shown as which repr shows of bytes and lists."""
        shown = frozenset().union(*(it[1] for it in kinds if isinstance(it, tuple) and it[0] == "shown"))
        is_text = isinstance(node, ast.Constant) and isinstance(node.value, str) and node.value[:1].isalpha()
        return is_text and k.is_only(kinds, "shown", k.TEXT) and k.is_only(shown, k.BYTES, "list") and node.value[:2] != 'b"'

    def compares_alike(self, node, one, other):
        """Refuses where == may be another: 1 == True, exceptions, and ends of one connection."""
        both = one | other
        for here, there in ((one, other), (other, one)):
            if k.is_only(here, k.NONE, k.TEXT, k.BYTES) and not k.has_inside(there, "shown"):
                return
        if not one or not other or k.has_inside(both, k.ANY, k.SECONDS, k.TIME):
            refuse(node, "== of what isn't known to be of one kind", "1 == True, if items:")
        if k.has_inside(both, k.INT) and k.has_inside(both, k.BOOL):
            refuse(node, "== of what may be a number on one side and a truth on the other", "1 == True, if items:")
        if k.has_inside(both, "shown", *k.OBJECTS):
            refuse(node, "== of objects", "LANGUAGE.md, Expressions")

    def truth(self, node):
        """A test, which must be a Bool here."""
        if isinstance(node, ast.BoolOp):
            return self.of_BoolOp(node)
        kinds = self.kinds(node)
        if k.is_only(kinds, k.BOOL):
            return self.of(node)
        text = self.operand(node)
        rest = kinds - {k.NONE}
        if not rest or k.ANY in rest:
            refuse(node, "a test of what isn't known to be of one kind", "1 == True, if items:")
        if k.is_only(rest, *k.OBJECTS, "task"):
            return f"{text} != None" if k.NONE in kinds else f"{text} == {text}"
        ways = {k.INT: "{} != 0", k.TEXT: "len({}) > 0", k.BYTES: "len({}) > 0", "list": "len({}) > 0", k.BOOL: "{}"}
        words = {it[0] if isinstance(it, tuple) else it for it in rest}
        if len(words) != 1 or not words <= set(ways):
            refuse(node, "a test of what may be of several kinds", "1 == True, if items:")
        way = ways[words.pop()].format(text)
        return f"({text} != None) and ({way})" if k.NONE in kinds else way

    def of_BoolOp(self, node):
        """`and` and `or` are of truths alone. What must run lines runs them only where it is looked at."""
        if not k.is_only(self.kinds(node), k.BOOL) and not all(self.is_test(it) for it in node.values):
            refuse(node, "`and` or `or` of what isn't known to be a Bool", "1 == True, if items:")
        word = "and" if isinstance(node.op, ast.And) else "or"
        parts = [self.apart(it, self.truth) for it in node.values]
        if not any(lines for _, lines in parts[1:]):
            self.lines += parts[0][1]
            return f" {word} ".join(self.in_brackets(text) for text, _ in parts)
        kept = self.fresh()
        for place, (text, lines) in enumerate(parts):
            if place:
                self.emit(f"if {kept}" if word == "and" else f"if not {kept}")
            self.lines += lines
            self.emit(f"{kept} = {text}")
        self.lines += ["end"] * (len(parts) - 1)
        return kept

    def is_test(self, node):
        return isinstance(node, (ast.Compare, ast.BoolOp)) or isinstance(node, ast.UnaryOp) and isinstance(node.op, ast.Not)

    def of_IfExp(self, node):
        kept = self.fresh()
        self.emit(f"if {self.truth(node.test)}")
        self.emit(f"{kept} = {self.of(node.body)}")
        self.emit("else")
        self.emit(f"{kept} = {self.of(node.orelse)}")
        self.emit("end")
        return kept

    def of_Subscript(self, node):
        if isinstance(node.slice, (ast.Slice, ast.Tuple)):
            refuse(node, "a slice", "LANGUAGE.md, Expressions")
        if not k.is_only(self.kinds(node.value), "list", k.BYTES, k.STREAMS):
            refuse(node, "an index of what isn't known to be a list or bytes", "LANGUAGE.md, Expressions")
        whole, index = self.each([node.value, node.slice], self.operand)
        return f"{whole}[{index}]"

    def of_JoinedStr(self, node):
        parts = []
        for it in node.values:
            if isinstance(it, ast.Constant):
                parts.append(ast.Constant(it.value))
            elif it.format_spec or it.conversion != -1:
                refuse(node, "a format in an f-string", "print(f\"{a} {b}\")")
            else:
                parts.append(it.value)
        said = self.each(parts, self.as_text)
        return " + ".join(said) if said else '""'

    def as_text(self, node):
        """str(x) of Python as a Text."""
        kinds = self.kinds(node)
        if k.is_only(kinds, k.TEXT):
            return self.operand(node)
        if k.is_only(kinds, k.ERROR):
            return f"message({self.of(node)})"
        if k.is_only(kinds, k.INT, k.BOOL, k.NONE):
            return f"str({self.of(node)})"
        return refuse(node, "what is shown in a text isn't known to be a number, a truth, a text or an exception", 'print(f"{a} {b}")')

    def shown(self, node):
        """What print shows."""
        kinds = self.kinds(node)
        if k.is_only(kinds, k.ERROR):
            return f"message({self.of(node)})"
        plain = frozenset(it for it in kinds if not isinstance(it, tuple) or it[0] != "shown")
        if not kinds or k.has_inside(plain, k.ANY, *k.OBJECTS, "task", k.SECONDS, k.TIME):
            refuse(node, "what is printed isn't known to be shown alike", 'print(f"{a} {b}")')
        return self.of(node)

    def of_ListComp(self, node):
        """A loop that adds each item to a new list."""
        if len(node.generators) != 1:
            refuse(node, "two loops in a comprehension", "for x in items:")
        loop, kept = node.generators[0], self.fresh()
        self.emit(f"{kept} = []")
        adds = lambda: self.emit(f"{kept} = {kept} + [{self.of(node.elt)}]")
        def each():
            for test in loop.ifs:
                self.emit(f"if {self.truth(test)}")
            adds()
            self.lines += ["end"] * len(loop.ifs)
        self.program.loop(self, node, loop.target, loop.iter, bool(loop.is_async), each)
        return kept


def is_whole(text):
    """Whether an expression needs no brackets as an operand: a literal or a name, with brackets or an index behind it."""
    rest = re.sub(r'"(?:[^"\\]|\\.)*"', "q", text)
    rest = re.sub(r"^\w+", "", rest)
    while rest and rest[0] in "([":
        depth, at = 0, 0
        for at, it in enumerate(rest):
            depth += (it in "([") - (it in ")]")
            if depth == 0:
                break
        rest = rest[at + 1 :]
    return rest == ""


def constant_seconds(node):
    """So many milliseconds, where the seconds are written as a number."""
    sign = 1
    while isinstance(node, ast.UnaryOp) and isinstance(node.op, ast.USub):
        node, sign = node.operand, -sign
    if isinstance(node, ast.Constant) and type(node.value) in (int, float):
        return round(sign * node.value * 1000, 9)
    return None
