"""What values an expression of a Python file may have, as far as its text tells: a set of kinds.

A kind is a word, or a pair of "list", "task" or "shown" and a set of kinds; what is shown by repr stands as itself until it is
printed. A name's kinds are those of all that it is ever given, and a parameter's those of all calls in the file; ANY is among them
where something isn't known.
"""

import ast

from .refusals import refuse

NONE, BOOL, INT, TEXT, BYTES, ERROR = "None", "Bool", "Int", "Text", "Bytes", "exception"
READER, WRITER, SERVER, CHILD, GROUP, TIMEOUT, LOOP = "reader", "writer", "server", "child", "group", "timeout", "loop"
# a pair of a reader and a writer; seconds, which are milliseconds here; a time of the loop
STREAMS, SECONDS, TIME, ANY = "streams", "seconds", "time", "anything"
UNKNOWN = frozenset([ANY])
# what is always true
OBJECTS = {ERROR, READER, WRITER, SERVER, CHILD, GROUP, TIMEOUT, LOOP, STREAMS}
DEEPEST = 4

# requests that are methods: the name here, how many arguments, whether they are awaited, and what they give
METHODS = {
    "cancel": ("cancel", 0, False, BOOL),
    "cancelling": ("cancelling", 0, False, INT),
    "uncancel": ("uncancel", 0, False, INT),
    "done": ("done", 0, False, BOOL),
    "cancelled": ("cancelled", 0, False, BOOL),
    "result": ("result", 0, False, None),
    "set_result": ("set", 1, False, NONE),
    "set_exception": ("fail", 1, False, NONE),
    "expired": ("expired", 0, False, BOOL),
    "reschedule": ("reschedule", 1, False, NONE),
    "write": ("write", 1, False, NONE),
    "write_eof": ("write_eof", 0, False, NONE),
    "close": ("close", 0, False, NONE),
    "kill": ("kill", 0, False, NONE),
    "drain": ("drain", 0, True, NONE),
    "wait_closed": ("wait_closed", 0, True, NONE),
    "readline": ("readline", 0, True, BYTES),
    "readexactly": ("readexactly", 1, True, BYTES),
    "readuntil": ("readuntil", 1, True, BYTES),
    "read": ("read", 1, True, BYTES),
    "wait": ("wait", 0, True, INT),
}


def listed(kinds, word="list"):
    return frozenset([(word, kinds if depth(kinds) < DEEPEST else UNKNOWN)])


def depth(kinds):
    return max((1 + depth(it[1]) for it in kinds if isinstance(it, tuple)), default=0)


def inner(kinds, word):
    """What the lists, or tasks, among these kinds hold."""
    found = frozenset().union(*(it[1] for it in kinds if isinstance(it, tuple) and it[0] == word))
    return found | UNKNOWN if ANY in kinds else found


def may_be(kinds, *words):
    """Whether a value of these kinds may be of one of these words."""
    return ANY in kinds or any((it[0] if isinstance(it, tuple) else it) in words for it in kinds)


def is_only(kinds, *words):
    return bool(kinds) and all((it[0] if isinstance(it, tuple) else it) in words for it in kinds)


def has_inside(kinds, *words):
    """Whether one of these words stands among the kinds, or in what they hold."""
    return any(it in words if isinstance(it, str) else it[0] in words or has_inside(it[1], *words) for it in kinds)


def falls(nodes):
    """Whether the end of these statements may be reached."""
    last = nodes[-1]
    if isinstance(last, (ast.Return, ast.Raise)):
        return False
    if isinstance(last, ast.If):
        return not last.orelse or falls(last.body) or falls(last.orelse)
    if isinstance(last, ast.Try):
        ends = bool(last.finalbody) and not falls(last.finalbody)
        return not ends and (falls(last.body) or any(falls(it.body) for it in last.handlers))
    return falls(last.body) if isinstance(last, ast.AsyncWith) else True


def dotted(node):
    """The name of an attribute of modules, as asyncio.sleep, or of a plain name."""
    if isinstance(node, ast.Name):
        return node.id
    if isinstance(node, ast.Attribute):
        front = dotted(node.value)
        return front and f"{front}.{node.attr}"
    return None


def quoted(node):
    """What is shown by repr or str, where its single quotes are replaced by double ones: as values are shown here."""
    if (
        isinstance(node, ast.Call)
        and isinstance(node.func, ast.Attribute)
        and node.func.attr == "replace"
        and [it.value for it in node.args if isinstance(it, ast.Constant)] == ["'", '"']
        and isinstance(node.func.value, ast.Call)
        and dotted(node.func.value.func) in ("repr", "str")
        and len(node.func.value.args) == 1
    ):
        return node.func.value
    return None


class Function:
    """A function of the file: its parameters, the kinds of its names, and those of what it returns."""

    def __init__(self, node):
        self.node, self.name = node, node.name
        self.is_coroutine = isinstance(node, ast.AsyncFunctionDef)
        self.parameters = [it.arg for it in node.args.args]
        self.kinds = {}
        self.returns = frozenset()
        self.serves = False  # a server calls it, with a reader and a writer

    def add(self, name, kinds):
        before = self.kinds.get(name, frozenset())
        self.kinds[name] = before | kinds
        return self.kinds[name] != before


class Kinds:
    """The kinds of expressions in the functions of a file."""

    def __init__(self, functions, constants):
        self.functions, self.constants = functions, constants

    def settle(self):
        """Goes through the file until nothing more is learnt."""
        while any([self.learn(function) for function in self.functions.values()]):
            pass

    def learn(self, function):
        """Whether a function told something new."""
        new = False
        for node in ast.walk(function.node):
            new |= self.learn_from(function, node)
        defaults = function.node.args.defaults
        for name, value in zip(function.parameters[::-1], defaults[::-1]):
            new |= function.add(name, self.of(function, value))
        returns = function.returns | (frozenset([NONE]) if falls(function.node.body) else frozenset())
        for node in ast.walk(function.node):
            if isinstance(node, ast.Return):
                returns |= self.of(function, node.value) if node.value else frozenset([NONE])
        new |= returns != function.returns
        function.returns = returns
        return new

    def learn_from(self, function, node):
        if isinstance(node, ast.Assign):
            return any([self.bind(function, target, self.of(function, node.value)) for target in node.targets])
        if isinstance(node, ast.AugAssign):
            return self.bind(function, node.target, self.of_operation(function, node.target, node.op, node.value))
        if isinstance(node, ast.NamedExpr):
            return self.bind(function, node.target, self.of(function, node.value))
        if isinstance(node, (ast.For, ast.comprehension, ast.AsyncFor)):
            lines = isinstance(node, ast.AsyncFor) or getattr(node, "is_async", 0)
            kinds = frozenset([BYTES]) if lines else self.of_items(function, node.iter)
            return self.bind(function, node.target, kinds)
        if isinstance(node, ast.AsyncWith):
            return any([self.bind(function, it.optional_vars, self.of(function, it.context_expr)) for it in node.items])
        if isinstance(node, ast.ExceptHandler) and node.name:
            return function.add(node.name, frozenset([ERROR]))
        if isinstance(node, ast.Call):
            return self.learn_call(function, node)
        return False

    def learn_call(self, function, node):
        if dotted(node.func) == "asyncio.start_server" and node.args:
            handler = self.functions.get(dotted(node.args[0]))
            if handler and len(handler.parameters) == 2:
                handler.serves = True
                added = zip(handler.parameters, (READER, WRITER))
                return any([handler.add(name, frozenset([kind])) for name, kind in added])
        called = self.functions.get(dotted(node.func))
        if not called:
            return False
        given = list(zip(called.parameters, node.args)) + [(it.arg, it.value) for it in node.keywords]
        return any([called.add(name, self.of(function, value)) for name, value in given if name in called.parameters])

    def bind(self, function, target, kinds):
        if isinstance(target, ast.Name):
            return function.add(target.id, kinds)
        if isinstance(target, (ast.Tuple, ast.List)) and kinds:
            if is_only(kinds, STREAMS) and len(target.elts) == 2:
                parts = [frozenset([READER]), frozenset([WRITER])]
            elif is_only(kinds, "pair"):
                parts = [frozenset([INT]), inner(kinds, "pair")]
            else:
                parts = [inner(kinds, "list") | (UNKNOWN if not is_only(kinds, "list") else frozenset())] * len(target.elts)
            return any([self.bind(function, it, part) for it, part in zip(target.elts, parts)])
        return False

    def of_items(self, function, node):
        """The kinds of what a loop goes over."""
        if isinstance(node, ast.Call) and dotted(node.func) == "range":
            return frozenset([INT])
        if isinstance(node, ast.Call) and dotted(node.func) == "enumerate":
            return listed(self.of_items(function, node.args[0]), "pair")
        kinds = self.of(function, node)
        found = inner(kinds, "list")
        return found | (frozenset([INT]) if BYTES in kinds else frozenset()) | (frozenset([TEXT]) if TEXT in kinds else frozenset())

    def of(self, function, node):
        """The kinds of an expression."""
        method = getattr(self, f"of_{type(node).__name__}", None)
        return method(function, node) if method else UNKNOWN

    def of_Constant(self, _function, node):
        words = {bool: BOOL, int: INT, str: TEXT, bytes: BYTES, float: SECONDS, type(None): NONE}
        return frozenset([words.get(type(node.value), ANY)])

    def of_Name(self, function, node):
        if node.id in self.constants and node.id not in function.kinds:
            return self.of(function, self.constants[node.id])
        return function.kinds.get(node.id, frozenset())

    def of_NamedExpr(self, function, node):
        return self.of(function, node.value)

    def of_List(self, function, node):
        return listed(frozenset().union(*(self.of(function, it) for it in node.elts)))

    of_Tuple = of_List

    def of_ListComp(self, function, node):
        return listed(self.of(function, node.elt))

    def of_Compare(self, _function, _node):
        return frozenset([BOOL])

    def of_UnaryOp(self, function, node):
        return frozenset([BOOL]) if isinstance(node.op, ast.Not) else self.of(function, node.operand)

    def of_BoolOp(self, function, node):
        return frozenset().union(*(self.of(function, it) for it in node.values))

    def of_IfExp(self, function, node):
        return self.of(function, node.body) | self.of(function, node.orelse)

    def of_JoinedStr(self, _function, _node):
        return frozenset([TEXT])

    def of_BinOp(self, function, node):
        return self.of_operation(function, node.left, node.op, node.right)

    def of_operation(self, function, left, op, right):
        one, other = self.of(function, left), self.of(function, right)
        both = one | other
        if isinstance(op, ast.Div):
            return frozenset([SECONDS])
        for word in (TIME, SECONDS):
            if word in both:
                return frozenset([word]) if is_only(both, INT, SECONDS, TIME) else UNKNOWN
        if isinstance(op, ast.Mult) and is_only(other, INT) and is_only(one, INT, TEXT, BYTES):
            return one
        if is_only(both, INT) or isinstance(op, ast.Add) and (is_only(both, TEXT) or is_only(both, BYTES)):
            return both
        if isinstance(op, ast.Add) and is_only(both, "list"):
            return listed(inner(both, "list"))
        return frozenset() if not one or not other else UNKNOWN

    def of_Subscript(self, function, node):
        kinds = self.of(function, node.value)
        if is_only(kinds, STREAMS):
            index = getattr(node.slice, "value", None)
            return frozenset([READER] if index == 0 else [WRITER] if index == 1 else [ANY])
        return inner(kinds, "list") | (frozenset([INT]) if BYTES in kinds else frozenset())

    def of_Attribute(self, function, node):
        words, owner = {"stdin": WRITER, "stdout": READER, "stderr": READER}, self.of(function, node.value)
        if not owner and not isinstance(node.value, ast.Call):
            return frozenset()
        if node.attr in words and CHILD in owner:
            return frozenset([words[node.attr]])
        if node.attr == "returncode":
            return frozenset([INT, NONE])
        if node.attr == "exceptions":
            return listed(frozenset([ERROR]))
        return frozenset([TEXT]) if node.attr == "__name__" else frozenset([BYTES]) if node.attr == "partial" else UNKNOWN

    def of_Await(self, function, node):
        call = node.value
        if not isinstance(call, ast.Call):
            return inner(self.of(function, call), "task")
        words = {
            "asyncio.sleep": NONE,
            "asyncio.open_connection": STREAMS,
            "asyncio.start_server": SERVER,
            "asyncio.create_subprocess_exec": CHILD,
        }
        name = dotted(call.func)
        if name in words:
            return frozenset([words[name]])
        if name in self.functions:
            return self.functions[name].returns
        return self.of_method(function, call)

    def of_Call(self, function, node):
        name = dotted(node.func)
        words = {"len": INT, "str": TEXT, "repr": TEXT, "int": INT, "asyncio.timeout": TIMEOUT, "asyncio.timeout_at": TIMEOUT}
        words |= {"asyncio.TaskGroup": GROUP, "asyncio.get_running_loop": LOOP, "asyncio.get_event_loop": LOOP, "bytes": BYTES}
        if name in words:
            return frozenset([words[name]])
        if name == "asyncio.current_task":
            return listed(UNKNOWN, "task")
        if name == "asyncio.create_task" or isinstance(node.func, ast.Attribute) and node.func.attr == "create_task":
            called = node.args and isinstance(node.args[0], ast.Call) and self.functions.get(dotted(node.args[0].func))
            return listed(called.returns if called else UNKNOWN, "task")
        if quoted(node):
            return listed(self.of(function, quoted(node).args[0]), "shown")
        if name in self.functions:
            return self.functions[name].returns
        return self.of_method(function, node)

    def of_method(self, function, node):
        if not isinstance(node.func, ast.Attribute):
            return UNKNOWN
        owner, name = self.of(function, node.func.value), node.func.attr
        if not owner:
            return frozenset()
        if name == "time" and owner == frozenset([LOOP]):
            return frozenset([TIME])
        if name == "create_future":
            return listed(UNKNOWN, "task")
        if name in ("encode", "decode"):
            return frozenset([BYTES if name == "encode" else TEXT])
        if name == "result":
            return inner(owner, "task")
        return frozenset([METHODS[name][3]]) if name in METHODS else UNKNOWN


def known(node, kinds, row, what):
    """Refuses what may be anything."""
    if not kinds or ANY in kinds:
        refuse(node, f"{what} isn't known to be of one kind", row)
