"""A file of Python as a script."""

import ast

from . import kinds as k
from .expressions import KINDS, RESERVED, ROWS
from .refusals import refuse
from .statements import Statements

MODULES = ("asyncio", "asyncio.subprocess")
# names that mean what Python's own mean
OWN = {"asyncio", "len", "str", "repr", "print", "range", "enumerate", "type", "int", "bytes", "PIPE", "DEVNULL", *KINDS}


class Names:
    """The names of a script: those of the file, but where the language has one of its own; and new ones."""

    def __init__(self, taken, walrus=(), above=None):
        self.taken, self.walruses, self.above = set(taken) | set(RESERVED) | set(KINDS), set(walrus), above
        self.given, self.count = {}, 0

    def of(self, word):
        if self.above and word in self.above.given:
            return self.above.given[word]
        if word not in self.given:
            new = word if word.isascii() else "name"
            while new in RESERVED or new in KINDS or (new != word and new in self.taken) or new in self.given.values():
                new += "_"
            self.given[word] = new
            self.taken.add(new)
        return self.given[word]

    def fresh(self):
        while True:
            self.count += 1
            if f"v{self.count}" not in self.taken:
                return f"v{self.count}"

    def is_walrus(self, word):
        return word in self.walruses


def names_in(node):
    found = {it.id for it in ast.walk(node) if isinstance(it, ast.Name)} | {it.arg for it in ast.walk(node) if isinstance(it, ast.arg)}
    return found | {it.name for it in ast.walk(node) if isinstance(it, ast.ExceptHandler) and it.name}


class Program:
    """The functions of a file, and its constants."""

    def __init__(self, tree):
        self.tree, self.functions, self.constants, self.main = tree, {}, {}, None
        for node in sorted((it for it in ast.walk(tree) if isinstance(it, ast.Call)), key=lambda it: it.lineno):
            if k.dotted(node.func) in ROWS:
                refuse(node, k.dotted(node.func), ROWS[k.dotted(node.func)])
        for node in tree.body:
            self.take(node)
        for node in ast.walk(tree):
            self.keeps_own(node)
        if not self.main:
            refuse(tree, "there is no asyncio.run(..)", "asyncio.run(main())")
        self.kinds = k.Kinds(self.functions, self.constants)
        self.kinds.settle()
        self.names = Names(set().union(*(names_in(it.node) for it in self.functions.values())))
        self.names.given[self.main] = "main"
        for name in self.functions:
            self.names.of(name)

    def take(self, node):
        """Takes a statement of the file's top."""
        if isinstance(node, (ast.FunctionDef, ast.AsyncFunctionDef)):
            inside = (ast.FunctionDef, ast.AsyncFunctionDef, ast.Lambda, ast.ClassDef, ast.Global, ast.Nonlocal)
            if node.decorator_list or any(isinstance(it, inside) for it in ast.walk(node) if it is not node):
                refuse(node, "a decorator, or a function inside of another", "contextvars, globals")
            if node.args.vararg or node.args.kwarg or node.args.kwonlyargs or node.args.posonlyargs:
                refuse(node, "parameters with stars", "LANGUAGE.md, Lines")
            self.functions[node.name] = k.Function(node)
        elif isinstance(node, ast.Import) and all(it.name in MODULES and not it.asname for it in node.names):
            pass
        elif isinstance(node, ast.ImportFrom) and node.module in MODULES and all(it.name in ("PIPE", "DEVNULL") for it in node.names):
            pass
        elif isinstance(node, ast.Assign) and len(node.targets) == 1 and isinstance(node.value, ast.Constant):
            name = k.dotted(node.targets[0])
            if name in self.constants:
                refuse(node, f"{name} is assigned twice", "contextvars, globals")
            self.constants[name] = node.value
        elif isinstance(node, ast.If) and ast.unparse(node.test) == "__name__ == '__main__'" and not node.orelse:
            for it in node.body:
                self.take(it)
        elif isinstance(node, ast.Expr) and isinstance(node.value, ast.Constant):
            pass
        else:
            self.run(node)

    def keeps_own(self, node):
        """Refuses another meaning of a name that Python gives."""
        named = getattr(node, "name", None) or getattr(node, "arg", None)
        named = node.id if isinstance(node, ast.Name) and isinstance(node.ctx, ast.Store) else named
        if named in OWN and not isinstance(node, (ast.alias, ast.keyword)):
            refuse(node, f"{named} with a meaning of its own", "LANGUAGE.md, Variables")

    def run(self, node):
        call = node.value if isinstance(node, ast.Expr) else None
        if not isinstance(call, ast.Call) or k.dotted(call.func) != "asyncio.run" or len(call.args) != 1 or call.keywords or self.main:
            refuse(node, "a statement outside of a coroutine", "asyncio.run(main())")
        inner = call.args[0]
        name = k.dotted(inner.func) if isinstance(inner, ast.Call) and not inner.args and not inner.keywords else None
        if name not in self.functions or not self.functions[name].is_coroutine or self.functions[name].parameters:
            refuse(node, "asyncio.run of what isn't a coroutine without parameters", "asyncio.run(main())")
        self.main = name

    def arguments(self, call, called):
        """The arguments of a call, in the order of the parameters."""
        if any(isinstance(it, ast.Starred) for it in call.args) or any(it.arg is None for it in call.keywords):
            refuse(call, "a star in a call", "LANGUAGE.md, Lines")
        if call.keywords or called.node.args.defaults:
            given = dict(zip(called.parameters, call.args)) | {it.arg: it.value for it in call.keywords}
            defaults = dict(zip(called.parameters[::-1], called.node.args.defaults[::-1]))
            if any(not isinstance(it, ast.Constant) for it in defaults.values()) or call.keywords and len(call.keywords) + len(call.args) > 1:
                refuse(call, "arguments by name", "LANGUAGE.md, Lines")
            given = defaults | given
            if set(given) != set(called.parameters):
                refuse(call, f"a call of {called.name} with other arguments than it has", "LANGUAGE.md, Lines")
            return [given[name] for name in called.parameters]
        if len(call.args) != len(called.parameters):
            refuse(call, f"a call of {called.name} with other arguments than it has", "LANGUAGE.md, Lines")
        return list(call.args)

    def loop(self, lines, node, target, items, over_lines, body, leaves=False):
        """A loop over what is listed, a range, or the lines of a reader, as a while."""
        goes = lines.fresh() if leaves else None
        if leaves:
            lines.emit(f"{goes} = True")
        also = f"{goes} and " if leaves else ""
        if over_lines:
            self.over_lines(lines, node, target, items, body, goes, leaves)
            return
        begin, test, item, after = self.range(lines, node, items)
        lines.emit(begin)
        lines.emit(f"while {also}({test})" if leaves else f"while {test}")
        self.give(lines, node, target, item)
        lines.emit(after)
        lines.loop_body(body, goes, leaves)
        lines.emit("end")

    def over_lines(self, lines, node, target, items, body, goes, leaves):
        """Reads lines up to the empty one, which the reader gives at its end."""
        if not k.is_only(lines.kinds(items), k.READER) or not isinstance(target, ast.Name):
            refuse(node, "async for over what isn't known to be a reader", "async generators, async for, async with of your own")
        reader, line, name = lines.of(items), lines.fresh(), lines.name(target.id)
        lines.emit(f"{line} = yield from readline({reader})")
        lines.emit(f"while {goes} and (len({line}) > 0)" if leaves else f"while len({line}) > 0")
        lines.emit(f"{name} = {line}")
        lines.loop_body(body, goes, leaves)
        if leaves:
            lines.emit(f"if {goes}")
        lines.emit(f"{line} = yield from readline({reader})")
        lines.lines += ["end"] * (2 if leaves else 1)

    def range(self, lines, node, items):
        """How a loop begins, what it tests, its item, and what it does behind the item."""
        at = lines.fresh()
        name = k.dotted(items.func) if isinstance(items, ast.Call) else None
        if name == "range":
            bounds = items.args if len(items.args) > 1 else [ast.Constant(0), *items.args]
            step = bounds[2] if len(bounds) > 2 else ast.Constant(1)
            sign = -1 if isinstance(step, ast.UnaryOp) else 1
            size = step.operand if sign < 0 else step
            if not isinstance(size, ast.Constant) or not all(k.is_only(lines.kinds(it), k.INT) for it in bounds) or size.value == 0:
                refuse(node, "a range of what isn't known to be numbers", "for x in items:")
            first, last = lines.each(bounds[:2])
            end = lines.fresh()
            lines.emit(f"{end} = {last}")
            return f"{at} = {first}", f"{at} {'<' if sign > 0 else '>'} {end}", [at], f"{at} = {at} {'+' if sign > 0 else '-'} {size.value}"
        counted = None
        if name == "enumerate":
            counted = items.args[1] if len(items.args) > 1 else ast.Constant(0)
            if not isinstance(counted, ast.Constant) or items.keywords:
                refuse(node, "enumerate from what is no number", "for x in items:")
            items = items.args[0]
        if not k.is_only(lines.kinds(items), "list", k.BYTES):
            refuse(node, "a loop over what isn't known to be a list", "for x in items:")
        whole = lines.fresh()
        lines.emit(f"{whole} = {lines.of(items)}")
        item = f"{whole}[{at}]"
        number = [] if counted is None else [f"{at} + {counted.value}" if counted.value else at]
        return f"{at} = 0", f"{at} < len({whole})", [*number, item], f"{at} = {at} + 1"

    def give(self, lines, node, target, item):
        """Gives a loop's names what it goes over."""
        if isinstance(target, ast.Name) and len(item) == 1:
            lines.emit(f"{lines.name(target.id)} = {item[0]}")
        elif isinstance(target, ast.Tuple) and len(target.elts) == len(item) == 2 and all(isinstance(it, ast.Name) for it in target.elts):
            for name, text in zip(target.elts, item):
                lines.emit(f"{lines.name(name.id)} = {text}")
        else:
            refuse(node, "a loop with such names", "for x in items:")

    def text(self):
        return "".join(self.function(it) for it in self.functions.values())

    def function(self, function):
        """The lines of a function, indented."""
        walruses = {it.target.id for it in ast.walk(function.node) if isinstance(it, ast.NamedExpr)}
        taken = names_in(function.node) | set(self.names.given.values())
        names = Names(taken, walruses)
        for word in function.kinds:
            if word in self.functions:
                refuse(function.node, f"{word} is a function and a name of {function.name}", "LANGUAGE.md, Variables")
            names.of(word)
        lines = Statements(self, function, names)
        parameters = [names.of(it) for it in function.parameters]
        if function.serves:
            lines.emit(f"{parameters[1]} = {parameters[0]}")
            parameters = parameters[:1]
        lines.block(function.node.body)
        return indented([f"def {self.names.of(function.name)}({', '.join(parameters)})", *lines.lines, "end"])


def indented(lines):
    said, depth = [], 0
    for line in lines:
        word = line.split(" ")[0].split("(")[0]
        if word in ("end", "else", "except", "finally"):
            depth -= 1
        said.append("  " * depth + line + "\n")
        if word in ("def", "if", "while", "try", "with", "else", "except", "finally"):
            depth += 1
    return "".join(said)
