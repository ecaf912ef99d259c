"""Statements of Python as lines of a script."""

import ast

from . import kinds as k
from .expressions import KINDS, LOCALS, ROWS, Expressions, exception_kind, literal
from .refusals import refuse

STREAMS_ROW = "await asyncio.open_connection(host, 8765)"
CHILD_ROW = 'await asyncio.create_subprocess_exec("cat")'
TASK_ROW = "asyncio.create_task(f(x))"


def leaves_loop(node, own=True):
    """Whether a break or continue of the loop around stands in a statement."""
    if isinstance(node, (ast.Break, ast.Continue)):
        return True
    inner = [] if isinstance(node, (ast.For, ast.While, ast.AsyncFor)) and own else ast.iter_child_nodes(node)
    return any(leaves_loop(it) for it in inner if isinstance(it, (ast.stmt, ast.ExceptHandler)))


class Statements(Expressions):
    """A function, line by line. `target` is a request, as it stands behind `yield from`."""

    def __init__(self, program, function, names):
        super().__init__(program, function, names)
        self.caught = []  # the names of the exceptions that are being handled
        self.skips = []  # of each loop that is left early, the name that says so

    # ---- requests
    def of_Await(self, node):
        return self.asked(node)

    def of_Call(self, node):
        name = k.dotted(node.func)
        shown = k.quoted(node)
        if shown:
            return self.quoted(node, shown.args[0], k.dotted(shown.func))
        if name == "len" and len(node.args) == 1:
            return f"len({self.of(node.args[0])})"
        if name == "str" and len(node.args) == 1:
            return self.as_text(node.args[0])
        if isinstance(node.func, ast.Attribute) and node.func.attr in ("encode", "decode") and not node.args:
            word, kind = ("bytes", k.TEXT) if node.func.attr == "encode" else ("text", k.BYTES)
            if k.is_only(self.kinds(node.func.value), kind):
                return f"{word}({self.of(node.func.value)})"
        if name and name.split(".")[-1] in KINDS:
            return self.exception(node)
        return self.asked(node)

    def quoted(self, node, value, word):
        """What repr shows stands as the value itself, until print shows it."""
        kinds = self.kinds(value)
        alike = (k.BYTES, k.INT, k.BOOL, k.NONE, "list") + ((k.ERROR,) if word == "repr" else ())
        if not k.is_only(kinds, *alike) or k.has_inside(kinds, k.ANY, k.SECONDS, k.TIME, "task", *(k.OBJECTS - {k.ERROR})):
            refuse(node, "what is shown isn't known to be of one kind", 'print(f"{a} {b}")')
        return self.of(value)

    def of_Attribute(self, node):
        kinds = self.kinds(node.value)
        if node.attr in ("stdin", "stdout") and k.is_only(kinds, k.CHILD):
            return self.of(node.value)
        if node.attr == "exceptions" and k.is_only(kinds, k.ERROR):
            return f"members({self.of(node.value)})"
        if node.attr == "partial" and k.is_only(kinds, k.ERROR):
            return f"partial({self.of(node.value)})"
        if node.attr == "__name__" and isinstance(node.value, ast.Call) and k.dotted(node.value.func) == "type":
            return f"kind({self.of(node.value.args[0])})"
        return self.asked(node)

    def asked(self, node):
        """A request in an expression: a line before it, and the name that has its answer."""
        kept = self.fresh()
        self.ask(node, kept)
        return kept

    def ask(self, node, into):
        """The lines of a request; its answer is in `into`, unless that is None."""
        target = self.target(node)
        if target is None:
            self.emit("yield")
            if into:
                self.emit(f"{into} = None")
            return
        if isinstance(target, list):
            into = into or self.fresh()
            self.lines += [line.format(into=into) for line in target]
            return
        self.emit(f"{into} = yield from {target}" if into else f"yield from {target}")

    def target(self, node):
        """A request: what stands behind `yield from`; None for a bare yield; or lines, where more is to be done."""
        if isinstance(node, ast.Await):
            if isinstance(node.value, ast.Call):
                return self.awaited(node.value)
            if isinstance(node.value, ast.Name):
                return self.of(node.value)
            kept = self.fresh()
            self.emit(f"{kept} = {self.of(node.value)}")
            return kept
        if isinstance(node, ast.Attribute):
            if node.attr == "returncode" and k.is_only(self.kinds(node.value), k.CHILD):
                return f"returncode({self.of(node.value)})"
            if node.attr == "stderr" and k.is_only(self.kinds(node.value), k.CHILD):
                return f"stderr({self.of(node.value)})"
            return refuse(node, f".{node.attr}", "LANGUAGE.md, Requests")
        return self.called(node)

    def awaited(self, call):
        name = k.dotted(call.func)
        ways = {
            "asyncio.sleep": self.sleep,
            "asyncio.open_connection": self.connect,
            "asyncio.start_server": self.listen,
            "asyncio.create_subprocess_exec": self.launch,
        }
        if name in ways:
            return ways[name](call)
        if name in ROWS:
            return refuse(call, name, ROWS[name])
        called = self.program.functions.get(name)
        if called:
            if not called.is_coroutine:
                refuse(call, f"await of {name}, which is no coroutine", "await f(x)")
            return self.coroutine(call, called)
        return self.method(call, True)

    def called(self, call):
        name = k.dotted(call.func)
        if name == "asyncio.current_task" and not call.args:
            return "current()"
        if name == "asyncio.create_task" or self.is_method(call, "create_task", k.LOOP):
            return f"spawn({self.started(call)})"
        if self.is_method(call, "create_task", k.GROUP):
            return f"create({self.of(call.func.value)}, {self.started(call)})"
        if self.is_method(call, "create_future", k.LOOP):
            return "future()"
        if self.is_method(call, "time", k.LOOP):
            return "time()"
        if name in ROWS:
            return refuse(call, name, ROWS[name])
        called = self.program.functions.get(name)
        if called:
            if called.is_coroutine:
                refuse(call, f"{name}(..) without await", "await f(x)")
            return self.coroutine(call, called)
        return self.method(call, False)

    def is_method(self, call, word, kind):
        is_named = isinstance(call.func, ast.Attribute) and call.func.attr == word
        return is_named and k.is_only(self.kinds(call.func.value), kind)

    def started(self, call):
        """The coroutine of a new task and its arguments, as spawn has them."""
        if len(call.args) != 1 or call.keywords or not isinstance(call.args[0], ast.Call):
            refuse(call, "a task of what isn't a call of a coroutine", TASK_ROW)
        called = self.program.functions.get(k.dotted(call.args[0].func))
        if not called or not called.is_coroutine:
            refuse(call, "a task of what isn't a coroutine of the file", TASK_ROW)
        word, *rest = self.coroutine(call.args[0], called)[:-1].split("(", 1)
        return f"{word}, {rest[0]}" if rest[0] else word

    def coroutine(self, call, called):
        """A call of a function of the file."""
        if called.serves:
            refuse(call, f"a call of {called.name}, which a server calls", STREAMS_ROW)
        given = self.program.arguments(call, called)
        return f"{self.program.names.of(called.name)}({', '.join(self.each(given))})"

    def method(self, call, is_awaited):
        if not isinstance(call.func, ast.Attribute) or call.func.attr not in k.METHODS or call.keywords:
            name = k.dotted(call.func) or "this call"
            return refuse(call, f"{name}(..)", "LANGUAGE.md, Requests")
        word, count, awaits, _ = k.METHODS[call.func.attr]
        owner = self.kinds(call.func.value)
        if awaits != is_awaited:
            refuse(call, f".{call.func.attr}() {'without' if awaits else 'with'} await", "LANGUAGE.md, Requests")
        self.owns(call, call.func.attr, owner)
        arguments = list(call.args)
        if word == "read" and not arguments:
            arguments = [ast.Constant(-1)]
        if word == "readuntil" and not arguments:
            arguments = [ast.Constant(b"\n")]
        if len(arguments) != count:
            refuse(call, f".{call.func.attr}() with {len(arguments)} arguments", "t.cancel(msg), a task's name, all_tasks()")
        last = self.time if word == "reschedule" and not self.is_none(arguments[0]) else self.of
        said = self.each([call.func.value, *arguments], lambda it: last(it) if it is not call.func.value else self.of(it))
        return f"{word}({', '.join(said)})"

    def is_none(self, node):
        return isinstance(node, ast.Constant) and node.value is None

    def owns(self, call, word, owner):
        """Refuses a method of what isn't known to have it."""
        owners = {
            "task": ("cancel", "cancelling", "uncancel", "done", "cancelled", "result", "set_result", "set_exception"),
            k.TIMEOUT: ("expired", "reschedule"),
            k.WRITER: ("write", "write_eof", "close", "drain", "wait_closed"),
            k.READER: ("readline", "readexactly", "readuntil", "read"),
            k.SERVER: ("close",),
            k.CHILD: ("wait", "kill"),
        }
        fitting = [kind for kind, words in owners.items() if word in words]
        rest = owner - {k.NONE}
        if not rest or not k.is_only(rest, *fitting):
            refuse(call, f".{word}() of what isn't known to have it", "LANGUAGE.md, Requests")

    def sleep(self, call):
        if len(call.args) != 1 or call.keywords:
            refuse(call, "asyncio.sleep with a result", "await asyncio.sleep(0.05), sleep(0)")
        wait = self.milliseconds(call.args[0])
        return None if wait == 0 else f"sleep({wait})"

    def port(self, call, host, port):
        if not isinstance(host, ast.Constant) or host.value not in LOCALS:
            refuse(call, "a host that isn't 127.0.0.1", STREAMS_ROW)
        return self.of(port)

    def connect(self, call):
        if len(call.args) != 2 or call.keywords:
            refuse(call, "asyncio.open_connection with more than a host and a port", STREAMS_ROW)
        port = self.port(call, *call.args)
        return [f"{{into}} = yield from connect({port})", "{into} = [{into}, {into}]"]

    def listen(self, call):
        handler = self.program.functions.get(k.dotted(call.args[0])) if call.args else None
        if len(call.args) != 3 or call.keywords or not handler or not handler.serves:
            refuse(call, "asyncio.start_server with more than a coroutine of a reader and a writer, a host and a port", STREAMS_ROW)
        return f"listen({self.port(call, *call.args[1:])}, {self.program.names.of(handler.name)})"

    def launch(self, call):
        """A child. What its errors say is read by nobody, where the file doesn't ask for them."""
        pipes = {it.arg: (k.dotted(it.value) or "").split(".")[-1] for it in call.keywords}
        if not set(pipes) <= {"stdin", "stdout", "stderr"} or pipes.get("stdout") != "PIPE":
            refuse(call, "a child whose standard output isn't a PIPE, or with other settings", CHILD_ROW)
        if pipes.get("stdin") not in ("PIPE", "DEVNULL") or pipes.get("stderr", "PIPE") != "PIPE":
            refuse(call, "a child whose standard input is neither PIPE nor DEVNULL, or whose errors go elsewhere", CHILD_ROW)
        if len(call.args) == 1 and isinstance(call.args[0], ast.Starred):
            words = self.of(call.args[0].value)
        else:
            words = self.of_List(ast.List(list(call.args), ast.Load()))
        lines = ["{into} = yield from launch(" + words.replace("{", "{{").replace("}", "}}") + ")"]
        return lines + (["yield from close({into})"] if pipes["stdin"] == "DEVNULL" else [])

    def exception(self, node):
        """An exception that is made: of a class, or of a class and a text."""
        call = node if isinstance(node, ast.Call) else ast.Call(node, [], [])
        kind = exception_kind(call.func)
        if kind in ("BaseException", "ExceptionGroup") or len(call.args) > 1 or call.keywords:
            refuse(node, f"an exception {kind} with these arguments", 'raise ValueError("no"), raise')
        if call.args and not k.is_only(self.kinds(call.args[0]), k.TEXT):
            refuse(node, "an exception of what isn't known to be a text", 'raise ValueError("no"), raise')
        return f"error({kind}, {self.of(call.args[0]) if call.args else literal('')})"

    # ---- statements
    def block(self, nodes):
        """Statements, of which those behind a break or continue are done only where the loop goes on."""
        ends = 0
        for place, node in enumerate(nodes):
            self.statement(node)
            if self.skips and leaves_loop(node) and place + 1 < len(nodes):
                self.emit(f"if not {self.skips[-1][1]}")
                ends += 1
        self.lines += ["end"] * ends

    def statement(self, node):
        method = getattr(self, f"do_{type(node).__name__}", None)
        if not method:
            refuse(node, f"{type(node).__name__} has no translation", "LANGUAGE.md, Lines")
        method(node)

    def do_Pass(self, _node):
        self.emit("pass")

    def do_Expr(self, node):
        value = node.value
        if isinstance(value, ast.Constant) and isinstance(value.value, str):
            return
        if isinstance(value, ast.Call) and k.dotted(value.func) == "print":
            self.prints(value)
        elif isinstance(value, (ast.Await, ast.Call)):
            self.ask(value, None)
        else:
            refuse(node, "an expression that stands alone", "LANGUAGE.md, Lines")

    def prints(self, call):
        if [it for it in call.keywords if it.arg != "flush"] or any(isinstance(it, ast.Starred) for it in call.args):
            refuse(call, "print with sep, end, file or a star", 'print(f"{a} {b}")')
        self.emit("print " + (", ".join(self.each(call.args, self.shown)) or '""'))

    def do_Assign(self, node):
        if len(node.targets) != 1:
            refuse(node, "two assignments in one", "LANGUAGE.md, Lines")
        self.assign(node, node.targets[0], node.value)

    def do_AnnAssign(self, node):
        if node.value:
            self.assign(node, node.target, node.value)

    def assign(self, node, target, value):
        if isinstance(target, ast.Tuple):
            self.unpack(node, target, self.of(value), self.kinds(value), len(getattr(value, "elts", [])))
            return
        if not isinstance(target, ast.Name):
            refuse(node, "an assignment to what is no name", "LANGUAGE.md, Lines")
        if k.is_only(self.kinds(value), k.LOOP):
            return
        name = self.name(target.id)
        is_request = isinstance(value, ast.Await) or isinstance(value, ast.Call) and self.is_request(value)
        if is_request:
            self.ask(value, name)
        elif k.is_only(self.kinds(value), k.SECONDS):
            self.emit(f"{name} = {self.milliseconds(value)}")
        else:
            self.emit(f"{name} = {self.of(value)}")

    def is_request(self, call):
        name = k.dotted(call.func)
        is_text = isinstance(call.func, ast.Attribute) and call.func.attr in ("encode", "decode", "replace")
        return not (is_text or name in ("len", "str", "repr") or (name or "").split(".")[-1] in KINDS)

    def unpack(self, node, target, text, kinds, count):
        names = [it.id if isinstance(it, ast.Name) else refuse(node, "a nested target", "LANGUAGE.md, Lines") for it in target.elts]
        if not (k.is_only(kinds, k.STREAMS) and len(names) == 2 or count == len(names)):
            refuse(node, "names for the items of a list whose length isn't known", "LANGUAGE.md, Lines")
        kept = self.fresh()
        self.emit(f"{kept} = {text}")
        for place, name in enumerate(names):
            self.emit(f"{self.name(name)} = {kept}[{place}]")

    def do_AugAssign(self, node):
        if not isinstance(node.target, ast.Name):
            refuse(node, "an assignment to what is no name", "LANGUAGE.md, Lines")
        if k.may_be(self.kinds(node.target), "list"):
            refuse(node, "+= of a list, which changes it for whoever else has it", "How tasks share")
        value = ast.copy_location(ast.BinOp(ast.copy_location(ast.Name(node.target.id), node), node.op, node.value), node)
        self.assign(node, node.target, value)

    def do_Return(self, node):
        if node.value is None:
            self.emit("return")
        elif isinstance(node.value, (ast.Await,)) or isinstance(node.value, ast.Call) and self.is_request(node.value):
            self.emit(f"return {self.asked(node.value)}")
        else:
            self.emit(f"return {self.of(node.value)}")

    def do_Raise(self, node):
        if node.cause:
            refuse(node, "raise .. from", 'raise ValueError("no"), raise')
        if node.exc is None:
            if not self.caught:
                refuse(node, "raise outside of except", 'raise ValueError("no"), raise')
            self.emit(f"raise {self.caught[-1]}")
        elif isinstance(node.exc, ast.Name) and k.is_only(self.kinds(node.exc), k.ERROR):
            self.emit(f"raise {self.of(node.exc)}")
        else:
            self.emit(f"raise {self.exception(node.exc)}")

    def do_If(self, node):
        self.emit(f"if {self.truth(node.test)}")
        self.block(node.body)
        if node.orelse:
            self.emit("else")
            self.block(node.orelse)
        self.emit("end")

    def do_While(self, node):
        if node.orelse:
            refuse(node, "else behind while", "elif, break, x += 1")
        test, lines = self.apart(node.test, self.truth)
        leaves = any(leaves_loop(it) for it in node.body)
        if not lines and not leaves:
            self.emit(f"while {test}")
            self.skips.append(None)
            self.block(node.body)
            self.skips.pop()
            self.emit("end")
            return
        self.while_with_lines(node, test, lines, leaves)

    def while_with_lines(self, node, test, lines, leaves):
        goes = self.fresh()
        self.emit(f"{goes} = True")
        self.emit(f"while {goes}")
        self.lines += lines
        self.emit(f"if {test}")
        self.loop_body(lambda: self.block(node.body), goes, leaves)
        self.lines += ["else", f"{goes} = False", "end", "end"]

    def loop_body(self, body, goes, leaves):
        """A loop's body, in which a break sets `goes`, and both a break and a continue the name that skips the rest."""
        skip = self.fresh() if leaves else None
        if leaves:
            self.emit(f"{skip} = False")
        self.skips.append((goes, skip) if leaves else None)
        body()
        self.skips.pop()

    def do_Break(self, _node):
        goes, skip = self.skips[-1]
        self.lines += [f"{goes} = False", f"{skip} = True"]

    def do_Continue(self, _node):
        self.emit(f"{self.skips[-1][1]} = True")

    def do_For(self, node, lines=False):
        if node.orelse:
            refuse(node, "else behind for", "elif, break, x += 1")
        leaves = any(leaves_loop(it) for it in node.body)
        self.program.loop(self, node, node.target, node.iter, lines, lambda: self.block(node.body), leaves)

    def do_AsyncFor(self, node):
        self.do_For(node, True)

    def do_AsyncWith(self, node):
        for it in node.items:
            self.enter(node, it.context_expr, self.name(it.optional_vars.id) if it.optional_vars else self.fresh())
        self.block(node.body)
        self.lines += ["end"] * len(node.items)

    def enter(self, node, call, name):
        word = k.dotted(call.func) if isinstance(call, ast.Call) else None
        if word == "asyncio.TaskGroup":
            self.emit(f"with group as {name}")
        elif word in ("asyncio.timeout", "asyncio.timeout_at") and len(call.args) == 1:
            value = call.args[0]
            if word == "asyncio.timeout" or self.is_none(value):
                self.emit(f"with timeout({'None' if self.is_none(value) else self.milliseconds(value)}) as {name}")
                return
            kept = self.fresh()
            self.emit(f"{kept} = {self.time(value)}")
            self.lines += [f"with timeout(None) as {name}", f"yield from reschedule({name}, {kept})"]
        else:
            refuse(node, "async with of what is neither a TaskGroup nor a timeout", "contextvars, globals" if not word else ROWS.get(word, word))

    def do_Try(self, node):
        if node.orelse:
            refuse(node, "else behind try", "LANGUAGE.md, Lines")
        self.emit("try")
        self.block(node.body)
        for handler in node.handlers:
            self.handler(handler)
        if node.finalbody:
            if any(isinstance(it, ast.Return) for inner in node.finalbody for it in ast.walk(inner)):
                refuse(node, "a return in a finally", "LANGUAGE.md, Lines")
            self.emit("finally")
            self.block(node.finalbody)
        self.emit("end")

    def handler(self, handler):
        """An except clause, one for each class that it names."""
        types = handler.type.elts if isinstance(handler.type, ast.Tuple) else [handler.type]
        raises = any(isinstance(it, ast.Raise) and it.exc is None for inner in handler.body for it in ast.walk(inner))
        own = self.name(handler.name) if handler.name else None
        # a raise alone raises what was caught, whatever the name has by then
        name = self.fresh() if raises or not own else own
        for it in types:
            kind = exception_kind(it) if it is not None else "BaseException"
            self.emit(f"except {kind} as {name}" if raises or own else f"except {kind}")
            if own and own != name:
                self.emit(f"{own} = {name}")
            self.caught.append(name)
            self.block(handler.body)
            self.caught.pop()
