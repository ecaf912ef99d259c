"""Reads a script, and makes each of its coroutines a Python generator that asks what the script's coroutine asks.

The script is one that the program accepts. A generator yields (line, request, arguments); what is sent or thrown into it is
the answer. docs/LANGUAGE.md has the rules, and `crates/model_text` defines them.
"""

import re

TOKEN = re.compile(r'\s*(?:(#.*)|(b?"(?:\\.|[^"\\])*")|([A-Za-z_]\w*)|(\d+)|(==|!=|<=|>=|//|[()\[\],=<>+\-*%]))')
FUNCTIONS = {"len", "str", "bytes", "text", "error", "kind", "message", "partial", "members"}
ARITHMETIC = {"+": "add", "-": "subtract", "*": "multiply", "//": "divide", "%": "remainder"}
COMPARISONS = {"==": "equal", "!=": "unequal", "<": "less", "<=": "less_equal", ">": "greater", ">=": "greater_equal"}
ESCAPES = {"n": 10, "r": 13, "t": 9, "\\": 92, '"': 34}


class Unread(Exception):
    """The text is no script, or one that can't be followed."""


def literal(word):
    """The bytes that a literal stands for."""
    inner, out, at = word[word.index('"') + 1:-1], bytearray(), 0
    while at < len(inner):
        if inner[at] != "\\":
            out.append(ord(inner[at]))
            at += 1
        elif inner[at + 1] == "x":
            out.append(int(inner[at + 2:at + 4], 16))
            at += 4
        else:
            out.append(ESCAPES[inner[at + 1]])
            at += 2
    return bytes(out)


def tokens_of(line, number):
    tokens, at = [], 0
    while line[at:].strip():
        found = TOKEN.match(line, at)
        if not found:
            raise Unread(f"line {number} has no token at {line[at:].strip()[:20]}")
        at = found.end()
        if not found.group(1):
            tokens.append(found.group(0).strip())
    return tokens


class Line:
    """The tokens of a line, taken from the left; expressions become Python's."""

    def __init__(self, tokens, number, names):
        self.tokens, self.number, self.names, self.at = tokens, number, names, 0

    def next(self):
        return self.tokens[self.at] if self.at < len(self.tokens) else None

    def take(self, *wanted):
        word = self.next()
        if wanted and word not in wanted:
            raise Unread(f"line {self.number}: {' or '.join(wanted)} is wanted")
        self.at += 1
        return word

    def taken(self, *words):
        if self.tokens[self.at:self.at + len(words)] == list(words):
            self.at += len(words)
            return True
        return False

    def expression(self):
        left = self.conjunction()
        while self.taken("or"):
            left = f"V.either({left}, lambda: {self.conjunction()})"
        return left

    def conjunction(self):
        left = self.negation()
        while self.taken("and"):
            left = f"V.both({left}, lambda: {self.negation()})"
        return left

    def negation(self):
        return f"V.negated({self.negation()})" if self.taken("not") else self.comparison()

    def comparison(self):
        left = self.sum()
        if self.next() in COMPARISONS:
            return f"V.{COMPARISONS[self.take()]}({left}, {self.sum()})"
        return left

    def sum(self):
        left = self.product()
        while self.next() in ("+", "-"):
            left = f"V.{ARITHMETIC[self.take()]}({left}, {self.product()})"
        return left

    def product(self):
        left = self.signed()
        while self.next() in ("*", "//", "%"):
            left = f"V.{ARITHMETIC[self.take()]}({left}, {self.signed()})"
        return left

    def signed(self):
        return f"V.minus({self.signed()})" if self.taken("-") else self.indexed()

    def indexed(self):
        left = self.primary()
        while self.taken("["):
            left = f"V.item({left}, {self.expression()})"
            self.take("]")
        return left

    def items(self, end):
        items = []
        while not self.taken(end):
            items.append(self.expression())
            if self.next() != end:
                self.take(",")
        return items

    def primary(self):
        word = self.take()
        if word is None:
            raise Unread(f"line {self.number} ends in an expression")
        if word.startswith('b"'):
            return repr(literal(word))
        if word.startswith('"'):
            return repr(literal(word).decode("latin-1"))
        if word.isdigit():
            return str(int(word))
        if word in ("None", "True", "False"):
            return word
        if word == "(":
            inner = self.expression()
            self.take(")")
            return f"({inner})"
        if word == "[":
            return f"V.listed(({''.join(item + ', ' for item in self.items(']'))}))"
        if word in FUNCTIONS and self.taken("("):
            return self.function(word)
        return f"v_{word}"

    def function(self, word):
        if word == "error":
            kind = self.take()
            self.take(",")
            return f"V.made_error({kind!r}, {', '.join(self.items(')'))})"
        return f"V.{word}_of({', '.join(self.items(')'))})"

    def target(self):
        """What is asked behind `yield from`."""
        word = self.take()
        if not self.taken("("):
            return f"(yield ({self.number}, 'await', (v_{word},)))"
        if word in self.names:
            return f"(yield from R.call(c_{word}, {self.number}, {word!r}, ({''.join(a + ', ' for a in self.items(')'))})))"
        arguments = []
        named = {"spawn": 0, "create": 1, "listen": 1}.get(word)
        while not self.taken(")"):
            arguments.append(repr(self.take()) if len(arguments) == named else self.expression())
            if self.next() != ")":
                self.take(",")
        return f"(yield ({self.number}, {word!r}, ({''.join(a + ', ' for a in arguments)})))"


class Writer:
    """Writes the coroutines as Python, line by line. `blocks` are what is open: a kind, an indent and a number."""

    def __init__(self, names):
        self.names, self.blocks, self.serial = names, [], 0
        self.lines, self.head, self.bound = [], 0, set()

    def put(self, text, more=0):
        self.lines.append("    " * (self.blocks[-1][1] + more if self.blocks else 0) + text)

    def opened(self, kind, deeper):
        self.blocks.append((kind, self.blocks[-1][1] + deeper if self.blocks else deeper, self.serial, set()))
        self.serial += 1

    def write(self, line):
        form = getattr(self, "on_" + line.next(), None)
        if form:
            line.take()
            form(line)
            return
        name = line.take()
        line.take("=")
        self.tick(line)
        self.bound.add(name)
        value = line.target() if line.taken("yield", "from") else line.expression()
        self.put(f"v_{name} = {value}")

    def tick(self, line):
        self.put(f"R.tick({line.number})")

    def on_profile(self, line):
        pass

    def on_def(self, line):
        name = line.take()
        line.take("(")
        parameters = [word for word in line.tokens[line.at:-1] if word != ","]
        self.put(f"def c_{name}({', '.join(['R', *('v_' + word for word in parameters)])}):")
        self.opened("def", 1)
        self.head, self.bound, self.parameters = len(self.lines), set(), set(parameters)
        self.put("if False: yield")

    def on_yield(self, line):
        self.tick(line)
        self.put(line.target() if line.taken("from") else f"yield ({line.number}, 'pause', ())")

    def on_print(self, line):
        self.tick(line)
        values = [line.expression()]
        while line.taken(","):
            values.append(line.expression())
        self.put(f"yield ({line.number}, 'print', ({''.join(value + ', ' for value in values)}))")

    def on_raise(self, line):
        self.tick(line)
        self.put(f"raise V.to_raise({line.expression()})")

    def on_return(self, line):
        self.tick(line)
        self.put(f"return {line.expression()}" if line.next() else "return None")

    def on_pass(self, line):
        self.tick(line)

    def on_if(self, line):
        self.tick(line)
        self.put(f"if V.truth({line.expression()}):")
        self.opened("if", 1)
        self.put("pass")

    def on_else(self, line):
        self.put("else:", -1)
        self.put("pass")

    def on_while(self, line):
        self.put("while True:")
        self.opened("while", 1)
        self.tick(line)
        self.put(f"if not V.truth({line.expression()}): break")

    def on_try(self, line):
        self.tick(line)
        self.put("try:")
        self.opened("try", 1)
        self.put("pass")

    def handlers(self):
        """The indent goes to that of the `try`, and the `except` that catches all is there."""
        kind, indent, serial, seen = self.blocks.pop()
        deeper = 2 if "except" in seen else 1
        self.blocks.append((kind, indent - deeper, serial, seen))
        return serial, seen

    def on_except(self, line):
        serial, seen = self.handlers()
        if "except" not in seen:
            self.put("except V.Raised as r:")
            self.put(f"x{serial} = r.exception", 1)
        kind = line.take()
        self.put(f"{'elif' if 'except' in seen else 'if'} V.matches({kind!r}, x{serial}):", 1)
        seen.add("except")
        block = self.blocks.pop()
        self.blocks.append((block[0], block[1] + 2, serial, seen))
        self.put("pass")
        if line.taken("as"):
            name = line.take()
            self.bound.add(name)
            self.put(f"v_{name} = x{serial}")

    def end_of_handlers(self):
        seen = self.handlers()[1]
        if "except" in seen:
            self.put("else:", 1)
            self.put("raise", 2)

    def on_finally(self, line):
        self.end_of_handlers()
        self.put("finally:")
        kind, indent, serial, seen = self.blocks.pop()
        self.blocks.append(("finally", indent + 1, serial, seen))
        self.put("if R.alive:")
        self.blocks[-1] = ("finally", indent + 2, serial, seen)
        self.put("pass")

    def on_with(self, line):
        self.tick(line)
        what = line.take("group", "timeout")
        delay = line.expression() if what == "timeout" else ""
        line.take("as")
        name = line.take()
        self.bound.add(name)
        serial = self.serial
        self.put(f"w{serial} = v_{name} = yield ({line.number}, 'enter_{what}', ({delay + ', ' if delay else ''}))")
        self.put(f"x{serial} = None")
        self.put("try:")
        self.put("try:", 1)
        self.opened(what, 2)
        self.put("pass")

    def on_end(self, line):
        kind, indent, serial, seen = self.blocks[-1]
        if kind == "try":
            self.end_of_handlers()
        elif kind in ("group", "timeout"):
            self.put("except V.Raised as r:", -1)
            self.put(f"x{serial} = r.exception")
            self.put("raise")
            self.put("finally:", -2)
            self.put(f"if R.alive: yield ({line.number}, 'exit_{kind}', (w{serial}, x{serial}))", -1)
        elif kind == "def":
            for name in sorted(self.bound - self.parameters):
                self.lines.insert(self.head, f"    v_{name} = None")
        self.blocks.pop()


class Script:
    """The coroutines of a script as generator functions, by name, and its lines."""

    def __init__(self, text):
        self.lines = text.replace("\r\n", "\n").split("\n")
        rows = [(number, tokens_of(line, number)) for number, line in enumerate(self.lines, 1)]
        rows = [(number, tokens) for number, tokens in rows if tokens]
        self.profile = int(rows[0][1][1]) if rows and rows[0][1][0] == "profile" else 1
        self.places = {tokens[1]: number for number, tokens in rows if tokens[0] == "def" and len(tokens) > 1}
        writer = Writer(set(self.places))
        for number, tokens in rows:
            try:
                writer.write(Line(tokens, number, writer.names))
            except (IndexError, AttributeError, TypeError, ValueError, RecursionError) as fault:
                raise Unread(f"line {number} is no form here") from fault
        self.python = "\n".join(writer.lines)
        if "main" not in self.places:
            raise Unread("there is no main")

    def coroutines(self, values):
        """The generator functions; `values` is the module that does what expressions ask."""
        space = {"V": values}
        try:
            exec(compile(self.python, "script", "exec"), space)  # its source is the writer's own
        except (SyntaxError, RecursionError, MemoryError) as fault:
            raise Unread(f"it is nested too deep to be followed: {fault}") from fault
        return {name: space["c_" + name] for name in self.places}
