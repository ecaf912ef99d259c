"""Values of a script and what its expressions do with them. docs/LANGUAGE.md has the rules; `crates/model_value` defines them.

None, Bool, Int and Bytes are Python's, a Text is a str, a List a tuple; `Exc` is an exception, `Id` what the loop numbers.
"""

from collections import namedtuple

Id = namedtuple("Id", "letter number")
Exc = namedtuple("Exc", "kind text bytes members", defaults=("", b"", ()))
PARENTS = {
    "CancelledError": "BaseException", "Exception": "BaseException", "ArithmeticError": "Exception", "LookupError": "Exception",
    "OSError": "Exception", "RuntimeError": "Exception", "TypeError": "Exception", "ValueError": "Exception",
    "NameError": "Exception", "EOFError": "Exception", "LimitOverrunError": "Exception", "InvalidStateError": "Exception",
    "ExceptionGroup": "Exception", "OverflowError": "ArithmeticError", "ZeroDivisionError": "ArithmeticError",
    "IndexError": "LookupError", "RecursionError": "RuntimeError", "IncompleteReadError": "EOFError",
    "TimeoutError": "OSError", "ConnectionError": "OSError", "ConnectionResetError": "ConnectionError",
    "ConnectionRefusedError": "ConnectionError", "BrokenPipeError": "ConnectionError",
}
MOST_WEIGHT, MOST_DEPTH = 1048576, 64
ESCAPED = {10: "\\n", 13: "\\r", 9: "\\t", 92: "\\\\"}
LEAST, MOST = -2**63, 2**63 - 1


class Raised(Exception):
    """An exception of the script on its way."""

    def __init__(self, exception):
        super().__init__(exception.kind)
        self.exception = exception


def fault(kind, text=""):
    return Raised(Exc(kind, text))


def bad_operand():
    return fault("TypeError", "bad operand")


def matches(kind, exception):
    name = exception.kind
    while name != kind and name in PARENTS:
        name = PARENTS[name]
    return name == kind


def to_raise(value):
    return Raised(value) if isinstance(value, Exc) else bad_operand()


# ---- how heavy and how deep
def weight(value):
    if isinstance(value, str):
        return 1 + len(value.encode())
    if isinstance(value, bytes):
        return 1 + len(value)
    if isinstance(value, Exc):
        return 1 + len(value.text.encode()) + len(value.bytes) + sum(map(weight, value.members))
    return 1 + sum(map(weight, value)) if type(value) is tuple else 1


def depth(value):
    if isinstance(value, Exc):
        return 1 + max(map(depth, value.members), default=0)
    return 1 + max(map(depth, value), default=0) if type(value) is tuple else 0


def bounded(value):
    if weight(value) > MOST_WEIGHT or depth(value) > MOST_DEPTH:
        raise fault("OverflowError", "out of range")
    return value


def number(value):
    if not LEAST <= value <= MOST:
        raise fault("OverflowError", "out of range")
    return value


# ---- as `print` shows them
def escaped(data, quoted, all_bytes):
    out = bytearray()
    for byte in data:
        if byte in ESCAPED:
            out += ESCAPED[byte].encode()
        elif byte == 34 and quoted:
            out += b'\\"'
        elif byte < 32 or byte == 127 or (all_bytes and byte > 127):
            out += b"\\x%02x" % byte
        else:
            out.append(byte)
    return out.decode("utf-8", "replace")


def inside(value):
    return f'"{escaped(value.encode(), True, False)}"' if isinstance(value, str) else shown(value)


def shown(value):
    if isinstance(value, str):
        return escaped(value.encode(), False, False)
    if isinstance(value, bytes):
        return f'b"{escaped(value, True, True)}"'
    if isinstance(value, Id):
        return f"{value.letter}{value.number}"
    if isinstance(value, Exc):
        members = f", [{', '.join(map(shown, value.members))}]" if value.kind == "ExceptionGroup" else ""
        return f"{value.kind}({inside(value.text)}{members})"
    return f"[{', '.join(map(inside, value))}]" if type(value) is tuple else str(value)


# ---- tests
def truth(value):
    if type(value) is not bool:
        raise bad_operand()
    return value


def both(left, right):
    return truth(left) and truth(right())


def either(left, right):
    return truth(left) or truth(right())


def negated(value):
    return not truth(value)


def same(a, b):
    if type(a) is not type(b):
        return False
    if type(a) in (tuple, Exc):
        return len(a) == len(b) and all(map(same, a, b))
    return a == b


def equal(a, b):
    return same(a, b)


def unequal(a, b):
    return not same(a, b)


def compared(a, b):
    if type(a) is not type(b) or type(a) not in (int, str, bytes):
        raise bad_operand()
    return (a.encode(), b.encode()) if isinstance(a, str) else (a, b)


def less(a, b):
    a, b = compared(a, b)
    return a < b


def less_equal(a, b):
    a, b = compared(a, b)
    return a <= b


def greater(a, b):
    return less(b, a)


def greater_equal(a, b):
    return less_equal(b, a)


# ---- arithmetic, and what joins
def integers(a, b):
    if type(a) is not int or type(b) is not int:
        raise bad_operand()
    return a, b


def add(a, b):
    if type(a) is type(b) and type(a) in (str, bytes, tuple):
        return bounded(a + b)
    a, b = integers(a, b)
    return number(a + b)


def subtract(a, b):
    a, b = integers(a, b)
    return number(a - b)


def multiply(a, b):
    if type(a) in (str, bytes) and type(b) is int:
        if len(a) * max(b, 0) > MOST_WEIGHT:
            raise fault("OverflowError", "out of range")
        return bounded(a * max(b, 0))
    a, b = integers(a, b)
    return number(a * b)


def divided(a, b):
    a, b = integers(a, b)
    if b == 0:
        raise fault("ZeroDivisionError", "division by zero")
    return a, b


def divide(a, b):
    a, b = divided(a, b)
    return number(a // b)


def remainder(a, b):
    a, b = divided(a, b)
    return a % b


def minus(a):
    return number(-integers(a, 0)[0])


def item(value, index):
    if type(value) not in (tuple, bytes) or type(index) is not int:
        raise bad_operand()
    if not -len(value) <= index < len(value):
        raise fault("IndexError", "index out of range")
    return value[index]


def listed(items):
    return bounded(items)


# ---- functions
def len_of(value):
    if type(value) not in (str, bytes, tuple):
        raise bad_operand()
    return len(value.encode() if isinstance(value, str) else value)


def str_of(value):
    return bounded(shown(value))


def bytes_of(value):
    if type(value) is not str:
        raise bad_operand()
    return bounded(value.encode())


def text_of(value):
    if type(value) is not bytes:
        raise bad_operand()
    try:
        return bounded(value.decode())
    except UnicodeDecodeError:
        raise fault("ValueError", "not UTF-8") from None


def exception_of(value):
    if not isinstance(value, Exc):
        raise bad_operand()
    return value


def kind_of(value):
    return exception_of(value).kind


def message_of(value):
    return exception_of(value).text


def partial_of(value):
    return exception_of(value).bytes


def members_of(value):
    return bounded(exception_of(value).members)


def made_error(kind, text):
    if type(text) is not str:
        raise bad_operand()
    return bounded(Exc(kind, text))
