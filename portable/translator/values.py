"""What stands on the stack of a function, as C: an expression without an effect."""

import re

from .wasm import Refusal

I32, I64 = 0x7F, 0x7E
WIDTHS = {I32: "u32", I64: "u64"}
LETTERS = {"i": I32, "I": I64, "b": I32}
# Texts that are an operand of any operator as they stand.
ATOM = re.compile(r"\w+(\([^()]*\))?")


class Value:
    """An expression of C.

    kind: I32 or I64
    is_bool: it is 0 or 1, and of the type int
    locals: the numbers of the locals that it reads
    memory: whether it reads memory
    number: what it is, if it is a constant
    top: it is the stack's pointer, as the function found it, less so many bytes (None: it isn't)
    fixed: it is made of an address of a constant
    """

    def __init__(self, text, kind, is_bool=False, local=(), memory=False, number=None, top=None, fixed=False):
        self.text, self.kind, self.is_bool = text, kind, is_bool
        self.locals, self.memory, self.number, self.top, self.fixed = frozenset(local), memory, number, top, fixed

    def __format__(self, how):
        if self.text is None:
            raise Refusal("the stack's pointer is used in a way that isn't known")
        if how == "all":
            return self.text
        if how:
            return str(self.number & int(how)) if self.number is not None else f"({self} & {how})"
        if self.is_bool:
            return f"(u32)({self.text})"
        return self.text if ATOM.fullmatch(self.text) else f"({self.text})"

    def __str__(self):
        return format(self, "")


def literal(number, kind):
    """A number of this width. As a literal of it, and not of int: it may be shifted, or stand alone between two colons."""
    wide = "ull" if kind == I64 else "u"
    bits = 64 if kind == I64 else 32
    number &= (1 << bits) - 1
    return f"0x{number:X}{wide}" if number >> (bits - 1) or number > 1 << 40 else f"{number}{wide}"


def constant(number, kind):
    return Value(literal(number, kind), kind, number=number & ((1 << (64 if kind == I64 else 32)) - 1))


def combined(text, letter, parts):
    """An expression of these ones, of the kind of this letter."""
    local = frozenset().union(*(it.locals for it in parts))
    memory, fixed = any(it.memory for it in parts), any(it.fixed for it in parts)
    return Value(text, LETTERS[letter], letter == "b", local, memory, fixed=fixed)
