"""Writes the functions of a module as C: those that the calls of the header want, each behind those that it calls."""

import re

from .flag import Flag
from .function import Function, beside, read_code
from .names import Names
from .values import I32, I64, WIDTHS, Value, constant, literal
from .wasm import Refusal

READ = re.compile(r"\bt\d+\b(?! = )")
KEPT = re.compile(r"(t\d+) = (.*;)")
MUCH = 256 # bytes of a function's room, from which on it stands apart
# The kit's product of two numbers of 128 bits, of which compilers with such numbers know a quicker way.
PRODUCT = """{
    const u128 product = ((u128)v2 << 64 | v1) * ((u128)v4 << 64 | v3);
    s8_8(v0, (u64)product);
    s8_8(v0 + 8, (u64)(product >> 64));
}"""


def read_constants(module, other):
    """The constants, in which an address of one of them is its place, and the places of these addresses."""
    if len(module.data) != len(other.data) or len(module.data) > 1:
        raise Refusal("the two modules have other constants")
    (base, data), (other_base, other_data) = (*module.data, (0, b""))[0], (*other.data, (0, b""))[0]
    addresses = {at // 8 * 8 for at, (one, its) in enumerate(zip(data, other_data)) if one != its}
    told = bytearray(data)
    for at in addresses:
        place = int.from_bytes(data[at : at + 8], "little") - base
        if place != int.from_bytes(other_data[at : at + 8], "little") - other_base or not 0 <= place < len(data):
            raise Refusal("the two modules have other constants")
        told[at : at + 8] = place.to_bytes(8, "little")
    if len(data) != len(other_data):
        raise Refusal("the two modules have other constants")
    return bytes(told), addresses


class Program:
    """A library that was linked twice, so that its constants lie at two places: a number that differs is an address of them.
    Where one of the constants is such an address, its place is loaded: of a list of them, by loads from its first one on."""

    def __init__(self, module, other, sources=None):
        self.module, self.other, self.said = module, other, Names(module.names, sources)
        self.constants, self.addresses = read_constants(module, other)
        self.begun = set() # the places of addresses from which on some are loaded
        self.functions, self.codes = {}, {}
        self.order = [] # the numbers of functions, each behind those that it calls
        self.names = {}
        self.flag = next((it for it, first in enumerate(module.globals) if first == other.globals[it] == 0), None)
        flag = Flag(self)
        for name in sorted(module.exports):
            if name.startswith("mscp_"):
                self.names[module.exports[name]] = "w_" + name
                self.visit(module.exports[name], ())
                flag.check(module.exports[name])
        if any(it - 8 not in self.addresses | self.begun and it not in self.begun for it in self.addresses):
            raise Refusal("no load begins at an address among constants")
        for number in self.order:
            if number not in self.names:
                self.names[number] = self.said.name(number)

    def visit(self, number, above):
        """Translates a function, and first those that it calls. They stand in the order of who calls them first, so their order
        in the module isn't seen in the C."""
        if number in above:
            raise Refusal("a function calls itself")
        if number in self.functions:
            return
        (_, reader, end), (_, other, other_end) = self.module.code[number], self.other.code[number]
        code = self.codes[number] = list(beside(read_code(reader, end), read_code(other, other_end)))
        it = self.functions[number] = Function(self, number, code)
        for callee in it.calls:
            self.visit(callee, above + (number,))
        self.order.append(number)

    def is_stack_pointer(self, number):
        """Whether a global begins where the stack ends, and the constants begin."""
        return [self.module.globals[number]] == [at for at, _ in self.module.data] and \
            [self.other.globals[number]] == [at for at, _ in self.other.data]

    def mark(self, number):
        """Stands for the name of a function until all have one."""
        return f"@{number}@"

    # ---- numbers, and the addresses of constants

    def place(self, it):
        """Where in the constants an address lies."""
        place = it.number - self.module.data[0][0]
        if place != it.other - self.other.data[0][0] or not 0 <= place < len(self.constants):
            raise Refusal(f"{it.opcode.name} has an address of no constant")
        if place in self.addresses and it.opcode.name != "i64.load":
            raise Refusal(f"{it.opcode.name} has an address of an address")
        return place

    def number(self, it, kind):
        if it.number != it.other:
            return Value(f"A(data + {self.place(it)})", kind, fixed=True)
        return constant(it.number, kind)

    def is_of_addresses(self, it):
        """Whether it loads one of the addresses among the constants."""
        if it.opcode.name != "i64.load" or it.number == it.other or self.place(it) not in self.addresses:
            return False
        self.begun.add(self.place(it))
        return True

    def address(self, value, it):
        """Where a load or a store reaches."""
        if it.number != it.other:
            base = f"A(data + {self.place(it)})"
            text = base if value.number == 0 else f"{base} + {value}"
        else:
            text = f"{value} + {it.number}" if it.number else format(value, "all")
        return Value(text, I64, local=value.locals, memory=value.memory, fixed=value.fixed or it.number != it.other)

    # ---- text

    def text(self):
        return "\n".join([constants(self.constants)] + [self.function(number) for number in self.order])

    def function(self, number):
        it = self.functions[number]
        lines = without_unread([line for line in it.lines if not isinstance(line, int) or line in it.used])
        body = "\n".join(self.statement(line, it) for line in lines)
        body = re.sub(r"@(\d+)@", lambda match: self.names[int(match.group(1))], body)
        takes = ", ".join(f"{WIDTHS[kind]} v{place}" for place, kind in enumerate(it.takes))
        gives = WIDTHS[it.gives[0]] if it.gives else "void"
        begins = "APART" if (it.frame or 0) >= MUCH else "static"
        comment = [] if self.names[number].startswith("w_") else self.said.comment(number)
        lines = [*comment, f"{begins} {gives} {self.names[number]}({takes or 'void'})"]
        if self.names[number] == "multi3":
            lines += ["#ifdef __SIZEOF_INT128__", PRODUCT, "#else"]
        lines += ["{", *declarations(it, body), body, "}"]
        return "\n".join(lines + ["#endif"] if self.names[number] == "multi3" else lines) + "\n"

    def statement(self, line, it):
        return f"L{line}:;" if isinstance(line, int) else "    " + line


def wanted(line, read):
    """A line, if it is wanted: of one that keeps for later what nobody reads only a call is."""
    it = KEPT.fullmatch(line) if isinstance(line, str) else None
    if it is None or it.group(1) in read:
        return line
    return it.group(2) if "@" in line else None


def without_unread(lines):
    """The lines that are wanted, of which one may be wanted for another that isn't."""
    while True:
        read = set(READ.findall("\n".join(line for line in lines if isinstance(line, str))))
        left = [it for it in (wanted(line, read) for line in lines) if it is not None]
        if left == lines:
            return lines
        lines = left


def declarations(it, body):
    """The variables of a function that its body has."""
    said = set(re.findall(r"\b[vt]\d+\b", body))
    lines = [] if it.frame is None else [f"    ROOM(frame, {it.frame});"]
    for kind in (I32, I64):
        local = [f"v{place} = 0" for place, its in enumerate(it.kinds)
                 if its == kind and place >= len(it.takes) and f"v{place}" in said]
        temporary = [f"t{place}" for place, its in enumerate(it.temporaries) if its == kind and f"t{place}" in said]
        lines += [f"    {WIDTHS[kind]} {', '.join(local + temporary)};"] if local + temporary else []
    return lines + [f"    (void)v{place};" for place in range(len(it.takes)) if f"v{place}" not in said]


def constants(data):
    rows = [", ".join(str(it) for it in data[at : at + 24]) for at in range(0, len(data), 24)]
    return f"FIXED(data, {len(data)}) = {{\n    " + ",\n    ".join(rows) + ",\n};\n" if data else ""
