"""Reads a linked module of WebAssembly, as far as the library has one: functions, one memory, globals, constants, names."""

MAGIC = b"\0asm\1\0\0\0"
# The kinds of sections; what stands in those that aren't read here changes nothing.
SECTIONS = {0: "names", 1: "types", 3: "functions", 5: "memory", 6: "globals", 7: "exports", 10: "code", 11: "data"}
REFUSED = {2: "an import", 4: "a table", 8: "a start", 9: "elements of a table", 13: "a tag"}


class Refusal(Exception):
    """Why a module isn't translated."""


class Reader:
    """Bytes, and how far they are read."""

    def __init__(self, data, at=0):
        self.data, self.at = data, at

    def byte(self):
        self.at += 1
        return self.data[self.at - 1]

    def take(self, count):
        self.at += count
        return self.data[self.at - count : self.at]

    def leb(self):
        """A number of seven bits a byte, the low ones first, and how many bits it has."""
        value = bits = 0
        while True:
            byte = self.byte()
            value |= (byte & 127) << bits
            bits += 7
            if byte < 128:
                return value, bits

    def unsigned(self):
        return self.leb()[0]

    def signed(self):
        value, bits = self.leb()
        return value - (1 << bits) if value >> (bits - 1) else value

    def name(self):
        return self.take(self.unsigned()).decode()

    def several(self, read):
        return [read() for _ in range(self.unsigned())]


class Module:
    """What a module has.

    types: of functions, each the types of what it takes and of what it gives
    functions: the type of each
    exports: the number of each exported function, by its name
    globals: the constant that each begins with
    code: of each function the types of its locals, and a reader of its instructions with their end
    data: the address and the bytes of its constants
    names: of functions, as the linker has them, by their numbers
    """

    def __init__(self, data):
        self.types, self.functions, self.exports, self.globals, self.code, self.data, self.names = [], [], {}, [], [], [], {}
        reader = Reader(data)
        if reader.take(8) != MAGIC:
            raise Refusal("this is no module of WebAssembly")
        while reader.at < len(data):
            kind, size = reader.byte(), reader.unsigned()
            self.end = end = reader.at + size
            if kind in REFUSED:
                raise Refusal(f"the module has {REFUSED[kind]}")
            if kind in SECTIONS:
                getattr(self, "read_" + SECTIONS[kind])(reader)
            reader.at = end

    def read_names(self, reader):
        """Of a section that isn't of the standard: if it is that of names, the part of functions."""
        is_of_names = reader.name() == "name"
        while is_of_names and reader.at < self.end:
            kind, size = reader.byte(), reader.unsigned()
            end = reader.at + size
            if kind == 1:
                self.names = dict(reader.several(lambda: (reader.unsigned(), reader.name())))
            reader.at = end

    def read_types(self, reader):
        def one():
            reader.byte()
            return list(reader.take(reader.unsigned())), list(reader.take(reader.unsigned()))

        self.types = reader.several(one)

    def read_functions(self, reader):
        self.functions = [self.types[it] for it in reader.several(reader.unsigned)]

    def read_memory(self, reader):
        if reader.unsigned() != 1 or reader.byte() & 4 == 0:
            raise Refusal("the module's addresses don't have 64 bits")

    def read_globals(self, reader):
        def one():
            reader.take(2)
            return constant(reader)

        self.globals = reader.several(one)

    def read_exports(self, reader):
        for name, kind, number in reader.several(lambda: (reader.name(), reader.byte(), reader.unsigned())):
            if kind == 0:
                self.exports[name] = number

    def read_code(self, reader):
        def one():
            size = reader.unsigned()
            end = reader.at + size
            local = reader.several(lambda: [reader.unsigned(), reader.byte()])
            begin, reader.at = reader.at, end
            return [kind for count, kind in local for _ in range(count)], Reader(reader.data, begin), end

        self.code = reader.several(one)

    def read_data(self, reader):
        def one():
            if reader.unsigned() != 0:
                raise Refusal("constants have no place")
            address = constant(reader)
            return address, reader.take(reader.unsigned())

        self.data = reader.several(one)


def constant(reader):
    """A number that is told by an instruction, and an end."""
    if reader.byte() not in (0x41, 0x42):
        raise Refusal("what begins as a constant isn't one")
    value = reader.signed()
    if reader.byte() != 0x0B:
        raise Refusal("a constant is more than a number")
    return value
