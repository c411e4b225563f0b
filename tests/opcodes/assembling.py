"""Makes small modules of WebAssembly, for tests: by the numbers of the standard, and by none of the translator's."""

from .meanings import rows

KINDS = {"i": 0x7F, "I": 0x7E}
CONTROL = {
    "unreachable": 0x00, "nop": 0x01, "block": 0x02, "loop": 0x03, "if": 0x04, "end": 0x0B, "br": 0x0C, "br_if": 0x0D,
    "br_table": 0x0E, "return": 0x0F, "call": 0x10, "call_indirect": 0x11, "drop": 0x1A, "select": 0x1B, "local.get": 0x20,
    "local.set": 0x21, "local.tee": 0x22, "global.get": 0x23, "global.set": 0x24, "memory.grow": 0x40, "i32.const": 0x41,
    "i64.const": 0x42, "f32.add": 0x92, "i32.trunc_sat_f32_s": 0xFC00,
}
NUMBERS = {**CONTROL, **{name: number for number, name, *_ in rows()}}
BLOCKS = {"void": 0x40, "i32": 0x7F, "i64": 0x7E}


def unsigned(number):
    out = bytearray()
    while True:
        number, low = number >> 7, number & 127
        out.append(low | (128 if number else 0))
        if not number:
            return bytes(out)


def signed(number):
    out = bytearray()
    while True:
        low, number = number & 127, number >> 7
        is_last = number == (-1 if low & 64 else 0)
        out.append(low if is_last else low | 128)
        if is_last:
            return bytes(out)


def narrowed(number, bits):
    """The same bits as a number with a sign."""
    number &= (1 << bits) - 1
    return number - (1 << bits) if number >> (bits - 1) else number


def several(parts):
    return unsigned(len(parts)) + b"".join(parts)


def section(kind, parts):
    inside = several(parts)
    return bytes([kind]) + unsigned(len(inside)) + inside


def body(text, base):
    """Instructions with what stands behind them, as words. DATA+k is the address of constant k, and i64.load:4 one from an
    address that 4 divides."""
    words, out = iter(text.split()), b""
    for word in words:
        word, _, divides = word.partition(":")
        number = NUMBERS[word]
        out += bytes([number]) if number < 256 else bytes([number >> 8]) + unsigned(number & 255)
        if word in ("block", "loop", "if"):
            out += bytes([BLOCKS[next(words)]])
        elif word in ("i32.const", "i64.const"):
            it = next(words)
            value = base + int(it[5:]) if it.startswith("DATA+") else int(it, 0)
            out += signed(narrowed(value, 32 if word == "i32.const" else 64))
        elif word == "br_table":
            labels = [int(next(words)) for _ in range(int(next(words)) + 1)]
            out += several([unsigned(it) for it in labels[:-1]]) + unsigned(labels[-1])
        elif "load" in word or "store" in word:
            it = next(words)
            place = base + int(it[5:]) if it.startswith("DATA+") else int(it)
            out += unsigned(int(divides or 1).bit_length() - 1) + unsigned(place)
        elif word in ("br", "br_if", "call", "local.get", "local.set", "local.tee", "global.get", "global.set"):
            out += unsigned(int(next(words)))
        elif word in ("memory.copy", "memory.fill"):
            out += bytes(2 if word == "memory.copy" else 1)
    return out


def module(functions, base):
    """A module of these functions, of which each has a name, what it takes and gives, the kinds of its locals, and its
    instructions. Its constants lie at this address, which is that at which its stack ends, too. Where one asks for them, two
    addresses of constants stand behind the others."""
    types, codes, exports = [], [], []
    for place, (name, takes, gives, local, text) in enumerate(functions):
        types.append(b"\x60" + several([bytes([KINDS[it]]) for it in takes]) + several([bytes([KINDS[it]]) for it in gives]))
        code = several([unsigned(1) + bytes([KINDS[it]]) for it in local]) + body(text, base) + b"\x0b"
        codes.append(unsigned(len(code)) + code)
        if name.startswith("mscp_"):
            exports.append(several([bytes([it]) for it in name.encode()]) + b"\0" + unsigned(place))
    constants = [bytes([it]) for it in range(64, 80)]
    if any("DATA+16" in it[4] or "DATA+24" in it[4] for it in functions):
        constants += [bytes([it]) for place in (3, 9) for it in (base + place).to_bytes(8, "little")]
    globals_ = [b"\x7e\x01\x42" + signed(base) + b"\x0b", b"\x7f\x01\x41\0\x0b"]
    return b"".join([
        b"\0asm\1\0\0\0", section(1, types), section(3, [unsigned(it) for it in range(len(types))]),
        section(5, [b"\x04\x01"]), section(6, globals_), section(7, exports), section(10, codes),
        section(11, [b"\0\x42" + signed(base) + b"\x0b" + several(constants)]),
    ])
