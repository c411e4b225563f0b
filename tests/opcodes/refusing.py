"""Modules that can't be told in C, and what is said of each."""

from translator.library import library
from translator.opcodes import TABLE
from translator.program import Program
from translator.wasm import Module, Refusal

from .assembling import module, section
from .control import CASES, WRONG
from .meanings import rows

BASES = 0x100000, 0x300000


ASKED = "global.get 0 i64.const 32 i64.sub local.tee 0 global.set 0 "


def function(text, takes="", local=""):
    return [("mscp_it", takes, "", local, text)]


def made(functions):
    return [module(functions, base) for base in BASES]


def spoiled(old, new):
    """A module without an instruction, in which some bytes are others."""
    return [it.replace(old, new, 1) for it in made(function("nop"))]


# What a module has, its two forms, and what is said of it.
REFUSED = (
    ("floating point", made(function("f32.add drop")), "f32.add"),
    ("a longer number of an instruction", made(function("i32.trunc_sat_f32_s drop")), "i32.trunc_sat_f32_s"),
    ("a call by a pointer", made(function("call_indirect")), "call_indirect"),
    ("an if", made(function("local.get 0 if void end", "i")), "if"),
    ("growing memory", made(function("i64.const 1 memory.grow drop")), "memory.grow"),
    ("a function that calls itself", made(function("call 0")), "a function calls itself"),
    ("a stack's pointer that is an address", made(function("global.get 0 i32.load 0 drop")), "the stack's pointer"),
    ("a stack's pointer that is moved in another way", made(function("global.get 0 i64.const 8 i64.and drop")), "i64.and"),
    ("a stack's pointer in a local that is a number by another way", made(function("block void local.get 0 i64.eqz br_if 0 "
     "global.get 0 local.set 1 end local.get 1 i64.const 32 i64.sub drop", "I", "I")), "the stack's pointer"),
    ("a stack's pointer in a local that a loop sets", made(function("global.get 0 local.set 1 loop void local.get 1 "
     "i64.const 32 i64.sub drop local.get 0 local.set 1 br 0 end", "I", "I")), "the stack's pointer"),
    ("a second part of the stack", made(function(ASKED + "local.get 0 i64.const 16 i64.sub i32.const 7 i32.store 0",
     local="I")), "below what a function has"),
    ("a second part by a sum", made(function(ASKED + "local.get 0 i64.const -16 i64.add i32.const 7 i32.store 0", local="I")),
     "below what a function has"),
    ("a second part of the stack's own", made(function(ASKED + "global.get 0 i64.const 16 i64.sub global.set 0", local="I")),
     "asks for the stack's pointer"),
    ("a global that begins with something", [it.replace(b"\x7f\x01\x41\0\x0b", b"\x7f\x01\x41\5\x0b") for it in
     made(function("global.get 1 drop"))], "neither the stack's pointer nor a flag"),
    ("a global that differs, and isn't where the stack ends", [it.replace(b"\x7f\x01\x41\0\x0b", b"\x7f\x01\x41" +
     bytes([place]) + b"\x0b") for place, it in enumerate(made(function("global.get 1 drop")))],
     "neither the stack's pointer nor a flag"),
    ("a flag that is read where it is up", made(function("i32.const 1 global.set 1 global.get 1 drop i32.const 0 "
     "global.set 1")), "may be up"),
    ("a flag that stays up", made(function("i32.const 1 global.set 1")), "leaves a flag up"),
    ("a flag that is lowered by some ways", made(function("i32.const 1 global.set 1 block void local.get 0 br_if 0 i32.const 0 "
     "global.set 1 end", "i")), "on some ways"),
    ("a flag that stays up by a return", made(function("i32.const 1 global.set 1 block void local.get 0 br_if 0 return end "
     "i32.const 0 global.set 1", "i")), "on some ways"),
    ("a flag that is set to something", made(function("local.get 0 global.set 1", "i")), "something else than 0 or 1"),
    ("a stack's pointer that is set to a number", made(function("i64.const 64 global.set 0")), "is set in a way"),
    ("a store to a constant", made(function("i64.const DATA+5 i32.const 7 i32.store 0")), "writes to a constant"),
    ("a store into a list of constants", made(function("local.get 0 i32.const 7 i32.store8 DATA+5", "I")),
     "writes to a constant"),
    ("a store to a constant by a sum", made(function("i64.const DATA+5 local.get 0 i64.add i32.const 7 i32.store 0", "I")),
     "writes to a constant"),
    ("a store to a constant by a local", made(function("i64.const DATA+5 local.set 0 local.get 0 i32.const 7 i32.store 0",
     local="I")), "writes to a constant"),
    ("a move to a constant", made(function("i64.const DATA+5 local.get 0 i64.const 4 memory.copy", "I")),
     "writes to a constant"),
    ("a fill of a constant", made(function("i64.const DATA+5 i32.const 0 i64.const 4 memory.fill")), "writes to a constant"),
    ("another alignment than is known", made(function("local.get 0 i64.load:16 0 drop", "I")), "an alignment"),
    ("an address of no constant", made(function("i64.const DATA+99 drop")), "no constant"),
    ("an address of an address", made(function("i64.const DATA+16 drop")), "an address of an address"),
    ("a part of an address", made(function("i64.const 0 i32.load DATA+16 drop")), "an address of an address"),
    ("a list of addresses from the second on", made(function("i64.const 0 i64.load DATA+24 drop")), "no load begins"),
    ("an import", [it + section(2, []) for it in made(function("nop"))], "an import"),
    ("a table", [it + section(4, []) for it in made(function("nop"))], "a table"),
    ("short addresses", spoiled(b"\x05\x03\x01\x04", b"\x05\x03\x01\x00"), "64 bits"),
    ("no module", [b"something else"] * 2, "no module"),
    ("two modules of other constants", [made(function("nop"))[0], spoiled(b"\x40\x41", b"\x40\x42")[1]], "other constants"),
    ("two modules of other code", [made(function("nop"))[0], made(function("nop nop"))[1]], "differ"),
)


def is_refused(forms, said):
    try:
        Program(*[Module(it) for it in forms])
    except Refusal as it:
        return said in str(it)
    return False


def header_that_differs_is_refused():
    try:
        library("uint32_t mscp_other(void);", *made(function("nop")))
    except Refusal as it:
        return "w_mscp_it, w_mscp_other" in str(it)
    return False


def each_instruction_is_tried():
    """Each of the table is tried, with its number by the standard, and has a wrong translation."""
    numeric = {number: name for number, name, *_ in rows()}
    others = {opcode.name for number, opcode in TABLE.items() if number not in numeric}
    same = all(TABLE[number].name == name for number, name in numeric.items())
    return same and others == {case[0] for case in CASES} & others == set(WRONG) & others


def lines():
    yield f"each instruction is tried: {'passed' if each_instruction_is_tried() else 'FAILED'}"
    for name, forms, said in REFUSED:
        yield f"{name} is refused: {'passed' if is_refused(forms, said) else 'FAILED'}"
    yield f"a header that differs is refused: {'passed' if header_that_differs_is_refused() else 'FAILED'}"
