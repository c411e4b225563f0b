"""Functions about blocks, branches, calls, locals and constants, what they give, and wrong translations of each."""

from unittest import mock

from translator.function import Function
from translator.values import I32, I64, Value, combined, constant

TRAP = None
SUB = ("sub", "ii", "i", "", "local.get 0 local.get 1 i32.sub")
STORE = ("store", "I", "", "", "local.get 0 i32.const 7 i32.store 0")
TELL = ("tell", "I", "i", "", "local.get 0 i32.const 7 i32.store 0 i32.const 3")
FRAME = (
    "global.get 0 i64.const 32 i64.sub local.tee 1 global.set 0 block void local.get 1 i64.const 16 i64.lt_s i32.eqz br_if 0 "
    "unreachable end "
)
LEFT = "local.get 1 i64.const 32 i64.add global.set 0 "
DIRTY = ("dirty", "i", "", "I", FRAME + "local.get 1 local.get 0 i32.const 1 i32.add i32.store 8 " + LEFT)
LOOK = "global.get 0 i64.const 15 i64.gt_s i32.const 41 i32.add"

# The name of an instruction or of a rule; the function mscp_it: what it takes and gives, its locals, its instructions; the
# functions that it calls, of which the first is 1; and what it gives of what.
CASES = (
    ("unreachable", "i", "i", "", "unreachable", (), [((1,), TRAP)]),
    ("nop", "", "i", "", "i32.const 5 nop", (), [((), 5)]),
    ("block", "i", "i", "", "block void local.get 0 i32.const 1 i32.add local.tee 0 i32.const 3 i32.lt_u br_if 0 local.get 0 "
     "i32.const 10 i32.add local.set 0 end local.get 0", (), [((0,), 1), ((2,), 13)]),
    ("loop", "i", "i", "i", "loop void local.get 1 local.get 0 i32.add local.set 1 local.get 0 i32.const 1 i32.sub local.tee 0 "
     "br_if 0 end local.get 1", (), [((1,), 1), ((10,), 55)]),
    ("end", "i", "i", "", "i32.const 100 block i32 i32.const 3 i32.const 4 local.get 0 br_if 0 i32.add end i32.sub", (),
     [((0,), 93), ((1,), 96)]),
    ("br", "", "i", "", "block void block void br 1 end i32.const 5 return end i32.const 6", (), [((), 6)]),
    ("br_if", "i", "i", "", "block void local.get 0 br_if 0 i32.const 5 return end i32.const 6", (), [((0,), 5), ((2,), 6)]),
    ("br_table", "i", "i", "", "block void block void block void local.get 0 br_table 2 0 1 2 end i32.const 10 return end "
     "i32.const 11 return end i32.const 12", (), [((0,), 10), ((1,), 11), ((2,), 12), ((0xFFFFFFFF,), 12)]),
    ("return", "", "i", "", "block void i32.const 5 return end i32.const 9", (), [((), 5)]),
    ("call", "ii", "i", "", "local.get 0 local.get 1 call 1", (SUB,), [((9, 4), 5)]),
    ("drop", "", "i", "", "i32.const 1 i32.const 2 drop", (), [((), 1)]),
    ("select", "Ii", "I", "", "local.get 0 i64.const 77 local.get 1 select", (), [((1 << 40, 2), 1 << 40), ((1 << 40, 0), 77)]),
    ("local.get", "ii", "i", "", "local.get 0 local.get 1 i32.sub", (), [((9, 4), 5)]),
    ("local.set", "i", "i", "", "local.get 0 i32.const 9 local.set 0 local.get 0 i32.sub", (), [((14,), 5)]),
    ("local.tee", "i", "i", "i", "local.get 0 i32.const 1 i32.add local.tee 1 local.get 1 i32.mul", (), [((5,), 36)]),
    ("global.get", "", "i", "", "i32.const 1 global.set 1 i32.const 0 global.set 1 global.get 1", (), [((), 0)]),
    ("global.set", "", "i", "", "i32.const 7 i32.const 1 global.set 1 i32.const 0 global.set 1", (), [((), 7)]),
    ("i32.const", "", "i", "", "i32.const -1", (), [((), 0xFFFFFFFF)]),
    ("i64.const", "", "I", "", "i64.const -2", (), [((), 0xFFFFFFFFFFFFFFFE)]),
    ("what was loaded stays as a store comes", "I", "i", "", "local.get 0 i32.load 0 local.get 0 i32.const 7 i32.store 0 "
     "local.get 0 i32.load 0 i32.sub", (), [(("M",), 0xF4030201 - 7)]),
    ("what was loaded stays as a call comes", "I", "i", "", "local.get 0 i32.load 0 local.get 0 call 1 local.get 0 i32.load 0 "
     "i32.sub", (STORE,), [(("M",), 0xF4030201 - 7)]),
    ("what was loaded stays as bytes are moved", "I", "i", "", "local.get 0 i32.load 0 local.get 0 local.get 0 i64.const 4 "
     "i64.add i64.const 4 memory.copy local.get 0 i32.load 0 i32.sub", (), [(("M",), 0xF4030201 - 0xB8C7D6E5)]),
    ("what stands below a block stays", "ii", "i", "", "local.get 0 block void local.get 1 br_if 0 i32.const 9 local.set 0 end "
     "local.get 0 i32.sub", (), [((5, 1), 0), ((5, 0), 0xFFFFFFFC)]),
    ("a block gives what a branch brings", "i", "I", "", "block i64 i64.const 5 local.get 0 br_if 0 drop i64.const 6 end", (),
     [((0,), 6), ((1,), 5)]),
    ("what nobody reaches is left out", "", "i", "", "block void br 0 block void loop void i32.const 1 br 0 end end end "
     "i32.const 3", (), [((), 3)]),
    ("an address of a constant", "", "i", "", "i64.const DATA+5 i32.load8_u 0 i64.const 3 i32.load8_u DATA+9 i32.sub", (),
     [((), 0xFFFFFFF9)]),
    ("an address among constants", "I", "i", "", "local.get 0 i64.const 3 i64.shl i64.load DATA+16 i32.load8_u 0", (),
     [((0,), 67), ((1,), 73)]),
    ("a place in the frame", "i", "i", "I", FRAME + "local.get 1 local.get 0 i32.store 8 local.get 0 call 1 local.get 1 "
     "i32.load 8 " + LEFT, (DIRTY,), [((5,), 5)]),
    ("there is always a stack", "", "i", "", LOOK, (), [((), 42)]),
    ("a stack's pointer in a local that is set twice", "i", "i", "II", "global.get 0 local.set 1 block void local.get 0 "
     "br_if 0 global.get 0 local.set 1 end local.get 1 i64.const 32 i64.sub local.tee 2 local.get 0 i32.store 8 "
     "local.get 2 i32.load 8", (), [((0,), 0), ((9,), 9)]),
    ("a branch on 0 isn't taken", "", "i", "", "block void i32.const 0 br_if 0 i32.const 5 return end i32.const 6", (),
     [((), 5)]),
    ("a branch on 2 is taken", "", "i", "", "block void i32.const 2 br_if 0 i32.const 5 return end i32.const 6", (), [((), 6)]),
    ("a table leads to one place by several numbers", "i", "i", "", "block void block void local.get 0 br_table 4 0 1 0 1 0 "
     "end i32.const 10 return end i32.const 11", (), [((0,), 10), ((1,), 11), ((2,), 10), ((3,), 11), ((4,), 10)]),
    ("what was loaded in a sum stays as a store comes", "I", "i", "", "local.get 0 i32.load 0 i32.const 1 i32.add local.get 0 "
     "i32.const 7 i32.store 0 local.get 0 i32.load 0 i32.sub", (), [(("M",), 0xF4030201 + 1 - 7)]),
    ("what was loaded in a sum stays as a call comes", "I", "i", "", "local.get 0 i32.load 0 i32.const 1 i32.add local.get 0 "
     "call 1 local.get 0 i32.load 0 i32.sub", (STORE,), [(("M",), 0xF4030201 + 1 - 7)]),
    ("what was loaded in a select stays as a store comes", "I", "i", "", "local.get 0 i32.load 0 i32.const 5 local.get 0 "
     "i32.load 4 select local.get 0 i32.const 7 i32.store 0 local.get 0 i32.load 0 i32.sub", (), [(("M",), 0xF4030201 - 7)]),
    ("what a local was in a sum stays as it is set", "i", "i", "", "local.get 0 i32.const 1 i32.add i32.const 9 local.set 0 "
     "local.get 0 i32.sub", (), [((14,), 6)]),
    ("a call is made whose result nobody reads", "I", "i", "", "local.get 0 call 1 drop local.get 0 i32.load 0", (TELL,),
     [(("M",), 7)]),
)


# The true methods, on which the wrong ones stand.
TRUE = {name: method for name, method in vars(Function).items() if name.startswith("do_")}


def negated(self, it):
    (condition,) = self.pop(1)
    self.stack.append(combined(f"!({condition:all})", "b", [condition]))
    TRUE["do_br_if"](self, it)


def reversed_call(self, it):
    self.stack.reverse()
    TRUE["do_call"](self, it)


def set_late(self, it):
    (value,) = self.pop(1)
    self.lines.append(f"v{it.number} = {value:all};")


def swapped(self, it):
    first, other, condition = self.pop(3)
    self.stack += [other, first, condition]
    TRUE["do_select"](self, it)


def uncut(self, it):
    before, block = list(self.stack), self.blocks[-1]
    self.end_block(True)
    if block.result:
        self.stack = before + self.stack[-1:]


def turned_table(self, it):
    TRUE["do_br_table"](self, it._replace(number=it.number[1:] + it.number[:1]))


def one_too_far(self, it, value):
    return Value(f"A(data + 1 + {value})", I64, memory=True) if self.program.is_of_addresses(it) else value


def unspilled(self, wanted):
    """Nothing is found before it changes."""


def taken(self, it):
    self.pop(1)
    self.go(self.leave(it.number))


def passed(self, it):
    self.pop(1)


def thinned_table(self, it):
    """Each place is led to by its first number alone."""
    first = {depth: place for place, depth in reversed(list(enumerate(it.number[:-1])))}
    kept = [depth if first[depth] == place else it.number[-1] for place, depth in enumerate(it.number[:-1])]
    TRUE["do_br_table"](self, it._replace(number=[*kept, it.number[-1]]))


def forgetful(text, letter, parts):
    """An operator isn't known to read what its parts do."""
    value = combined(text, letter, parts)
    return Value(value.text, value.kind, value.is_bool)


def unmade(line, read):
    """What nobody reads isn't wanted, be it a call."""
    return None if isinstance(line, str) and line[0] == "t" and line.split(" ")[0] not in read else line


FORGETFUL = mock.patch("translator.function.combined", forgetful)
# What is wrong of each: methods of a function, in whose place another one stands, or another change of the translator.
WRONG = {
    "unreachable": {"do_unreachable": lambda self, it: self.go(["return 5;"])},
    "nop": {"do_nop": lambda self, it: self.stack.append(constant(1, I32))},
    "block": {"do_block": TRUE["do_loop"]},
    "loop": {"do_loop": TRUE["do_block"]},
    "end": {"do_end": uncut},
    "br": {"do_br": lambda self, it: self.go(self.leave(max(0, it.number - 1)))},
    "br_if": {"do_br_if": negated},
    "br_table": {"do_br_table": turned_table},
    "return": {"do_return": lambda self, it: self.go(self.leave(0))},
    "call": {"do_call": reversed_call},
    "drop": {"do_drop": lambda self, it: None},
    "select": {"do_select": swapped},
    "local.get": {"do_local_get": lambda self, it: TRUE["do_local_get"](self, it._replace(number=it.number ^ 1))},
    "local.set": {"do_local_set": set_late},
    "local.tee": {"do_local_tee": lambda self, it: None},
    "global.get": {"do_global_get": lambda self, it: self.stack.append(constant(1, I32))},
    "global.set": {"do_global_set": lambda self, it: None},
    "i32.const": {"do_i32_const": lambda self, it: self.stack.append(constant(it.number & 0x7FFFFFFF, I32))},
    "i64.const": {"do_i64_const": lambda self, it: self.stack.append(constant(it.number & 0xFFFFFFFF, I64))},
    "an address among constants": {"loaded": one_too_far},
    "what was loaded stays as a store comes": {"spill": unspilled},
    "what was loaded stays as a call comes": {"spill": unspilled},
    "what was loaded stays as bytes are moved": {"spill": unspilled},
    "a branch on 0 isn't taken": {"do_br_if": taken},
    "a branch on 2 is taken": {"do_br_if": passed},
    "a table leads to one place by several numbers": {"do_br_table": thinned_table},
    "what was loaded in a sum stays as a store comes": FORGETFUL,
    "what was loaded in a sum stays as a call comes": FORGETFUL,
    "what was loaded in a select stays as a store comes": FORGETFUL,
    "what a local was in a sum stays as it is set": FORGETFUL,
    "a call is made whose result nobody reads": mock.patch("translator.program.wanted", unmade),
}
