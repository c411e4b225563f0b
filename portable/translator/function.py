"""Writes one function of a module as C.

What stands on the stack of WebAssembly are expressions without an effect. They become statements where a value is kept, and
where something is about to change that they read. A block is a label, and a branch is a goto."""

import collections
import re

from .opcodes import TABLE, name_of_other
from .values import I32, I64, Value, combined, constant
from .wasm import Refusal

# An instruction: the number that stands behind it, that of the same one in the other module, and of a load or a store by how
# many bytes its address can be divided, as its compiler knew.
Instruction = collections.namedtuple("Instruction", "opcode number other aligned")
# A block of code: its kind, its label, the temporary of what it gives, how much stood on the stack before it, and what was
# known of locals where a branch led to its end.
Block = collections.namedtuple("Block", "kind label result height known")
NO_RESULT = 0x40
LOST = -1 # what a local has that holds the stack's pointer if one way was gone, and something else if another was
ACCESS = re.compile(r"\b([ls])([248])\(")
# Which operators make another address of a constant, if these operands are one.
KEEPS = {"i64.add": ([True, False], [False, True]), "i64.sub": ([True, False],)}
READ = {
    "-": lambda reader: None,
    "kind": lambda reader: reader.byte(),
    "index": lambda reader: reader.unsigned(),
    "labels": lambda reader: reader.several(reader.unsigned) + [reader.unsigned()],
    "memory": lambda reader: (reader.unsigned(), reader.unsigned()),
    "number": lambda reader: reader.signed(),
    "two": lambda reader: reader.take(2) and None,
    "one": lambda reader: reader.take(1) and None,
}


def read_code(reader, end):
    """The instructions up to there, each with its number."""
    code = []
    while reader.at < end:
        number = reader.byte()
        if number >= 0xFB:
            number = number << 8 | reader.unsigned()
        if number not in TABLE:
            raise Refusal(f"no translation is known of {name_of_other(number)}")
        opcode = TABLE[number]
        code.append((opcode, READ[opcode.immediate](reader)))
    return code


def beside(code, others):
    """The code of both modules in one."""
    if len(code) != len(others):
        raise Refusal("the two modules differ in more than where their constants lie")
    for (opcode, number), (other_opcode, other) in zip(code, others):
        if opcode != other_opcode or (number != other and opcode.immediate not in ("memory", "number")):
            raise Refusal(f"the two modules differ in {opcode.name}")
        if opcode.immediate != "memory":
            yield Instruction(opcode, number, other, None)
        elif number[0] == other[0] <= 3:
            yield Instruction(opcode, number[1], other[1], 1 << number[0])
        else:
            raise Refusal(f"{opcode.name} has an alignment that isn't known")


def sets_of_loops(code):
    """Of each loop, by its place in the code, the locals that it sets."""
    found, opened = {}, []
    for place, it in enumerate(code):
        if it.opcode.name in ("block", "loop"):
            opened.append(place)
            found[place] = set()
        elif it.opcode.name == "end" and opened:
            opened.pop()
        elif it.opcode.name in ("local.set", "local.tee"):
            for begin in opened:
                found[begin].add(it.number)
    return found


def merged(known):
    """What is known of locals where several ways lead to: what all of them say."""
    tops = {}
    for local in set().union(*(its for its, _ in known)):
        found = {its.get(local) for its, _ in known}
        if len(found) == 1:
            tops[local] = found.pop()
        elif found & {0, LOST}:
            tops[local] = LOST
    return tops, frozenset.intersection(*(fixed for _, fixed in known))


class Function:
    """One function.

    lines: its statements, and in their places the numbers of labels
    kinds: those of its locals, the first of which are what it takes
    temporaries: the kind of each
    used: the labels that some branch goes to
    calls: the functions that it calls
    frame: how many bytes it has in memory, None if it asks for none
    tops: of locals that hold the stack's pointer, or where the frame begins, how far below that pointer it is, or LOST
    fixed: the locals that hold an address of a constant
    unreached: None, or the blocks that began since nobody comes there
    """

    def __init__(self, program, number, code):
        self.program = program
        self.takes, self.gives = program.module.functions[number]
        self.kinds = self.takes + program.module.code[number][0]
        self.lines, self.stack, self.temporaries, self.blocks, self.calls = [], [], [], [], []
        self.labels, self.used, self.frame, self.tops, self.fixed, self.unreached = 0, set(), None, {}, frozenset(), None
        self.sets = sets_of_loops(code)
        self.blocks.append(Block("function", 0, None, 0, []))
        for self.place, it in enumerate(code):
            if self.unreached is None:
                self.translate(it)
            else:
                self.pass_over(it.opcode.name)

    def translate(self, it):
        if it.opcode.text is None:
            getattr(self, "do_" + it.opcode.name.replace(".", "_"))(it)
            return
        parts = self.pop(len(it.opcode.takes))
        if it.opcode.immediate == "memory":
            parts[0] = self.program.address(parts[0], it)
        known = self.about_the_frame(it.opcode.name, parts)
        if known is not None:
            self.stack.append(known)
        elif it.opcode.gives:
            value = combined(self.text(it, parts), it.opcode.gives, parts)
            value.memory |= it.opcode.immediate == "memory"
            value.fixed = [part.fixed for part in parts] in KEEPS.get(it.opcode.name, ())
            self.stack.append(self.loaded(it, value))
        else:
            if parts[0].fixed:
                raise Refusal(f"{it.opcode.name} writes to a constant")
            self.spill(lambda value: value.memory)
            self.lines.append(self.text(it, parts))

    def text(self, it, parts):
        """An instruction in C. A load or a store of a number whose address is known to be aligned is told by how many bytes."""
        def told(access):
            return f"{access[1]}{access[2]}_{min(int(access[2]), it.aligned)}("

        text = it.opcode.text.format(*parts)
        return ACCESS.sub(told, text, count=1) if (it.aligned or 1) > 1 else text

    def loaded(self, it, value):
        """What an instruction gives: of an address among the constants its place was loaded."""
        if not self.program.is_of_addresses(it):
            return value
        return Value(f"A(data + {value})", I64, local=value.locals, memory=True, fixed=True)

    def pass_over(self, name):
        if name in ("block", "loop"):
            self.unreached += 1
        elif name == "end" and self.unreached > 0:
            self.unreached -= 1
        elif name == "end":
            self.end_block(False)

    # ---- the stack

    def pop(self, count):
        parts = self.stack[len(self.stack) - count :]
        del self.stack[len(self.stack) - count :]
        return parts

    def temporary(self, kind):
        self.temporaries.append(kind)
        return f"t{len(self.temporaries) - 1}"

    def spill(self, wanted):
        """What stands on the stack, and what is to come may change, is found now."""
        for place, value in enumerate(self.stack):
            if value.number is None and wanted(value):
                name = self.temporary(value.kind)
                self.lines.append(f"{name} = {value:all};")
                self.stack[place] = Value(name, value.kind, fixed=value.fixed)

    # ---- blocks

    def begin_block(self, kind, gives):
        if gives not in (NO_RESULT, I32, I64):
            raise Refusal(f"a {kind} gives or takes more than a number")
        self.spill(lambda value: True)
        self.labels += 1
        result = None if gives == NO_RESULT else self.temporary(gives)
        self.blocks.append(Block(kind, self.labels, result, len(self.stack), []))

    def do_block(self, it):
        self.begin_block("block", it.number)

    def do_loop(self, it):
        self.begin_block("loop", it.number)
        self.lines.append(self.labels)
        entered = {local: top for local, top in self.tops.items() if local not in self.sets[self.place]}
        lost = {local: LOST for local, top in self.tops.items() if local in self.sets[self.place] and top in (0, LOST)}
        self.tops, self.fixed = {**entered, **lost}, self.fixed - self.sets[self.place]

    def end_block(self, is_reached):
        block = self.blocks.pop()
        if block.kind == "function":
            if is_reached:
                self.lines.append(self.give_back())
            return
        if is_reached and block.result:
            self.lines.append(f"{block.result} = {self.stack[-1]:all};")
        del self.stack[block.height :]
        if block.kind == "block":
            self.lines.append(block.label)
            block.known.extend([(self.tops, self.fixed)] if is_reached or not block.known else [])
            self.tops, self.fixed = merged(block.known)
        if block.result:
            self.stack.append(Value(block.result, self.temporaries[int(block.result[1:])]))
        self.unreached = None

    def do_end(self, it):
        self.end_block(True)

    def give_back(self):
        return f"return {self.stack[-1]:all};" if self.gives else "return;"

    def leave(self, depth):
        """The statements that go to where a branch leads out of so many blocks."""
        block = self.blocks[-1 - depth]
        if block.kind == "function":
            return [self.give_back()]
        self.used.add(block.label)
        block.known.append((self.tops, self.fixed))
        moved = [f"{block.result} = {self.stack[-1]:all};"] if block.result and block.kind == "block" else []
        return moved + [f"goto L{block.label};"]

    def go(self, statements):
        self.lines += statements
        self.unreached = 0

    def do_br(self, it):
        self.go(self.leave(it.number))

    def do_br_if(self, it):
        (condition,) = self.pop(1)
        if condition.number == 0:
            return
        if condition.number is not None:
            self.go(self.leave(it.number))
            return
        if self.blocks[-1 - it.number].result:
            self.spill(lambda value: True)
        there = self.leave(it.number)
        self.lines.append(f"if ({condition:all}) " + (there[0] if len(there) == 1 else "{ " + " ".join(there) + " }"))

    def do_br_table(self, it):
        (value,) = self.pop(1)
        cases = {}
        for number, depth in enumerate(it.number[:-1]):
            cases.setdefault(" ".join(self.leave(depth)), []).append(f"case {number}:")
        last = " ".join(self.leave(it.number[-1]))
        listed = [" ".join(numbers) + " " + there for there, numbers in cases.items() if there != last]
        self.go([f"switch ({value:all}) {{", *listed, "default: " + last, "}"])

    def do_return(self, it):
        self.go([self.give_back()])

    def do_unreachable(self, it):
        self.go(["TRAP();"])

    def do_nop(self, it):
        pass

    # ---- values

    def do_i32_const(self, it):
        self.stack.append(self.program.number(it, I32))

    def do_i64_const(self, it):
        self.stack.append(self.program.number(it, I64))

    def do_drop(self, it):
        self.pop(1)

    def do_select(self, it):
        first, other, condition = self.pop(3)
        asked = f"({condition:all})" if condition.is_bool else str(condition)
        value = combined(f"{asked} ? {first} : {other}", "i", [first, other, condition])
        value.kind = first.kind
        self.stack.append(value)

    def do_call(self, it):
        takes, gives = self.program.module.functions[it.number]
        parts = self.pop(len(takes))
        self.calls.append(it.number)
        self.spill(lambda value: value.memory)
        call = f"{self.program.mark(it.number)}({', '.join(format(part, 'all') for part in parts)})"
        if not gives:
            self.lines.append(call + ";")
            return
        name = self.temporary(gives[0])
        self.lines.append(f"{name} = {call};")
        self.stack.append(Value(name, gives[0]))

    # ---- locals

    def do_local_get(self, it):
        top, fixed = self.tops.get(it.number), it.number in self.fixed
        text = None if top in (0, LOST) else f"v{it.number}"
        self.stack.append(Value(text, self.kinds[it.number], local=[it.number], top=None if top == LOST else top, fixed=fixed))

    def do_local_set(self, it):
        (value,) = self.pop(1)
        self.spill(lambda other: it.number in other.locals)
        others = {local: top for local, top in self.tops.items() if local != it.number}
        self.tops = others if value.top is None else {**others, it.number: value.top}
        self.fixed = self.fixed | {it.number} if value.fixed else self.fixed - {it.number}
        if value.top != 0 and value.text != f"v{it.number}":
            self.lines.append(f"v{it.number} = {value:all};")

    def do_local_tee(self, it):
        self.do_local_set(it)
        self.do_local_get(it)

    # ---- the stack in memory, of which each function has its own part, as an array

    def do_global_get(self, it):
        """The stack's pointer; or the flag of a call that is at work, which is down (flag.py)."""
        is_pointer = self.program.is_stack_pointer(it.number)
        self.stack.append(Value(None, I64, top=0) if is_pointer else constant(0, I32))

    def do_global_set(self, it):
        """Where the part of the next function begins, or the flag: nobody asks for either."""
        (value,) = self.pop(1)
        if self.program.is_stack_pointer(it.number) and (value.top is None or value.top not in (0, self.frame)):
            raise Refusal("the stack's pointer is set in a way that isn't known")

    def about_the_frame(self, name, parts):
        """What an instruction gives that asks for a part of the stack, or gives it back, or asks whether there is so much of
        it; else None."""
        top = parts[0].top
        if top is None or len(parts) < 2:
            return None
        other = parts[1].number
        if name == "i64.sub" and top == 0 and other is not None and self.frame is None:
            self.frame = other
            return Value("A(frame)", I64, top=self.frame)
        if name in ("i64.lt_s", "i64.gt_s") and other in (15, 16):
            return constant(int(name == "i64.gt_s"), I32)
        if name == "i64.add" and top > 0 and other == top:
            return Value(f"{parts[0]} + {other}", I64, local=parts[0].locals, top=0)
        if top == 0:
            raise Refusal(f"{name} asks for the stack's pointer in a way that isn't known")
        if name == "i64.sub" or (name == "i64.add" and (other or 0) >> 63):
            raise Refusal("more of the stack is asked for, below what a function has")
        return None
