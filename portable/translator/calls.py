"""Writes each call of mscp.h over the function of the module that has its name.

Where a struct lies as the code has it, little end first and as wide, the caller's own is used. Elsewhere its fields are moved
one by one, into room on the stack and back: so what the code doesn't write stays what it was."""

import re

from .wasm import Refusal

WIDTHS = {"uint8_t": 1, "uint16_t": 2, "uint32_t": 4, "uint64_t": 8, "size_t": 8, "void *": 8}
# With which answers a number of this kind is told: how many bytes there are if all is done, and the line of a script's fault.
# How many a save has is told also if they don't fit.
TOLD = {"size_t": "answer == MSCP_DONE", "uint32_t": "answer <= MSCP_SCRIPT_SIZE && answer >= MSCP_SCRIPT_EVENTS"}
TOLD_OF_A_SAVE = "answer == MSCP_DONE || answer == MSCP_SMALL"
STRUCT = re.compile(r"^struct (\w+) \{\n(.*?)^\};", re.M | re.S)
FIELD = re.compile(r"^ +(?:MSCP_ALIGNED )?(void \*|\w+ )(\w+)(?:\[(\w+)\])?;", re.M)
NUMBER = re.compile(r"^#define (\w+) (\d+)u", re.M)
CALL = re.compile(r"^(?:MSCP_MUST_USE )?(u?int\d+_t|size_t) (mscp_\w+)\(([^()]*)\);", re.M)
PARAMETER = re.compile(r"(const )?(?:struct )?(\w+) (\*?)(\w+)")


class Struct:
    """A struct of the header.

    fields: the place of each in the code's memory, its bytes, its name, and what it is: a number, a pointer, or bytes
    size: its bytes there
    used: the names of the functions for it that calls want
    """

    def __init__(self, name, text, numbers):
        self.name, self.fields, self.size, self.used = name, [], 0, set()
        self.short = name.replace("mscp_", "", 1) if name != "mscp" else "controller"
        widest = 1
        for kind, field, count in FIELD.findall(text):
            kind = kind.strip()
            width = WIDTHS[kind]
            widest = max(widest, width)
            if count and kind != "uint8_t":
                raise Refusal(f"{name} has a list of more than bytes")
            length = int(numbers.get(count, count)) if count else width
            at = -(-self.size // width) * width
            self.fields.append((at, length, field, "bytes" if count else "pointer" if "*" in kind else "number"))
            self.size = at + length
        self.size = -(-self.size // widest) * widest

    def lies(self):
        pointers = " && sizeof(void *) == 8" if any(it[3] == "pointer" for it in self.fields) else ""
        return f"#define LIES_{self.short} (LITTLE && sizeof(struct {self.name}) == {self.size}{pointers})"

    def take(self):
        """A function that moves what stands in a struct of the caller's to where the code finds it, and answers that place."""
        puts = {
            "number": "s{1}(A(room + {0}), it->{2});",
            "pointer": "s8(A(room + {0}), A(it->{2}));",
            "bytes": "COPY(room + {0}, it->{2}, {1});",
        }
        return [
            f"static u64 take_{self.short}(const struct {self.name} *it, u8 *room)",
            "{",
            *("    " + puts[it[3]].format(*it) for it in self.fields),
            "    return A(room);",
            "}",
        ]

    def give(self):
        """A function that moves what the code left there back into the caller's."""
        gets = {
            "number": "it->{2} = l{1}(A(room + {0}));",
            "narrow": "it->{2} = (uint{3}_t)l{1}(A(room + {0}));",
            "pointer": "it->{2} = P(l8(A(room + {0})));",
            "bytes": "COPY(it->{2}, room + {0}, {1});",
        }
        narrow = [(at, length, name, 8 * length, "narrow") if kind == "number" and length < 4 else (at, length, name, 0, kind)
                  for at, length, name, kind in self.fields]
        return [
            f"static void give_{self.short}(struct {self.name} *it, const u8 *room)",
            "{",
            *("    " + gets[it[4]].format(*it) for it in narrow),
            "}",
        ]

    def text(self):
        lines = [self.lies()]
        for name in ("take", "give"):
            if name in self.used:
                lines += getattr(self, name)()
        return "\n".join(lines) + "\n"


class Call:
    """A call of the header, as it is written: what comes before, what is passed, and what comes after."""

    def __init__(self, header, kind, name, parameters):
        self.kind, self.name, self.parameters = kind, name, " ".join(parameters.split())
        self.before, self.passed, self.after = [], [], []
        listed = [] if parameters == "void" else [PARAMETER.fullmatch(" ".join(it.split())) for it in parameters.split(",")]
        for place, it in enumerate(listed):
            follows = listed[place + 1].groups()[1:3] if place + 1 < len(listed) else None
            self.one(header, it.groups(), follows == ("size_t", ""))

    def one(self, header, parameter, has_count):
        is_const, kind, star, name = parameter
        if not star:
            self.passed.append(name)
        elif kind == "uint8_t":
            self.passed.append(f"A({name})")
        elif kind in TOLD:
            self.number(kind, name)
        elif has_count and is_const:
            self.list_taken(header.use(kind, "take"), name)
        elif has_count:
            self.list_given(header.use(kind, "give"), name)
        else:
            self.single(header.use(kind, "take"), name)
            if not is_const:
                short = header.use(kind, "give").short
                self.after += [f"if (!LIES_{short})", f"    give_{short}({name}, {name}_room);"]

    def number(self, kind, name):
        width = WIDTHS[kind]
        self.before.append(f"ROOM({name}_room, {width});")
        self.passed.append(f"A({name}_room)")
        told = TOLD_OF_A_SAVE if name == "length" else TOLD[kind]
        self.after += [f"if ({told})", f"    *{name} = ({kind})l{width}(A({name}_room));"]

    def single(self, struct, name):
        self.before.append(f"ROOM({name}_room, LIES_{struct.short} ? 1 : {struct.size});")
        self.passed.append(f"LIES_{struct.short} ? A({name}) : take_{struct.short}({name}, {name}_room)")

    def list_taken(self, struct, name):
        self.before += [
            f"ROOM({name}_room, LIES_{struct.short} ? 1 : {struct.size} * MSCP_UNITS_MAX);",
            f"for (size_t k = 0; !LIES_{struct.short} && k < count && k < MSCP_UNITS_MAX; k++)",
            f"    take_{struct.short}({name} + k, {name}_room + {struct.size} * k);",
        ]
        self.passed.append(f"LIES_{struct.short} ? A({name}) : A({name}_room)")

    def list_given(self, struct, name):
        """In the caller's own list the code finds room where a struct is as wide there, in whatever order its bytes are."""
        own = f"sizeof *{name} == {struct.size}"
        self.before += [
            f"ROOM({name}_room, {own} ? 1 : {struct.size} * MSCP_CREDITS_MAX);",
            f"u8 *const {name}_there = {own} ? (u8 *){name} : {name}_room;",
            f"const size_t {name}_most = {own} || room < MSCP_CREDITS_MAX ? room : MSCP_CREDITS_MAX;",
        ]
        self.passed.append(f"A({name}_there)")
        self.after += [
            f"for (size_t k = 0; !LIES_{struct.short} && k < {name}_most && (i64)k < answer; k++)",
            f"    give_{struct.short}({name} + k, {name}_there + {struct.size} * k);",
        ]
        self.count = f"{name}_most"

    def text(self):
        passed = [getattr(self, "count", it) if it == "room" and hasattr(self, "count") else it for it in self.passed]
        cast = "" if self.kind == "uint32_t" else f"({self.kind})"
        call = f"{cast}w_{self.name}({', '.join(passed)})"
        ends = [f"const {self.kind} answer = {call};", *self.after, "return answer;"] if self.after else [f"return {call};"]
        body = "\n".join("    " + it for it in self.before + ends)
        return f"{self.kind} {self.name}({self.parameters})\n{{\n{body}\n}}\n"


class Header:
    """What the header says that the calls are."""

    def __init__(self, text):
        plain = re.sub(r"/\*.*?\*/", "", text, flags=re.S)
        numbers = dict(NUMBER.findall(plain))
        self.structs = {name: Struct(name, inside, numbers) for name, inside in STRUCT.findall(plain)}
        self.calls = {name: Call(self, kind, name, parameters) for kind, name, parameters in CALL.findall(plain)}

    def use(self, kind, how):
        struct = self.structs[kind]
        struct.used.add(how)
        return struct

    def text(self):
        used = [it.text() for it in self.structs.values() if it.used]
        return "\n".join(used + [self.calls[name].text() for name in sorted(self.calls)])
