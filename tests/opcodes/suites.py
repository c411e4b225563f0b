"""Writes C that tries each instruction as it is translated, and that its wrong translation is seen."""

import collections
import re
from unittest import mock

from translator import opcodes
from translator.function import Function
from translator.library import whole
from translator.program import Program
from translator.wasm import Module

from .assembling import module
from .control import CASES, WRONG
from .meanings import MEMORY, OPERANDS, WIDE, WIDTHS, meant, rows

# What is tried of an instruction: its functions, and of calls of them the C, what it gives (None: it traps), and the memory, or
# rows of operands and of what each gives.
Suite = collections.namedtuple("Suite", "name functions checks")
OURS = re.compile(r"\b(w_mscp_\w+|f\d+|data)\b")
NO_RESULT = object()

HEAD = """
#include <setjmp.h>
#include <stdio.h>
#include <string.h>
static jmp_buf out;
static void trapped(void) { longjmp(out, 1); }
#ifndef OWN_TRAP
#define MSCP_TRAP trapped
#endif
"""
TRYING = """
static u64 words[4]; /* aligned for any number */
#define memory ((u8 *)words)
static volatile int wrong;
static void begin(void) { static const u8 first[] = {%s}; memcpy(memory, first, 32); }
#define GIVES(call, wanted) do { begin(); if (setjmp(out)) wrong++; else if ((u64)(call) != (wanted)) wrong++; } while (0)
#define TRAPS(call) do { begin(); if (!setjmp(out)) { (void)(call); wrong++; } } while (0)
#define ALL(rows, call) do { for (size_t k = 0; k < sizeof rows / sizeof *rows; k++) { const u64 *const row = rows[k]; \
    if (row[3]) TRAPS(call); else GIVES(call, row[2]); } } while (0)
#define LEAVES(call, ...) do { static const u8 then[] = {__VA_ARGS__}; begin(); call; wrong += memcmp(memory, then, 32) != 0; \\
    } while (0)
"""


def number(value, kind):
    """A number in C, or a place in the memory."""
    if isinstance(value, str):
        return "A(memory)" if value == "M" else f"A(memory + {value[1:]})"
    return f"{value}ull" if kind == "I" else f"{value & 0xFFFFFFFF}u"


def call(name, values, takes):
    return f"w_mscp_{name}({', '.join(number(it, kind) for it, kind in zip(values, takes))})"


def masked(value, kind):
    return None if value is None else value & ((1 << WIDTHS[kind]) - 1)


def operands(takes):
    """Values for what an instruction takes: each of one operand, and a part of the pairs."""
    first, *rest = [OPERANDS + (WIDE if kind == "I" else ()) for kind in takes]
    if not rest:
        return [(it,) for it in first]
    pairs = [(a, b) for place, a in enumerate(first) for other, b in enumerate(rest[0]) if (5 * place + other) % 3 != 1]
    return pairs


def numeric(name, takes, gives, meaning):
    """Of parameters, of constants, and as an operand of a shift, which wants all bits of it to be right."""
    got = " ".join(f"local.get {place}" for place in range(len(takes))) + f" {name}"
    shift = "i32.const 31 i32.shl" if gives == "i" else "i64.const 63 i64.shl"
    functions = [("mscp_it", takes, gives, "", got), ("mscp_shifted", takes, gives, "", f"{got} {shift}")]
    checks, whole_rows, shifted_rows = [], [], []
    for place, values in enumerate(operands(takes)):
        wanted = masked(meant(meaning, WIDTHS[takes[0]], *values), gives)
        whole_rows.append((values, wanted))
        if wanted is not None:
            shifted_rows.append((values, masked(wanted << (WIDTHS[gives] - 1), gives)))
        if place % 11 == 0 and wanted is not None:
            given = " ".join(f"{'i32' if kind == 'i' else 'i64'}.const {it}" for it, kind in zip(values, takes))
            functions.append((f"mscp_of_{place}", "", gives, "", f"{given} {name}"))
            checks.append((f"w_mscp_of_{place}()", wanted, None))
    for it, listed in ("it", whole_rows), ("shifted", shifted_rows):
        given = ", ".join(f"(u{WIDTHS[kind]})row[{place}]" for place, kind in enumerate(takes))
        checks.append((f"w_mscp_{it}({given})", listed, None))
    return Suite(name, functions, checks)


def divisors(width):
    """Of a number of so many bytes: what its address may be divided by, beside 1."""
    return [it for it in (2, 4, 8) if it <= width]


def load(name, gives, meaning):
    functions = [("mscp_it", "I", gives, "", f"local.get 0 {name} 3"), ("mscp_there", "I", gives, "", f"local.get 0 {name} 0")]
    wanted = masked(meant(meaning, WIDTHS[gives]), gives)
    checks = [(call("it", ("M",), "I"), wanted, None), (call("there", ("M3",), "I"), wanted, None)]
    for it in divisors(int(re.search(r"\d", meaning).group())):
        functions.append((f"mscp_by_{it}", "I", gives, "", f"local.get 0 {name}:{it} {it}"))
        checks.append((call(f"by_{it}", ("M",), "I"), masked(meant(meaning, WIDTHS[gives], at=it), gives), None))
    return Suite(name, functions, checks)


def store(name, takes, width):
    value = 0x8796A5B4C3D2E1F0
    functions = [("mscp_it", takes, "", "", f"local.get 0 local.get 1 {name} 5")]
    functions += [(f"mscp_by_{it}", takes, "", "", f"local.get 0 local.get 1 {name}:{it} {it}") for it in divisors(width)]
    checks = []
    for it, at in [("it", 5)] + [(f"by_{it}", it) for it in divisors(width)]:
        after = MEMORY[:at] + value.to_bytes(8, "little")[:width] + MEMORY[at + width :]
        checks.append((call(it, ("M", value), takes), NO_RESULT, after))
    return Suite(name, functions, checks)


def moved(name, takes):
    """Both ways over bytes of its own, and none."""
    functions = [("mscp_it", takes, "", "", f"local.get 0 local.get 1 local.get 2 {name}")]
    if name == "memory.fill":
        cases = [(("M4", 0x1A5, 9), MEMORY[:4] + b"\xa5" * 9 + MEMORY[13:]), (("M4", 7, 0), MEMORY)]
    else:
        cases = [(("M4", "M2", 9), MEMORY[:4] + MEMORY[2:11] + MEMORY[13:]), (("M4", "M2", 0), MEMORY),
                 (("M2", "M4", 9), MEMORY[:2] + MEMORY[4:13] + MEMORY[11:])]
    return Suite(name, functions, [(call("it", values, takes), NO_RESULT, after) for values, after in cases])


def of_row(name, takes, gives, meaning):
    if "load" in name:
        return load(name, gives, meaning)
    if "store" in name:
        return store(name, takes, int(meaning))
    if "memory" in name:
        return moved(name, takes)
    return numeric(name, takes, gives, meaning)


def of_case(name, takes, gives, local, text, callees, gets):
    checks = [(call("it", values, takes), wanted, None) for values, wanted in gets]
    return Suite(name, [("mscp_it", takes, gives, local, text), *callees], checks)


def row(values, wanted):
    """Two operands, what is given, and whether it traps."""
    first, other = (*values, 0)[:2]
    return first, other, wanted or 0, int(wanted is None)


def check(text, wanted, after):
    if isinstance(wanted, list):
        listed = ", ".join("{%s}" % ", ".join(str(it) + "ull" for it in row(*its)) for its in wanted)
        return f"{{ static const u64 rows[][4] = {{{listed}}}; ALL(rows, {text}); }}"
    if after is not None:
        return f"LEAVES({text}, {', '.join(str(it) for it in after)});"
    return f"TRAPS({text});" if wanted is None else f"GIVES({text}, {wanted}ull);"


def translated(suite):
    one, other = (Module(module(suite.functions, base)) for base in (0x100000, 0x300000))
    return Program(one, other).text()


def written(prefix, suite, says):
    """The functions of a suite, and one that tries them, with names of their own."""
    lines = "\n".join("    " + check(*it) for it in suite.checks)
    text = f"{translated(suite)}\nstatic void {says}(void)\n{{\n{lines}\n}}\n"
    return OURS.sub(lambda it: prefix + it.group(1), text)


def wrongly():
    """Each suite, and how its instruction is translated wrongly."""
    for code, name, takes, gives, meaning, text in rows():
        other = opcodes.TABLE[code]._replace(text=text)
        yield of_row(name, takes, gives, meaning), mock.patch.dict(opcodes.TABLE, {code: other})
    for case in CASES:
        wrong = WRONG.get(case[0])
        yield of_case(*case), mock.patch.multiple(Function, **wrong) if isinstance(wrong, dict) else wrong


def run(function, name, if_wrong, else_):
    """C that tries a suite, and prints a line of it."""
    return f'    wrong = 0; {function}(); printf("{name}: %s\\n", wrong ? "{if_wrong}" : "{else_}");'


def write():
    """C that prints a line for each: what is tried, and whether it is right, or its wrong translation seen. With RIGHT defined
    it has no wrong one, and with OWN_TRAP it comes to a trap at once, as a program does that names none."""
    parts, runs = [], []
    for place, (suite, patch) in enumerate(wrongly()):
        if suite.name == "unreachable":
            runs.insert(0, f"#ifdef OWN_TRAP\n    right_{place}_w_mscp_it(1);\n    return 0;\n#endif")
        parts.append(written(f"right_{place}_", suite, f"right_{place}"))
        runs.append(run(f"right_{place}", suite.name, "FAILED", "passed"))
        if patch is not None:
            with patch:
                parts += ["#ifndef RIGHT", written(f"wrong_{place}_", suite, f"wrong_{place}"), "#endif"]
            runs += ["#ifndef RIGHT", run(f"wrong_{place}", f"wrong {suite.name} is seen", "passed", "FAILED"), "#endif"]
    main = "int main(void)\n{\n" + "\n".join(runs) + "\n    return 0;\n}\n"
    text = TRYING % ", ".join(str(it) for it in MEMORY) + "\n".join(parts + [main])
    return HEAD + whole(text)
