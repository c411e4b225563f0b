"""Each instruction of a module that can be written as C: all of those on integers that compilers make.

A row has the number, the name, what stands behind it in the module, what it takes off the stack and puts there, and what it is
in C. A letter stands for a value: i for 32 bits, I for 64, b for 32 bits that are 0 or 1. In C {0} is the first operand of an
operator, {0:all} one between brackets or commas, and {1:31} or {1:63} a count of bits, of which the low ones alone count. A row
without C is a method of Function of this name."""

import collections

Opcode = collections.namedtuple("Opcode", "name immediate takes gives text")

ROWS = """
00   unreachable          -       -
01   nop                  -       -
02   block                kind    -
03   loop                 kind    -
0B   end                  -       -
0C   br                   index   -
0D   br_if                index   -
0E   br_table             labels  -
0F   return               -       -
10   call                 index   -
1A   drop                 -       -
1B   select               -       -
20   local.get            index   -
21   local.set            index   -
22   local.tee            index   -
23   global.get           index   -
24   global.set           index   -
28   i32.load             memory  I>i    l4({0:all})
29   i64.load             memory  I>I    l8({0:all})
2C   i32.load8_s          memory  I>i    (u32)(i32)(i8)l1({0:all})
2D   i32.load8_u          memory  I>i    l1({0:all})
2E   i32.load16_s         memory  I>i    (u32)(i32)(i16)l2({0:all})
2F   i32.load16_u         memory  I>i    l2({0:all})
30   i64.load8_s          memory  I>I    (u64)(i64)(i8)l1({0:all})
31   i64.load8_u          memory  I>I    (u64)l1({0:all})
32   i64.load16_s         memory  I>I    (u64)(i64)(i16)l2({0:all})
33   i64.load16_u         memory  I>I    (u64)l2({0:all})
34   i64.load32_s         memory  I>I    (u64)(i64)(i32)l4({0:all})
35   i64.load32_u         memory  I>I    (u64)l4({0:all})
36   i32.store            memory  Ii>    s4({0:all}, {1:all});
37   i64.store            memory  II>    s8({0:all}, {1:all});
3A   i32.store8           memory  Ii>    s1({0:all}, {1:all});
3B   i32.store16          memory  Ii>    s2({0:all}, {1:all});
3C   i64.store8           memory  II>    s1({0:all}, (u32){1});
3D   i64.store16          memory  II>    s2({0:all}, (u32){1});
3E   i64.store32          memory  II>    s4({0:all}, (u32){1});
41   i32.const            number  -
42   i64.const            number  -
45   i32.eqz              -       i>b    {0} == 0
46   i32.eq               -       ii>b   {0} == {1}
47   i32.ne               -       ii>b   {0} != {1}
48   i32.lt_s             -       ii>b   (i32){0} < (i32){1}
49   i32.lt_u             -       ii>b   {0} < {1}
4A   i32.gt_s             -       ii>b   (i32){0} > (i32){1}
4B   i32.gt_u             -       ii>b   {0} > {1}
4C   i32.le_s             -       ii>b   (i32){0} <= (i32){1}
4D   i32.le_u             -       ii>b   {0} <= {1}
4E   i32.ge_s             -       ii>b   (i32){0} >= (i32){1}
4F   i32.ge_u             -       ii>b   {0} >= {1}
50   i64.eqz              -       I>b    {0} == 0
51   i64.eq               -       II>b   {0} == {1}
52   i64.ne               -       II>b   {0} != {1}
53   i64.lt_s             -       II>b   (i64){0} < (i64){1}
54   i64.lt_u             -       II>b   {0} < {1}
55   i64.gt_s             -       II>b   (i64){0} > (i64){1}
56   i64.gt_u             -       II>b   {0} > {1}
57   i64.le_s             -       II>b   (i64){0} <= (i64){1}
58   i64.le_u             -       II>b   {0} <= {1}
59   i64.ge_s             -       II>b   (i64){0} >= (i64){1}
5A   i64.ge_u             -       II>b   {0} >= {1}
67   i32.clz              -       i>i    clz32({0:all})
68   i32.ctz              -       i>i    ctz32({0:all})
69   i32.popcnt           -       i>i    pop32({0:all})
6A   i32.add              -       ii>i   {0} + {1}
6B   i32.sub              -       ii>i   {0} - {1}
6C   i32.mul              -       ii>i   {0} * {1}
6D   i32.div_s            -       ii>i   sdiv32({0:all}, {1:all})
6E   i32.div_u            -       ii>i   div32({0:all}, {1:all})
6F   i32.rem_s            -       ii>i   srem32({0:all}, {1:all})
70   i32.rem_u            -       ii>i   rem32({0:all}, {1:all})
71   i32.and              -       ii>i   {0} & {1}
72   i32.or               -       ii>i   {0} | {1}
73   i32.xor              -       ii>i   {0} ^ {1}
74   i32.shl              -       ii>i   {0} << {1:31}
75   i32.shr_s            -       ii>i   (u32)((i32){0} >> {1:31})
76   i32.shr_u            -       ii>i   {0} >> {1:31}
77   i32.rotl             -       ii>i   rotl32({0:all}, {1:31})
78   i32.rotr             -       ii>i   rotr32({0:all}, {1:31})
79   i64.clz              -       I>I    clz64({0:all})
7A   i64.ctz              -       I>I    ctz64({0:all})
7B   i64.popcnt           -       I>I    pop64({0:all})
7C   i64.add              -       II>I   {0} + {1}
7D   i64.sub              -       II>I   {0} - {1}
7E   i64.mul              -       II>I   {0} * {1}
7F   i64.div_s            -       II>I   sdiv64({0:all}, {1:all})
80   i64.div_u            -       II>I   div64({0:all}, {1:all})
81   i64.rem_s            -       II>I   srem64({0:all}, {1:all})
82   i64.rem_u            -       II>I   rem64({0:all}, {1:all})
83   i64.and              -       II>I   {0} & {1}
84   i64.or               -       II>I   {0} | {1}
85   i64.xor              -       II>I   {0} ^ {1}
86   i64.shl              -       II>I   {0} << {1:63}
87   i64.shr_s            -       II>I   (u64)((i64){0} >> {1:63})
88   i64.shr_u            -       II>I   {0} >> {1:63}
89   i64.rotl             -       II>I   rotl64({0:all}, {1:63})
8A   i64.rotr             -       II>I   rotr64({0:all}, {1:63})
A7   i32.wrap_i64         -       I>i    (u32){0}
AC   i64.extend_i32_s     -       i>I    (u64)(i64)(i32){0}
AD   i64.extend_i32_u     -       i>I    (u64){0}
C0   i32.extend8_s        -       i>i    (u32)(i32)(i8){0}
C1   i32.extend16_s       -       i>i    (u32)(i32)(i16){0}
C2   i64.extend8_s        -       I>I    (u64)(i64)(i8){0}
C3   i64.extend16_s       -       I>I    (u64)(i64)(i16){0}
C4   i64.extend32_s       -       I>I    (u64)(i64)(i32){0}
FC0A memory.copy          two     III>   copy({0:all}, {1:all}, {2:all});
FC0B memory.fill          one     IiI>   fill({0:all}, {1:all}, {2:all});
"""


def read_row(line):
    words = line.split(None, 4)
    takes, gives = words[3].split(">") if len(words) == 5 else (None, None)
    return int(words[0], 16), Opcode(words[1], words[2], takes, gives, words[4] if len(words) == 5 else None)


TABLE = dict(read_row(line) for line in ROWS.strip().splitlines())

# The names of the standard for what isn't in the table: said where a module has it.
OTHERS = {
    0x04: "if", 0x05: "else", 0x08: "throw", 0x0A: "throw_ref", 0x11: "call_indirect", 0x12: "return_call",
    0x13: "return_call_indirect", 0x14: "call_ref", 0x15: "return_call_ref", 0x1C: "select of a type", 0x1F: "try_table",
    0x25: "table.get", 0x26: "table.set", 0x2A: "f32.load", 0x2B: "f64.load", 0x38: "f32.store", 0x39: "f64.store",
    0x3F: "memory.size", 0x40: "memory.grow", 0x43: "f32.const", 0x44: "f64.const", 0xD0: "ref.null", 0xD1: "ref.is_null",
    0xD2: "ref.func", 0xFC08: "memory.init", 0xFC09: "data.drop", 0xFC0C: "table.init", 0xFC0D: "elem.drop",
    0xFC0E: "table.copy", 0xFC0F: "table.grow", 0xFC10: "table.size", 0xFC11: "table.fill",
}
FLOATS = {
    0x5B: "f32.eq f32.ne f32.lt f32.gt f32.le f32.ge f64.eq f64.ne f64.lt f64.gt f64.le f64.ge",
    0x8B: "f32.abs f32.neg f32.ceil f32.floor f32.trunc f32.nearest f32.sqrt f32.add f32.sub f32.mul f32.div f32.min f32.max "
    "f32.copysign f64.abs f64.neg f64.ceil f64.floor f64.trunc f64.nearest f64.sqrt f64.add f64.sub f64.mul f64.div f64.min "
    "f64.max f64.copysign",
    0xA8: "i32.trunc_f32_s i32.trunc_f32_u i32.trunc_f64_s i32.trunc_f64_u",
    0xAE: "i64.trunc_f32_s i64.trunc_f32_u i64.trunc_f64_s i64.trunc_f64_u f32.convert_i32_s f32.convert_i32_u "
    "f32.convert_i64_s f32.convert_i64_u f32.demote_f64 f64.convert_i32_s f64.convert_i32_u f64.convert_i64_s "
    "f64.convert_i64_u f64.promote_f32 i32.reinterpret_f32 i64.reinterpret_f64 f32.reinterpret_i32 f64.reinterpret_i64",
    0xFC00: "i32.trunc_sat_f32_s i32.trunc_sat_f32_u i32.trunc_sat_f64_s i32.trunc_sat_f64_u i64.trunc_sat_f32_s "
    "i64.trunc_sat_f32_u i64.trunc_sat_f64_s i64.trunc_sat_f64_u",
}
for first, names in FLOATS.items():
    OTHERS.update({first + place: name for place, name in enumerate(names.split())})


def name_of_other(code):
    """The name of an instruction that isn't in the table; of one on vectors, and an atomic one, its number."""
    return OTHERS.get(code) or f"the instruction {code:02X}"
