"""What each instruction means by the standard of WebAssembly, in Python, and C that isn't that.

A row has the number and the name of an instruction, what it takes and gives (i for 32 bits, I for 64), what it gives of the
numbers a, b and c, and C with which a translator must not pass. w is the width of a, S(a) is a with its sign, and m is the
memory, of which a load reads from byte 3 on. None is a trap."""

ROWS = """
28   i32.load             I>i    // L(4)                                    // l2({0:all})
29   i64.load             I>I    // L(8)                                    // (u64)l4({0:all})
2C   i32.load8_s          I>i    // LS(1)                                   // l1({0:all})
2D   i32.load8_u          I>i    // L(1)                                    // (u32)(i32)(i8)l1({0:all})
2E   i32.load16_s         I>i    // LS(2)                                   // l2({0:all})
2F   i32.load16_u         I>i    // L(2)                                    // (u32)(i32)(i16)l2({0:all})
30   i64.load8_s          I>I    // LS(1)                                   // (u64)l1({0:all})
31   i64.load8_u          I>I    // L(1)                                    // (u64)(i64)(i8)l1({0:all})
32   i64.load16_s         I>I    // LS(2)                                   // (u64)l2({0:all})
33   i64.load16_u         I>I    // L(2)                                    // (u64)l1({0:all})
34   i64.load32_s         I>I    // LS(4)                                   // (u64)l4({0:all})
35   i64.load32_u         I>I    // L(4)                                    // (u64)(i64)(i32)l4({0:all})
36   i32.store            Ii>    // 4                                       // s2({0:all}, {1:all});
37   i64.store            II>    // 8                                       // s4({0:all}, (u32){1});
3A   i32.store8           Ii>    // 1                                       // s2({0:all}, {1:all});
3B   i32.store16          Ii>    // 2                                       // s1({0:all}, {1:all});
3C   i64.store8           II>    // 1                                       // s4({0:all}, (u32){1});
3D   i64.store16          II>    // 2                                       // s4({0:all}, (u32){1});
3E   i64.store32          II>    // 4                                       // s8({0:all}, {1:all});
45   i32.eqz              i>i    // a == 0                                  // {0} != 0
46   i32.eq               ii>i   // a == b                                  // (u8){0} == (u8){1}
47   i32.ne               ii>i   // a != b                                  // (u16){0} != (u16){1}
48   i32.lt_s             ii>i   // S(a) < S(b)                             // {0} < {1}
49   i32.lt_u             ii>i   // a < b                                   // (i32){0} < (i32){1}
4A   i32.gt_s             ii>i   // S(a) > S(b)                             // {0} > {1}
4B   i32.gt_u             ii>i   // a > b                                   // {1} > {0}
4C   i32.le_s             ii>i   // S(a) <= S(b)                            // {0} <= {1}
4D   i32.le_u             ii>i   // a <= b                                  // {0} < {1}
4E   i32.ge_s             ii>i   // S(a) >= S(b)                            // {0} >= {1}
4F   i32.ge_u             ii>i   // a >= b                                  // {0} > {1}
50   i64.eqz              I>i    // a == 0                                  // (u32){0} == 0
51   i64.eq               II>i   // a == b                                  // (u32){0} == (u32){1}
52   i64.ne               II>i   // a != b                                  // (u32){0} != (u32){1}
53   i64.lt_s             II>i   // S(a) < S(b)                             // {0} < {1}
54   i64.lt_u             II>i   // a < b                                   // (i64){0} < (i64){1}
55   i64.gt_s             II>i   // S(a) > S(b)                             // (i32){0} > (i32){1}
56   i64.gt_u             II>i   // a > b                                   // (u32){0} > (u32){1}
57   i64.le_s             II>i   // S(a) <= S(b)                            // {0} <= {1}
58   i64.le_u             II>i   // a <= b                                  // {1} <= {0}
59   i64.ge_s             II>i   // S(a) >= S(b)                            // {0} >= {1}
5A   i64.ge_u             II>i   // a >= b                                  // (u32){0} >= (u32){1}
67   i32.clz              i>i    // w - a.bit_length()                      // (u32)clz64({0:all})
68   i32.ctz              i>i    // low(a)                                  // (u32)ctz64({0:all})
69   i32.popcnt           i>i    // bin(a).count('1')                       // pop32({0} & 0x7FFFFFFFu)
6A   i32.add              ii>i   // a + b                                   // {0} - {1}
6B   i32.sub              ii>i   // a - b                                   // {1} - {0}
6C   i32.mul              ii>i   // a * b                                   // {0} * (u16){1}
6D   i32.div_s            ii>i   // quotient(S(a), S(b))                    // div32({0:all}, {1:all})
6E   i32.div_u            ii>i   // quotient(a, b)                          // sdiv32({0:all}, {1:all})
6F   i32.rem_s            ii>i   // rest(S(a), S(b))                        // rem32({0:all}, {1:all})
70   i32.rem_u            ii>i   // rest(a, b)                              // srem32({0:all}, {1:all})
71   i32.and              ii>i   // a & b                                   // {0} & (u16){1}
72   i32.or               ii>i   // a | b                                   // {0} ^ {1}
73   i32.xor              ii>i   // a ^ b                                   // {0} | {1}
74   i32.shl              ii>i   // a << b % w                              // {0} << ({1:31} & 15)
75   i32.shr_s            ii>i   // S(a) >> b % w                           // {0} >> {1:31}
76   i32.shr_u            ii>i   // a >> b % w                              // (u32)((i32){0} >> {1:31})
77   i32.rotl             ii>i   // turned(a, b % w)                        // rotr32({0:all}, {1:31})
78   i32.rotr             ii>i   // turned(a, -b % w)                       // rotl32({0:all}, {1:31})
79   i64.clz              I>I    // w - a.bit_length()                      // clz32((u32){0})
7A   i64.ctz              I>I    // low(a)                                  // ctz32((u32){0})
7B   i64.popcnt           I>I    // bin(a).count('1')                       // pop32((u32){0})
7C   i64.add              II>I   // a + b                                   // (u32){0} + (u32){1}
7D   i64.sub              II>I   // a - b                                   // {1} - {0}
7E   i64.mul              II>I   // a * b                                   // {0} * (u32){1}
7F   i64.div_s            II>I   // quotient(S(a), S(b))                    // div64({0:all}, {1:all})
80   i64.div_u            II>I   // quotient(a, b)                          // sdiv64({0:all}, {1:all})
81   i64.rem_s            II>I   // rest(S(a), S(b))                        // rem64({0:all}, {1:all})
82   i64.rem_u            II>I   // rest(a, b)                              // srem64({0:all}, {1:all})
83   i64.and              II>I   // a & b                                   // {0} & (u32){1}
84   i64.or               II>I   // a | b                                   // {0} | (u32){1}
85   i64.xor              II>I   // a ^ b                                   // {0} ^ (u32){1}
86   i64.shl              II>I   // a << b % w                              // {0} << {1:31}
87   i64.shr_s            II>I   // S(a) >> b % w                           // {0} >> {1:63}
88   i64.shr_u            II>I   // a >> b % w                              // {0} >> {1:31}
89   i64.rotl             II>I   // turned(a, b % w)                        // rotl64({0:all}, {1:31})
8A   i64.rotr             II>I   // turned(a, -b % w)                       // rotl64({0:all}, {1:63})
A7   i32.wrap_i64         I>i    // a                                       // (u32)(u16){0}
AC   i64.extend_i32_s     i>I    // S(a)                                    // (u64){0}
AD   i64.extend_i32_u     i>I    // a                                       // (u64)(i64)(i32){0}
C0   i32.extend8_s        i>i    // signed(a, 8)                            // (u32)(u8){0}
C1   i32.extend16_s       i>i    // signed(a, 16)                           // (u32)(i32)(i8){0}
C2   i64.extend8_s        I>I    // signed(a, 8)                            // (u64)(i64)(i16){0}
C3   i64.extend16_s       I>I    // signed(a, 16)                           // (u64)(i64)(i32){0}
C4   i64.extend32_s       I>I    // signed(a, 32)                           // (u64)(u32){0}
FC0A memory.copy          III>   // -                                       // copy({1:all}, {0:all}, {2:all});
FC0B memory.fill          IiI>   // -                                       // fill({0:all}, {1:all}, 1);
"""

OPERANDS = (0, 1, 2, 7, 0x20, 0x3F, 0x80, 0xFFFF, 0x8000, 0x12345678, 0x7FFFFFFF, 0x80000000, 0x80000001, 0xFFFFFFFF)
WIDE = (0x100000000, 0x123456789ABCDEF0, 0x7FFFFFFFFFFFFFFF, 0x8000000000000000, 0xFFFFFFFF00000003, 0xFFFFFFFFFFFFFFFF)
WIDTHS = {"i": 32, "I": 64}
# Bytes of which each number that is loaded from byte 3 on has a sign, and none is the end of another.
MEMORY = bytes((1, 2, 3, 0xF4, 0xE5, 0xD6, 0xC7, 0xB8, 0xA9, 0x9A, 0x8B, 12, 13, 14, 15, 16)) * 2


def signed(number, bits):
    number &= (1 << bits) - 1
    return number - (1 << bits) if number >> (bits - 1) else number


def meant(text, width, a=0, b=0, at=3):
    """What an instruction gives by this row, as a number without a sign, of operands of so many bits, or of memory from that
    byte on. None is a trap."""
    mask = (1 << width) - 1

    def quotient(first, other):
        if other == 0 or (first == -(1 << (width - 1)) and other == -1):
            return None
        found = abs(first) // abs(other)
        return found if (first < 0) == (other < 0) else -found

    def rest(first, other):
        return None if other == 0 else abs(first) % abs(other) * (-1 if first < 0 else 1)

    words = {
        "a": a, "b": b, "w": width, "S": lambda it: signed(it, width), "signed": signed, "quotient": quotient, "rest": rest,
        "low": lambda it: (it & -it).bit_length() - 1 if it else width,
        "turned": lambda it, by: (it << by | it >> (width - by)) & mask,
        "L": lambda count: int.from_bytes(MEMORY[at : at + count], "little"),
        "LS": lambda count: int.from_bytes(MEMORY[at : at + count], "little", signed=True),
    }
    found = eval(text, words)  # pylint: disable=eval-used
    return None if found is None else int(found) & 0xFFFFFFFFFFFFFFFF


def rows():
    """Each row: the number, the name, what it takes and gives, the meaning, and the wrong C."""
    for line in ROWS.strip().splitlines():
        head, meaning, wrong = (it.strip() for it in line.split("// "))
        number, name, kinds = head.split()
        takes, gives = kinds.split(">")
        yield int(number, 16), name, takes, gives, meaning, wrong
