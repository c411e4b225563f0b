#!/usr/bin/env python3
"""Writes a VAX's program that copies blocks of one disk to another: copy.py FILE BLOCKS [PAGES]

It lies in physical memory from 10000 hexadecimal on, where it begins. It maps the first pages of the Q-bus, 1024 or as many as
PAGES says, to the same pages of memory, initialises the first RQDX3, brings its units 0 and 1 online, and copies eight blocks at a time, with
rings of one slot, which it looks at again and again. It halts with 12345 hexadecimal in R0 if all ended with Success,
else with the status that it got, or with FFFF after a fatal error of the port. R9 counts the blocks."""
import struct
import sys

START, RINGS, RESPONSE, COMMAND, DATA = 0x10000, 0x12008, 0x12104, 0x12204, 0x14000
MAP, IP, SA = 0x20088000, 0x20001468, 0x2000146A
AT_ONCE = 8
OPCODES = {'bisl3': 0xC9, 'movl': 0xD0, 'movw': 0xB0, 'clrl': 0xD4, 'movzwl': 0x3C, 'tstl': 0xD5, 'tstw': 0xB5,
           'bitw': 0xB3, 'addl2': 0xC0, 'cmpl': 0xD1, 'aoblss': 0xF2, 'bsbw': 0x30, 'rsb': 0x05, 'halt': 0x00,
           'beql': 0x13, 'bneq': 0x12, 'blss': 0x19}
SIZES = {'movw': 2, 'tstw': 2, 'bitw': 2, 'movzwl': 2}
BRANCHES = {'bsbw': 2, 'beql': 1, 'bneq': 1, 'blss': 1}


def operand(it, size):
    """A register as 'r0', memory behind one as '(r0)' or '(r0)+', memory at an address as [address], or a number."""
    if isinstance(it, list):
        return b'\x9F' + struct.pack('<I', it[0])
    if isinstance(it, int):
        return b'\x8F' + (it & (1 << 8 * size) - 1).to_bytes(size, 'little')
    mode = 0x80 if it.endswith('+') else 0x60 if it[0] == '(' else 0x50
    return bytes([mode | int(it.strip('(+)r'))])


def program(blocks, pages):
    """Each line is a label, or an instruction with its operands."""
    lines = [
        ('movl', START, 'r14'), ('clrl', 'r0'), ('movl', MAP, 'r1'),
        'map', ('bisl3', 0x80000000, 'r0', '(r1)+'), ('aoblss', pages, 'r0', 'map'),
        ('movw', 0, [IP])]
    for bit, word in ((0x800, 0x8000), (0x1000, RINGS & 0xFFFF), (0x2000, RINGS >> 16), (0x4000, 1)):
        lines += [f'step{bit}', ('bitw', bit, [SA]), ('beql', f'step{bit}'), ('movw', word, [SA])]
    lines += [
        ('clrl', 'r8'), ('bsbw', 'online'), ('movl', 1, 'r8'), ('bsbw', 'online'), ('clrl', 'r9'),
        'next', ('clrl', 'r8'), ('movl', 0x21, 'r7'), ('bsbw', 'transfer'),
        ('movl', 1, 'r8'), ('movl', 0x22, 'r7'), ('bsbw', 'transfer'),
        ('addl2', AT_ONCE, 'r9'), ('cmpl', 'r9', blocks), ('blss', 'next'),
        ('movl', 0x12345, 'r0'), ('halt',),
        'online', ('movl', 9, 'r7'),
        'transfer', ('movl', 'r8', [COMMAND + 4]), ('movl', 'r7', [COMMAND + 8]), ('addl2', 1, [COMMAND]),
        ('movl', AT_ONCE * 512, [COMMAND + 12]), ('movl', DATA, [COMMAND + 16]), ('movl', 'r9', [COMMAND + 28]),
        ('movl', 48, [COMMAND - 4]), ('movl', 60, [RESPONSE - 4]),
        ('movl', 0x80000000 | RESPONSE, [RINGS]), ('movl', 0x80000000 | COMMAND, [RINGS + 4]), ('tstw', [IP]),
        'look', ('tstw', [SA]), ('blss', 'dead'), ('tstl', [RINGS]), ('blss', 'look'),
        ('movzwl', [RESPONSE + 10], 'r0'), ('bneq', 'fails'), ('rsb',),
        'dead', ('movl', 0xFFFF, 'r0'),
        'fails', ('halt',)]
    return lines


def assemble(lines):
    """In two passes: the first finds where the labels are."""
    places = {}
    for _ in range(2):
        code = bytearray()
        for line in lines:
            if isinstance(line, str):
                places[line] = len(code)
                continue
            name, *operands = line
            code.append(OPCODES[name])
            reach = BRANCHES.get(name) or (1 if name == 'aoblss' else 0)
            for it in operands[:-1] if reach else operands:
                code += operand(it, SIZES.get(name, 4))
            if reach:
                distance = places.get(operands[-1], len(code) + reach) - len(code) - reach
                code += distance.to_bytes(reach, 'little', signed=True)
    return code


def main(target, blocks, pages=1024):
    with open(target, 'wb') as out:
        out.write(assemble(program(int(blocks), int(pages))))


if __name__ == '__main__':
    main(*sys.argv[1:])
