#!/usr/bin/env python3
"""Writes a disk that a VAX boots by its boot block: disk.py FILE

Block 0 names an image of 40 blocks from block 7 on, in whose last block the program begins: it puts 12345 hexadecimal
into R0, and halts."""
import struct
import sys

FIRST, BLOCKS, ENTRY, NAMES = 7, 40, 39 * 512, 16


def boot_block():
    """Where the image is, its upper word first, and what it is: 18 is a VAX, and each part ends with a sum."""
    block = bytearray(512)
    block[2:8] = struct.pack('<BBHH', NAMES // 2, 1, FIRST >> 16, FIRST & 0xFFFF)
    block[NAMES:NAMES + 8] = bytes([0x18, 0, 0, 0xFF - 0x18, 0, 1, 0, 0])
    block[NAMES + 8:NAMES + 24] = struct.pack('<4I', BLOCKS, 0, ENTRY, BLOCKS + ENTRY)
    return block


def main(target):
    image = bytearray(BLOCKS * 512)
    program = bytes([0xD0, 0x8F, 0x45, 0x23, 0x01, 0x00, 0x50, 0x00])  # movl #^x12345, r0; halt
    image[ENTRY:ENTRY + len(program)] = program
    with open(target, 'wb') as out:
        out.write(boot_block() + bytes((FIRST - 1) * 512) + image)


if __name__ == '__main__':
    main(*sys.argv[1:])
