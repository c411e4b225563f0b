#!/usr/bin/env python3
"""Writes a memory whose rings have the packets of a log of the wire, for tests/judge:

    tests/dump.py LOG BASE RESPONSES COMMANDS RESPONSE COMMAND >DUMP

The oldest packets are in the slots RESPONSE and COMMAND. A slot of responses is the port's again, as its host has read it."""

import sys

log, *numbers = sys.argv[1:]
base, responses, commands, response, command = (int(it, 0) for it in numbers)
words = [line.split() for line in open(log, encoding='ascii') if line.strip() and not line.startswith('#')]
memory = bytearray(1 << 16)
free = base + 4 * (responses + commands)


def fill(at, slots, oldest, word, owned):
    """Fills a ring with the last packets of a kind."""
    global free
    texts = [bytes.fromhex(it[-1]) for it in words if word in it][-slots:]
    for number in range(slots):
        slot = at + 4 * ((oldest + number) % slots)
        text = texts[number] if number < len(texts) else bytes(60)
        memory[slot : slot + 4] = (free + 4 | 1 << 30 | (owned or number >= len(texts)) << 31).to_bytes(4, 'little')
        memory[free : free + 4 + len(text)] = len(text).to_bytes(2, 'little') + b'\1\0' + text
        free += 68


fill(base, responses, response, 'end', True)
fill(base + 4 * responses, commands, command, 'send', False)
sys.stdout.buffer.write(memory)
