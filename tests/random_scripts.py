#!/usr/bin/env python3
"""Writes random scripts, each as a file of a folder: FOLDER/0, FOLDER/1, .. and in FOLDER/packets a fourth as many messages, as
lines of hexadecimal digits.

    random_scripts.py FOLDER COUNT SEED

The same seed gives the same scripts. Most are good; some have a line that may not stand there, so that each cause of a fault
comes up, or numbers at the ends of their ranges."""

import pathlib
import random
import sys

# A message of each fault that `mscpq packet` tells: no digit, under 12 bytes, over 64, no opcode's end, an end cut short.
FAULTY = "0g", "00" * 11, "00" * 65, "00" * 8 + "ff000000", "00" * 8 + "a1000000"
TRANSFERS = "read", "write", "access", "erase", "compare"
LATER = "online", "available", "setunit", "unitstatus"
OPCODES = 0, 1, 2, 3, 4, 8, 9, 10, 16, 18, 32, 33, 34, 0x7F, 0xA1
WRONG = (
    "", "step", "step 0", "step 1001", "step 00000000001", "read 1 2 3", "read 1 0 0 4294967296", "status 00000000001 1",
    "take 1", "bad 0004", "bad 12", "bad 00G8", "second", "second step 1", "second look", "packet 0", "packet 0G", "packet " + "00" * 65,
    "look 1", "Step 1", "online 1 65536", "credits 5", "go", "unit 1 1 1 1 1", "abort -1 1", "# " + "x" * 199, "take\t",
    "take \x7f", "status 4294967296 1",
)


def misspelt(dice, text):
    """A text in which a letter of the first words is another one, or is left out, or a letter more is there."""
    at = dice.randrange(min(len(text), 14) + 1)
    return text[:at] + dice.choice("abcdeiklnoprstu 0") + text[at + dice.choice((0, 1, 1, 2)) :]


class Script:
    """One script, line by line."""

    def __init__(self, dice):
        self.dice, self.lines, self.units = dice, [], []
        self.numbers = dice.choice((2, 5, 12, 70, 1000)) # that references have
        self.is_wild = dice.random() < 0.2
        self.is_full = dice.random() < 0.2 # many wait: the host seldom takes and the disk seldom steps

    def add(self, *words):
        self.lines.append(" ".join(str(it) for it in words))

    def edge(self, usual, *edges):
        """What is usual, or in a wild script now and then one of the ends of a range."""
        return self.dice.choice(edges) if self.is_wild and self.dice.random() < 0.05 else usual

    def header(self):
        dice = self.dice
        first = dice.choice((40, 64)) if self.is_full else dice.choice((2, 3, 4, 6, 9, 20, 40, 64))
        second = dice.choice((None, 0, 2, 3, 8)) if first <= 40 else None
        longest = self.edge(dice.choice((1, 2, 8, 100)), 8388608, 8388609, 0)
        self.add("credits", self.edge(first, 1, 65, 4294967295), *([] if second is None else [second]))
        if dice.random() < 0.5:
            self.add("budget", self.edge(dice.choice((0, 1, 2, 5, 20, 1000)), 4294967295))
        else:
            self.add("passing", self.edge(dice.choice((0, 1, 3, 100)), 4294967295))
        self.add("longest", longest)
        self.add("timeout", self.edge(dice.randint(1, 255), 0, 256, 65535))
        number = 0
        for _ in range(self.edge(dice.choice((1, 1, 2, 3, 16)), 0, 17)):
            number = self.edge(number, 65535)
            size = self.edge(dice.choice((1, 8, 60, 1000, 100000)), 0, 4294967295)
            self.units.append((number, size))
            self.add("unit", number, *(self.edge(dice.choice((1, 2, 4, 17)), 0, 65535) for _ in range(3)), size)
            number += dice.choice((1, 1, 5))
        self.add("go")

    def unit(self):
        return self.dice.choice(self.units or [(0, 10)]) if self.dice.random() < 0.95 else (self.dice.choice((3, 65535)), 10)

    def reference(self):
        return self.edge(self.dice.randrange(self.numbers), 4294967295)

    def message(self):
        """A message as bytes: of an opcode or of none, of its length or of any."""
        dice, (unit, size) = self.dice, self.unit()
        words = [self.reference(), unit, dice.choice(OPCODES), dice.choice((0, 512, 600, 4096, self.reference())), 0, 0, 0,
                 dice.randrange(size + 1)]
        whole = b"".join((it & 0xFFFFFFFF).to_bytes(4, "little") for it in words)
        length = dice.choice((32, 32, 32, 36, 48, 64, 12, 11, 1, dice.randint(1, 64)))
        return (whole + bytes(dice.randrange(256) for _ in range(32)))[:length]

    def asked(self):
        """What a host sends or does."""
        dice, kind = self.dice, self.dice.random()
        unit, size = self.unit()
        if kind < 0.40:
            block = self.edge(dice.randrange(size + 1), 4294967295)
            count = self.edge(dice.choice((0, 1, 512, 513, 2048, 9000)), 4294967295)
            return dice.choice(TRANSFERS), self.reference(), unit, count, block
        if kind < 0.55:
            return dice.choice(LATER), self.reference(), unit
        if kind < 0.70:
            return dice.choice(("status", "status", "abort")), self.reference(), self.reference()
        if kind < 0.73:
            return "setcontroller", self.reference()
        if kind < 0.80 and not self.is_full:
            return "packet", self.message().hex()
        if self.is_full and kind < 0.95:
            return dice.choice(TRANSFERS), self.reference(), unit, 512, dice.randrange(size + 1)
        return ("take",)

    def event(self):
        kind = self.dice.random() if not self.is_full else self.dice.choice((0, 0.7, 0.7, self.dice.random()))
        if kind < 0.62:
            self.add(*self.asked())
        elif kind < 0.78:
            self.add("second", *self.asked())
        elif kind < 0.95:
            self.add("step", self.edge(self.dice.choice((1, 1, 1, 2, 7)), 100))
        elif kind < 0.98:
            self.add("bad", f"{self.dice.choice((5, 8, 11, 0x25, 0xFFFF)):04x}")
        else:
            self.add("look")

    def bring_online(self):
        for unit, _ in self.units:
            if self.dice.random() < 0.8:
                self.add("online", self.reference(), unit)
                self.add("step", 1)
                self.add("take")

    def text(self):
        self.header()
        self.bring_online()
        for _ in range(self.dice.choice((0, 3, 10, 30, 60)) if not self.is_full else 150):
            self.event()
        if self.dice.random() < 0.2:
            self.lines.insert(self.dice.randrange(len(self.lines) + 1), self.dice.choice(WRONG))
        if self.dice.random() < 0.03:
            del self.lines[self.dice.randrange(len(self.lines))]
        if self.dice.random() < 0.02:
            del self.lines[self.dice.randrange(5) :]
        if self.dice.random() < 0.1:
            place = self.dice.randrange(len(self.lines) or 1)
            self.lines[place:place + 1] = [misspelt(self.dice, it) for it in self.lines[place:place + 1]]
        if self.dice.random() < 0.3:
            self.lines = [self.dice.choice((it, "  " + it.replace(" ", "   "), it + "\r", it + "\n# x")) for it in self.lines]
        return "\n".join(self.lines) + self.dice.choice(("\n", "", "\n\n"))


def packet(dice):
    """The digits of a message or an end, whole or not."""
    script = Script(dice)
    code = dice.choice(OPCODES) | dice.choice((0, 0x80))
    message = bytearray(script.message() + bytes(dice.randrange(3) and 36))
    if len(message) > 12 and dice.random() < 0.9:
        message[8:12] = code, 0, dice.choice((0, 0, 2, 4, 0x08, 0x0B, 0x25)), dice.choice((0, 0, 0, 1, 0x1C))
    length = dice.choice((12, 16, 20, 32, 44, 48, 64, dice.randrange(70)))
    return misspelt(dice, message[:length].hex()) if dice.random() < 0.1 else message[:length].hex()


def main():
    folder, count, seed = pathlib.Path(sys.argv[1]), int(sys.argv[2]), int(sys.argv[3])
    dice = random.Random(seed)
    for number in range(count):
        (folder / str(number)).write_bytes(Script(dice).text().encode("latin-1"))
    packets = (FAULTY + tuple(packet(dice) for _ in range(count // 4)))[: count // 4]
    (folder / "packets").write_text("".join(it + "\n" for it in packets), encoding="ascii")


main()
