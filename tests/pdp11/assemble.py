#!/usr/bin/env python3
"""A small assembler for the PDP-11: reads a program in the usual notation, and writes its words as a file of bytes.

    assemble.py SOURCE FILE [NAME=NUMBER..]

A line has labels with colons, an instruction or `.word` with its operands, and a comment behind a semicolon. A label that is
a number with a dollar counts up to the next one that isn't. `NAME = number` names a number, and `. = number` sets the place.
Numbers are octal, or decimal with a point behind. A NAME=NUMBER of the command line goes before that of the source. FILE is
filled up with zeros to whole blocks of 512 bytes."""
import re
import sys

TWO = {'mov': 0o10000, 'cmp': 0o20000, 'bit': 0o30000, 'bic': 0o40000, 'bis': 0o50000, 'add': 0o60000, 'sub': 0o160000}
ONE = {'clr': 0o5000, 'com': 0o5100, 'inc': 0o5200, 'dec': 0o5300, 'neg': 0o5400, 'tst': 0o5700, 'ror': 0o6000,
       'rol': 0o6100, 'asr': 0o6200, 'asl': 0o6300, 'swab': 0o300, 'jmp': 0o100}
BRANCH = {'br': 0o400, 'bne': 0o1000, 'beq': 0o1400, 'bge': 0o2000, 'blt': 0o2400, 'bgt': 0o3000, 'ble': 0o3400,
          'bpl': 0o100000, 'bmi': 0o100400, 'bhi': 0o101000, 'blos': 0o101400, 'bhis': 0o103000, 'bcc': 0o103000,
          'blo': 0o103400, 'bcs': 0o103400}
NONE = {'halt': 0, 'wait': 1, 'rti': 2, 'reset': 5, 'nop': 0o240}
REGISTER = {**{f'r{i}': i for i in range(8)}, 'sp': 6, 'pc': 7}
MODES = [(r'(\w+)', 0), (r'\((\w+)\)', 0o10), (r'\((\w+)\)\+', 0o20), (r'@\((\w+)\)\+', 0o30), (r'-\((\w+)\)', 0o40),
         (r'@-\((\w+)\)', 0o50)]


class Assembly:
    def __init__(self, names):
        self.names, self.given, self.place, self.words = dict(names), set(names), 0, {}

    def value(self, text):
        """A sum or difference of names and numbers. In the first pass names that come later are 0."""
        total = 0
        for sign, term in re.findall(r'([+-]?)\s*([\w.$]+)', text):
            number = int(term[:-1]) if re.fullmatch(r'\d+\.', term) else int(term, 8) if term.isdigit() else \
                self.place if term == '.' else self.named(self.scope + term if term.endswith('$') else term)
            total += -number if sign == '-' else number
        return total & 0o177777

    def named(self, name):
        return self.names.get(name, 0) if self.first else self.names[name]

    def emit(self, word):
        self.words[self.place] = word & 0o177777
        self.place += 2

    def operand(self, text):
        """An operand's six bits, and the functions that tell the word behind the instruction, if there is one."""
        for pattern, mode in MODES:
            found = re.fullmatch(pattern, text)
            if found and found[1] in REGISTER:
                return mode | REGISTER[found[1]], []
        found = re.fullmatch(r'(@?)(.+)\((\w+)\)', text)
        if found:
            return (0o70 if found[1] else 0o60) | REGISTER[found[3]], [lambda: self.value(found[2])]
        for start, mode in (('#', 0o27), ('@#', 0o37)):
            if text.startswith(start):
                return mode, [lambda: self.value(text[len(start):])]
        return 0o77 if text[0] == '@' else 0o67, [lambda: self.value(text) - self.place - 2]

    def branch(self, code, target, most, least):
        distance = (((self.value(target) - self.place - 2) & 0o177777) ^ 0o100000) - 0o100000 >> 1
        if not self.first and not least <= distance <= most:
            raise ValueError(f'{target} is too far')
        return code, distance

    def instruction(self, name, operands):
        byte = 0o100000 if name.endswith('b') and name[:-1] in {**TWO, **ONE} and name != 'sub' else 0
        plain = name[:-1] if byte else name
        fields, behind = [], []
        if name in BRANCH:
            code, distance = self.branch(BRANCH[name], operands[0], 127, -128)
            return self.emit(code | distance & 0o377)
        if name == 'sob':
            _, distance = self.branch(0, operands[1], 0, -63)
            return self.emit(0o77000 | REGISTER[operands[0]] << 6 | -distance & 0o77)
        if name == 'rts':
            return self.emit(0o200 | REGISTER[operands[0]])
        for text in operands:
            six, words = self.operand(text)
            fields.append(six)
            behind += words
        if plain in NONE:
            self.emit(NONE[plain])
        elif name == 'jsr':
            self.emit(0o4000 | fields[0] << 6 | fields[1])
        elif name == 'mul':
            self.emit(0o70000 | fields[1] << 6 | fields[0])
        elif plain in TWO:
            self.emit(byte | TWO[plain] | fields[0] << 6 | fields[1])
        else:
            self.emit(byte | ONE[plain] | fields[0])
        for word in behind:
            self.emit(word())

    def line(self, text):
        text = text.split(';')[0].strip()
        while found := re.match(r'(\w+)(\$?):\s*', text):
            if not found[2]:
                self.scope = found[1]
            self.names[self.scope + found[1] + '$' if found[2] else found[1]] = self.place
            text = text[found.end():]
        if found := re.fullmatch(r'(\w+|\.)\s*=\s*(.+)', text):
            if found[1] == '.':
                self.place = self.value(found[2])
            elif found[1] not in self.given:
                self.names[found[1]] = self.value(found[2])
        elif text:
            name, _, rest = text.partition(' ')
            operands = [it.strip() for it in rest.split(',')] if rest.strip() else []
            if name == '.word':
                for it in operands:
                    self.emit(self.value(it))
            else:
                self.instruction(name.lower(), operands)

    def assemble(self, lines):
        for self.first in (True, False):
            self.place, self.words, self.scope = 0, {}, ''
            for number, text in enumerate(lines, 1):
                try:
                    self.line(text)
                except (KeyError, ValueError, IndexError) as why:
                    raise SystemExit(f'line {number}: {text.strip()}: {why}')


def main(source, target, *settings):
    given = {name: int(number, 8) for name, number in (it.split('=') for it in settings)}
    assembly = Assembly(given)
    with open(source, encoding='ascii') as lines:
        assembly.assemble(lines.read().splitlines())
    image = bytearray(-(-(max(assembly.words) + 2) // 512) * 512)
    for place, word in assembly.words.items():
        image[place:place + 2] = word.to_bytes(2, 'little')
    with open(target, 'wb') as out:
        out.write(image)


if __name__ == '__main__':
    main(*sys.argv[1:])
