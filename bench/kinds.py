#!/usr/bin/env python3
"""Says of each line of mscp.c that no test ran of what kind it is, by what stands before it: bench/unrun has it read the file that
gcov wrote.

    kinds.py GCOV [LINES]

Prints how many lines there are of each kind, and of each function how many have none. With a name of a file, that gets the lines
of the latter, each with its number."""

import collections
import re
import sys

KINDS = {
    "layout": "fields of structs that lie otherwise on other machines",
    "inside": "a call that is made inside another one, and what never comes",
    "overlap": "a copy whose bytes lie behind where it begins to write them",
    "long": "lists longer than any is",
    "room": "no room for the bytes that are saved",
    "clock": "a controller that was not idle for 2^40 blocks",
    "wide": "numbers of over 64 bits in a report",
    "order": "what a command asks for, where commands of that kind never are",
    "found": "a search that finds nothing, of what is there",
    "again": "what was asked before, answered otherwise",
    "begun": "a block that a script's controller has begun and not ended",
    "fresh": "what a controller had before it is restored, which is new",
}
FUNCTION = re.compile(r"^(static|APART|u?int[0-9]+_t|size_t) .*\(.*[^;]$")
LABEL = re.compile(r"^(L[0-9]+):;?$")
LEAVES = re.compile(r"^(goto|return|TRAP)")
# The kind of what comes behind a test that always goes elsewhere.
GUARDS = (
    ("overlap", re.compile(r"- (A\(data \+ [0-9]+\)\) > [0-9]+ull|v[0-9]+\) (>=|<) v[0-9]+)\) goto")),
    ("clock", re.compile(r"< 1099511627776ull\) goto")),
    ("long", re.compile(r"< (129|171|257|2049)ull\) goto")),
    ("room", re.compile(r"^if \(\(v[0-9]+ \+ 0xFFFFFFFFFFFF[0-9A-F]+ull\) >= [0-9]ull\) goto")),
    ("order", re.compile(r"^((case [0-9]+: )+goto L[0-9]+;|default: goto L[0-9]+;|switch .*)$")),
)
# The same in these functions alone, and where that is said behind one of so many lines that it matches.
ONLY = tuple(
    (kind, re.compile(f"^({names})$"), re.compile(guard), re.compile(before), lines)
    for kind, names, guard, before, lines in (
        # No unit of a port, of which each has one.
        ("found", "Port_part|Port_finish", r"\(v\d+ == 0\) == 0\) goto", r"= l8_8\(v\d+ \+ 808ull\)", 1),
        ("found", "Port_finish", r"^if \(v\d+\) goto", r"^L\d+:;$", 1),
        # No unit of the end of a command that was served, which is no SET CONTROLLER CHARACTERISTICS either.
        ("found", "Port_finish", r"^if \(v\d+ == 0\) goto", r"^v\d+ = v\d+ \+ 0xFFFFFFFFFFFFFFFFull;$", 1),
        # Bytes one of which was seen to be a line feed.
        ("found", "Lines_cut", r"^if \(v\d+ != 0ull\) goto", r"<< 48\);$", 1),
        ("found", "Lines_cut", r"== 10u\) goto", r"^v\d+ = v\d+ \+ v\d+;$", 1),
        # No drive, of which there is at least that of the command that leaves.
        ("found", "Controller_finish|Run_steps|export_mscp_step", r"^if \(\(u32\)\(v\d+ == 0\) == 0\) goto", r"^s1\(.*, 0u\);$", 1),
        # The cheapest of some costs, and the nearest of some commands.
        # What was begun, which waits.
        ("found", "Queue_restore", r"<= 63ull\) goto", r"= ctz64\(", 1),
        ("found", "SweepPicker_pick", r"== 0\) goto", r">> 56\)", 3),
        ("found", "start_best_place", r"^if \((v\d+ < v\d+|v\d+ != 512ull|\(u32\)\(v\d+ == 0\) == 0)\) goto", "", 0),
        # How long a word is whose form is looked for by its length, and whose letters were compared one by one.
        ("again", "events_read_request", r"^if \((v\d+ (> 3|<= [47]|!= 13)ull|t\d+|v\d+ == 0)\) goto", "", 0),
        # How long a message is: 12 to 64 bytes.
        ("again", "Port_see_text", r"^if \(v\d+ (<= (58|64)|>= (4|9|12))ull\) goto", "", 0),
        ("again", "export_mscp_(write_command|show_packet_at)", r"^if \(l1\(v\d+ \+ \d+\) == 0\) goto", r"^reading_read_command\(", 1),
        # Whether a place in a list is behind another one.
        ("again", "Port_(finish|see_text)", r"^if \(v\d+ >= v\d+\) goto", r"^if \(v\d+ < v\d+\) goto", 1),
        # The size of a text that is restored; the digits and the units of a script; the head of a saved account.
        ("again", "codes_task_in", r"\(v\d+ \+ 0xFFFFFFF4u\) <= 52u\) goto", "", 0),
        ("again", "Run_send_packet", r"^if \(l1\(v\d+ \+ \d+\)\) goto", r"^decoding_decode\(", 1),
        ("again", "export_mscp_run_script_at", r"^if \(l1\(v\d+ \+ \d+\)\) goto", r"^Units_new\(", 1),
        ("again", "export_mscp_driver_restore_at", r"^if \(l1\(v\d+ \+ \d+\) != \(v\d+ & 255u\)\) goto", "", 0),
        # Whether a poll is in flight, where its end was heard; which picker it is that is shown all; which command is answered.
        ("again", "Host_hear", r"^if \(l1\(v\d+ \+ \d+ull\) != 1u\) goto", r"^L\d+:;$", 1),
        ("again", "start_picked_place", r"^if \(l1\(v\d+\)\) goto", r"^copy\(", 1),
        ("again", "Controller_(send|arrive)", r"^if \((v\d+|\(v\d+ & 255u\)) == 0\) goto", r"^s4_4\(v\d+ \+ \d+, l4_4\(v\d+ \+ \d+\)\);$", 1),
        # A script's units, each of which was judged as it was read.
        ("again", "Units_new", r"^if \((l2_2\(v\d+\) <= l2_2\(v\d+\)|\(u32\)\(v\d+ == 0\) == 0|v\d+ > 16ull)\) goto", "", 0),
        # Which stage of a port it is that has a word.
        ("again", "export_mscp_port_(save_at|state)", r"^case 1: case 9: goto", "", 0),
        # An ONLINE that was answered at once, and so was refused.
        ("order", "Port_see_text", r"\| 256u\) != 256u\) goto", "", 0),
        # How many units bytes have that were judged before.
        ("again", "restoring_saved_settings", r"^if \(\(u32\)\(v\d+ == 0\) == 0\) goto", r"^v\d+ = l8_8\(", 1),
        ("fresh", "Queue_restore", r"^if \(v\d+\) goto", r"^v\d+ = v\d+ == 0;$", 1),
        ("fresh", "Accounts_restore", r"^if \(v\d+ == 0\) goto", r"^v\d+ = l8_8\(v0 \+ \d+ull\);$", 1),
        ("begun", "Run_steps|Controller_arrive", r"^if \(l1\(v\d+\) != 1u\) goto", "", 0),
        ("room", "Host_save", r"^if \(v\d+ >= 4ull\) goto", r"^v\d+ = v\d+ \+ 0xFFFFFFFFFFFFF[0-9A-F]{3}ull;$", 16),
    )
)
# What a loop looks for in these functions, which is there.
SOUGHT = tuple(
    (re.compile(f"^({names})$"), re.compile(what))
    for names, what in (
        # A unit that the controller has.
        ("Controller_(send|arrive)|Queue_restore|Port_(part|finish|see_text)|port_turning_tell_next|export_mscp_port_volume_came",
         r"^if \(l2_2\(v\d+( \+ v\d+)?\) [!=]= \(v\d+ & 65535u\)\) goto"),
        # A command that is outstanding, and one that waits.
        ("Host_hear|export_mscp_driver_hear_at", r"^if \(l4_4\(v\d+( \+ 0x[0-9A-F]+ull)?\) [!=]= v\d+\) goto"),
        # A word of a line that has one.
        ("export_mscp_run_script_at|header_(add_unit|read_setting)", r" == 32u\) goto"),
    )
)
# How far what is copied lies from where it goes, or whether that is enough.
APART = re.compile(r"^(v\d+) = (v\d+ - A\(data \+ \d+\)|\(v\d+ \+ \d+ull\) - \(v\d+ \+ \d+ull\));$")
ENOUGH = re.compile(r"^(v\d+) = (v\d+) > \d+ull;$")


class Line:
    """A line of the file: whether it ran, where it has code."""

    def __init__(self, count, number, text):
        self.is_code, self.is_unrun = count != "-", count.startswith("#")
        self.number, self.text, self.kind = number, text.strip(), None

    def leaves(self):
        return LEAVES.match(self.text) is not None


def functions(path):
    """The lines of each function."""
    name, found = None, collections.OrderedDict()
    with open(path, encoding="utf-8") as file:
        for text in file:
            count, number, text = text.rstrip("\n").split(":", 2)
            if FUNCTION.match(text):
                name = re.sub(r".*[ *]", "", text.split("(")[0])
            if int(number) > 0 and name is not None:
                found.setdefault(name, []).append(Line(count.strip(), int(number), text))
    return found


def pieces(lines):
    """The places of lines that no test ran, in pieces that are come to in one way, each with the places that lead to it."""
    sites = collections.defaultdict(list)
    for at, line in enumerate(lines):
        for label in re.findall(r"goto (L[0-9]+)", line.text):
            sites[label].append(at)
    code = [at for at, line in enumerate(lines) if line.is_code]
    found, before = [], None
    for at in code:
        label = LABEL.match(lines[at].text) or (at > 0 and LABEL.match(lines[at - 1].text))
        if lines[at].is_unrun:
            begins = not found or before is None or not lines[before].is_unrun or (label and lines[before].leaves())
            if begins:
                guards = [] if before is None or lines[before].leaves() else [before]
                found.append(([], guards + (sites[label.group(1)] if label else [])))
            found[-1][0].append(at)
        before = at
    return found


def said_before(lines, at, what, count):
    """Whether one of so many lines before this one says that; with none nothing needs to."""
    return count == 0 or any(what.search(lines[it].text) for it in range(max(0, at - count), at))


def only_here(name, lines, guards):
    for kind, names, guard, before, count in ONLY:
        if names.match(name) and any(guard.search(lines[at].text) and said_before(lines, at, before, count) for at in guards):
            return kind
    return None


def loop_at(lines, at):
    """The loop that ends where this line doesn't jump: to its front, or on in it."""
    label = re.search(r"goto (L[0-9]+);$", lines[at].text)
    to = [it for it, line in enumerate(lines) if label and line.text == f"{label.group(1)}:;"]
    if not to:
        return []
    if to[0] <= at:
        return lines[to[0] : at + 1]
    fronts = {line.text[:-2] for line in lines[max(0, at - 4) : at] if LABEL.match(line.text)}
    ends = [it for it in range(to[0], min(len(lines), to[0] + 8)) if any(lines[it].text.endswith(f"goto {front};") for front in fronts)]
    return lines[to[0] : ends[0] + 1] if ends else []


def is_found(name, lines, guards):
    """Whether a loop that looks for what is there has ended where one of these is."""
    wanted = [what for names, what in SOUGHT if names.match(name)]
    return any(what.search(line.text) for at in guards for line in loop_at(lines, at) for what in wanted)


def is_overlap(lines, guards):
    """Whether one of these asks how far two addresses are apart."""
    apart = set()
    for line in lines:
        if found := APART.match(line.text) or ENOUGH.match(line.text):
            if found.re is APART or found.group(2) in apart:
                apart.add(found.group(1))
    asked = (re.match(r"^if \((v\d+)( > \d+ull)?\) goto", lines[at].text) for at in guards)
    return any(found is not None and found.group(1) in apart for found in asked)


def kind_of(name, lines, piece, guards):
    texts = [lines[at].text for at in piece]
    if name.startswith(("give_", "take_")):
        return "layout"
    if name.startswith("w_") or name == "rattle_trap" or all(LABEL.match(it) or "TRAP();" in it for it in texts):
        return "inside"
    if name == "clz64" or name.endswith("ti3") or any("ti3(" in it for it in texts):
        return "wide"
    kind = only_here(name, lines, guards)
    if kind is not None or is_found(name, lines, guards):
        return kind or "found"
    if is_overlap(lines, guards):
        return "overlap"
    for kind, guard in GUARDS:
        if any(guard.search(lines[at].text) for at in guards):
            return kind
    return None


def judge(name, lines):
    """A piece that is come to only from pieces of one kind is of that kind."""
    found = pieces(lines)
    for piece, guards in found:
        kind = kind_of(name, lines, piece, guards)
        for at in piece:
            lines[at].kind = kind
    for _ in range(5):
        for piece, guards in found:
            kinds = {lines[at].kind for at in guards if lines[at].is_unrun}
            if lines[piece[0]].kind is None and all(lines[at].is_unrun for at in guards) and len(kinds) == 1:
                for at in piece:
                    lines[at].kind = next(iter(kinds))


def main(path, to=None):
    of_kind, left, total = collections.Counter(), collections.Counter(), 0
    rest = []
    for name, lines in functions(path).items():
        judge(name, lines)
        total += sum(line.is_code for line in lines)
        for line in lines:
            if line.is_unrun:
                of_kind[line.kind] += 1
            if line.is_unrun and line.kind is None:
                left[name] += 1
                rest.append(f"{line.number}:{line.text}\n")
    for kind, text in KINDS.items():
        print(f"{of_kind[kind]:5} {kind}: {text}")
    print(f"{of_kind[None]:5} others, {100 * of_kind[None] / total:.1f}% of {total}")
    for name, count in left.most_common():
        print(f"{count:5} {name}")
    if to is not None:
        with open(to, "w", encoding="utf-8") as file:
            file.writelines(rest)


main(*sys.argv[1:])
