"""Writes the whole of mscp.c."""

import pathlib
import re

from .calls import Header
from .program import Program
from .wasm import Module, Refusal

MOST = 120 # characters of a line
HERE = pathlib.Path(__file__).parent
DEFINED = re.compile(r"^static inline \w+ (\w+)\(", re.M)


def helpers(text):
    """The paragraphs of helpers.h that define what this text calls, and what those call."""
    taken = []
    for paragraph in reversed((HERE / "helpers.h").read_text().strip().split("\n\n")[1:]):
        name = DEFINED.search(paragraph).group(1)
        if re.search(rf"\b{name}\(", text):
            taken.insert(0, paragraph)
            text += paragraph
    return "\n".join(taken) + "\n\n"


def broken(line):
    """A line of C, or as many as its length wants."""
    lines = []
    while len(line) > MOST and not line.startswith("#"):
        at = line.rindex(" ", 8, MOST)
        lines.append(line[:at])
        line = "        " + line[at + 1 :]
    return "\n".join(lines + [line])


def whole(text):
    """A file of C that has these functions, and before them what they want."""
    return (HERE / "head.c").read_text() + helpers(text) + "\n".join(broken(line) for line in text.split("\n"))


def library(header, one, other, sources=None):
    """mscp.c, of the header's text, of the bytes of both modules, and of the folder of the crates that they were made of."""
    program, calls = Program(Module(one), Module(other), sources), Header(header)
    differing = {"w_" + name for name in calls.calls} ^ {name for name in program.names.values() if name.startswith("w_")}
    if differing:
        raise Refusal(f"header and module differ in {', '.join(sorted(differing))}")
    return whole(f"/* ---- the code */\n\n{program.text()}\n/* ---- the calls of mscp.h over it */\n\n{calls.text()}")
