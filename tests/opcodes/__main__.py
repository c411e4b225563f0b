"""Writes C that tries each instruction as it is translated; or, with the word refusals, what is said of modules that can't be,
and how functions are named.

usage: python3 -m opcodes [refusals]"""

import sys

from . import naming, refusing
from .suites import write

if sys.argv[1:] == ["refusals"]:
    print("\n".join([*refusing.lines(), *naming.lines()]))
else:
    sys.stdout.write(write())
