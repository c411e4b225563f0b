"""Writes mscp.c: the library as one file of C, from its modules of WebAssembly.

usage: python3 -m translator HEADER CRATES ONE.wasm OTHER.wasm >mscp.c

Both modules are of one library, linked so that its constants lie at two places, and CRATES is the folder of its sources. The
status is 1, and nothing is written, if the modules have what can't be told in C."""

import pathlib
import sys

from .library import library
from .wasm import Refusal


def main():
    if len(sys.argv) != 5:
        sys.exit("usage: python3 -m translator HEADER CRATES ONE.wasm OTHER.wasm >mscp.c")
    header, crates, *modules = map(pathlib.Path, sys.argv[1:])
    try:
        sys.stdout.write(library(header.read_text(encoding="utf-8"), *(it.read_bytes() for it in modules), crates))
    except Refusal as it:
        sys.exit(f"translator: {it}")


main()
