#!/usr/bin/env python3
"""Sees that each crate names, in its code, specs or proofs, every library of its line in crates.txt.

Prints each library that a crate does not name, and then ends with status 1. The toolchain itself refuses a crate that
names a library which its line lacks.
"""
import re
import sys
from pathlib import Path

TOP = Path(__file__).resolve().parent.parent
COMMENTS = {".rt": r"//.*", ".antt": r"(?m)^\s*--.*"}


def sources(crate):
    """Returns the text of the crate's files, without comments."""
    files = [it for part in ("src", "specs", "proofs") for it in (TOP / "crates" / crate / part).rglob("*")]
    return "\n".join(re.sub(COMMENTS[it.suffix], "", it.read_text()) for it in files if it.suffix in COMMENTS)


unnamed = []
for line in (TOP / "crates.txt").read_text().splitlines():
    crate, _, libraries = line.partition("#")[0].partition(":")
    if crate.strip():
        text = sources(crate.split()[0])
        is_named = [re.search(rf"\bRattle\.{it}\.|(?<![\w:.]){it}::", text) for it in libraries.split()]
        unnamed += [f"{crate}: {it}" for it, found in zip(libraries.split(), is_named) if not found]
if unnamed:
    sys.exit("\n".join(["libraries in crates.txt that the crate does not name:", *unnamed]))
