"""Lists of scenarios: how a file is read, and whether a path is as long as one says. docs/reference/formats.md, "Scenarios"."""

from __future__ import annotations

import math
import re
from dataclasses import dataclass
from typing import List, Optional

from path_server import Cell, Path

from .grids import lines_of

NANO = 10**9
"""Units of a length in a cell's side."""
TOLERANCE = NANO // 100
"""By how much a length may differ from the stated one, in units of 10⁻⁹."""
MAX_FILE = 16_777_216
"""Bytes of the longest file of scenarios."""
FIELDS = 9
_GREATEST = (2**32 - 1, None, 2**32 - 1, 2**32 - 1, 65_535, 65_535, 65_535, 65_535)


class ProblemFault(Exception):
    """A file is no list of scenarios, and where."""


@dataclass(frozen=True)
class Problem:
    """One scenario: its number in the file from 1, its bucket, the sides of its map, both ends, and the length that it
    states, as written and in units of 10⁻⁹ with the rest cut off."""

    number: int
    bucket: int
    width: int
    height: int
    start: Cell
    goal: Cell
    stated: str
    nano: int


def read_problems(name: str) -> List[Problem]:
    """The scenarios of a file.

    OSError: it is not read. ProblemFault: it is no list of scenarios.
    """
    with open(name, "rb") as file:
        data = file.read(MAX_FILE + 1)
    if len(data) > MAX_FILE:
        raise ProblemFault("%s: more than %d bytes" % (name, MAX_FILE))
    lines = lines_of(data)
    if not lines or lines[0].replace(b"\t", b" ").split() not in ([b"version", b"1"], [b"version", b"1.0"]):
        raise ProblemFault("%s:1: expected 'version 1'" % name)
    found: List[Problem] = []
    for number, line in enumerate(lines[1:], 2):
        if line.strip(b" \t"):
            found.append(_problem("%s:%d" % (name, number), len(found) + 1, line))
    return found


def _problem(where: str, number: int, line: bytes) -> Problem:
    line = line.rstrip(b" \t")
    fields = [piece.strip(b" ") for piece in line.split(b"\t")] if b"\t" in line else re.split(b" +", line)
    if len(fields) != FIELDS:
        raise ProblemFault("%s: %d fields, and not %d" % (where, len(fields), FIELDS))
    values = []
    for place, (text, greatest) in enumerate(zip(fields, _GREATEST), 1):
        value = int(text) if greatest is not None and re.fullmatch(rb"[0-9]+", text) else None
        if greatest is not None and (value is None or value > greatest):
            raise ProblemFault("%s: field %d is no number from 0 to %d" % (where, place, greatest))
        values.append(value or 0)
    nano = nano_of(fields[-1])
    if nano is None:
        raise ProblemFault("%s: field %d is no length" % (where, FIELDS))
    start, goal = (values[4], values[5]), (values[6], values[7])
    return Problem(number, values[0], values[2], values[3], start, goal, fields[-1].decode(), nano)


def nano_of(text: bytes) -> Optional[int]:
    """A length in units of 10⁻⁹, the rest cut off; None where the text is none."""
    form = re.fullmatch(rb"([0-9]{1,7})(?:\.([0-9]+))?", text)
    return int(form[1]) * NANO + int((form[2] or b"0")[:9].ljust(9, b"0")) if form else None


def is_as_stated(path: Path, nano: int) -> bool:
    """Whether a path's exact length is within TOLERANCE of the stated one, both ends included."""
    roots = 2 * path.diagonal**2 * NANO**2
    whole = path.straight * NANO + math.isqrt(roots)
    is_whole = path.diagonal == 0  # else √2 has a fraction, and the exact length lies above
    return nano - TOLERANCE <= whole and (whole <= nano + TOLERANCE if is_whole else whole < nano + TOLERANCE)
