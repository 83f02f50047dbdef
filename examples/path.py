#!/usr/bin/env python3
"""A path in Python by ctypes: bakes the image of a map and prints what `./path_server path MAP SX SY GX GY` prints.

    examples/path.py LIBRARY MAP SX SY GX GY
    examples/path.py release/pathdb/libpathdb.so maps/tutorial.map 2 2 37 17
"""

from __future__ import annotations

import ctypes
import math
import sys
from ctypes import POINTER, byref, c_char_p, c_size_t, c_uint8, c_uint16, c_uint32
from typing import Any, List, Optional, Tuple

DONE, UNREACHABLE, TOO_SMALL = 0, 2, 7
TEXT_ROOM, LONGEST = 64, 32767
MOVES = ("N", "NE", "E", "SE", "S", "SW", "W", "NW")


class Cell(ctypes.Structure):
    _fields_ = [("x", c_uint16), ("y", c_uint16)]


class Cost(ctypes.Structure):
    _fields_ = [("straight", c_uint32), ("diagonal", c_uint32)]


class Baked(ctypes.Structure):
    _fields_ = [(name, c_uint32) for name in ("words", "line", "x", "y", "byte", "expected", "found")]


class PathFailed(Exception):
    """A status that is no answer, in words."""


class Pathdb:
    """The library; each method raises `PathFailed` where a call ends with a fault."""

    def __init__(self, name: str) -> None:
        self.calls = calls = ctypes.CDLL(name)
        self.moves = (c_uint8 * LONGEST)()  # where each path is written: no memory is taken for one
        words: List[Any] = [POINTER(c_uint32), c_size_t]
        calls.pathdb_check.argtypes = words + [POINTER(c_uint32)]
        calls.pathdb_path_cost.argtypes = words + [Cell, Cell, POINTER(Cost)]
        calls.pathdb_path.argtypes = words + [Cell, Cell, POINTER(c_uint8), c_size_t, POINTER(c_uint32)]
        calls.pathdb_status_text.argtypes = [c_uint32, c_char_p, c_size_t]
        calls.pathdb_status_text.restype = c_size_t
        calls.pathdb_bake_text.argtypes = [c_char_p, c_size_t, c_uint32] + words + [POINTER(Baked)]
        for name in ("check", "path_cost", "path", "bake_text"):
            getattr(calls, "pathdb_" + name).restype = c_uint32

    def bake(self, text: bytes, order: int = 0) -> ctypes.Array[c_uint32]:
        """The words of the image of a map that is given as bytes."""
        room, baked = 1 << 12, Baked()
        while True:
            words = (c_uint32 * room)()
            status = self.calls.pathdb_bake_text(text, len(text), order, words, room, byref(baked))
            if status == DONE:
                image: ctypes.Array[c_uint32] = (c_uint32 * baked.words).from_buffer(words)
                return image
            if status != TOO_SMALL:
                raise PathFailed(self.text(status))
            room = baked.words

    def check(self, words: ctypes.Array[c_uint32]) -> None:
        """Raises where the words are no image."""
        part = c_uint32()
        status = self.calls.pathdb_check(words, len(words), byref(part))
        if status != DONE:
            raise PathFailed(f"{self.text(status)} ({part.value})")

    def path(
        self, words: ctypes.Array[c_uint32], start: Tuple[int, int], goal: Tuple[int, int]
    ) -> Optional[Tuple[Cost, bytes]]:
        """The cost and the moves of a shortest path; None where no path exists."""
        cost, count, ends = Cost(), c_uint32(), (Cell(*start), Cell(*goal))
        status = self.calls.pathdb_path_cost(words, len(words), *ends, byref(cost))
        if status == DONE:
            status = self.calls.pathdb_path(words, len(words), *ends, self.moves, LONGEST, byref(count))
        if status == UNREACHABLE:
            return None
        if status != DONE:
            raise PathFailed(self.text(status))
        return cost, ctypes.string_at(self.moves, count.value)

    def text(self, status: int) -> str:
        """What a status means."""
        room = ctypes.create_string_buffer(TEXT_ROOM)
        self.calls.pathdb_status_text(status, room, TEXT_ROOM)
        return room.value.decode("ascii")


def main(words: List[str]) -> int:
    if len(words) != 6:
        print(__doc__, file=sys.stderr)
        return 1
    library = Pathdb(words[0])
    with open(words[1], "rb") as file:
        image = library.bake(file.read())
    library.check(image)
    sx, sy, gx, gy = (int(word) for word in words[2:])
    found = library.path(image, (sx, sy), (gx, gy))
    if found is None:
        print("unreachable")
        return 0
    cost, moves = found
    micro = cost.straight * 10**6 + math.isqrt(2 * cost.diagonal**2 * 10**12)
    print(f"cost {cost.straight} {cost.diagonal}")
    print(f"length {micro // 10**6}.{micro % 10**6:06}")
    print(" ".join(["moves"] + [MOVES[move] for move in moves]))
    return 0


if __name__ == "__main__":
    try:
        sys.exit(main(sys.argv[1:]))
    except (PathFailed, OSError) as error:
        sys.exit(f"path.py: {error}")
