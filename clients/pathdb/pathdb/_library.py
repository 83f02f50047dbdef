"""The calls of libpathdb (include/pathdb.h), by ctypes. A call lets go of the interpreter's lock while it runs."""

from __future__ import annotations

import ctypes
import os
from ctypes import POINTER, c_char_p, c_size_t, c_uint8, c_uint16, c_uint32, c_uint64
from pathlib import Path as File
from typing import Any, List, Union

DONE, ARRIVED, UNREACHABLE, OUTSIDE_START, BLOCKED_START, OUTSIDE_GOAL, BLOCKED_GOAL, TOO_SMALL = range(8)
BAD_HEADER, BAD_SIZE, BAD_ROW, BAD_BYTE, MISSING_ROWS, EXTRA_LINE, TOO_MANY_CELLS = range(18, 25)
NO_MEMORY = 26
STALE, MORE, WRONG_BITS, FEW_WORDS = range(41, 45)

TEXT_ROOM = 64
LONGEST = 32767
NO_COST = 0xFFFFFFFF

Words = ctypes.Array[c_uint32]


class CellOfC(ctypes.Structure):
    """pathdb_cell"""

    _fields_ = [("x", c_uint16), ("y", c_uint16)]


class CostOfC(ctypes.Structure):
    """pathdb_cost"""

    _fields_ = [("straight", c_uint32), ("diagonal", c_uint32)]


class SearchOfC(ctypes.Structure):
    """pathdb_search"""

    _fields_ = [("start", CellOfC), ("goal", CellOfC), ("limit", c_uint32)]


class FactsOfC(ctypes.Structure):
    """pathdb_facts"""

    _fields_ = [(name, c_uint32) for name in ("width", "height", "cells", "components", "prefix")]


class BakedOfC(ctypes.Structure):
    """pathdb_baked"""

    _fields_ = [(name, c_uint32) for name in ("words", "line", "x", "y", "byte", "expected", "found")]


def _found() -> Union[str, File]:
    """The library to load: the one that PATHDB_LIBRARY names, the one in this package, or the system's."""
    named = os.environ.get("PATHDB_LIBRARY")
    if named:
        return named
    inside = File(__file__).with_name("libpathdb.so")
    return inside if inside.exists() else "libpathdb.so"


def _load() -> ctypes.CDLL:
    """The library, with the types of its calls."""
    calls = ctypes.CDLL(str(_found()))
    image: List[Any] = [POINTER(c_uint32), c_size_t]
    ends: List[Any] = [CellOfC, CellOfC]
    live: List[Any] = [*image, POINTER(c_uint32), c_size_t]
    moves: List[Any] = [POINTER(c_uint8), c_size_t, POINTER(c_uint32)]
    search: List[Any] = [*live, SearchOfC, POINTER(c_uint32), c_size_t, *moves]
    room: List[Any] = [c_uint32, POINTER(c_uint32), c_size_t, POINTER(BakedOfC)]
    for name, words in {
        "pathdb_check": [*image, POINTER(c_uint32)],
        "pathdb_next_move": [*image, *ends, POINTER(c_uint8)],
        "pathdb_path_cost": [*image, *ends, POINTER(CostOfC)],
        "pathdb_path": [*image, *ends, *moves],
        "pathdb_bake_text": [c_char_p, c_size_t, *room],
        "pathdb_bake_cells": [c_uint32, c_uint32, c_char_p, c_size_t, *room],
        "pathdb_next_move_live": [*live, *ends, POINTER(c_uint8)],
        "pathdb_path_live": [*live, *ends, *moves],
        "pathdb_search_live": search,
        "pathdb_search_on": search,
    }.items():
        if hasattr(calls, name):  # a library from before 0.22 has no live maps
            call = getattr(calls, name)
            call.argtypes, call.restype = words, c_uint32
    if hasattr(calls, "pathdb_costs"):
        lists: List[Any] = [CellOfC, POINTER(CellOfC), c_size_t, POINTER(CostOfC), c_size_t]
        calls.pathdb_costs.argtypes, calls.pathdb_costs.restype = [*image, *lists], c_size_t
    if hasattr(calls, "pathdb_search_words"):
        calls.pathdb_search_words.argtypes, calls.pathdb_search_words.restype = [c_uint32], c_uint64
    calls.pathdb_read_facts.argtypes, calls.pathdb_read_facts.restype = [*image, POINTER(FactsOfC)], None
    calls.pathdb_status_text.argtypes, calls.pathdb_status_text.restype = [c_uint32, c_char_p, c_size_t], c_size_t
    return calls


CALLS = _load()


def meaning(status: int) -> str:
    """What a status means, in the library's words."""
    room = ctypes.create_string_buffer(TEXT_ROOM)
    CALLS.pathdb_status_text(status, room, TEXT_ROOM)
    return room.value.decode("ascii")
