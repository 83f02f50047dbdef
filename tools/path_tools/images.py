"""Images of maps: baked by the program path_bake, and asked in this process with the time of each query."""

from __future__ import annotations

import ctypes
import os
import shutil
import subprocess
import tempfile
import time
from ctypes import POINTER, byref, c_size_t, c_uint8, c_uint32, c_uint64, c_void_p
from functools import lru_cache
from typing import Any, Optional, Tuple

from path_server import Cell
from pathdb import Image
from pathdb import _library as lib

from . import TOP, bake_here

_OUTSIDE = (65_535, 65_535)


class BakeFault(Exception):
    """The program path_bake failed; it has said why on standard error."""


def baked(name: str, order: str, workers: int) -> Tuple[Image, float]:
    """The image of a map's file, and the seconds from the start of path_bake to its end. What it says while it builds
    goes to standard error.

    BakeFault: there is no image.
    """
    with tempfile.NamedTemporaryFile() as file:
        began = time.monotonic()
        command = [bake_here(), name, "--order", order, "--workers", str(workers)]
        status = subprocess.run(command, stdin=subprocess.DEVNULL, stdout=file, check=False).returncode
        seconds = time.monotonic() - began
        if status != 0:
            raise BakeFault("%s: path_bake ended with status %d" % (name, status))
        return Image.open(file.name), seconds


@lru_cache(maxsize=None)
def _loop() -> Optional[Any]:
    """The loop of times.c as a call; None where no C compiler is here."""
    compiler = shutil.which("cc")
    if compiler is None:
        return None
    with tempfile.TemporaryDirectory() as folder:
        made, source = os.path.join(folder, "times.so"), os.path.join(TOP, "tools/path_tools/times.c")
        command = [compiler, "-O2", "-shared", "-fPIC", "-I" + os.path.join(TOP, "include"), "-o", made, source]
        if subprocess.run(command, stdin=subprocess.DEVNULL, check=False).returncode != 0:
            return None
        call = ctypes.CDLL(made).timed_path
    call.argtypes = [c_void_p, *lib.CALLS.pathdb_path.argtypes, c_uint32, POINTER(c_uint64)]
    call.restype = c_uint32
    return call


class TimedImage:
    """An image whose paths are asked for with their times. `empty` is the nanoseconds of a call that looks nothing up,
    since its start lies outside; `by` says what loops and reads the clock."""

    def __init__(self, image: Image, rounds: int) -> None:
        self._image, self._rounds = image, rounds
        self._words = (ctypes.cast(image._words, POINTER(c_uint32)), c_size_t(len(image) // 4))
        self._moves, self._length, self._taken = (c_uint8 * lib.LONGEST)(), c_uint32(), c_uint64()
        self.by = "C" if _loop() else "Python, since no `cc` is here: too high by some µs"
        self.empty = 0
        self.empty = min(self.path(_OUTSIDE, _OUTSIDE)[1] for _ in range(301))

    def path(self, start: Cell, goal: Cell) -> Tuple[Optional[bytes], int]:
        """The moves of a shortest path, a byte each, or None where there is none; and the nanoseconds of the call, the
        least of all rounds, less those of an empty one."""
        words = (*self._words, lib.CellOfC(*start), lib.CellOfC(*goal), self._moves, lib.LONGEST, byref(self._length))
        loop = _loop()
        if loop:
            called = ctypes.cast(lib.CALLS.pathdb_path, c_void_p)
            status = loop(called, *words, self._rounds, byref(self._taken))
            taken = self._taken.value
        else:
            status, taken = self._timed_here(words)
        moves = ctypes.string_at(self._moves, self._length.value) if status == lib.DONE else None
        return moves, max(0, taken - self.empty)

    def _timed_here(self, words: Tuple[Any, ...]) -> Tuple[int, int]:
        """The status of a call, and its nanoseconds, with those that it takes to make a call from Python."""
        call, clock, taken = lib.CALLS.pathdb_path, time.perf_counter_ns, []
        for _ in range(self._rounds):
            began = clock()
            status = call(*words)
            taken.append(clock() - began)
        return status, min(taken)
