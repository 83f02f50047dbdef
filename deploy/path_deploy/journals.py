"""Journals: a leader's edits in a file, so that they outlive it.

The first line is `path_server journal 1 WIDTH HEIGHT SHA256`, with the sides of the map before any edit and the digest
of its cells, a byte each. Every other line is an edit: its number, from 1 on, and three numbers a change, the column,
the row and the terrain as in a frame.
"""

from __future__ import annotations

import array
import fcntl
import hashlib
import os
from typing import Optional, Sequence, Tuple

from path_server import Terrain
from path_server.feed import AnyEdit, FedMap, Feed, changes_of
from path_server.frames import edit_of


class JournalFault(Exception):
    """The file is not a journal, or not the leader's."""


class Journal:
    """A journal that is open for this process alone. All its lines are whole and on the disk."""

    def __init__(self, path: str, may_create: bool) -> None:
        """Opens a journal, or creates one. A last line without its line feed is cut off: `dropped` are its bytes.

        OSError: the file can't be opened. JournalFault: another process has it, or a line is not as it should be.
        """
        self.path = path
        self._file = os.open(path, os.O_RDWR | os.O_APPEND | (os.O_CREAT if may_create else 0), 0o644)
        try:
            fcntl.flock(self._file, fcntl.LOCK_EX | fcntl.LOCK_NB)
        except BlockingIOError:
            raise JournalFault("another process has %s" % path) from None
        self._head: Optional[bytes] = None
        self._ends = array.array("Q")  # where each line ends, the first one too
        self.dropped = self._read()

    @property
    def accepted(self) -> int:
        """How many edits it has."""
        return max(0, len(self._ends) - 1)

    def _read(self) -> bytes:
        with open(self.path, "rb") as file:
            *lines, torn = file.read().split(b"\n")
        end = 0
        for number, line in enumerate(lines):
            end += len(line) + 1
            if not (_is_head(line) if number == 0 else _edit_in(line, number)):
                raise JournalFault("%s:%d: not a line of a journal" % (self.path, number + 1))
            self._ends.append(end)
        self._head = lines[0] if lines else None
        if torn:
            os.ftruncate(self._file, end)
            os.fsync(self._file)
        return torn

    def begin(self, start: FedMap) -> None:
        """Writes the first line, for this map, where there is none.

        JournalFault: the journal is of another map.
        """
        digest = hashlib.sha256(start.cells).hexdigest()
        head = b"path_server journal 1 %d %d %s" % (start.width, start.height, digest.encode())
        if self._head is None:
            self._append([head + b"\n"])
            folder = os.open(os.path.dirname(os.path.abspath(self.path)), os.O_RDONLY)
            os.fsync(folder)
            os.close(folder)
            self._head = head
        if self._head != head:
            raise JournalFault("%s is the journal of another map" % self.path)

    def add(self, edits: Sequence[AnyEdit]) -> None:
        """Writes edits, and returns when they are on the disk.

        OSError: they could not be written. Then the journal has to be opened again.
        """
        if edits:
            self._append([_line_of(self.accepted + place, edit) for place, edit in enumerate(edits, 1)])

    def _append(self, lines: Sequence[bytes]) -> None:
        left = b"".join(lines)
        while left:
            left = left[os.write(self._file, left) :]
        os.fdatasync(self._file)
        end = self._ends[-1] if self._ends else 0
        for line in lines:
            end += len(line)
            self._ends.append(end)

    def edits(self, known: int, most: int) -> Tuple[AnyEdit, ...]:
        """The edits after the first `known` ones, so many at most."""
        last = min(known + most, self.accepted)
        if last <= known:
            return ()
        begin = self._ends[known]
        lines = os.pread(self._file, self._ends[last] - begin, begin).splitlines()
        return tuple(_edit_of(line) for line in lines)

    def compare(self, feed: Feed) -> None:
        """Compares its map and its edits with those of a leader.

        JournalFault: they are others, or the leader has fewer.
        """
        self.begin(feed.map)
        known = 0
        while known < self.accepted:
            fed = feed.ask(known)
            if not fed:
                raise JournalFault("%s has %d edits, and the leader has %d" % (self.path, self.accepted, known))
            own = self.edits(known, len(fed))
            if fed[: len(own)] != own:
                raise JournalFault("%s has other edits than the leader, after %d" % (self.path, known))
            known += len(own)


def _is_head(line: bytes) -> bool:
    words = line.split(b" ")
    return words[:3] == [b"path_server", b"journal", b"1"] and len(words) == 6


def _line_of(number: int, edit: AnyEdit) -> bytes:
    words = [number]
    for change in changes_of(edit):
        words += [*change.cell, change.terrain.value]
    return b" ".join(b"%d" % word for word in words) + b"\n"


def _edit_of(line: bytes) -> AnyEdit:
    words = [int(word) for word in line.split()[1:]]
    return edit_of(((x, y), Terrain(kind)) for x, y, kind in zip(words[::3], words[1::3], words[2::3]))


def _edit_in(line: bytes, number: int) -> Optional[AnyEdit]:
    """The edit of that line, or nothing where it is spelled in another way."""
    try:
        edit = _edit_of(line)
    except ValueError:
        return None
    return edit if _line_of(number, edit) == line + b"\n" else None
