"""Maps: their cells, how a file is read, and which moves are legal. docs/reference/formats.md, "Maps", is the rule."""

from __future__ import annotations

from dataclasses import dataclass, field
from functools import cached_property
from typing import Dict, List, Tuple

from path_server import Cell, Move

MAX_SIDE = 4096
MAX_CELLS = 1_048_576
MAX_PASSABLE = 32_768
MAX_FILE = 2_097_152
"""Bytes of the longest map file."""
_BYTES = {b"@OT": 0, b".GS": 1, b"W": 2}
"""What stands at a cell, by the byte that it is written as."""
_LETTERS = b"@.W"


class MapFault(Exception):
    """A file is no map of this format, and where."""


class MapTooLarge(MapFault):
    """A map is beyond the limits of the database."""


@dataclass(frozen=True)
class Grid:
    """A map: its sides in cells, and a byte a cell, row by row: 0 blocked, 1 land, 2 water. A cell's place is its
    index."""

    width: int
    height: int
    terrain: bytes = field(repr=False)

    def place(self, cell: Cell) -> int:
        """The place of a cell inside the map."""
        return cell[1] * self.width + cell[0]

    def cell(self, place: int) -> Cell:
        """The column and the row of a place."""
        return place % self.width, place // self.width

    def has(self, cell: Cell) -> bool:
        """Whether a cell lies inside the map."""
        return 0 <= cell[0] < self.width and 0 <= cell[1] < self.height

    def is_free(self, cell: Cell) -> bool:
        """Whether a cell lies inside and is passable."""
        return self._class_of(cell) != 0

    def _class_of(self, cell: Cell) -> int:
        return self.terrain[self.place(cell)] if self.has(cell) else 0

    def leads(self, cell: Cell, move: Move) -> bool:
        """Whether a move is legal from a cell: both ends are land or both water and, of a diagonal one, both cells
        beside it are of that class too."""
        (column, row), (right, down) = cell, move.step
        wanted = [cell, (column + right, row + down)]
        if move.is_diagonal:
            wanted += [(column + right, row), (column, row + down)]
        return self.is_free(cell) and len(set(map(self._class_of, wanted))) == 1

    @cached_property
    def places(self) -> List[int]:
        """The places of the passable cells, row by row."""
        return [place for place, terrain in enumerate(self.terrain) if terrain]

    @cached_property
    def neighbours(self) -> Dict[int, List[Tuple[Move, int]]]:
        """Of each passable place the legal moves, and to which places they lead."""
        shifts = [(move, move.step[1] * self.width + move.step[0]) for move in Move]
        return {
            place: [(move, place + shift) for move, shift in shifts if self.leads(self.cell(place), move)]
            for place in self.places
        }

    def changed(self, edits: Dict[Cell, bool]) -> Grid:
        """The map with some cells made land or blocked."""
        terrain = bytearray(self.terrain)
        for cell, is_land in edits.items():
            terrain[self.place(cell)] = is_land
        return Grid(self.width, self.height, bytes(terrain))

    def text(self) -> str:
        """The map as a file, with `.`, `W` and `@`."""
        head = ["type octile", "height %d" % self.height, "width %d" % self.width, "map"]
        return "\n".join(head + self.rows()) + "\n"

    def rows(self) -> List[str]:
        """The rows, `.` for land, `W` for water and `@` for a blocked cell."""
        drawn = self.terrain.translate(_LETTERS + bytes(256 - len(_LETTERS))).decode()
        return [drawn[start : start + self.width] for start in range(0, len(drawn), self.width)]


def lines_of(data: bytes) -> List[bytes]:
    """The lines of a text: cut at each line feed, a carriage return before it dropped."""
    lines = [line[:-1] if line.endswith(b"\r") else line for line in data.split(b"\n")]
    return lines if lines[-1] else lines[:-1]


def read_grid(name: str) -> Grid:
    """The map of a file.

    OSError: it is not read. MapFault: it is no map, or one with a byte that is not known here.
    """
    with open(name, "rb") as file:
        data = file.read(MAX_FILE + 1)
    if len(data) > MAX_FILE:
        raise MapTooLarge("%s: more than %d bytes" % (name, MAX_FILE))
    lines = lines_of(data)
    width, height = _sides(name, lines)
    rows = [line.rstrip(b" \t") for line in lines[4 : 4 + height]]
    if len(rows) < height:
        raise MapFault("%s: %d rows, and not %d" % (name, len(rows), height))
    for number, row in enumerate(rows, 5):
        if len(row) != width:
            raise MapFault("%s:%d: %d cells, and not %d" % (name, number, len(row), width))
        odd = row.strip(b"".join(_BYTES))
        if odd:
            raise MapFault("%s:%d: no cell is written %r here" % (name, number, chr(odd[0])))
    for number, line in enumerate(lines[4 + height :], 5 + height):
        if line.strip(b" \t"):
            raise MapFault("%s:%d: a line behind the last row" % (name, number))
    terrain_of = {byte: terrain for letters, terrain in _BYTES.items() for byte in letters}
    terrain = bytes(terrain_of[byte] for byte in b"".join(rows))
    passable = len(terrain) - terrain.count(0)
    if passable > MAX_PASSABLE:
        raise MapTooLarge("%s: %d passable cells, more than %d" % (name, passable, MAX_PASSABLE))
    return Grid(width, height, terrain)


def _sides(name: str, lines: List[bytes]) -> Tuple[int, int]:
    words = [line.split() for line in lines[:4]]
    if len(words) < 4 or words[0] != [b"type", b"octile"] or words[3] != [b"map"]:
        raise MapFault("%s: not the head of a map, 'type octile', height, width, 'map'" % name)
    sides = {two[0]: two[1] for two in words[1:3] if len(two) == 2 and two[1].isdigit()}
    if set(sides) != {b"width", b"height"}:
        raise MapFault("%s: lines 2 and 3 are not 'height' and 'width', each with a number" % name)
    width, height = int(sides[b"width"]), int(sides[b"height"])
    if not (1 <= width <= MAX_SIDE and 1 <= height <= MAX_SIDE and width * height <= MAX_CELLS):
        fault = MapTooLarge if width and height else MapFault
        raise fault("%s: a map has sides of 1 to %d and at most %d cells" % (name, MAX_SIDE, MAX_CELLS))
    return width, height
