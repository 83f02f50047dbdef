"""Pictures of maps as SVG files. A cell is a square of SIDE units; the same input gives the same bytes.

A unit is a pixel in a picture up to SHOWN pixels wide. A wider one is shown so wide, and its letters, marks and lines are
as large there as in the others.
"""

from __future__ import annotations

from dataclasses import dataclass, field
from html import escape
from typing import Dict, Iterable, List, Sequence, Tuple

from path_server import Cell, Move

from .grids import Grid

SIDE = 14
"""Units of a cell's side."""
SHOWN = 1000
"""Pixels of the width in which a wide picture is shown."""
_LINE, _FONT, _LETTER = 20, 13, 8  # pixels of a line of text, of its letters' height, and of a wide letter's width
BLOCKED, LAND, WATER, INK, PAPER = "#3b4252", "#f3efe6", "#cfe3ee", "#1f2430", "#ffffff"
PATH, FORMER_PATH, START, GOAL = "#d1495b", "#5f6a7d", "#1b7f4d", "#2455a4"
ADDED, REMOVED, REBUILT = "#5fae6e", "#c8553d", "#cfe0f5"
KEPT, CHANGED = "#d9ead3", "#f2a65a"
MOVES = {
    Move.N: "#d7263d",
    Move.NE: "#f46036",
    Move.E: "#f2c14e",
    Move.SE: "#8cb369",
    Move.S: "#2a9d8f",
    Move.SW: "#3a86ff",
    Move.W: "#6a4c93",
    Move.NW: "#d16ba5",
}
COMPONENTS = (
    "#e9c46a",
    "#8ecae6",
    "#f4a261",
    "#a7c957",
    "#cdb4db",
    "#84a98c",
    "#ffafcc",
    "#b08968",
    "#90dbf4",
    "#d4a373",
)
_HEAT = ((255, 247, 188), (254, 196, 79), (236, 112, 20), (153, 52, 4), (63, 0, 63))
HEAT_STEPS = 24


def heat(value: int, least: int, most: int) -> str:
    """The colour of a number between two others, in one of HEAT_STEPS steps from light to dark."""
    step = (value - least) * (HEAT_STEPS - 1) // max(1, most - least)
    low, part = divmod(step * (len(_HEAT) - 1), HEAT_STEPS - 1)
    high = min(low + 1, len(_HEAT) - 1)
    mixed = [
        (one * (HEAT_STEPS - 1 - part) + other * part) // (HEAT_STEPS - 1)
        for one, other in zip(_HEAT[low], _HEAT[high])
    ]
    return "#%02x%02x%02x" % (mixed[0], mixed[1], mixed[2])


@dataclass
class Picture:
    """A picture of a map that grows by layers. All cells lie inside the map."""

    grid: Grid
    _parts: List[str] = field(default_factory=list)
    _captions: List[str] = field(default_factory=list)
    _keys: List[Tuple[str, str]] = field(default_factory=list)

    def __post_init__(self) -> None:
        self.cells({place: (BLOCKED, LAND, WATER)[terrain] for place, terrain in enumerate(self.grid.terrain)})

    @property
    def _pixel(self) -> float:
        """The units of a pixel, where the picture is shown."""
        return max(1.0, self.grid.width * SIDE / (SHOWN - 2 * SIDE))

    def cells(self, colours: Dict[int, str]) -> None:
        """Fills places, each in its colour."""
        shapes: Dict[str, List[str]] = {}
        for row in range(self.grid.height):
            column = 0
            while column < self.grid.width:
                start = column
                colour = colours.get(self.grid.place((column, row)))
                while column < self.grid.width and colours.get(self.grid.place((column, row))) == colour:
                    column += 1
                if colour is not None:
                    width = column - start
                    shapes.setdefault(colour, []).append("M%d %dh%dv1h-%dz" % (start, row, width, width))
        for colour, pieces in shapes.items():
            self._parts.append('<path fill="%s" shape-rendering="crispEdges" d="%s"/>' % (colour, "".join(pieces)))

    def line(self, cells: Sequence[Cell], colour: str, dashed: bool = False) -> None:
        """A line through the middles of cells."""
        points = " ".join("%d.5,%d.5" % cell for cell in cells)
        pixel = self._pixel
        dashes = ' stroke-dasharray="%g %g"' % (0.5 * pixel, 0.4 * pixel) if dashed else ""
        self._parts.append(
            '<polyline points="%s" fill="none" stroke="%s" stroke-width="%g" stroke-linejoin="round"'
            ' stroke-linecap="round"%s/>' % (points, colour, 0.3 * pixel, dashes)
        )

    def mark(self, cell: Cell, colour: str, letter: str) -> None:
        """A disc with a letter on a cell."""
        pixel = self._pixel
        self._parts.append(
            '<circle cx="%d.5" cy="%d.5" r="%g" fill="%s" stroke="%s" stroke-width="%g"/>'
            % (*cell, 0.62 * pixel, colour, PAPER, 0.1 * pixel)
        )
        self._parts.append(
            '<text x="%d.5" y="%g" font-size="%g" fill="%s" text-anchor="middle">%s</text>'
            % (cell[0], cell[1] + 0.5 + 0.28 * pixel, 0.8 * pixel, PAPER, letter)
        )

    def caption(self, text: str) -> None:
        """A line of text below the map."""
        self._captions.append(text)

    def key(self, entries: Iterable[Tuple[str, str]]) -> None:
        """Colours and what they mean, below the map."""
        self._keys.extend(entries)

    def svg(self) -> str:
        """The file's text."""
        pixel = self._pixel
        longest = max(map(len, self._captions), default=0)
        width = max(self.grid.width * SIDE, 20 * SIDE, round(longest * _LETTER * pixel))
        keys, top = self._drawn_keys(width, self.grid.height * SIDE + round(_LINE * pixel))
        captions = []
        for text in self._captions:
            captions.append(
                '<text x="0" y="%d" font-size="%g" fill="%s">%s</text>' % (top, _FONT * pixel, INK, escape(text))
            )
            top += round(_LINE * pixel)
        margin = round(SIDE * pixel)
        units = (width + 2 * margin, top + margin)
        shown = min(1.0, SHOWN / units[0])
        pixels = (round(units[0] * shown), round(units[1] * shown))
        return "\n".join(
            [
                '<svg xmlns="http://www.w3.org/2000/svg" width="%d" height="%d" viewBox="0 0 %d %d"'
                ' font-family="sans-serif">' % (*pixels, *units),
                '<rect width="100%%" height="100%%" fill="%s"/>' % PAPER,
                '<g transform="translate(%d %d)">' % (margin, margin),
                '<g transform="scale(%d)">' % SIDE,
                *self._parts,
                "</g>",
                *keys,
                *captions,
                "</g>",
                "</svg>\n",
            ]
        )

    def _drawn_keys(self, width: int, top: int) -> Tuple[List[str], int]:
        """The key's parts, from left to right in lines, and where the next line of text stands."""
        drawn, left, pixel = [], 0, self._pixel
        for colour, text in self._keys:
            room = round((30 + _LETTER * len(text)) * pixel)
            if left and left + room > width:
                left, top = 0, top + round(_LINE * pixel)
            drawn.append(
                '<rect x="%d" y="%d" width="%g" height="%g" fill="%s"/>'
                % (left, top - round(11 * pixel), 12 * pixel, 12 * pixel, colour)
            )
            drawn.append(
                '<text x="%d" y="%d" font-size="%g" fill="%s">%s</text>'
                % (left + round(17 * pixel), top, _FONT * pixel, INK, escape(text))
            )
            left += room
        return drawn, top + round(_LINE * pixel) if self._keys else top
