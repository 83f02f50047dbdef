"""Images of databases, by their format alone (docs/reference/formats.md): the words of an image, and paths read from it.
"""
import math
import struct

from map_model import STEPS

BLOCKED = 0xFFFFFFFF
NAMES = ["N", "NE", "E", "SE", "S", "SW", "W", "NW"]


def words_of(grid, order, parts):
    """The words of the image of a map's first version, whose components have these cells and rows."""
    place = {cell: label << 16 | at for label, (cells, _) in enumerate(parts) for at, cell in enumerate(cells)}
    homes = [place.get((x, y), BLOCKED) for y in range(grid.height) for x in range(grid.width)]
    tables = [table_of(cells, rows) for cells, rows in parts]
    starts, at = [], 10 + len(homes) + len(parts)
    for table in tables:
        starts.append(at)
        at += len(table)
    magic = list(struct.unpack("<2I", b"pathimag"))
    head = magic + [1, at, grid.width, grid.height, 0, order, len(place), len(parts)]
    return head + homes + starts + [word for table in tables for word in table]


def table_of(cells, rows):
    """The table of a component."""
    borders = [0]
    for row in rows:
        borders.append(borders[-1] + len(row))
    runs = [start * 8 + move for row in rows for start, move in row]
    return [len(cells), *(y << 16 | x for x, y in cells), *borders, *runs]


class Image:
    """An image that is read in place."""

    def __init__(self, data):
        self.words = struct.unpack(f"<{len(data) // 4}I", data)
        assert data[:8] == b"pathimag" and self.words[2] == 1 and self.words[3] * 4 == len(data)
        self.width, self.height, self.prefix, self.order, self.free, self.count = self.words[4:10]

    def home(self, cell):
        """The number of a cell's component and its place there, or nothing where it is blocked."""
        word = self.words[10 + cell[1] * self.width + cell[0]]
        return None if word == BLOCKED else divmod(word, 1 << 16)

    def move(self, home, goal):
        """The first move from a place of a component to another one of it."""
        label, source = home
        start = self.words[10 + self.width * self.height + label]
        size = self.words[start]
        borders = start + 1 + size
        runs = borders + size + 1
        row = self.words[runs + self.words[borders + source]:runs + self.words[borders + source + 1]]
        return [word % 8 for word in row if word // 8 <= goal][-1]

    def end(self, which, cell):
        """Why an end of a path is refused."""
        if not (cell[0] < self.width and cell[1] < self.height):
            return f"outside {which}\n"
        return None if self.home(cell) else f"blocked {which}\n"

    def path(self, start, goal):
        """What `path_server path` prints, and its status."""
        refused = self.end("start", start) or self.end("goal", goal)
        if refused:
            return refused, 4
        aim = self.home(goal)
        if self.home(start)[0] != aim[0]:
            return "unreachable\n", 0
        cell, moves = start, []
        while cell != goal:
            move = self.move(self.home(cell), aim[1])
            moves.append(move)
            cell = (cell[0] + STEPS[move][0], cell[1] + STEPS[move][1])
        diagonal = sum(move % 2 for move in moves)
        straight = len(moves) - diagonal
        length = straight * 10 ** 6 + math.isqrt(2 * diagonal ** 2 * 10 ** 12)
        return (f"cost {straight} {diagonal}\nlength {length // 10 ** 6}.{length % 10 ** 6:06}\n"
                f"moves{''.join(' ' + NAMES[move] for move in moves)}\n"), 0
