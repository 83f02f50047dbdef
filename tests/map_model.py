"""A plain model of databases: maps, their components and the orders of the cells in them, and the tight rows of each,
from nothing but the rule of moves. The tests of database files and of images share it.
"""
import heapq

TERRAINS = "@.W"
STEPS = [(0, -1), (1, -1), (1, 0), (1, 1), (0, 1), (-1, 1), (-1, 0), (-1, -1)]
WEIGHTS = [10 ** 12, 1_414_213_562_373] * 4  # a straight step and a diagonal one; costs of these maps are far apart


class Map:
    """A map, row by row: 0 blocked, 1 land, 2 water."""

    def __init__(self, width, height, cells):
        self.width, self.height, self.cells = width, height, cells
        self.known = {}

    def at(self, x, y):
        return self.cells[y * self.width + x] if 0 <= x < self.width and 0 <= y < self.height else 0

    def move(self, cell, number):
        """Where a legal move leads, or nothing."""
        (x, y), (dx, dy) = cell, STEPS[number]
        kind = self.at(x, y)
        corners = [(x + dx, y), (x, y + dy)] if dx and dy else []
        if kind and all(self.at(*each) == kind for each in [(x + dx, y + dy), *corners]):
            return x + dx, y + dy
        return None

    def components(self):
        """The components by their least cells, each row by row."""
        left = [(x, y) for y in range(self.height) for x in range(self.width) if self.at(x, y)]
        found = []
        seen = set()
        for first in left:
            if first in seen:
                continue
            seen.add(first)
            reached, open_cells = {first}, [first]
            while open_cells:
                cell = open_cells.pop()
                for _, to in self.moves(cell):
                    if to not in reached:
                        reached.add(to)
                        open_cells.append(to)
            seen |= reached
            found.append(sorted(reached, key=lambda cell: (cell[1], cell[0])))
        return found

    def ordered(self, cells, order):
        """The cells row by row, or depth first from the first one: north, east, south, west."""
        if order == 0:
            return cells
        inside, seen, left = set(cells), {}, [cells[0]]
        while left:
            x, y = cell = left.pop()
            if cell in inside and cell not in seen:
                seen[cell] = None
                left += [(x - 1, y), (x, y + 1), (x + 1, y), (x, y - 1)]
        return list(seen)

    def moves(self, cell):
        """The numbers of the legal moves from a cell, each with where it leads."""
        if cell not in self.known:
            self.known[cell] = [(number, to) for number in range(8) if (to := self.move(cell, number))]
        return self.known[cell]

    def costs(self, start):
        """Least costs from a cell."""
        costs, heap = {start: 0}, [(0, start)]
        while heap:
            cost, cell = heapq.heappop(heap)
            if cost > costs[cell]:
                continue
            for number, to in self.moves(cell):
                if cost + WEIGHTS[number] < costs.get(to, 1 << 60):
                    costs[to] = cost + WEIGHTS[number]
                    heapq.heappush(heap, (costs[to], to))
        return costs


def packed(sets):
    """The tight row of sets: each run as long as a move is left, and its least move."""
    row, at = [], 0
    while at < len(sets):
        start, common = at, 255
        while at < len(sets) and common & sets[at]:
            common &= sets[at]
            at += 1
        row.append((start, (common & -common).bit_length() - 1))
    return row


def rows_of(grid, cells):
    """The rows of the cells of a component, in their order."""
    to = [grid.costs(cell) for cell in cells]
    return [packed([255 if cell == goal else sum(
        1 << number for number, near in grid.moves(cell) if to[target][near] + WEIGHTS[number] == to[target][cell])
        for target, goal in enumerate(cells)]) for cell in cells]


def made_map(chance):
    width, height = chance.randint(1, 7), chance.randint(1, 7)
    kinds = chance.choice([[1], [0, 1, 1, 1], [0, 1, 1, 2], [1, 2], [0, 1]])
    return Map(width, height, [chance.choice(kinds) for _ in range(width * height)])


def text_of(grid):
    rows = [grid.cells[y * grid.width:(y + 1) * grid.width] for y in range(grid.height)]
    return f"type octile\nheight {grid.height}\nwidth {grid.width}\nmap\n" + "".join(
        "".join(TERRAINS[cell] for cell in row) + "\n" for row in rows)
