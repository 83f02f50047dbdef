"""A plain model of database files (docs/reference/formats.md), which shares nothing with the program: the file of a map, and the first
fault of a file. `db.py` judges by it.
"""
import struct

from map_model import WEIGHTS, Map, rows_of

MARK = b"PATHDB01"


def row_bytes(row):
    return struct.pack(">I", len(row)) + b"".join(struct.pack(">I", start * 8 + move) for start, move in row)


def head_bytes(grid, prefix, order):
    return MARK + struct.pack(">III", grid.width, grid.height, prefix) + bytes([order]) + bytes(grid.cells)


def file_of(grid, prefix, order):
    """The file of the version of a map."""
    return head_bytes(grid, prefix, order) + b"".join(
        row_bytes(row) for cells in grid.components() for row in rows_of(grid, grid.ordered(cells, order)))


# ---- the first fault of a file

class Fault(Exception):
    pass


def fields(data):
    """Reads the fields one by one: the map, the number of edits, and each component's cells and rows."""
    at = 0

    def take(size):
        nonlocal at
        if at + size > len(data):
            raise Fault(f"cut at {len(data)}")
        at += size
        return data[at - size:at]

    def number():
        return struct.unpack(">I", take(4))[0]

    if take(8) != MARK:
        raise Fault("magic")
    width = number()
    if not 1 <= width <= 4096:
        raise Fault("size")
    height = number()
    if not 1 <= height <= 4096 or width * height > 1_048_576:
        raise Fault("size")
    prefix = number()
    order = take(1)[0]
    if order > 1:
        raise Fault(f"kind {order}")
    cells, passable = [], 0
    for place in range(width * height):
        byte = take(1)[0]
        if byte > 2:
            raise Fault(f"terrain {byte} at {place}")
        passable += byte > 0
        if passable > 32_768:
            raise Fault(f"too many cells at {place}")
        cells.append(byte)
    grid = Map(width, height, cells)
    parts = []
    for comp, found in enumerate(grid.components()):
        ordered, rows = grid.ordered(found, order), []
        for source in range(len(ordered)):
            size = number()
            if not 1 <= size <= len(ordered):
                raise Fault(f"runs {comp} {source}")
            row = []
            for _ in range(size):
                word = number()
                start, move = word // 8, word % 8
                if start >= len(ordered) or (start <= row[-1][0] if row else start != 0):
                    raise Fault(f"runs {comp} {source}")
                row.append((start, move))
            rows.append(row)
        parts.append((ordered, rows))
    if at < len(data):
        raise Fault(f"extra at {at}")
    return grid, prefix, parts


def judged_rows(grid, comp, cells, rows):
    """Looks for the first fault of the rows of a component, target by target."""
    place = {cell: number for number, cell in enumerate(cells)}
    steps = [[place.get(grid.move(cell, number)) for number in range(8)] for cell in cells]
    held = [255] * len(cells)  # the moves common to the sets of the open run of each row
    for target in range(len(cells)):
        kept = [max(run for run in row if run[0] <= target)[1] for row in rows]
        costs = []
        for source in range(len(cells)):
            at, cost, moves = source, 0, 0
            while at != target and at is not None and moves <= len(cells):
                cost, at, moves = cost + WEIGHTS[kept[at]], steps[at][kept[at]], moves + 1
            costs.append(cost if at == target else None)
        for source, cost in enumerate(costs):
            if cost is None:
                raise Fault(f"walk {comp} {target} {source}")
        offers = [[None if to is None else costs[to] + WEIGHTS[number] for number, to in enumerate(each)]
                  for each in steps]
        for source, each in enumerate(offers):
            if any(offer is not None and offer < costs[source] for offer in each):
                raise Fault(f"worse {comp} {target} {source}")
        for source, each in enumerate(offers):
            found = 255 if source == target else sum(1 << number for number, offer in enumerate(each) if offer == costs[source])
            starts = [start for start, _ in rows[source]]
            if target and target in starts:
                before = rows[source][starts.index(target) - 1][1]
                if held[source] & found or not is_least(held[source], before):
                    raise Fault(f"loose {comp} {target} {source}")
                held[source] = found
            else:
                held[source] &= found
            if target + 1 == len(cells) and not is_least(held[source], rows[source][-1][1]):
                raise Fault(f"loose {comp} {target} {source}")


def is_least(moves, move):
    return moves != 0 and (moves & -moves) == 1 << move


def wanted(data):
    """What `verify` prints of a file, and its status."""
    try:
        grid, prefix, parts = fields(data)
        for comp, (cells, rows) in enumerate(parts):
            judged_rows(grid, comp, cells, rows)
    except Fault as fault:
        return f"database refused: {fault}\n", 12
    runs = sum(len(row) for _, rows in parts for row in rows)
    free = sum(len(cells) for cells, _ in parts)
    return f"version {prefix}\ncells {free}\ncomponents {len(parts)}\nruns {runs}\n", 0
