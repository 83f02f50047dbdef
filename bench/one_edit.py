#!/usr/bin/env python3
"""Counts the instructions of a version after one edit, beside those of the first version of the same map.

    bench/one_edit.py [--edits N] [--seed S] [--order rows|dfs] [--kinds KIND,..] [--maps FOLDER] [--program FILE]

On each of six maps of some 3,000 to 10,000 cells N doors, N random cells, N walls and N splits are blocked and freed
again, one after the other, in one session of `talk`; after each edit a version is built. A door is a passable cell
between two blocked ones, north and south or east and west of it, whose other two neighbours are passable. A wall is
five passable cells in a row or in a column, which an edit changes together. A split is all passable cells of a row or
of a column, at most 64, without which the largest component is in two parts of at least a tenth of it; to free them is
a join. Callgrind counts the instructions of each plan and build; the first version is built by one worker too, and has no
former one. Prints the median, the worst tenth and the worst of the quotients. If an edit cuts a component in two, the
quotient is that of the first version all the same, though the parts by themselves have fewer rows. With --maps it takes
the .map files of a folder. The program is the one that was built here, or the released one."""
import argparse
import os
import random
import re
import subprocess
import sys
import tempfile

import maps
import programs

sys.path.insert(0, os.path.join(programs.TOP, "clients", "python"))

from path_server import Build, Bye, Change, Edit, Hello, Published, Terrain  # noqa: E402
from path_server.frames import decoded, encoded, split_replies  # noqa: E402

WALL = 5  # cells of a wall
MOST_CHANGES = 64  # of an edit
WHAT = ("doors", "random cells", "walls", "splits")
KINDS = [("open", 64), ("rooms", 67), ("rooms", 101), ("caves", 90), ("caves", 120), ("blocked25", 80)]
BEGINS, ENDS = "version_build::planning::plan*", "version_build::building::build*"


def is_open(rows, column, row):
    return 0 <= row < len(rows) and 0 <= column < len(rows[0]) and rows[row][column] == "."


def is_door(rows, column, row):
    """Whether a cell lies between two blocked ones, and between two passable ones the other way."""
    north, south = is_open(rows, column, row - 1), is_open(rows, column, row + 1)
    west, east = is_open(rows, column - 1, row), is_open(rows, column + 1, row)
    return (north and south and not west and not east) or (west and east and not north and not south)


def walls_of(rows, cells):
    """All walls: so many passable cells in a row or in a column."""
    lines = [[(x + i * east, y + i * (1 - east)) for i in range(WALL)] for x, y in cells for east in (0, 1)]
    return [line for line in lines if all(is_open(rows, *cell) for cell in line)]


def parts_of(cells):
    """The sizes of the components, the largest first. No corner is cut, so diagonal moves join nothing."""
    left, sizes = set(cells), []
    while left:
        waiting, size = [left.pop()], 0
        while waiting:
            x, y = waiting.pop()
            size += 1
            near = left.intersection([(x + 1, y), (x - 1, y), (x, y + 1), (x, y - 1)])
            left -= near
            waiting += near
        sizes.append(size)
    return sorted(sizes, reverse=True)


def splits_of(rows, count, seed):
    """As many splits as asked for, or all that there are: each is a list of cells."""
    cells = [(x, y) for y in range(len(rows)) for x in range(len(rows[0])) if is_open(rows, x, y)]
    whole = parts_of(cells)[0]
    lines = [[cell for cell in cells if cell[axis] == at] for axis, count in ((0, len(rows[0])), (1, len(rows)))
             for at in range(count)]
    splits = [line for line in lines if 0 < len(line) <= MOST_CHANGES
              and (parts_of(set(cells).difference(line)) + [0, 0])[1] >= whole / 10]
    return random.Random(seed).sample(splits, min(count, len(splits)))


def chosen(rows, count, rng):
    """The cells of each door, random cell and wall: as many as asked for, or all that there are."""
    cells = [(x, y) for y in range(len(rows)) for x in range(len(rows[0])) if is_open(rows, x, y)]
    doors = [cell for cell in cells if is_door(rows, *cell)]
    walls = walls_of(rows, cells)
    return {
        "doors": [[cell] for cell in rng.sample(doors, min(count, len(doors)))],
        "random cells": [[cell] for cell in rng.sample(cells, count)],
        "walls": rng.sample(walls, min(count, len(walls))),
    }


def counts(program, name, order, requests):
    """The instructions of each plan with its build in a session of these requests, and what the session said."""
    with tempfile.TemporaryDirectory() as folder:
        out = os.path.join(folder, "out")
        words = ["valgrind", "--tool=callgrind", "--callgrind-out-file=" + out, "--zero-before=" + BEGINS,
                 "--dump-after=" + ENDS, program, "talk", name, "--order", order]
        done = subprocess.run(words, input=requests, capture_output=True, check=True)
        told = []
        for number in range(1, 100_000):
            if not os.path.exists("%s.%d" % (out, number)):
                break
            with open("%s.%d" % (out, number), encoding="utf-8", errors="replace") as file:
                told.append(int(re.search(r"^summary: (\d+)", file.read(), re.M).group(1)))
    return told, done.stdout


def edit_of(cells, terrain):
    """The edit that makes these cells so."""
    changes = tuple(Change(cell, terrain) for cell in cells)
    return changes[0] if len(changes) == 1 else Edit(changes)


def requests_of(places):
    """The cells of each place are blocked and freed, and each time a version is built."""
    edits = [edit_of(cells, terrain) for cells in places for terrain in (Terrain.BLOCKED, Terrain.LAND)]
    return [Hello()] + [request for edit in edits for request in (edit, Build())] + [Bye()]


def quotients(program, name, order, places):
    """For each place what the versions after it is blocked and freed take of the first version."""
    told, said = counts(program, name, order, b"".join(map(encoded, requests_of(places))))
    replies = [decoded(frame) for frame in split_replies(said)[0]]
    assert sum(isinstance(reply, Published) for reply in replies) == 2 * len(places), replies[:8]
    assert len(told) > 2 * len(places), len(told)
    first, *after = told
    return first, [count / first for count in after[: 2 * len(places)]]


def at(values, share):
    return sorted(values)[min(len(values) - 1, int(share * len(values)))]


def main():
    parser = argparse.ArgumentParser(description=__doc__.split("\n", maxsplit=1)[0])
    parser.add_argument("--edits", type=int, default=50)
    parser.add_argument("--seed", type=int, default=1)
    parser.add_argument("--order", choices=("rows", "dfs"), default="rows")
    parser.add_argument("--kinds", type=lambda text: text.split(","), default=WHAT)
    parser.add_argument("--maps")
    parser.add_argument("--program", default=programs.program())
    options = parser.parse_args()
    rng = random.Random(options.seed)
    if options.maps:
        names = sorted(name for name in os.listdir(options.maps) if name.endswith(".map"))
        drawn = [(name, open(os.path.join(options.maps, name), encoding="ascii").read().splitlines()[4:]) for name in names]
    else:
        drawn = [("%s of %d" % kind, maps.drawn(*kind)) for kind in KINDS]
    all_of = {kind: [] for kind in WHAT}
    with tempfile.TemporaryDirectory() as folder:
        name = os.path.join(folder, "a.map")
        for what, rows in drawn:
            with open(name, "w", encoding="ascii") as file:
                file.write(maps.map_text(rows))
            all_places = chosen(rows, options.edits, rng)
            if "splits" in options.kinds:
                all_places["splits"] = splits_of(rows, options.edits, options.seed)
            for kind, places in all_places.items():
                if kind not in options.kinds:
                    continue
                if not places:
                    print("%-14s %-12s none" % (what, kind), flush=True)
                    continue
                first, shares = quotients(options.program, name, options.order, places)
                all_of[kind] += shares
                print("%-14s %-12s %3d, the first version %6.1f million: median %.3f, worst tenth %.3f, worst %.3f"
                      % (what, kind, len(places), first / 1e6, at(shares, 0.5), at(shares, 0.9), max(shares)), flush=True)
    for kind, shares in all_of.items():
        if shares:
            print("%-14s %-12s median %.3f, worst tenth %.3f, worst %.3f"
                  % ("all", kind, at(shares, 0.5), at(shares, 0.9), max(shares)))


if __name__ == "__main__":
    main()
