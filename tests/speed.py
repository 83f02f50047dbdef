#!/usr/bin/env python3
"""Compares the instruction counts of common operations with those recorded in tests/speed.txt.

    tests/speed.py [PROGRAM] [--show] [--write]

Counts a build with one and with four workers, the versions after four edits, 1,000 queries of `talk`, `path`, `near`,
`verify`, and 10,000 paths read from an image through the C library, all on small maps drawn by bench/maps.py.

Fails if a count is more than 1.2 times the recorded one, and reports a count below 0.8, so that you can record the
better one. --show prints every count, and --write records them. PROGRAM and the library are those built here, or the
released ones if nothing is built, or those that PATH_SERVER and PATHDB in the environment name. Takes half a minute.
Needs valgrind and gcc: without them it prints one line and is skipped."""
import argparse
import os
import random
import shutil
import sys
import tempfile

from judging import TOP, skip

sys.path.insert(0, os.path.join(TOP, "bench"))
import maps  # noqa: E402
import programs  # noqa: E402
from path_server import Build, Bye, Change, Hello, Path, Published, Query, Terrain  # noqa: E402
from path_server.frames import decoded, encoded, split_replies  # noqa: E402

TABLE = os.path.join(TOP, "tests/speed.txt")
MOST, LEAST = 1.2, 0.8
KINDS = {"rooms": 50, "blocked25": 40, "open": 32}
EDITED = [(7, 7), (40, 30)]  # cells inside rooms
QUERIES = 1_000


def instructions(*words, **others):
    return programs.counted(list(words), **others)[0]


def added(program, name, few, many, kind):
    """Returns how many more instructions many requests take than few. Each one more has to get a reply of this kind."""
    counts = []
    for requests in (few, many):
        given = b"".join(map(encoded, [Hello(), *requests, Bye()]))
        count, said = programs.counted([program, "talk", name, "--room", "1"], given)
        counts.append(count)
    replies = sum(isinstance(decoded(frame), kind) for frame in split_replies(said)[0])
    if replies != len(many) - len(few):
        raise SystemExit("speed.py: %d replies are %s, of %d" % (replies, kind.__name__, len(many) - len(few)))
    return counts[1] - counts[0]


def versions(program, name):
    """Counts a version after each edit."""
    edits = [Change(cell, terrain) for cell in EDITED for terrain in (Terrain.BLOCKED, Terrain.LAND)]
    return added(program, name, edits, [request for edit in edits for request in (edit, Build())], Published)


def queries(program, name, rows):
    """Counts queries between random cells."""
    rng, cells = random.Random(1), maps.passable(rows)
    return added(program, name, [], [Query(*rng.sample(cells, 2)) for _ in range(QUERIES)], Path)


def database(program, name, folder):
    """Writes the map's database to a file and returns its name."""
    made = os.path.join(folder, "database")
    with open(made, "wb") as file:
        file.write(programs.said([program, "export", name]))
    return made


def figures(program, folder):
    """Yields the name of each measure with its count."""
    drawn = {kind: maps.drawn(kind, side) for kind, side in KINDS.items()}
    rooms, blocked, opened = (os.path.join(folder, kind) for kind in KINDS)
    for kind, rows in drawn.items():
        with open(os.path.join(folder, kind), "w", encoding="ascii") as file:
            file.write(maps.map_text(rows))
    yield "build", instructions(program, "check", rooms)
    yield "build_by_four", instructions(program, "check", rooms, "--workers", "4")
    yield "build_blocked_dfs", instructions(program, "check", blocked, "--order", "dfs")
    yield "four_versions", versions(program, rooms)
    yield "talk_queries", queries(program, opened, drawn["open"])
    yield "path", instructions(program, "path", rooms, "0", "0", "49", "49")
    # on a diagonal of open ground each cell leaves one move, so no row is built
    yield "path_without_rows", instructions(program, "path", opened, "0", "0", "31", "31")
    yield "near", instructions(program, "near", blocked)
    yield "verify", instructions(program, "verify", database(program, blocked, folder))
    yield "image_paths", instructions(programs.queries(folder), opened, "rows", "10000", "1", within="read_paths")


def recorded():
    """Returns the table, counts by name."""
    with open(TABLE, encoding="ascii") as file:
        return {name: int(figure) for name, figure in (line.split() for line in file)}


def judge(name, figure, before, shows):
    """Returns whether a count is good enough, and prints it if it is not, or if it is much better."""
    ratio = figure / before
    if shows or not LEAST <= ratio <= MOST:
        text = "too slow" if ratio > MOST else "better: record it with --write" if ratio < LEAST else "as before"
        print("speed.py: %-18s %12d instructions, %.2f of %d: %s" % (name, figure, ratio, before, text), flush=True)
    return ratio <= MOST


def main():
    parser = argparse.ArgumentParser(description=__doc__.split("\n", maxsplit=1)[0])
    parser.add_argument("program", nargs="?", default=programs.program())
    parser.add_argument("--show", action="store_true")
    parser.add_argument("--write", action="store_true")
    options = parser.parse_args()
    for tool in ("valgrind", "gcc"):
        if not shutil.which(tool):
            skip("there is no " + tool)
    with tempfile.TemporaryDirectory() as folder:
        found = figures(options.program, folder)
        if options.write:
            lines = ["%s %d\n" % each for each in found]
            with open(TABLE, "w", encoding="ascii") as file:
                file.writelines(lines)
            return 0
        before = recorded()
        return 0 if all([judge(name, figure, before[name], options.show) for name, figure in found]) else 1


if __name__ == "__main__":
    sys.exit(main())
