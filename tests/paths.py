#!/usr/bin/env python3
"""Compares `path_server path` and `check` with a plain model, over random maps.

    tests/paths.py [--maps N] [--seed S] [--side K]

Maps have land and water, and at most K by K cells (9 where no other side is given). The model is that of replay.py: it
shares nothing with the program. Of each map all four lines of `check` are compared, and of some queries, ends outside
and blocked among them, the status and the whole text of `path`: cost, length and each move. The first that differ are
printed, and the status is 1 then. The program is the one that was built here, or the release.
"""

import argparse
import math
import os
import random
import subprocess
import sys
import tempfile

from judging import program_here
from replay import Version, cells_of, map_text


def runs_of(version):
    """How many runs all rows have: a run ends where the next cell's move has nothing in common with those before."""
    total = 0
    for source in version.cells:
        common = set()
        for cell in version.orders[frozenset(version.costs[source])]:
            common &= version.first_moves(source, cell)
            if not common:
                total, common = total + 1, version.first_moves(source, cell)
    return total


def length_of(straight, diagonal):
    """The length a + b√2 with six digits, the rest cut off, by whole numbers alone."""
    micro = straight * 10**6 + math.isqrt(2 * diagonal * diagonal * 10**12)
    return "%d.%06d" % divmod(micro, 10**6)


def path_wanted(version, start, goal):
    """The status of `path` and its text."""
    told = version.answer(start, goal)
    if not told.startswith("cost"):
        return (0 if told == "unreachable" else 4), told + "\n"
    words = told.split(" ")
    straight, diagonal = int(words[1]), int(words[2])
    moves = " ".join(["moves"] + words[4:])
    return 0, "cost %d %d\nlength %s\n%s\n" % (straight, diagonal, length_of(straight, diagonal), moves)


def check_wanted(version):
    totals = (version.width, version.height, len(version.cells), len(version.components), runs_of(version))
    return 0, "size %d %d\ncells %d\ncomponents %d\nruns %d\n" % totals


def answer_of(program, words):
    ran = subprocess.run([program] + words, stdout=subprocess.PIPE, stderr=subprocess.DEVNULL)
    return ran.returncode, ran.stdout.decode()


def main():
    parser = argparse.ArgumentParser(description=__doc__.split("\n")[0])
    parser.add_argument("--maps", type=int, default=200)
    parser.add_argument("--seed", type=int, default=1)
    parser.add_argument("--side", type=int, default=9)
    options = parser.parse_args()
    program, rng, answers, differing = program_here(), random.Random(options.seed), 0, 0
    with tempfile.TemporaryDirectory() as folder:
        name = os.path.join(folder, "m.map")
        for _ in range(options.maps):
            width, height = rng.randint(1, options.side), rng.randint(1, options.side)
            blocked, order = rng.choice([0.0, 0.1, 0.25, 0.4]), rng.choice(["rows", "dfs"])
            cells = cells_of(rng, width, height, blocked)
            with open(name, "w") as file:
                file.write(map_text(width, height, cells))
            version = Version(width, height, cells, order)
            build = ["--order", order, "--workers", str(rng.choice([1, 1, 2, 5]))]
            asked = [(["check", name] + build, check_wanted(version))]
            for _ in range(4):
                start, goal = [(rng.randint(0, width), rng.randint(0, height)) for _ in range(2)]
                words = ["path", name] + [str(number) for number in start + goal] + build
                asked.append((words, path_wanted(version, start, goal)))
            for words, wanted in asked:
                answers, found = answers + 1, answer_of(program, words)
                if found != wanted:
                    differing += 1
                    if differing <= 3:
                        print(map_text(width, height, cells) + " ".join(words))
                        print("wanted: %s\ngot:    %s" % (wanted, found))
    print("paths.py: %d maps, %d answers, %d differ" % (options.maps, answers, differing))
    sys.exit(1 if differing else 0)


if __name__ == "__main__":
    main()
