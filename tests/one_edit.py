#!/usr/bin/env python3
"""Compares versions after one edit, whose rows come from the version before, with the same map built anew.

    tests/one_edit.py [--edits N] [--every K] [--seed S]

On ten maps of some 300 to 9,000 cells so many edits are made one after the other, in a session of `talk` and, by fewer
edits on the smaller maps, by `replay`, which builds row by row: cells are blocked and freed, mostly one at a time, now and
then up to six together, doors among them, and components are cut and joined. After each edit a version is built, and
after each K-th the numbers of its cells, components and runs are compared with those of `check` of the edited map, and
paths between random cells with those of a session that begins with that map. A row has the fewest runs, so another
number of runs would be another row. Prints what differs; the status is 1 then."""
import argparse
import os
import random
import subprocess
import sys
import tempfile

from judging import TOP, program_here

sys.path.insert(0, os.path.join(TOP, "bench"))

from maps import drawn  # noqa: E402
from path_server import Accepted, Client, Path, Published, Terrain, Unreachable  # noqa: E402

KINDS = [("open", 24), ("rooms", 33), ("caves", 40), ("blocked35", 40), ("blocked20", 50), ("rooms", 50), ("open", 60),
         ("caves", 90), ("rooms", 67), ("rooms", 101)]
QUERIES = 20
REPLAYED = 1_200  # cells of the largest map that is replayed row by row


def text_of(rows):
    return "type octile\nheight %d\nwidth %d\nmap\n%s\n" % (len(rows), len(rows[0]), "\n".join("".join(row) for row in rows))


def is_door(rows, x, y):
    """Whether a passable cell lies between two blocked ones, north and south or east and west of it."""
    def closed(x, y):
        return not (0 <= y < len(rows) and 0 <= x < len(rows[0])) or rows[y][x] != "."
    return closed(x, y - 1) and closed(x, y + 1) or closed(x - 1, y) and closed(x + 1, y)


class Made:
    """A map that is edited, and what is asked of it."""

    def __init__(self, kind, side, rng):
        self.rows = [list(row) for row in drawn(kind, side)]
        self.rng = rng
        self.closed = []

    def cells(self):
        return [(x, y) for y, row in enumerate(self.rows) for x, letter in enumerate(row) if letter == "."]

    def one_cell(self):
        """A cell to turn over: a door, one that was blocked before, any passable cell, or a wall beside one."""
        cells, choice = self.cells(), self.rng.random()
        if self.closed and choice < 0.45:
            return self.closed.pop(self.rng.randrange(len(self.closed)))
        if choice < 0.7:
            cells = [cell for cell in cells if is_door(self.rows, *cell)] or cells
        x, y = self.rng.choice(cells)
        if choice > 0.9 and 0 < x < len(self.rows[0]) - 1:
            return x + self.rng.choice((-1, 1)), y
        return x, y

    def edit(self):
        """The next edit, made: each of its cells, with what it becomes."""
        changes = {}
        for _ in range(self.rng.choice((1, 1, 1, 1, 1, 1, 2, 3, 6))):
            x, y = self.one_cell()
            if (x, y) in changes:
                continue
            is_open = self.rows[y][x] == "."
            self.rows[y][x] = "@" if is_open else "."
            changes[x, y] = Terrain.BLOCKED if is_open else Terrain.LAND
            if is_open:
                self.closed.append((x, y))
        return list(changes.items())

    def queries(self):
        cells = self.cells()
        return [(self.rng.choice(cells), self.rng.choice(cells)) for _ in range(QUERIES)]


class Different(Exception):
    """An answer that is not that of the map built anew."""


def same(what, found, wanted):
    if found != wanted:
        raise Different("%s: %r, and not %r" % (what, found, wanted))


def numbers_of(program, name):
    """The numbers of cells, components and runs that `check` prints."""
    lines = subprocess.run([program, "check", name], capture_output=True, check=True).stdout.decode().splitlines()
    return [int(line.split()[1]) for line in lines[1:4]]


def told(reply):
    """What a reply to a query tells, without the version."""
    if isinstance(reply, Path):
        return reply.straight, reply.diagonal, reply.moves
    return type(reply)


def compare(program, client, made, name):
    """The version of the session beside the edited map."""
    with open(name, "w", encoding="ascii") as file:
        file.write(text_of(made.rows))
    status = client.status()
    same("cells, components and runs", [status.cells, status.components, status.runs], numbers_of(program, name))
    with Client.talk(name, program=program) as anew:
        for start, goal in made.queries():
            found = client.query(start, goal)
            assert isinstance(found, (Path, Unreachable)), found
            same("from %s to %s" % (start, goal), told(found), told(anew.query(start, goal)))


def try_session(program, made, options, folder):
    """Edits and builds in one session."""
    first, name = (os.path.join(folder, each) for each in ("first.map", "edited.map"))
    with open(first, "w", encoding="ascii") as file:
        file.write(text_of(made.rows))
    with Client.talk(first, "--room", "1", program=program) as client:
        client.hello()
        for number in range(1, options.edits + 1):
            changes = made.edit()
            reply = client.edit(changes)
            if not isinstance(reply, Accepted):
                raise Different("the edit %s is answered %r" % (changes, reply))
            built = client.build(timeout=600)
            if not isinstance(built, Published):
                raise Different("a build is answered %r" % (built,))
            if number % options.every == 0 or number == options.edits:
                compare(program, client, made, name)


def try_replay(program, made, options, folder):
    """The same row by row: the last version's walks, and each version's numbers of rows."""
    first, name, events = (os.path.join(folder, each) for each in ("first.map", "edited.map", "events"))
    with open(first, "w", encoding="ascii") as file:
        file.write(text_of(made.rows))
    lines, wanted = [], []
    for number in range(1, options.edits // 4 + 1):
        changes = made.edit()
        lines.append("submit 0 " + " ".join("%d %d %d" % (*cell, terrain.value) for cell, terrain in changes))
        lines += ["begin 0", *["row 0"] * len(made.cells()), "publish 0", "look 0"]
        if number % options.every == 0 or number == options.edits // 4:
            with open(name, "w", encoding="ascii") as file:
                file.write(text_of(made.rows))
            for start, goal in made.queries()[:5]:
                lines.append("query 0 %d %d %d %d" % (*start, *goal))
                words = [program, "path", name, *map(str, (*start, *goal))]
                wanted.append(subprocess.run(words, capture_output=True, check=True).stdout.decode().split("\n")[0])
    with open(events, "w", encoding="ascii") as file:
        file.write("\n".join(lines) + "\n")
    said = subprocess.run([program, "replay", first, events], capture_output=True, check=True).stdout.decode().splitlines()
    found = [line for line, asked in zip(said, lines) if asked.startswith("query")]
    same("the number of lines", len(said), len(lines))
    for line, cost in zip(found, wanted):
        if cost != "unreachable" and cost.split()[1:] != line.split()[4:6] or cost == "unreachable" and cost not in line:
            raise Different("replay: %r, and not %r" % (line, cost))


def main():
    parser = argparse.ArgumentParser(description=__doc__.split("\n", maxsplit=1)[0])
    parser.add_argument("--edits", type=int, default=30)
    parser.add_argument("--every", type=int, default=5)
    parser.add_argument("--seed", type=int, default=1)
    options = parser.parse_args()
    program, failed = program_here(), 0
    for kind, side in KINDS:
        rng = random.Random("%d %s %d" % (options.seed, kind, side))
        made = Made(kind, side, rng)
        with tempfile.TemporaryDirectory() as folder:
            try:
                try_session(program, made, options, folder)
                if len(made.cells()) <= REPLAYED:
                    try_replay(program, made, options, folder)
            except Different as fault:
                failed = 1
                print("one_edit.py: %s of %d: %s" % (kind, side, fault), file=sys.stderr)
    return failed


if __name__ == "__main__":
    sys.exit(main())
