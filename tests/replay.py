#!/usr/bin/env python3
"""Compares `path_server replay` with a plain model, over random lists of events on small maps.

    tests/replay.py [--lists N] [--seed S] [--side K]

Each list has at most 40 events, of a few passes, on a map of land and water of at most K by K cells (5 where no other
side is given). The model shares nothing with the program: a map is the letter of each passable cell, each version is
made anew, costs are exact pairs, and each path is spelled move by move from the row of each cell. Every line and the
status are compared; the first lists that differ are printed, and the status is 1 then. At last a list of more edits
than a board takes is played on a map of three cells. The program is the one that was built here, or the release.
"""

import argparse
import functools
import heapq
import os
import random
import subprocess
import sys
import tempfile

from judging import program_here

# ---- moves, numbered from 0: even ones are straight, odd ones diagonal

NAMES = ["N", "NE", "E", "SE", "S", "SW", "W", "NW"]
STEPS = [(0, -1), (1, -1), (1, 0), (1, 1), (0, 1), (-1, 1), (-1, 0), (-1, -1)]
MAX_PASSABLE = 32_768
MAX_EDITS = 1_048_576
LAND, WATER = ".", "W"


def moved(cell, move):
    return (cell[0] + STEPS[move][0], cell[1] + STEPS[move][1])


def is_legal(cells, cell, move):
    """Both ends are land or both water and, of a diagonal move, both cells beside it are of that class too."""
    (x, y), (dx, dy) = cell, STEPS[move]
    met = [(x, y), (x + dx, y + dy)] + ([(x + dx, y), (x, y + dy)] if move % 2 else [])
    return {cells.get(one) for one in met} in ({LAND}, {WATER})


def compare(left, right):
    """Compares a + b√2 of two pairs, exactly: -1, 0 or 1."""
    p, q = left[0] - right[0], right[1] - left[1]  # left - right = p - q√2
    if p == 0 and q == 0:
        return 0
    if p <= 0 and q >= 0:
        return -1
    if p >= 0 and q <= 0:
        return 1
    below = p * p < 2 * q * q if p > 0 else p * p > 2 * q * q
    return -1 if below else 1


COST = functools.cmp_to_key(compare)


def costs_from(cells, source):
    """The least cost from a cell to each cell that a path reaches."""
    best, waiting = {}, [(COST((0, 0)), source, (0, 0))]
    while waiting:
        _, cell, cost = heapq.heappop(waiting)
        if cell in best:
            continue
        best[cell] = cost
        for move in range(8):
            if is_legal(cells, cell, move):
                further = (cost[0] + 1 - move % 2, cost[1] + move % 2)
                heapq.heappush(waiting, (COST(further), moved(cell, move), further))
    return best


# ---- versions


def row_major(cells):
    return sorted(cells, key=lambda cell: (cell[1], cell[0]))


def depth_first(component):
    """The cells as they are visited from the first one, by N, E, S and W."""
    order = []

    def visit(cell):
        if cell in order:
            return
        order.append(cell)
        for move in (0, 2, 4, 6):
            if moved(cell, move) in component:
                visit(moved(cell, move))

    visit(row_major(component)[0])
    return order


class Version:
    def __init__(self, width, height, cells, order):
        self.width, self.height, self.cells = width, height, cells
        self.costs = {cell: costs_from(cells, cell) for cell in cells}
        self.components = {frozenset(reached) for reached in self.costs.values()}
        self.orders = {
            component: depth_first(component) if order == "dfs" else row_major(component)
            for component in self.components
        }

    def first_moves(self, source, goal):
        if source == goal:
            return set(range(8))
        found = set()
        for move in range(8):
            if is_legal(self.cells, source, move):
                rest = self.costs[moved(source, move)][goal]
                if (rest[0] + 1 - move % 2, rest[1] + move % 2) == self.costs[source][goal]:
                    found.add(move)
        return found

    def row(self, source):
        """The move to each cell of the source's component: that of the run that covers it."""
        cells = self.orders[frozenset(self.costs[source])]
        moves, run, common = {}, [], set(range(8))
        for cell in cells:
            both = common & self.first_moves(source, cell)
            if not both:
                moves.update((covered, min(common)) for covered in run)
                run, both = [], self.first_moves(source, cell)
            run, common = run + [cell], both
        moves.update((covered, min(common)) for covered in run)
        return moves

    def answer(self, start, goal):
        for cell, which in ((start, "start"), (goal, "goal")):
            if cell[0] >= self.width or cell[1] >= self.height:
                return "outside " + which
            if cell not in self.cells:
                return "blocked " + which
        if goal not in self.costs[start]:
            return "unreachable"
        moves, cell = [], start
        while cell != goal:
            moves.append(self.row(cell)[goal])
            cell = moved(cell, moves[-1])
        diagonal = sum(move % 2 for move in moves)
        cost = (len(moves) - diagonal, diagonal)
        assert cost == self.costs[start][goal], "the model's own path is not a best one"
        return " ".join(["cost %d %d moves" % cost] + [NAMES[move] for move in moves])


# ---- events


def number(word, most):
    if not word or any(byte not in "0123456789" for byte in word):
        return None
    return int(word) if int(word) <= most else None


# how many numbers follow the pass
SHAPES = {"submit": 3, "look": 0, "query": 4, "begin": 0, "row": 0, "publish": 0, "halt": 0}


def event_of(line):
    words = [word for word in line.replace("\t", " ").split(" ") if word]
    if words[0] not in SHAPES or len(words) != 2 + SHAPES[words[0]]:
        return None
    event = [words[0], number(words[1], 63)] + [number(word, 65_535) for word in words[2:]]
    if None in event or (words[0] == "submit" and words[4] not in ("0", "1")):
        return None
    return event


def read(text):
    """The events, or the line of the first refusal."""
    pieces = text.split("\n")
    lines = [piece[:-1] if piece.endswith("\r") else piece for piece in pieces]
    if not lines[-1]:
        lines.pop()
    events = []
    for place, line in enumerate(lines, 1):
        if line.strip(" \t"):
            event = event_of(line)
            if event is None:
                return None, place
            events.append(event)
    return events, None


class Board:
    def __init__(self, width, height, cells, order):
        self.width, self.height, self.start, self.order = width, height, cells, order
        self.edits, self.published, self.halts = [], 0, False
        self.held, self.builds = [0] * 64, [None] * 64

    def map_at(self, prefix):
        cells = dict(self.start)
        for cell, passable in self.edits[:prefix]:
            if passable:
                cells[cell] = LAND
            else:
                cells.pop(cell, None)
        return cells

    def version(self, prefix):
        return make_version(self.width, self.height, frozenset(self.map_at(prefix).items()), self.order)

    def run(self, event):
        return getattr(self, event[0])(*event[1:])

    def submit(self, _, x, y, passable):
        cells = self.map_at(len(self.edits))
        if x >= self.width or y >= self.height:
            return "outside"
        if passable and (x, y) not in cells and len(cells) == MAX_PASSABLE:
            return "too many cells"
        if len(self.edits) == MAX_EDITS:
            return "edits full"
        self.edits.append(((x, y), passable))
        return "accepted %d" % len(self.edits)

    def look(self, number):
        self.held[number] = self.published
        return "version %d accepted %d" % (self.published, len(self.edits))

    def query(self, number, start_x, start_y, goal_x, goal_y):
        version = self.version(self.held[number])
        answer = version.answer((start_x, start_y), (goal_x, goal_y))
        return "version %d %s" % (self.held[number], answer)

    def begin(self, number):
        self.builds[number], self.held[number] = None, self.published
        prefix = len(self.edits)
        if prefix == self.published:
            return "nothing new %d" % prefix
        old = self.version(self.published).components
        new = self.version(prefix).components
        built = sum(len(component) for component in new if component not in old)
        kept = sum(len(component) for component in new if component in old)
        self.builds[number] = [prefix, built, kept, built]
        return "job %d rows %d" % (prefix, built)

    def row(self, number):
        build = self.builds[number]
        if build is None or build[3] == 0:
            return "no row"
        build[3] -= 1
        return "row left %d" % build[3]

    def publish(self, number):
        build = self.builds[number]
        if build is None:
            return "no job"
        if build[3] > 0:
            return "not ready %d" % build[3]
        self.builds[number] = None
        if self.published >= build[0]:
            return "overtaken %d" % self.published
        self.published = build[0]
        return "published %d built %d kept %d" % (build[0], build[1], build[2])

    def halt(self, _):
        was, self.halts = self.halts, True
        return "halted" if was else "halting"


@functools.lru_cache(maxsize=64)
def make_version(width, height, cells, order):
    return Version(width, height, dict(cells), order)


def expected(width, height, cells, order, text):
    events, refused = read(text)
    if events is None:
        return 11, "events refused: line %d\n" % refused
    board = Board(width, height, cells, order)
    return 0, "".join("%d %s\n" % (event[1], board.run(event)) for event in events)


# ---- lists of events


def script(rng, width, height, number):
    """Some events of one pass: edits, whole and broken builds, looks and queries."""

    def cell():
        if rng.random() < 0.06:
            return "%d %d" % (rng.choice([width, 65_535, rng.randrange(9)]), rng.choice([height, 0, 65_535]))
        return "%d %d" % (rng.randrange(width), rng.randrange(height))

    lines = []
    for _ in range(rng.randint(1, 8)):
        kind = rng.random()
        if kind < 0.3:
            passable = rng.choice("01")
            lines.append("submit %d %s %s" % (number, cell(), passable))
        elif kind < 0.5:
            lines.append("begin %d" % number)
            rows = rng.choice([0, 1, 2, 3, 5, 8, width * height])
            lines += ["row %d" % number] * rows + ["publish %d" % number]
        elif kind < 0.6:
            lines.append("look %d" % number)
        elif kind < 0.96:
            lines.append("query %d %s %s" % (number, cell(), cell()))
        else:
            lines.append(rng.choice(["halt", "row", "publish"]) + " %d" % number)
    return lines


def merged(rng, scripts):
    lines = []
    while any(scripts):
        lines.append(rng.choice([one for one in scripts if one]).pop(0))
    return lines[:40]


def spoiled(rng, line):
    words = line.split(" ")
    place = rng.randrange(len(words))
    words[place] = rng.choice(["64", "65536", "00", "1x", "-1", "+1", "063", "0065535", "", "Look", "99999999999999999999"])
    if rng.random() < 0.2:
        words.append("0")
    return " ".join(words)


def text_of(rng, lines):
    if rng.random() < 0.15:
        place = rng.randrange(len(lines))
        lines[place] = spoiled(rng, lines[place])
    text = ""
    for line in lines:
        if rng.random() < 0.03:
            text += rng.choice(["", " \t", "\t"]) + rng.choice(["\n", "\r\n"])
        if rng.random() < 0.05:
            line = rng.choice([" ", "\t"]) + line.replace(" ", rng.choice(["\t", "  ", " \t "])) + rng.choice(["", " "])
        text += line + rng.choice(["\n", "\n", "\n", "\r\n"])
    return text[: -rng.choice([0, 0, 0, 1])] if rng.random() < 0.2 and len(text) > 1 else text


def cells_of(rng, width, height, blocked):
    """The letters of a made map's passable cells, of which some are water on every other map."""
    water = rng.choice([0.0, 0.0, 0.2, 0.5])
    every = [(x, y) for y in range(height) for x in range(width)]
    return {cell: WATER if rng.random() < water else LAND for cell in every if rng.random() >= blocked}


def list_of(rng, side):
    width, height = rng.randint(1, side), rng.randint(1, side)
    cells = cells_of(rng, width, height, rng.choice([0.0, 0.15, 0.3, 0.5]))
    passes = rng.sample([0, 1, 2, 62, 63], rng.choice([1, 2, 2, 3, 4]))
    lines = merged(rng, [script(rng, width, height, number) for number in passes])
    return width, height, cells, text_of(rng, lines)


def map_text(width, height, cells):
    rows = ("".join(cells.get((x, y), "@") for x in range(width)) for y in range(height))
    return "type octile\nheight %d\nwidth %d\nmap\n%s\n" % (height, width, "\n".join(rows))


def is_full_list_right(program, folder):
    """Whether a list of one edit too many is answered line by line."""
    map_file, events_file = os.path.join(folder, "full.map"), os.path.join(folder, "full.events")
    with open(map_file, "w") as file:
        file.write(map_text(3, 1, {(0, 0): LAND, (1, 0): LAND, (2, 0): LAND}))
    with open(events_file, "w") as file:
        file.write("submit 0 0 0 0\n" * MAX_EDITS + "submit 1 0 0 1\nsubmit 1 3 0 1\n")
    wanted = "".join("0 accepted %d\n" % (count + 1) for count in range(MAX_EDITS)) + "1 edits full\n1 outside\n"
    ran = subprocess.run([program, "replay", map_file, events_file], stdout=subprocess.PIPE, stderr=subprocess.DEVNULL)
    return ran.returncode == 0 and ran.stdout.decode() == wanted


def main():
    parser = argparse.ArgumentParser(description=__doc__.split("\n")[0])
    parser.add_argument("--lists", type=int, default=3000)
    parser.add_argument("--seed", type=int, default=1)
    parser.add_argument("--side", type=int, default=5)
    options = parser.parse_args()
    program, rng, differing, seen = program_here(), random.Random(options.seed), 0, {}
    with tempfile.TemporaryDirectory() as folder:
        map_file, events_file = os.path.join(folder, "m.map"), os.path.join(folder, "m.events")
        for turn in range(options.lists):
            width, height, cells, text = list_of(rng, options.side)
            order, workers = rng.choice(["rows", "dfs"]), rng.choice([1, 1, 1, 2, 7])
            with open(map_file, "w") as file:
                file.write(map_text(width, height, cells))
            with open(events_file, "w", newline="") as file:
                file.write(text)
            words = [program, "replay", map_file, events_file, "--order", order, "--workers", str(workers)]
            ran = subprocess.run(words, stdout=subprocess.PIPE, stderr=subprocess.DEVNULL)
            found = (ran.returncode, ran.stdout.decode())
            wanted = expected(width, height, cells, order, text)
            for line in wanted[1].splitlines():
                kind = " ".join(word for word in line.split(" ")[1:] if not word.isdigit() and word not in NAMES)
                seen[kind] = seen.get(kind, 0) + 1
            if found != wanted:
                differing += 1
                if differing <= 3:
                    print("list %d, %s:\n%s%s" % (turn, order, map_text(width, height, cells), text))
                    for want, got in zip(wanted[1].splitlines(), found[1].splitlines()):
                        print(("  " if want == got else "! ") + want + ("" if want == got else " | " + got))
                    print("status %d, wanted %d" % (found[0], wanted[0]))
        if not is_full_list_right(program, folder):
            differing += 1
            print("the list of %d edits and one more differs" % MAX_EDITS)
    for kind in sorted(seen):
        print("%8d  %s" % (seen[kind], kind))
    print("replay.py: %d lists, %d lines, %d lists differ" % (options.lists, sum(seen.values()), differing))
    sys.exit(1 if differing else 0)


if __name__ == "__main__":
    main()
