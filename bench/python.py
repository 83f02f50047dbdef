#!/usr/bin/env python3
"""Measures queries a second from Python on one map, and prints a table in Markdown: of a server on this machine, of an
image in process, and of a plain A* in Python.

    bench/python.py [KIND SIDE]    caves 110 where they are not given

Each asks for paths between random cells; the costs of all are compared with those of the image. The programs and the
library are those of bench/programs.py."""
import asyncio
import heapq
import os
import random
import sys
import tempfile
import time

import maps
from programs import TOP, newest, program

os.environ.setdefault("PATHDB_LIBRARY", newest("", "out/lib/libpathdb.so", "release/pathdb/libpathdb.so"))
sys.path[:0] = [os.path.join(TOP, "clients", name) for name in ("python", "pathdb")]
from path_server import Server, aio
from pathdb import Image, Move

ROOT = 2**0.5
IN_FLIGHT, MANY = 64, 1000


def measured(name, asked, work):
    """Prints the line of some work, which asks so often; returns what the work returns."""
    began = time.perf_counter()
    found = work()
    print(f"| {name} | {asked / (time.perf_counter() - began):,.0f} |", flush=True)
    return found


def a_star(free, start, goal):
    """The length of a shortest path, by a search with a heap and the distance on an open map."""

    def ahead(cell):
        across, down = abs(cell[0] - goal[0]), abs(cell[1] - goal[1])
        return max(across, down) + (ROOT - 1) * min(across, down)

    costs, heap, done = {start: 0.0}, [(ahead(start), start)], set()
    while heap:
        cell = heapq.heappop(heap)[1]
        if cell == goal:
            return costs[cell]
        if cell in done:
            continue
        done.add(cell)
        x, y = cell
        for across, down in (move.step for move in Move):
            to = (x + across, y + down)
            if to in free and (x + across, y) in free and (x, y + down) in free:
                cost = costs[cell] + (ROOT if across and down else 1)
                if cost < costs.get(to, float("inf")):
                    costs[to] = cost
                    heapq.heappush(heap, (cost + ahead(to), to))
    return float("inf")


async def at_once(port, pairs):
    """The lengths of paths that are asked for with so many queries in flight."""
    lengths, left = [0.0] * len(pairs), iter(enumerate(pairs))
    async with await aio.Client.connect(port) as client:

        async def ask():
            for number, pair in left:
                lengths[number] = (await client.query(*pair)).length

        await asyncio.gather(*(ask() for _ in range(IN_FLIGHT)))
    return lengths


def main():
    kind, side = sys.argv[1:] or ("caves", "110")
    rows = maps.drawn(kind, int(side))
    cells, chance = maps.passable(rows), random.Random(1)
    free = set(cells)
    pairs = [(chance.choice(cells), chance.choice(cells)) for _ in range(5000)]
    image = Image.bake(maps.map_text(rows))
    print(f"{kind} {side}, {len(cells):,} cells\n\n| from Python | queries a second |\n|---|---|")
    with tempfile.NamedTemporaryFile("w", suffix=".map") as file:
        file.write(maps.map_text(rows))
        file.flush()
        with Server(file.name, program=program()) as server, server.connect() as client:
            found = [
                measured("a server, one by one", 5000, lambda: [client.query(*pair).length for pair in pairs]),
                measured("a server, batches of 100", 5000, lambda: [
                    path.length for first in range(0, 5000, 100) for path in client.queries(pairs[first:first + 100])]),
                measured(f"a server, asyncio, {IN_FLIGHT} in flight", 5000,
                         lambda: asyncio.run(at_once(server.port, pairs))),
            ]
    found.append(measured("`Image.path`", 5000, lambda: [image.path(*pair).cost.length for pair in pairs]))
    starts, goals = ([chance.choice(cells) for _ in range(MANY)] for _ in range(2))
    between = measured("`Image.costs_between`, 1,000 by 1,000", MANY * MANY, lambda: image.costs_between(starts, goals))
    plain = measured("a plain A* in Python", 100, lambda: [a_star(free, *pair) for pair in pairs[:100]])
    flat = between.ravel() if hasattr(between, "shape") else between
    found += [plain, [flat[number * (MANY + 1)] for number in range(MANY)]]
    pairs_of = [pairs] * 5 + [list(zip(starts, goals))]
    wrong = sum(abs(length - image.cost(*pair).length) > 1e-6
                for lengths, ends in zip(found, pairs_of) for length, pair in zip(lengths, ends))
    if wrong:
        raise SystemExit(f"{wrong} lengths are wrong")


main()
