#!/usr/bin/env python3
"""The library for Python: what its calls answer, beside a plain search over the cells, and under threads.

PATHDB_LIBRARY names the library; without it the one of the release is taken.
"""

from __future__ import annotations

import contextlib
import heapq
import io
import os
import random
import subprocess
import sys
import tempfile
import threading
import unittest
import zipfile
from typing import Any, Dict, List, Optional, Tuple

HERE = os.path.dirname(os.path.abspath(__file__))
TOP = os.path.join(HERE, "../../..")
os.environ.setdefault("PATHDB_LIBRARY", os.path.join(TOP, "release/pathdb/libpathdb.so"))
sys.path.insert(0, os.path.dirname(HERE))

from pathdb import NO_MOVE, BadCell, BadMap, Cell, Cost, Image, Move, NotAnImage, Order, Path, _library

Rows = List[bytes]
INFINITE = float("inf")


def made(width: int, height: int, seed: int) -> Rows:
    """Rows of cells, most of them land and some water."""
    numbers = random.Random(seed)
    return [bytes(numbers.choices((0, 1, 2), (3, 8, 1), k=width)) for _ in range(height)]


def steps(rows: Rows, cell: Cell) -> Dict[Cell, bool]:
    """The cells to which legal moves lead, and whether the move is diagonal."""

    def kind(x: int, y: int) -> int:
        return rows[y][x] if 0 <= y < len(rows) and 0 <= x < len(rows[0]) else 0

    x, y = cell
    found = {}
    for move in Move:
        dx, dy = move.step
        if kind(x, y) and {kind(x + dx, y + dy), kind(x + dx, y), kind(x, y + dy)} == {kind(x, y)}:
            found[x + dx, y + dy] = dx != 0 and dy != 0
    return found


def lengths_from(rows: Rows, start: Cell) -> Dict[Cell, float]:
    """The lengths of the shortest paths from a cell, by Dijkstra's search."""
    lengths: Dict[Cell, float] = {}
    queue: List[Tuple[float, Cell]] = [(0.0, start)]
    while queue:
        length, cell = heapq.heappop(queue)
        if cell not in lengths:
            lengths[cell] = length
            for to, is_diagonal in steps(rows, cell).items():
                heapq.heappush(queue, (length + (2**0.5 if is_diagonal else 1.0), to))
    return lengths


def listed(numbers: Any, kind: str) -> List[Any]:
    """The numbers of an array, row by row, of numpy or not."""
    return list(memoryview(numbers).cast("B").cast(kind))


class Answers(unittest.TestCase):
    def test_beside_a_plain_search(self) -> None:
        for seed in range(12):
            rows = made(11, 8, seed)
            image = Image.bake(rows, Order(seed % 2))
            cells = [(x, y) for y in range(8) for x in range(11)]
            passable = [cell for cell in cells if rows[cell[1]][cell[0]]]
            for start in passable[:: 1 + len(passable) // 12]:
                lengths = lengths_from(rows, start)
                for goal in passable:
                    self.judge(rows, image, start, goal, lengths.get(goal))
                for cell, length in zip(cells, listed(image.costs(start), "d")):
                    self.assertAlmostEqual(length, lengths.get(cell, INFINITE))

    def judge(self, rows: Rows, image: Image, start: Cell, goal: Cell, length: Optional[float]) -> None:
        path, cost, move = image.path(start, goal), image.cost(start, goal), image.next_move(start, goal)
        if length is None:
            self.assertEqual((path, cost, move), (None, None, None))
            return
        assert path is not None and cost is not None
        cells = path.cells()
        self.assertEqual((cells[0], cells[-1], path.cost), (start, goal, cost))
        self.assertTrue(all(to in steps(rows, at) for at, to in zip(cells, cells[1:])))
        self.assertAlmostEqual(cost.length, length)
        self.assertEqual(move, path.moves[0] if path.moves else None)

    def test_first_moves(self) -> None:
        image = Image.bake([[1, 1, 0], [1, 1, 1]])
        moves = listed(image.first_moves((0, 0)), "B")
        self.assertEqual(moves, [NO_MOVE, Move.W, NO_MOVE, Move.N, Move.NW, Move.W])

    def test_costs_between(self) -> None:
        image = Image.bake([[1, 1, 0, 1]])
        told = listed(image.costs_between([(0, 0), (1, 0)], [(1, 0), (3, 0), (2, 0)]), "d")
        self.assertEqual(told, [1.0, INFINITE, INFINITE, 0.0, INFINITE, INFINITE])

    def test_a_path(self) -> None:
        with open(os.path.join(TOP, "maps/tutorial.map"), "rb") as file:
            path = Image.bake(file.read()).path((2, 2), (37, 17))
        assert path is not None
        self.assertEqual((path.cost, len(path)), (Cost(26, 12), 38))  # as README.md at the top prints it
        turns = sum(a != b for a, b in zip(path.moves, path.moves[1:]))
        self.assertEqual((path.corners()[0], path.corners()[-1], len(path.corners())), ((2, 2), (37, 17), turns + 2))

    def test_no_move_has_no_corner(self) -> None:
        self.assertEqual(Image.bake([[1]]).corners((0, 0), (0, 0)), [(0, 0)])


HAS_LIVE = hasattr(_library.CALLS, "pathdb_path_live")


@unittest.skipUnless(HAS_LIVE, "the library is older than include/pathdb.h: release/lib makes it")
class LiveMaps(unittest.TestCase):
    def test_beside_a_plain_search(self) -> None:
        told = searched = 0
        for seed in range(12):
            rows, numbers = made(11, 8, seed), random.Random(seed)
            image = Image.bake(rows, Order(seed % 2))
            blocked = [(numbers.randrange(11), numbers.randrange(8)) for _ in range(6)]
            live = image.live(blocked)
            now = [bytes(0 if (x, y) in blocked else cell for x, cell in enumerate(row)) for y, row in enumerate(rows)]
            passable = [(x, y) for y in range(8) for x in range(11) if now[y][x]]
            for start in passable[:: 1 + len(passable) // 12]:
                lengths = lengths_from(now, start)
                for goal in passable:
                    self.judge(now, live.path(start, goal), start, goal, lengths.get(goal))
                    self.judge(now, live.search(start, goal), start, goal, lengths.get(goal))
                    found = live.told(start, goal)
                    if found is not None and found.is_free:
                        told += 1
                        self.judge(now, found.path, start, goal, lengths.get(goal))
                    elif found is not None:
                        searched += 1
                        baked = image.path(start, goal)
                        assert baked is not None
                        self.assertEqual(found.path.moves, baked.moves[: len(found.path)])
        self.assertGreater(min(told, searched), 50)

    def judge(self, now: Rows, path: Optional[Path], start: Cell, goal: Cell, length: Optional[float]) -> None:
        self.assertEqual(path is None, length is None)
        if path is not None and length is not None:
            cells = path.cells()
            self.assertEqual((cells[0], cells[-1]), (start, goal))
            self.assertTrue(all(to in steps(now, at) for at, to in zip(cells, cells[1:])))
            self.assertAlmostEqual(path.cost.length, length)

    def test_a_door(self) -> None:
        live = Image.bake([[1, 1, 1], [1, 0, 1], [1, 1, 1]]).live()
        self.assertEqual(live.next_move((0, 0), (2, 0)), (Move.E, True))
        live.block((1, 0))
        self.assertEqual(live.next_move((0, 0), (2, 0)), (Move.E, False))
        self.assertEqual(live.told((0, 0), (2, 0)), (Path((0, 0), b""), False))
        path = live.path((0, 0), (2, 0))
        self.assertEqual(path and len(path), 6)
        live.block((1, 2))
        self.assertIsNone(live.path((0, 0), (2, 0)))
        with self.assertRaisesRegex(BadCell, r"^goal \(1, 2\) is blocked$"):
            live.path((0, 0), (1, 2))
        live.free((1, 0))
        self.assertEqual((live.is_blocked((1, 0)), live.is_blocked((1, 2))), (False, True))
        path = live.path((0, 0), (2, 0))
        self.assertEqual(path and path.moves, bytes([Move.E, Move.E]))
        self.assertIsNone(live.next_move((0, 0), (0, 0)))
        for call in (live.block, live.free, live.is_blocked):
            self.assertRaisesRegex(BadCell, r"^cell \(3, 0\) lies outside", call, (3, 0))

    def test_threads(self) -> None:
        live = Image.bake([[1] * 20 for _ in range(20)]).live((x, 10) for x in range(19))
        wrong: List[int] = []

        def ask(column: int) -> None:
            for _ in range(20):
                path = live.path((column, 0), (column, 19))
                if path is None or path.cells()[-1] != (column, 19) or (19, 10) not in path.cells():
                    wrong.append(column)

        threads = [threading.Thread(target=ask, args=(column,)) for column in range(16)]
        for thread in threads:
            thread.start()
        for thread in threads:
            thread.join()
        self.assertEqual(wrong, [])


class Faults(unittest.TestCase):
    def test_ends(self) -> None:
        image = Image.bake([[1, 0, 1]])
        for start, goal, said in (
            ((1, 0), (0, 0), r"^start \(1, 0\) is blocked$"),
            ((0, 0), (1, 0), r"^goal \(1, 0\) is blocked$"),
            ((0, 1), (0, 0), r"^start \(0, 1\) lies outside the map of 3 by 1$"),
            ((0, 0), (-1, 0), r"^goal \(-1, 0\) lies outside the map of 3 by 1$"),
            ((0, 0), (1 << 40, 0), "^goal .* lies outside"),
        ):
            for call in (image.path, image.cost, image.corners):
                with self.assertRaisesRegex(BadCell, said):
                    call(start, goal)
        with self.assertRaisesRegex(BadCell, "^at .* is blocked$"):
            image.next_move((1, 0), (0, 0))
        cells: Tuple[Any, ...] = ((1.0, 0), (0, 0, 0), "ab", None, 7)
        for cell in cells:
            with self.assertRaisesRegex(TypeError, "^goal is a column and a row, two whole numbers, and not "):
                image.path((0, 0), cell)

    def test_maps(self) -> None:
        sources: Tuple[Any, ...] = (
            (b"type octile\nheight 1\nwidth 2\nmap\n...\n", "line 5: 3 cells, and not 2"),
            ("type octile\nheight 1\nwidth 1\nmap\nx\n", r"120 at \(0, 0\)"),
            ([[1, 1], [1]], "row 1 has 1 cells, and not 2"),
            ([[1, 3]], r"3 at \(1, 0\)"),
            ([], ""),
        )
        for source, said in sources:
            with self.assertRaisesRegex(BadMap, said):
                Image.bake(source)

    def test_files(self) -> None:
        with tempfile.TemporaryDirectory() as folder:
            name = os.path.join(folder, "one.image")
            image = Image.bake([[1, 1, 1]])
            image.save(name)
            self.assertEqual(Image.open(name).facts, image.facts)
            self.assertEqual(os.path.getsize(name), len(image))
            with open(name, "rb") as file:
                data = file.read()
            self.assertEqual(Image.of_bytes(data).cost((0, 0), (2, 0)), Cost(2, 0))
            for spoilt in (b"", data[:-4], data[:-1], data + b"\0\0\0\0", b"\1" + data[1:]):
                with open(name, "wb") as file:
                    file.write(spoilt)
                self.assertRaises(NotAnImage, Image.open, name)
            self.assertRaises(OSError, Image.open, folder + "/none")


class Threads(unittest.TestCase):
    def test_one_image(self) -> None:
        image = Image.bake([[1] * 40 for _ in range(30)])
        wrong: List[Cell] = []

        def ask(row: int) -> None:
            for column in range(40):
                path = image.path((0, row), (column, 29 - row))
                if path is None or path.cells()[-1] != (column, 29 - row):
                    wrong.append((row, column))

        threads = [threading.Thread(target=ask, args=(row,)) for row in range(16)]
        for thread in threads:
            thread.start()
        for thread in threads:
            thread.join()
        self.assertEqual(wrong, [])


class Package(unittest.TestCase):
    def test_readme(self) -> None:
        """README.md: its examples, one after the other, at the top of the repository."""
        with open(os.path.join(HERE, "../README.md"), encoding="utf-8") as file:
            examples = [part.split("```")[0] for part in file.read().split("```python\n")[1:]]
        place = os.getcwd()
        os.chdir(TOP)
        try:
            with contextlib.redirect_stdout(io.StringIO()) as out:
                names: Dict[str, object] = {}
                for code in examples:
                    if HAS_LIVE or "image.live" not in code:
                        exec(code, names)
        finally:
            os.chdir(place)
        self.assertTrue(out.getvalue().startswith("42.97"), out.getvalue())

    def test_wheel(self) -> None:
        """The wheel is the same each time, carries the library, and answers alone."""
        build = "import backend, sys; print(backend.build_wheel(sys.argv[1]))"
        with tempfile.TemporaryDirectory() as one, tempfile.TemporaryDirectory() as other:
            wheels = []
            for folder in (one, other):
                command = [sys.executable, "-B", "-c", build, folder]
                name = subprocess.run(command, cwd=HERE + "/..", check=True, capture_output=True, text=True).stdout
                with open(os.path.join(folder, name.strip()), "rb") as file:
                    wheels.append(file.read())
            self.assertEqual(wheels[0], wheels[1])
            with zipfile.ZipFile(os.path.join(one, name.strip())) as archive:
                archive.extractall(os.path.join(one, "found"))
            code = "import pathdb; print(pathdb.Image.bake([[1, 1]]).cost((0, 0), (1, 0)).straight)"
            alone = {"PATH": os.environ["PATH"], "PYTHONPATH": "found"}
            said = subprocess.run([sys.executable, "-c", code], cwd=one, env=alone, check=True, capture_output=True)
            self.assertEqual(said.stdout, b"1\n")


if __name__ == "__main__":
    unittest.main()
