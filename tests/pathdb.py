#!/usr/bin/env python3
"""The library for C beside the program: on random maps in both orders each path of the library, the sample in Python
between, is word for word what `path_server path` prints; images in parts are those of one call, and those that
`path_bake` puts; and what the calls say of faulty maps, rooms, parts and images.

    tests/pathdb.py [--maps N] [--queries N] [--seed S]

Prints what differs, and the status is 1 then.
"""
import argparse
import ctypes
import importlib.util
import os
import random
import struct
import subprocess
import sys
import tempfile
from ctypes import byref, c_size_t, c_uint8, c_uint32

from judging import TOP, Judge, bake_here, library_here, program_here
from paths import length_of
from replay import WATER, cells_of, map_text

ORDERS = ("rows", "dfs")
judge = Judge()


def sample():
    """The module examples/path.py."""
    spec = importlib.util.spec_from_file_location("path_sample", os.path.join(TOP, "examples/path.py"))
    module = importlib.util.module_from_spec(spec)
    spec.loader.exec_module(module)
    return module


ctypes_path = sample()


def told_by_program(program, name, start, goal, order):
    words = [program, "path", name, *map(str, start), *map(str, goal), "--order", order]
    ran = subprocess.run(words, stdout=subprocess.PIPE, stderr=subprocess.DEVNULL)
    return ran.returncode, ran.stdout.decode()


def told_by_library(library, image, start, goal):
    """The status and the text of `path`, from the library's answers."""
    try:
        found = library.path(image, start, goal)
    except ctypes_path.PathFailed as refusal:
        return 4, f"{refusal}\n"
    if found is None:
        return 0, "unreachable\n"
    cost, moves = found
    names = " ".join(["moves"] + [ctypes_path.MOVES[move] for move in moves])
    return 0, f"cost {cost.straight} {cost.diagonal}\nlength {length_of(cost.straight, cost.diagonal)}\n{names}\n"


def walk_by_steps(library, image, start, goal, most):
    """The moves that single steps make."""
    move, moves, at = c_uint8(), [], start
    for _ in range(most):
        words = (image, c_size_t(len(image)), ctypes_path.Cell(*at), ctypes_path.Cell(*goal), byref(move))
        if library.calls.pathdb_next_move(*words) != ctypes_path.DONE:
            break
        moves.append(move.value)
        east, south = ((0, -1), (1, -1), (1, 0), (1, 1), (0, 1), (-1, 1), (-1, 0), (-1, -1))[move.value]
        at = (at[0] + east, at[1] + south)
    return moves


def compare_maps(library, program, bake, options):
    rng = random.Random(options.seed)
    with tempfile.TemporaryDirectory() as folder:
        name = os.path.join(folder, "m.map")
        for number in range(options.maps):
            width, height = rng.randint(1, 40), rng.randint(1, 30)
            cells = cells_of(rng, width, height, rng.choice([0.05, 0.15, 0.3]))
            text = map_text(width, height, cells)
            with open(name, "w") as file:
                file.write(text)
            for order, order_name in enumerate(ORDERS):
                image = library.bake(text.encode(), order)
                library.check(image)
                plan = (width, height, bytes_of(width, height, cells))
                compare_parts(library, f"map {number} {order_name}", plan, order, list(image))
                put = subprocess.run([bake, name, "--order", order_name], stdout=subprocess.PIPE).stdout
                judge(f"path_bake of map {number} {order_name}", put, struct.pack(f"<{len(image)}I", *image))
                for _ in range(options.queries):
                    start = (rng.randint(0, width), rng.randint(0, height))
                    goal = (rng.randint(0, width), rng.randint(0, height))
                    wanted = told_by_program(program, name, start, goal, order_name)
                    what = f"map {number} {order_name} {start} {goal}"
                    judge(what, told_by_library(library, image, start, goal), wanted)
                    if wanted[1].startswith("cost"):
                        steps = walk_by_steps(library, image, start, goal, 40 * 30)
                        moves = " ".join(["moves"] + [ctypes_path.MOVES[move] for move in steps])
                        judge(f"steps of {what}", moves, wanted[1].split("\n")[2])


def numbers_of(baked):
    """What a bake tells, but for what is 0."""
    return {name: getattr(baked, name) for name, _ in baked._fields_ if getattr(baked, name)}


def bake(library, text, order, room):
    """The status of a bake, what it tells, and the room."""
    words, baked = (c_uint32 * max(room, 1))(*([7] * max(room, 1))), ctypes_path.Baked()
    status = library.calls.pathdb_bake_text(text, len(text), order, words, room, byref(baked))
    return library.text(status), numbers_of(baked), list(words)


def faults(library):
    def texts(name):
        with open(os.path.join(TOP, name), "rb") as file:
            return file.read()

    row = b"type octile\nheight 1\nwidth 3\nmap\n...\n"
    image = [1752457584, 1734438249, 1, 26, 3, 1, 0, 0, 3, 1, 0, 1, 2, 14, 3, 0, 1, 2, 0, 1, 3, 4, 2, 6, 18, 6]
    judge("the image of three cells", bake(library, row, 0, 28), ("done", {"words": 26}, image + [7, 7]))
    judge("a room of just 26", bake(library, row, 0, 26), ("done", {"words": 26}, image))
    for room in (0, 1, 25):
        wanted = ("room for too few", {"words": 26}, [7] * max(room, 1))
        judge(f"a room of {room}", bake(library, row, 0, room), wanted)
    cases = (
        ("no order", row, 2, "no order has this number", {}),
        ("header", b"type\n", 0, "wrong line of a map's header", {"line": 1}),
        ("size", b"type octile\nheight 5000\nwidth 3\nmap\n", 0, "sides that no map may have", {"line": 2}),
        ("row", row.replace(b"...", b".."), 0, "row of another length", {"line": 5, "expected": 3, "found": 2}),
        ("byte", row.replace(b"...", b"..x"), 0, "byte that stands for no cell", {"x": 2, "byte": 120}),
        ("rows", row.replace(b"height 1", b"height 2"), 0, "too few rows", {"found": 1}),
        ("extra", row + b"\nx\n", 0, "line behind the rows", {"line": 7}),
        ("long", b"x" * 2097153, 0, "map text too long", {}),
    )
    for what, text, order, status, told in cases:
        judge(what, bake(library, text, order, 4), (status, told, [7] * 4))
    wide = b"type octile\nheight 200\nwidth 200\nmap\n" + (b"." * 200 + b"\n") * 200
    judge("too many", bake(library, wide, 0, 1)[:2], ("too many passable cells", {"x": 168, "y": 163}))
    with_cells(library, image)
    with_parts(library, image)


def with_cells(library, image):
    calls = library.calls
    calls.pathdb_bake_cells.restype = c_uint32

    def bake_cells(width, height, cells, order=0):
        words, baked = (c_uint32 * 64)(), ctypes_path.Baked()
        room = (c_uint8 * max(len(cells), 1))(*cells)
        sides = (c_uint32(width), c_uint32(height))
        status = calls.pathdb_bake_cells(
            *sides, room, c_size_t(len(cells)), c_uint32(order), words, c_size_t(64), byref(baked)
        )
        return library.text(status), numbers_of(baked), list(words[: baked.words])

    judge("three cells", bake_cells(3, 1, [1, 1, 1]), ("done", {"words": 26}, image))
    judge("no sides", bake_cells(0, 1, []), ("sides that no map may have", {}, []))
    judge("long sides", bake_cells(4097, 1, []), ("sides that no map may have", {}, []))
    judge("a cell too few", bake_cells(3, 1, [1, 1]), ("more cells or fewer than the sides say", {}, []))
    wanted = ("byte that stands for no cell", {"x": 1, "y": 1, "byte": 3}, [])
    judge("a byte of no cell", bake_cells(3, 2, [1, 1, 1, 1, 3, 1]), wanted)
    judge("no order of cells", bake_cells(3, 1, [1, 1, 1], 9), ("no order has this number", {}, []))
    judge("too many cells", bake_cells(256, 129, [2] * 256 * 129), ("too many passable cells", {}, []))
    water = bake_cells(3, 1, [1, 0, 2], 1)
    judge("land and water", (water[0], water[2][8:10]), ("done", [2, 2]))


class Sources(ctypes.Structure):
    _fields_ = [(name, c_uint32) for name in ("component", "first", "count")]


def bytes_of(width, height, cells):
    """A map in a byte a cell, row by row."""
    every = ((x, y) for y in range(height) for x in range(width))
    return bytes(0 if at not in cells else 2 if cells[at] == WATER else 1 for at in every)


def call_on_map(library, name, plan, order, room, *given):
    """What a call says of a map: its status, what it tells, and the room."""
    width, height, cells = plan
    call = getattr(library.calls, f"pathdb_{name}")
    words, baked = (c_uint32 * max(room, 1))(*([7] * max(room, 1))), ctypes_path.Baked()
    at = (c_uint8 * max(len(cells), 1))(*cells)
    sides = (c_uint32(width), c_uint32(height), at, c_size_t(len(cells)), c_uint32(order))
    call.restype = c_uint32
    status = call(*sides, *given, words, c_size_t(room), byref(baked))
    return library.text(status), numbers_of(baked), list(words)


def part_of(library, plan, order, sources, room):
    return call_on_map(library, "part", plan, order, room, Sources(*sources))


def join(library, plan, order, parts, room):
    words = (c_uint32 * max(len(parts), 1))(*parts)
    return call_on_map(library, "join", plan, order, room, words, c_size_t(len(parts)))


def blocks(sizes, most):
    """The sources of components of these sizes, in blocks of so many at most."""
    for component, size in enumerate(sizes):
        for first in range(0, size, most):
            yield component, first, min(most, size - first)


def compare_parts(library, what, plan, order, image):
    """The image in one part a component and in four, beside that of one call."""
    cells = len(plan[2])
    status, told, room = call_on_map(library, "components", plan, order, cells)
    sizes = room[: told.get("words", 0)]
    judge(f"components of {what}", (status, sum(sizes)), ("done", cells - plan[2].count(0)))
    most = max(sizes, default=1)
    for size in (most, most // 4 + 1):
        parts = []
        for sources in blocks(sizes, size):
            most_words = 3 + sources[2] * (1 + sizes[sources[0]])
            status, told, room = part_of(library, plan, order, sources, most_words)
            judge(f"part {sources} of {what}", status, "done")
            parts += room[: told["words"]]
        wanted = ("done", {"words": len(image)}, image + [7])
        judge(f"parts of {size} sources of {what}", join(library, plan, order, parts, len(image) + 1), wanted)


def with_parts(library, image):
    """What is said of the parts of three cells, whose image this is."""
    row = (3, 1, bytes((1, 1, 1)))
    first, last = [0, 0, 1, 1, 2], [0, 1, 2, 2, 6, 18, 1, 6]
    judge("the last part", part_of(library, row, 0, (0, 1, 2), 9), ("done", {"words": 8}, last + [7]))
    judge("the first part", part_of(library, row, 0, (0, 0, 1), 5), ("done", {"words": 5}, first))
    judge("two parts", join(library, row, 0, first + last, 28), ("done", {"words": 26}, image + [7, 7]))
    for room in (0, 1, 7):
        judge(f"a part in {room}", part_of(library, row, 0, (0, 1, 2), room)[:2], ("room for too few", {"words": 8}))
    for room in (0, 25):
        wanted = ("room for too few", {"words": 26}, [7] * max(room, 1))
        judge(f"an image in {room}", join(library, row, 0, first + last, room), wanted)
    for sources in ((0, 0, 0), (0, 3, 1), (0, 1, 3), (1, 0, 1), (0, 1, 4294967295), (0, 4294967295, 2)):
        judge(f"sources {sources}", part_of(library, row, 0, sources, 30)[:2], ("no such sources", {}))
    broken = (
        ("no part", [], {}),
        ("the last part first", last + first, {}),
        ("one part", first, {"found": 1}),
        ("the first part twice", first + first + last, {"found": 1}),
        ("a word behind", first + last + [0], {"found": 2}),
        ("a word too few", first + last[:-1], {"found": 2}),
        ("too many runs", [0, 0, 1, 4294967295, 2] + last, {"found": 1}),
    )
    for what, parts, told in broken:
        judge(what, join(library, row, 0, parts, 40)[:2], ("broken part", told))
    two = (3, 1, bytes((1, 0, 2)))
    judge("two components", call_on_map(library, "components", two, 1, 3), ("done", {"words": 2}, [1, 1, 7]))
    wanted = ("room for too few", {"words": 2}, [7])
    judge("a place too few", call_on_map(library, "components", two, 1, 1), wanted)
    blocked = (2, 1, bytes(2))
    judge("no component", call_on_map(library, "components", blocked, 0, 1), ("done", {}, [7]))
    judge("no parts", join(library, blocked, 0, [], 40)[:2], ("done", {"words": 12}))
    for what, plan, order, status, told in (
        ("order", row, 2, "no order has this number", {}),
        ("sides", (0, 1, b""), 0, "sides that no map may have", {}),
        ("count", (3, 1, bytes(2)), 0, "more cells or fewer than the sides say", {}),
        ("byte", (3, 2, bytes((1, 1, 1, 1, 3, 1))), 0, "byte that stands for no cell", {"x": 1, "y": 1, "byte": 3}),
        ("too many", (256, 129, bytes([2]) * 256 * 129), 0, "too many passable cells", {}),
    ):
        judge(f"{what} of components", call_on_map(library, "components", plan, order, 4)[:2], (status, told))
        judge(f"{what} of a part", part_of(library, plan, order, (0, 0, 1), 4)[:2], (status, told))
        judge(f"{what} of parts", join(library, plan, order, first + last, 4)[:2], (status, told))


def main():
    parser = argparse.ArgumentParser(description=__doc__.split("\n")[0])
    parser.add_argument("--maps", type=int, default=20)
    parser.add_argument("--queries", type=int, default=20)
    parser.add_argument("--seed", type=int, default=1)
    options = parser.parse_args()
    library = ctypes_path.Pathdb(library_here().removesuffix("a") + "so")
    faults(library)
    compare_maps(library, program_here(), bake_here(), options)
    return judge.failed


if __name__ == "__main__":
    sys.exit(main())
