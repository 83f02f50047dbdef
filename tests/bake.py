#!/usr/bin/env python3
"""`path_bake` beside a plain model, a reader of images and the main program: images of made maps of land and water, and
of those of this repository, have the words of the model in both orders and by any number of workers; a path read from
one is what `path` prints, word for word; and where something is wrong the status and the line are those of `export`.

    tests/bake.py [QUERIES], where QUERIES paths are asked of each map in each order, 10 where it is not given
"""
import glob, os, random, re, resource, signal, struct, subprocess, sys, tempfile

from map_model import Map, made_map, rows_of, text_of
from images import Image, words_of
from judging import TOP, Judge, bake_here, program_here
from terminal import CLEARED, Terminal

program, bake = program_here(), bake_here()
queries = int(sys.argv[1]) if len(sys.argv) > 1 else 10
judge = Judge()
ORDERS = ["rows", "dfs"]
USAGE = "usage: path_bake MAP [--order rows|dfs] [--workers N]\n"
PIECE = 4096  # how many bytes are put at once

os.environ.pop("PATH_SERVER_PROGRESS", None)


def run(name, *words, **more):
    """What a program puts on standard output and on standard error, and its status."""
    pipes = {"stdin": subprocess.DEVNULL, "stdout": subprocess.PIPE, "stderr": subprocess.PIPE}
    done = subprocess.run([name, *words], **{**pipes, "timeout": 300, **more})
    return done.stdout, (done.stderr or b"").decode(errors="replace"), done.returncode


# ---- images and their paths

def some_cell(chance, grid):
    """Any cell, or one just outside."""
    return tuple(chance.randrange(side + (chance.random() < 0.1)) for side in (grid.width, grid.height))


def judge_map(what, chance, name, grid):
    """The image of the map in that file, in both orders, and paths read from it."""
    components = grid.components()
    for number, order in enumerate(ORDERS):
        parts = [(cells, rows_of(grid, cells)) for cells in (grid.ordered(each, number) for each in components)]
        words = words_of(grid, number, parts)
        data, told, status = run(bake, name, "--order", order)
        judge(f"{what} {order}", (data, told, status), (struct.pack(f"<{len(words)}I", *words), "", 0))
        judge(f"{what} {order}, four workers", run(bake, name, f"--order={order}", "--workers", "4"), (data, "", 0))
        image = Image(data)
        for _ in range(queries):
            start, goal = some_cell(chance, grid), some_cell(chance, grid)
            ends = [str(each) for each in (*start, *goal)]
            text, _, status = run(program, "path", name, *ends, "--order", order)
            judge(f"{what} {order}: {' '.join(ends)}", image.path(start, goal), (text.decode(), status))


def grid_of(name):
    """The map in a file, or nothing where the main program refuses it."""
    if run(program, "check", name)[2] != 0:
        return None
    with open(name, encoding="ascii") as file:
        lines = file.read().split("\n")
    sides = dict(line.split() for line in lines[1:3])
    kinds = {"W": 2, **dict.fromkeys(".GS", 1)}
    width, height = int(sides["width"]), int(sides["height"])
    return Map(width, height, [kinds.get(each, 0) for line in lines[4:4 + height] for each in line[:width]])


def judge_maps(chance, file_name):
    """Made maps, and those of this repository; where one of these is refused, so it is here."""
    for number in range(40):
        grid = made_map(chance)
        with open(file_name, "w") as file:
            file.write(text_of(grid))
        judge_map(f"map {number}", chance, file_name, grid)
    maps = sorted(glob.glob(f"{TOP}/maps/*.map") + glob.glob(f"{TOP}/tests/maps/*.map"))
    judge("there are maps", len(maps) > 10, True)
    for name in maps:
        grid = grid_of(name)
        if grid:
            judge_map(os.path.basename(name), chance, name, grid)
        else:
            judge_alike(os.path.basename(name), name)


# ---- what goes wrong

def judge_alike(what, *words, **more):
    """The line, the status and the words on standard error are those of `export`, but for the name."""
    line, told, status = run(program, "export", *words, **more)
    told = re.sub(r"^path_server( export)?:", "path_bake:", told)
    judge(what, run(bake, *words, **more), (line, told, status))
    return status


def judge_faults(folder):
    """Files that are not read, or are no map, and an output that fails."""
    with open(f"{folder}/many.map", "w") as file:
        file.write("type octile\nheight 182\nwidth 182\nmap\n" + ("." * 182 + "\n") * 182)
    with open(f"{folder}/long.map", "w") as file:
        file.write("type octile\n" + " " * 2_097_152)
    fine = f"{TOP}/maps/tutorial.map"
    for what, name, status in [("no file", f"{folder}/none.map", 5), ("a folder", folder, 5),
                               ("too long", f"{folder}/long.map", 8), ("too many cells", f"{folder}/many.map", 2),
                               ("no map", f"{TOP}/README.md", 2)]:
        judge(f"the status of {what}", judge_alike(what, name), status)
    with open("/dev/full", "wb") as full:
        judge("the status of a full disk", judge_alike("a full disk", fine, stdout=full), 6)
        judge("the status of a line on it", judge_alike("a line on it", f"{folder}/none.map", stdout=full), 6)
    reading, writing = os.pipe()
    os.close(reading)
    judge_alike("a closed pipe", fine, stdout=writing)
    judge("the status of a closed pipe", judge_alike("no signal", fine, stdout=writing, restore_signals=False), 6)
    os.close(writing)
    whole = run(bake, fine)[0]
    for room in (0, 1, PIECE, 3 * PIECE + 1):
        judge(f"a disk with room for {room} bytes", put_into(f"{folder}/image", room, fine), (whole[:room], 6))
    judge("a disk with room for all", put_into(f"{folder}/image", len(whole), fine), (whole, 0))


def put_into(name, room, *words):
    """What a file gets that may have so many bytes, and the status."""
    def limit():
        signal.signal(signal.SIGXFSZ, signal.SIG_IGN)
        resource.setrlimit(resource.RLIMIT_FSIZE, (room, room))
    with open(name, "wb") as file:
        status = run(bake, *words, stdout=file, restore_signals=False, preexec_fn=limit)[2]
    with open(name, "rb") as file:
        return file.read(), status


def judge_words(row):
    """Words that ask for nothing: the line, and what is told beside it."""
    pages = [[], ["--help"], ["-h"], [row, "--help"], ["--order", "-h"]]
    for words in pages:
        line, told, status = run(bake, *words)
        judge(f"a page: {words}", (line.decode(), status), (USAGE, 1))
        judge(f"its front and its end: {words}", (told[:len(USAGE)], told[-22:]), (USAGE, "the file was not read\n"))
    line, told, status = run(bake, "--version")
    judge("the version", (line.decode(), told[:12], status), (USAGE, "path_bake 0.", 1))
    for words in ([row, row], [""], [row, "--order", "up"], [row, "--order"], [row, "--workers", "0"],
                  [row, "--workers", "65"], [row, "--workers", "1", "--workers=1"], ["--order", "rows"],
                  [row, "--room", "5"], ["-x"], ["--", row, "x"]):
        line, told, status = run(bake, *words)
        main = run(program, "export", *words)
        judge(f"{words}", (line.decode(), status, main[2]), (USAGE, 1, 1))
        first = main[1].split("\n", 1)[0].replace("path_server export", "path_bake", 1)
        judge(f"what is told of {words}", told, f"{first}\n{USAGE}")
    judge("no text", run(bake, b"\xff"), (USAGE.encode(), "path_bake: an argument is not UTF-8 text\n", 1))
    judge("behind a double hyphen", run(bake, "--", row), run(bake, row))


def judge_progress(folder):
    """How far a build is, on a terminal and nowhere else."""
    name = f"{folder}/open.map"
    with open(name, "w") as file:
        file.write("type octile\nheight 110\nwidth 110\nmap\n" + ("." * 110 + "\n") * 110)
    data = run(bake, name)
    judge("a pipe", data[1:], ("", 0))
    for setting in ({}, {"PATH_SERVER_PROGRESS": "0"}):
        terminal = Terminal()
        found, _, status = run(bake, name, stderr=terminal.theirs, env={**os.environ, **setting})
        shown = terminal.text()
        judge("the image is the same at a terminal", (found == data[0], status), (True, 0))
        is_line = not setting and "of 12100 rows" in shown and shown.endswith(CLEARED)
        judge(f"the line of a terminal {setting}", shown == "" or is_line, True)


with tempfile.TemporaryDirectory() as scratch:
    judge_maps(random.Random(51), f"{scratch}/m.map")
    judge_faults(scratch)
    judge_words(f"{TOP}/tests/maps/row.map")
    judge_progress(scratch)
sys.exit(judge.failed)
