#!/usr/bin/env python3
"""Measures a game loop with doors (bench/doors.cpp), and prints a table in Markdown: what share of the paths were told,
the instructions a query, searches among them, those of looking up beside `pathdb_path` of the same two cells, and those
a query of a search, of jump points and of A*.

    bench/doors.py [TICKS [CLOSED]]    200 and 2 where they are not given

200 units walk on three maps. CLOSED doors in a hundred are closed at first; then a door closes or opens every 20 ticks,
and all units ask anew. Every path is compared
with that of the two searches. Instructions are counted by valgrind, inside each function. The library is the one that
`release/lib` has made in out/lib, or the released one."""
import os
import random
import re
import subprocess
import sys
import tempfile

import maps
from programs import TOP, newest

SIDE, PITCH = 128, 16


def rooms():
    """8 by 8 rooms with a door in each wall between two, and a second one in eight of them."""
    chance = random.Random(1)
    rows = [["@" if x % PITCH == 0 or y % PITCH == 0 else "." for x in range(SIDE)] for y in range(SIDE)]
    walls = [(x, y, across) for across in (0, 1) for x in range(8) for y in range(8) if (x, y)[1 - across] > 0]
    for x, y, across in walls + walls[:8]:
        along = 1 + chance.randrange(PITCH - 2)
        column, row = (PITCH * x + along, PITCH * y) if across else (PITCH * x, PITCH * y + along)
        rows[row][column] = "D"
    return rows


def caves():
    """Caves, in which 60 cells may be blocked."""
    chance = random.Random(2)
    rows = [list(row) for row in maps.drawn("caves", 110)]
    free = [(x, y) for y, row in enumerate(rows) for x, cell in enumerate(row) if cell == "."]
    for x, y in chance.sample(free, 60):
        rows[y][x] = "D"
    return rows


def town():
    """Houses of two rooms along streets three cells wide; each has two doors, and one within."""
    chance = random.Random(3)
    rows = [["."] * 63 for _ in range(59)]
    for top in range(3, 53, 8):
        for left in range(3, 57, 12):
            for y in range(5):
                for x in range(9):
                    rows[top + y][left + x] = "@" if y in (0, 4) or x in (0, 4, 8) else "."
            rows[top][left + 1 + chance.randrange(3)] = "D"
            rows[top + 4][left + 5 + chance.randrange(3)] = "D"
            rows[top + 2][left + 4] = "D"
    return rows


def counts(words, folder):
    """What a run prints, as numbers by their names, and the instructions inside each function."""
    found = os.path.join(folder, "callgrind")
    grind = ["valgrind", "-q", "--tool=callgrind", f"--callgrind-out-file={found}"]
    done = subprocess.run(grind + words, stdout=subprocess.PIPE, text=True, check=False)
    if done.returncode != 0:
        raise SystemExit(f"doors ends with {done.returncode}: {done.stdout}")
    said = done.stdout.split()
    told = subprocess.run(["callgrind_annotate", "--inclusive=yes", "--threshold=100", found], stdout=subprocess.PIPE,
                          text=True, check=True).stdout
    spent = {}
    for name in ("told", "searched", "baked", "jump_points", "a_star"):
        line = re.search(rf"^ *([\d,]+) .*:{name} ", told, re.M)
        spent[name] = int(line[1].replace(",", "")) if line else 0
    return dict(zip(said[::2], map(int, said[1::2]))), spent


def main():
    ticks = sys.argv[1] if len(sys.argv) > 1 else "200"
    closed = sys.argv[2] if len(sys.argv) > 2 else "2"
    library = newest("PATHDB", "out/lib/libpathdb.a", "release/pathdb/libpathdb.a")
    print("| map | cells | queries | told | instructions | looking up / `pathdb_path` | a search | jump points | A* |")
    print("|---|---|---|---|---|---|---|---|---|")
    with tempfile.TemporaryDirectory() as folder:
        made = os.path.join(folder, "doors")
        subprocess.run(["g++", "-std=c++17", "-O3", "-march=x86-64-v2", os.path.join(TOP, "bench/doors.cpp"), library,
                        "-o", made], check=True)
        for name, rows in ("rooms", rooms()), ("caves", caves()), ("a town", town()):
            file_name = os.path.join(folder, "a.map")
            with open(file_name, "w", encoding="ascii") as file:
                file.write(f"type octile\nheight {len(rows)}\nwidth {len(rows[0])}\nmap\n")
                file.writelines("".join(row) + "\n" for row in rows)
            said, spent = counts([made, file_name, ticks, closed], folder)
            asked, told = said["asked"], said["told"]
            cells = sum(cell != "@" for row in rows for cell in row)
            print(f"| {name} | {cells:,} | {asked:,} | {100 * told / asked:.1f} % | "
                  f"{(spent['told'] + spent['searched']) // asked:,} | {spent['told'] / spent['baked']:.2f} | "
                  f"{spent['searched'] // max(asked - told, 1):,} | {spent['jump_points'] // asked:,} | "
                  f"{spent['a_star'] // asked:,} |", flush=True)


main()
