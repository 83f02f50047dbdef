#!/usr/bin/env python3
"""What a server has resident, beside the sums of deploy/README.md, "Memory".

    tests/memory.py

A sparse map and rooms, before any edit and after some, of one cell and of 64, with sessions that each hold a version of
their own. The sums are above what is measured, and at most two and a half times it.
"""
import os, random, re, sys, tempfile

from judging import TOP, Judge, program_here
from path_server import Accepted, Server, Terrain

PATIENCE = 600
SILENT, EDITS = 8, 12
judge = Judge()
os.environ.update(PATH_SERVER=program_here(), MALLOC_ARENA_MAX="2", MALLOC_MMAP_THRESHOLD_="131072")


def sparse(side=512, halls=10, size=17):
    dice, rows = random.Random(1), [["@"] * side for _ in range(side)]
    for _ in range(halls):
        x, y = dice.randrange(side - size), dice.randrange(side - size)
        for row in rows[y:y + size]:
            row[x:x + size] = "." * size
    return rows


def rooms(side=72):
    return [["@" if (x % 12 == 0 and y % 12 != 6) or (y % 12 == 0 and x % 12 != 6) else "." for x in range(side)]
            for y in range(side)]


def resident(server):
    """The most bytes that it has had."""
    with open(f"/proc/{server.process.pid}/status", encoding="ascii") as file:
        return 1024 * int(re.search(r"VmHWM:\s+(\d+)", file.read())[1])


def sums(order, silent, workers, places, cells, runs):
    """Those of the page: without edits, and with them."""
    with open(f"{TOP}/deploy/README.md", encoding="utf-8") as file:
        page = file.read().split("## Memory")[1]
    values = {"databases": 4 if order == "rows" else 3, "silent": silent, "workers": workers, "places": places,
              "cells": cells, "runs": runs}
    edited, first = [eval(re.sub(r"bytes x", "*", line).replace(" x ", " * ").replace("2 MB", "2e6"), {}, values)
                     for line in re.findall(r"^    (2 MB .*)", page, re.M)]
    return first, edited


def try_map(name, rows, order, size):
    dice, places = random.Random(2), len(rows) * len(rows[0])
    free = [(x, y) for y, row in enumerate(rows) for x, cell in enumerate(row) if cell == "."]
    with tempfile.NamedTemporaryFile("w", suffix=".map") as file:
        file.write(f"type octile\nheight {len(rows)}\nwidth {len(rows[0])}\nmap\n")
        file.writelines("".join(row) + "\n" for row in rows)
        file.flush()
        with Server(file.name, "--order", order, doors=SILENT + 1, timeout=PATIENCE) as server:
            sessions = [server.connect(PATIENCE) for _ in range(SILENT)]
            client = server.connect(PATIENCE)
            status, before = client.status(), resident(server)
            runs = status.runs
            for number in range(EDITS):
                edit = [(cell, Terrain.BLOCKED if place % 2 == 0 else Terrain.LAND)
                        for place, cell in enumerate(dice.sample(free, size))]
                told = client.edit(edit)
                judge("an edit", told, Accepted(number + 1))
                runs = max(runs, client.wait_for(told.number).runs)
                if number < SILENT:
                    sessions[number].query((0, 0), (1, 1))
            after = resident(server)
    first, edited = sums(order, SILENT, 1, places, status.cells, runs)
    for when, found, most in (("before", before, first), ("after", after, edited)):
        judge(f"{name}, {order}, edits of {size}, {when} them: {found / most:.2f} of {most / 1e6:.1f} MB",
              0.4 <= found / most <= 1, True)


def main():
    for name, rows in (("sparse", sparse()), ("rooms", rooms())):
        for order, size in (("rows", 1), ("dfs", 64)):
            try_map(name, rows, order, size)
    return judge.failed


if __name__ == "__main__":
    sys.exit(main())
