#!/usr/bin/env python3
"""Tells by the minute what `path_server serve` has in memory while doors close and walls fall on a map of some ten
thousand passable cells, a quarter of it blocked: one client changes a cell every two seconds and waits for the version
that has it, and SILENT others keep a session open and ask for one path in four minutes.

    bench/memory.py [--minutes N] [--silent N] [--program FILE]

Prints the resident memory in MB after each minute, and then how many edits there were. The program is the one that was
built here, or the released one."""
import argparse
import os
import random
import sys
import tempfile
import time

top = os.path.dirname(os.path.dirname(os.path.abspath(__file__)))
sys.path.insert(0, os.path.join(top, "clients/python"))
from maps import drawn, map_text
from programs import program
from path_server import Client, Server, Terrain, free_port

SIDE = 116
EVERY = 2.0  # seconds from edit to edit
TALKS = 240.0  # seconds from one path of a silent session to its next


def memory_of(process):
    """What a process has in memory, in MB."""
    with open("/proc/%d/status" % process.pid) as file:
        return next(int(line.split()[1]) for line in file if line.startswith("VmRSS:")) / 1024


def edit(client, rng, rows):
    """Changes a cell at random, and waits for a version that has it."""
    column, row = rng.randrange(SIDE), rng.randrange(SIDE)
    blocked = rows[row][column] == "."
    rows[row][column] = ".@"[blocked]
    change = client.change((column, row), Terrain.BLOCKED if blocked else Terrain.LAND)
    client.wait_for(change.number, timeout=120)


def measure(options, server, rows):
    """Edits, and asks for the silent ones in their turn, and prints the memory at the end of each minute."""
    rng, began, edits = random.Random(1), time.monotonic(), 0
    silent = [Client.connect(server.port) for _ in range(options.silent)]
    with Client.connect(server.port) as client:
        asked = 0
        for minute in range(1, options.minutes + 1):
            while time.monotonic() < began + 60 * minute:
                due = (time.monotonic() - began) / TALKS * len(silent)
                while asked < due:
                    silent[asked % len(silent)].query((0, 0), (SIDE - 1, SIDE - 1), timeout=60)
                    asked += 1
                edit(client, rng, rows)
                edits += 1
                time.sleep(max(0.0, began + EVERY * edits - time.monotonic()))
            print("%.0f" % memory_of(server.process), end=" ", flush=True)
    print("MB; %d edits, %d silent" % (edits, options.silent))
    for one in silent:
        one.close()


def main():
    parser = argparse.ArgumentParser(description=__doc__.split("\n", maxsplit=1)[0])
    parser.add_argument("--minutes", type=int, default=10)
    parser.add_argument("--silent", type=int, default=0)
    parser.add_argument("--program", default=program())
    options = parser.parse_args()
    rows = [list(row) for row in drawn("blocked25", SIDE)]
    with tempfile.TemporaryDirectory() as folder:
        name = os.path.join(folder, "m.map")
        with open(name, "w") as file:
            file.write(map_text(["".join(row) for row in rows]))
        server = Server(name, port=free_port(), doors=options.silent + 2, program=options.program)
        try:
            measure(options, server, rows)
        finally:
            server.kill()


main()
