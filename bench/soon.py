#!/usr/bin/env python3
"""Measures by the clock how long after an accepted edit `serve` has a version with it, of two programs in turn.

    bench/soon.py OLD NEW [--kind KIND] [--side K] [--edits N] [--seed S] [--workers N..]

On a map of bench/maps.py (caves of 215 by 215 cells, some 30,000, where no other is given) cells are blocked and freed
again, doors among them, each once the version before is there; by one worker and then by four. Each edit is sent to
a server of OLD and to one of NEW, in turn. Prints the median, the worst tenth and the worst time of each in milliseconds,
and the most memory that it had resident, in megabytes."""
import argparse
import os
import random
import sys
import tempfile
import time

import maps
import programs
from one_edit import at, chosen

sys.path.insert(0, os.path.join(programs.TOP, "clients", "python"))

from path_server import Server, Terrain  # noqa: E402


def most_memory(process):
    """The most memory that a process had resident so far, in megabytes."""
    with open("/proc/%d/status" % process.pid, encoding="ascii") as file:
        return next(int(line.split()[1]) // 1024 for line in file if line.startswith("VmHWM"))


def main():
    parser = argparse.ArgumentParser(description=__doc__.split("\n", maxsplit=1)[0])
    parser.add_argument("old")
    parser.add_argument("new")
    parser.add_argument("--kind", default="caves")
    parser.add_argument("--side", type=int, default=215)
    parser.add_argument("--edits", type=int, default=10)
    parser.add_argument("--seed", type=int, default=1)
    parser.add_argument("--workers", nargs="+", default=["1", "4"])
    options = parser.parse_args()
    rows = maps.drawn(options.kind, options.side)
    rng = random.Random(options.seed)
    places = chosen(rows, options.edits, rng)
    cells = [cell for (cell,) in places["doors"] + places["random cells"]]
    print("%s, %d cells, %d edits" % (options.kind, sum(row.count(".") for row in rows), 2 * len(cells)))
    with tempfile.TemporaryDirectory() as folder:
        name = os.path.join(folder, "a.map")
        with open(name, "w", encoding="ascii") as file:
            file.write(maps.map_text(rows))
        for workers in options.workers:
            programs = {"old": options.old, "new": options.new}
            servers = {key: Server(name, "--workers", workers, doors=2, program=program, timeout=300)
                       for key, program in programs.items()}
            clients = {key: server.connect() for key, server in servers.items()}
            times = {key: [] for key in programs}
            version = 0
            for cell in cells:
                for terrain in (Terrain.BLOCKED, Terrain.LAND):
                    version += 1
                    for key, client in clients.items():
                        began = time.monotonic()
                        client.change(cell, terrain)
                        client.wait_for(version, timeout=300)
                        times[key].append(1000 * (time.monotonic() - began))
            for key, each in times.items():
                print("%s workers, %s: median %.0f ms, worst tenth %.0f ms, worst %.0f ms; %d MB" % (
                    workers, key, at(each, 0.5), at(each, 0.9), max(each), most_memory(servers[key].process)), flush=True)
            for key, client in clients.items():
                client.close()
                servers[key].stop()


if __name__ == "__main__":
    main()
