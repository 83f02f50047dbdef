#!/usr/bin/env python3
"""Compares what two programs tell of paths, byte for byte: one that reads them from a whole database, as the release
before 0.16.0, and one that builds the rows of the cells on a walk alone.

    tests/same_paths.py OLD NEW [--maps N] [--queries N] [--seed S] [--side K]

The maps are those of bench/maps.py, of sides up to K (170, some 29,000 cells), and each is asked in both orders. NEW is
asked by `path`, once a query. OLD builds its database once and is asked at a port, by `ask`; of maps of at most 15 by 15
cells it is asked by `path` too, and then the status is compared as well. Ends are any cells: some are blocked, and some
lie outside. The first answers that differ are printed, and the status is 1 then.
"""

import argparse
import os
import random
import socket
import subprocess
import sys
import tempfile

top = os.path.dirname(os.path.dirname(os.path.abspath(__file__)))
sys.path.insert(0, os.path.join(top, "bench"))
from maps import drawn  # noqa: E402

KINDS = ["open", "blocked10", "blocked25", "blocked40", "rooms", "caves"]


def ran(words):
    done = subprocess.run(words, stdout=subprocess.PIPE, stderr=subprocess.DEVNULL)
    return done.returncode, done.stdout


def serving(program, name, order):
    """A server of that map, and its port."""
    with socket.socket() as free:
        free.bind(("127.0.0.1", 0))
        port = str(free.getsockname()[1])
    words = [program, "serve", name, port, "1", "--order", order, "--workers", "2"]
    process = subprocess.Popen(words, stdout=subprocess.PIPE, stderr=subprocess.DEVNULL)
    if process.stdout.readline() != b"serving %s\n" % port.encode():
        sys.exit("same_paths.py: %s does not serve" % program)
    return process, port


def some_end(rng, rows):
    """A passable cell mostly, and else any cell or one just outside."""
    side = len(rows)
    while True:
        x, y = rng.randrange(side), rng.randrange(side)
        if rows[y][x] == "." or rng.random() < 0.1:
            return x + side * (rng.random() < 0.01), y


def compare(options, rng, name, rows, order):
    """How many queries were compared; it stops at the first that differs."""
    process, port = serving(options.old, name, order)
    try:
        for _ in range(options.queries):
            words = [str(number) for _ in range(2) for number in some_end(rng, rows)]
            new = ran([options.new, "path", name] + words + ["--order", order])
            old = ran([options.old, "ask", port, "query"] + words)[1].split(b"\n", 1)
            if old[0] != b"version 0" or old[1] != new[1]:
                sys.exit("%s %s %s\nold %r\nnew %r" % (open(name).read(), order, words, old, new))
            if len(rows) <= 15 and ran([options.old, "path", name] + words + ["--order", order]) != new:
                sys.exit("%s %s %s\nnew %r" % (open(name).read(), order, words, new))
    finally:
        process.kill()
        process.wait()
    return options.queries


def main():
    parser = argparse.ArgumentParser(description=__doc__.split("\n")[0])
    parser.add_argument("old")
    parser.add_argument("new")
    parser.add_argument("--maps", type=int, default=30)
    parser.add_argument("--queries", type=int, default=200)
    parser.add_argument("--seed", type=int, default=1)
    parser.add_argument("--side", type=int, default=170)
    options = parser.parse_args()
    rng, compared = random.Random(options.seed), 0
    with tempfile.TemporaryDirectory() as folder:
        name = os.path.join(folder, "m.map")
        for number in range(options.maps):
            kind = KINDS[number % len(KINDS)]
            side = options.side if number % 15 == 4 else rng.randint(4, max(4, options.side * rng.choice([1, 2, 4]) // 10))
            rows = drawn(kind, side)
            with open(name, "w") as file:
                file.write("type octile\nheight %d\nwidth %d\nmap\n" % (side, side) + "\n".join(rows) + "\n")
            for order in ["rows", "dfs"]:
                compared += compare(options, rng, name, rows, order)
            print("%s %d: %d cells" % (kind, side, sum(row.count(".") for row in rows)), flush=True)
    print("%d paths are told alike" % compared)


if __name__ == "__main__":
    main()
