#!/usr/bin/env python3
"""Measures `path_server talk` beside its plain twin in C++ (bench/talk.cpp): queries a second over a pair of pipes, of
a client that waits for each reply. All answer the same queries, whose paths have 30 to 100 moves, on a map of some ten
thousand passable cells, and the sums over their replies have to be the same.

    bench/talk.py [TURNS]

The programs run side by side and are asked in turn, TURNS times (200). Prints the medians of ours, of the twin that does
the same look-ups (rows of runs, each path walked twice), and of one that reads a table with a byte for each pair of cells
and walks once. The program is the one that was built here, or the released one."""
import os
import subprocess
import sys

from programs import program

top = os.path.dirname(os.path.dirname(os.path.abspath(__file__)))
twin = os.path.join(top, "bench/build/talk")
map_name = os.path.join(top, "bench/build/talk.map")
os.makedirs(os.path.dirname(twin), exist_ok=True)
subprocess.run(["g++", "-O3", "-march=x86-64-v2", "-o", twin, os.path.join(top, "bench/talk.cpp")], check=True)
with open(map_name, "w") as file:
    subprocess.run([twin, "map", "108"], check=True, stdout=file)
answer = [twin, "answer", map_name]
turns = sys.argv[1] if len(sys.argv) > 1 else "200"
words = [program(), "talk", map_name, "--", *answer, "rows", "--", *answer, "table"]
sys.exit(subprocess.run([twin, "drive", map_name, turns, *words]).returncode)
