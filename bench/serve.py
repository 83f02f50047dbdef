#!/usr/bin/env python3
"""Measures `path_server serve` beside its plain twin in C++ (bench/serve.cpp), over TCP on this machine: queries a second
of one client that waits for each reply, and of four together; queries beside a build; and the memory of 64 idle
connections. The map and the queries are those of bench/talk.py: some ten thousand passable cells, paths of 30 to 100
moves. The twin has a thread a connection, and makes as many reads and writes.

    bench/serve.py [TURNS]

The servers run side by side and are asked in turn, TURNS times (21). Prints a table in Markdown, of medians: ours, the
twin that does the same look-ups (rows of runs, each path walked twice), one that reads a table with a byte for each pair
of cells and walks once, and the ratios of ours to both. Of queries a second a high ratio is good, of processor time a low
one. The program is the one that was built here, or the released one."""
import os
import subprocess
import sys

top = os.path.dirname(os.path.dirname(os.path.abspath(__file__)))
sys.path.insert(0, os.path.join(top, "clients/python"))
from path_server import Client, free_port
from programs import program

twin = os.path.join(top, "bench/build/serve")
map_name = os.path.join(top, "bench/build/serve.map")
turns = sys.argv[1] if len(sys.argv) > 1 else "21"
started = []


def start(*words):
    """A server, at a free port that stands for PORT in its words."""
    port = str(free_port())
    process = subprocess.Popen([port if word == "PORT" else word for word in words], stdout=subprocess.PIPE)
    started.append(process)
    if process.stdout.readline() != b"serving %s\n" % port.encode():
        sys.exit("serve.py: %s does not serve" % words[0])
    return port, process


def memory_of(process):
    """What a process has in memory, in MB."""
    with open("/proc/%d/status" % process.pid) as file:
        return next(int(line.split()[1]) for line in file if line.startswith("VmRSS:")) / 1024


def driven(*words):
    ran = subprocess.run([twin, *words], stdout=subprocess.PIPE, text=True, check=True)
    return [[float(word) for word in line.split()] for line in ran.stdout.splitlines()]


def row(what, figures, show):
    ours, others = figures[0], figures[1:]
    ratios = ", ".join("%.2f" % (ours / other) for other in others)
    print("| %s | %s | %s | %s |" % (what, show(ours), ", ".join(show(other) for other in others), ratios), flush=True)


def idle(words):
    """What a server takes for 64 connections that have asked once, beyond what it takes with one door and none."""
    alone, process = start(*["1" if word == "64" else word for word in words])
    before = memory_of(process)
    process.kill()
    port, process = start(*words)
    clients = [Client.connect(int(port)) for _ in range(64)]
    for client in clients:
        client.query((0, 0), (1, 1))
    after = memory_of(process)
    for client in clients:
        client.close()
    process.kill()
    return after - before


def main():
    os.makedirs(os.path.dirname(twin), exist_ok=True)
    flags = ["-O3", "-march=x86-64-v2", "-pthread"]
    subprocess.run(["g++", *flags, "-o", twin, os.path.join(top, "bench/serve.cpp")], check=True)
    with open(map_name, "w") as file:
        subprocess.run([twin, "map", "108"], check=True, stdout=file)
    answer = [twin, "answer", map_name, "PORT"]
    servers = [start(program(), "serve", map_name, "PORT", "8"), start(*answer, "rows"), start(*answer, "table")]
    sides = [word for port, process in servers for word in (port, str(process.pid))]
    print("| work | Rattle | C++, C++ by a table | ratios |\n|---|---|---|---|")
    for clients, ahead, what in (("1", "1", "one client"), ("4", "1", "four clients"), ("4", "16", "four clients, 16 at once")):
        rates, times = zip(*driven("drive", clients, ahead, turns, map_name, *sides))
        row("%s, queries a second" % what, rates, lambda rate: "%.0f" % rate)
        row("%s, processor time a query" % what, times, lambda time: "%.2f µs" % (time / 1000))
    (span,), (beside,), (without,) = driven("build", turns, map_name, servers[0][0])
    print("| a query beside a build of %.2f s | %.1f µs | without: %.1f µs | %.2f |" % (span, 1e6 / beside, 1e6 / without, without / beside))
    row("64 idle connections", [idle([program(), "serve", map_name, "PORT", "64"]), idle([*answer, "rows"])], lambda size: "%.1f MB" % size)


try:
    main()
finally:
    for each in started:
        each.kill()
