#!/usr/bin/env python3
"""One build at a time: clients that each change a cell and ask for a build, all at once, at a server whose builder is
woken by each change. No build is overtaken, the server says of each version what it built, and processor time and memory
stay near those of one build. Prints only where something is not as it should be; with `--show` what was measured too.
"""
import collections, os, random, re, subprocess, sys, tempfile, threading, time

from judging import Judge, program_here
from path_server import Client, NothingNew, Published, Terrain, free_port

program, shows = program_here(), "--show" in sys.argv
judge = Judge()
CLIENTS, SIDE, SEED = 6, 64, 5
TICKS = os.sysconf("SC_CLK_TCK")


def made_map(side, seed):
    """A map of this side with a quarter of its cells blocked, the upper left corner free."""
    chance = random.Random(seed)
    rows = ["".join("@" if chance.random() < 0.25 else "." for _ in range(side)) for _ in range(side)]
    rows[0] = "." + rows[0][1:]
    return f"type octile\nheight {side}\nwidth {side}\nmap\n" + "".join(row + "\n" for row in rows)


def seconds_of(process):
    """Processor seconds that a process took so far."""
    with open(f"/proc/{process.pid}/stat") as stat:
        fields = stat.read().rpartition(")")[2].split()
    return (int(fields[11]) + int(fields[12])) / TICKS


def peak_of(process):
    """The most memory that a process had, in kilobytes."""
    with open(f"/proc/{process.pid}/status") as status:
        return int(re.search(r"VmHWM:\s+(\d+)", status.read())[1])


class Server:
    """A server with words for the operator, at a port of its own."""

    def __init__(self, map_file, *options):
        self.port = free_port()
        self.words = tempfile.TemporaryFile()
        self.process = subprocess.Popen([program, "serve", map_file, str(self.port), "16", *options],
                                        stdin=subprocess.DEVNULL, stdout=subprocess.PIPE, stderr=self.words,
                                        env={**os.environ, "PATH_SERVER_LOG": "1"})
        self.process.stdout.readline()

    def stop(self):
        """The last lines, and the lines on versions."""
        with Client.connect(self.port) as client:
            client.stop()
        last = self.process.communicate(timeout=30)[0].decode().split()
        self.words.seek(0)
        return last, re.findall(r"version (\d+), (\d+) cells? built, (\d+) kept, \d+ ms", self.words.read().decode())


def change_and_build(port, number, barrier, replies):
    """One client: it blocks a cell, and asks for a build."""
    with Client.connect(port, timeout=60) as client:
        barrier.wait()
        client.change((1 + number, 0), Terrain.BLOCKED)
        replies.append(client.build())


def all_at_once(server, clients):
    """So many clients; the replies to their builds, and the processor seconds that they took."""
    barrier, replies, before = threading.Barrier(clients), [], seconds_of(server.process)
    threads = [threading.Thread(target=change_and_build, args=(server.port, number, barrier, replies))
               for number in range(clients)]
    for thread in threads:
        thread.start()
    for thread in threads:
        thread.join(120)
    return replies, seconds_of(server.process) - before


with tempfile.NamedTemporaryFile("w", suffix=".map") as file:
    file.write(made_map(SIDE, SEED))
    file.flush()

    alone = Server(file.name)
    _, one = all_at_once(alone, 1)
    one_peak = peak_of(alone.process)
    judge("the last lines behind one", alone.stop()[0], ["accepted", "1", "published", "1", "version", "1"])

    server = Server(file.name)
    replies, several = all_at_once(server, CLIENTS)
    peak = peak_of(server.process)
    last, versions = server.stop()
    kinds = collections.Counter(type(reply).__name__ for reply in replies)
    judge("replies to builds", sum(isinstance(reply, (Published, NothingNew)) for reply in replies), CLIENTS)
    judge("the version in each has the client's own edit", min(reply.version for reply in replies) >= 1, True)
    judge("the last version has all edits", (last[1], last[5]), (str(CLIENTS), str(CLIENTS)))
    judge("a line for each version", (len(versions), versions[-1][0]), (int(last[3]), str(CLIENTS)))
    judge("few versions", int(last[3]) <= 4, True)
    if shows:
        print(f"{CLIENTS} clients: {dict(kinds)}, {last[3]} versions; processor {several:.2f} s beside {one:.2f} s of one, "
              f"peak {peak} KB beside {one_peak} KB")

    # what README shows: behind a change a build waits for the builder's, or comes before it has woken
    server = Server(file.name)
    for number in range(10):
        with Client.connect(server.port) as client:
            client.change((1 + number, 0), Terrain.BLOCKED)
        time.sleep(0.005)
        with Client.connect(server.port) as client:
            reply = client.build()
            judge("a build behind a change", (isinstance(reply, (Published, NothingNew)), reply.version), (True, number + 1))
    server.stop()

    # several workers: the builder uses them
    if shows:
        for workers in ("1", "4"):
            server = Server(file.name, "--workers", workers)
            begun = time.monotonic()
            _, took = all_at_once(server, 1)
            print(f"{workers} workers: processor {took:.2f} s, by the clock {time.monotonic() - begun:.2f} s")
            server.stop()

sys.exit(judge.failed)
