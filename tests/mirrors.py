#!/usr/bin/env python3
"""A leader with a journal, two mirrors and HAProxy before them, under load, while each ends and is started again.

    tests/mirrors.py [--seconds N] [--clients N]

Clients ask through deploy/mirrors.cfg, and one makes an edit a second. The leader and a mirror are killed and begin
again; then the other mirror and the leader are stopped and begin again, as in an upgrade. At the end each reply is
judged by the map of its version, which is made here of the journal's lines: its cost by a plain search, its path move
by move. No client that waited for a version is answered by an older one, and no edit is lost that was accepted and seen
at a mirror. Prints what was seen; the status is 1 where something is wrong.
"""
import argparse, collections, contextlib, os, random, shutil, signal, subprocess, sys, tempfile, threading, time
import urllib.request

from judging import TOP, Judge, program_here, skip
from map_model import WEIGHTS, Map
from path_server import Accepted, Client, Path, PathServerError, Refused, Terrain, TimedOut, Unreachable, free_port

MAP = f"{TOP}/maps/tutorial.map"
PORTS = {4000: "queries", 4001: "edits", 4011: "leader", 4111: "leader's numbers", 4012: "one", 4112: "one's numbers",
         4013: "two", 4113: "two's numbers", 4100: "HAProxy's numbers"}
KINDS = {Terrain.BLOCKED: 0, Terrain.LAND: 1, Terrain.WATER: 2}
PATIENCE = 60
judge = Judge()
os.environ["PATH_SERVER"] = program_here()


class Field:
    """The servers, and what clients have seen."""

    def __init__(self, folder, options):
        self.folder, self.options = folder, options
        self.at = {port: free_port() for port in PORTS}
        self.feed, self.relay, self.journal = free_port(), free_port(), f"{folder}/journal"
        self.running, self.ending, self.lock = {}, threading.Event(), threading.Lock()
        self.seen, self.certain, self.counts = collections.defaultdict(set), {}, collections.Counter()
        with open(MAP, encoding="ascii") as file:
            rows = [row for row in file.read().split("\n")[4:] if row]
        self.width, self.height = len(rows[0]), len(rows)
        self.cells = [1 if byte in ".GS" else 2 if byte == "W" else 0 for row in rows for byte in row]
        dice = random.Random(3)
        self.ends = dice.sample([(n % self.width, n // self.width) for n, cell in enumerate(self.cells) if cell], 40)

    def start(self, name):
        """Starts a server, or HAProxy, and waits for nothing."""
        numbers = ["--numbers", self.at[{"leader": 4111, "one": 4112, "two": 4113}.get(name, 4100)]]
        command = {
            "leader": [f"{TOP}/deploy/serve", "--journal", self.journal, "--relay", self.relay, *numbers,
                       "lead", MAP, self.at[4011], 8, self.feed],
            "one": [f"{TOP}/deploy/mirror", self.relay, MAP, self.at[4012], 8, *numbers],
            "two": [f"{TOP}/deploy/mirror", self.relay, MAP, self.at[4013], 8, *numbers, "--order", "dfs"],
            "haproxy": ["haproxy", "-f", f"{self.folder}/haproxy.cfg"],
        }[name]
        said = open(f"{self.folder}/{name}.log", "ab")
        self.running[name] = subprocess.Popen(
            [str(word) for word in command], stdin=subprocess.DEVNULL, stdout=said, stderr=said)

    def configure(self):
        with open(f"{TOP}/deploy/mirrors.cfg", encoding="ascii") as file:
            text = file.read()
        for port in PORTS:
            text = text.replace(f"127.0.0.1:{port}", f"127.0.0.1:{self.at[port]}").replace(
                f"check port {port}", f"check port {self.at[port]}")
        with open(f"{self.folder}/haproxy.cfg", "w", encoding="ascii") as file:
            file.write(text)

    def end(self, name, sign):
        self.running[name].send_signal(sign)
        return self.running[name].wait(PATIENCE)

    def numbers(self, port):
        """The numbers at a port, or nothing."""
        try:
            with urllib.request.urlopen(f"http://127.0.0.1:{self.at[port]}/metrics", timeout=10) as reply:
                text = reply.read().decode()
        except OSError:
            return None
        return dict(line.rsplit(" ", 1) for line in text.splitlines() if line[0] != "#")

    def versions(self):
        """The versions that the leader and the mirrors have published."""
        return {(self.numbers(port) or {}).get("path_server_published_version") for port in (4111, 4112, 4113)}

    def wait_for(self, what, is_there):
        until = time.monotonic() + PATIENCE
        while not is_there():
            if time.monotonic() > until:
                raise TimedOut(what, PATIENCE)
            time.sleep(0.1)

    # what clients do

    def client(self, seed):
        """Sessions of queries: each waits for the version that this client has seen."""
        dice, newest = random.Random(seed), 0
        while not self.ending.is_set():
            with contextlib.suppress(PathServerError):
                with Client.connect(self.at[4000], timeout=PATIENCE) as client:
                    client.wait_for(newest)
                    for _ in range(200):
                        if self.ending.is_set():
                            return
                        start, goal = dice.choice(self.ends), dice.choice(self.ends)
                        reply = client.query(start, goal)
                        if reply.version < newest:
                            judge.fail(f"version {reply.version} after {newest}")
                        newest = reply.version
                        with self.lock:
                            self.seen[newest].add((start, goal, reply))
                            self.counts["replies"] += 1
                        time.sleep(0.002)
                    self.counts["sessions"] += 1
                    continue
            self.counts["broken sessions"] += 1
            time.sleep(0.1)

    def editor(self):
        """An edit a second; one that a mirror has is certain."""
        dice = random.Random(9)
        while not self.ending.is_set():
            size = dice.choice((1, 1, 3, 9))
            cells = {(dice.randrange(self.width), dice.randrange(self.height)) for _ in range(size)}
            edit = [(cell, dice.choice(list(KINDS))) for cell in sorted(cells)]
            with contextlib.suppress(PathServerError):
                with Client.connect(self.at[4001], timeout=5) as leader, \
                        Client.connect(self.at[4000], timeout=5) as mirror:
                    told = leader.edit(edit)
                    if isinstance(told, Accepted):
                        self.counts["accepted"] += 1
                        mirror.wait_for(told.number, 20)
                        leader.status()  # the same leader: it has not been killed meanwhile
                        self.certain[told.number] = edit
            self.ending.wait(1)

    # how it is judged

    def maps(self):
        """The map of each version."""
        cells, lines = list(self.cells), open(self.journal, encoding="ascii").read().split("\n")[1:-1]
        yield 0, Map(self.width, self.height, list(cells)), []
        for number, line in enumerate(lines, 1):
            words = [int(word) for word in line.split()]
            judge("a journal's number", words[0], number)
            edit = list(zip(words[1::3], words[2::3], words[3::3]))
            for x, y, kind in edit:
                cells[y * self.width + x] = kind
            yield number, Map(self.width, self.height, list(cells)), edit

    def judge_all(self):
        last = 0
        for number, grid, edit in self.maps():
            if number in self.certain:
                self.counts["certain"] += 1
                judge(f"edit {number}", edit, [(*cell, KINDS[kind]) for cell, kind in self.certain.pop(number)])
            costs = {}
            for start, goal, reply in self.seen.pop(number, ()):
                if start not in costs:
                    costs[start] = grid.costs(start) if grid.at(*start) else {}
                judge(f"version {number}, {start} to {goal}",
                      found_in(grid, start, goal, reply), wanted(grid, costs[start], start, goal))
                self.counts["judged"] += 1
            last = number
        judge("edits that are lost", sorted(self.certain), [])
        judge("versions that never were", sorted(self.seen), [])
        self.counts["edits"] = last


def wanted(grid, costs, start, goal):
    """What is to be found: the refusal, the least cost, or none."""
    for cell, name in ((start, "START"), (goal, "GOAL")):
        if not grid.at(*cell):
            return "BLOCKED", name
    return costs.get(goal)


def found_in(grid, start, goal, reply):
    """What a reply says, where its path is one."""
    if isinstance(reply, Refused):
        return reply.reason.name, reply.end.name
    if isinstance(reply, Unreachable):
        return None
    at, cost = start, 0
    for number in reply.move_bytes:
        at, cost = grid.move(at, number), cost + WEIGHTS[number]
        if at is None:
            return "an illegal move"
    return cost if at == goal else f"a path to {at}"


def run(field):
    """The servers, the load, and who is killed when."""
    seconds = field.options.seconds
    for name in ("leader", "one", "two", "haproxy"):
        field.start(name)
        if name == "leader":
            field.wait_for("the leader", lambda: field.numbers(4111))
    field.wait_for("the mirrors", lambda: field.numbers(4112) and field.numbers(4113))
    works = [threading.Thread(target=field.editor)]
    works += [threading.Thread(target=field.client, args=(seed,)) for seed in range(field.options.clients)]
    for work in works:
        work.start()
    killed, stopped = signal.SIGKILL, signal.SIGTERM
    for name, sign in (("leader", killed), ("one", killed), ("two", stopped), ("leader", stopped)):
        time.sleep(seconds / 5)
        field.end(name, sign)
        time.sleep(2.5 if name == "leader" else 0.5)
        field.start(name)
        field.counts["begun again"] += 1
    time.sleep(seconds / 5)
    numbers = [field.numbers(port) for port in (4111, 4112, 4113, 4100)]
    field.ending.set()
    for work in works:
        work.join()
    field.wait_for("one version everywhere", lambda: len(field.versions()) == 1)
    return numbers


def end(field):
    """Ends all as on a stop."""
    for name in ("one", "two", "leader"):
        judge(f"the end of {name}", field.end(name, signal.SIGTERM), 0)


def main():
    parser = argparse.ArgumentParser(description=__doc__.split("\n", maxsplit=1)[0])
    parser.add_argument("--seconds", type=float, default=30)
    parser.add_argument("--clients", type=int, default=4)
    options = parser.parse_args()
    if not shutil.which("haproxy"):
        skip("there is no haproxy")
    with tempfile.TemporaryDirectory() as folder:
        field = Field(folder, options)
        field.configure()
        try:
            leader, one, two, haproxy = run(field)
            for each in (one, two):
                judge("numbers of a mirror", {"path_server_fed_edits", "path_server_feed_age_seconds"} <= {*each}, True)
            judge("numbers of the leader", "path_server_synced_edits" in leader, True)
            judge("HAProxy's numbers", any(name.startswith("haproxy_server_status") for name in haproxy), True)
            end(field)
            field.judge_all()
            judge("enough was seen", all(field.counts[what] > 0 for what in ("judged", "certain", "edits")), True)
        except BaseException:
            for name in field.running:
                with open(f"{folder}/{name}.log", encoding="utf-8", errors="replace") as file:
                    print(f"-- {name}\n{file.read()[-2000:]}")
            raise
        finally:
            field.ending.set()
            for process in field.running.values():
                process.kill()
                process.wait()
    print("mirrors.py:", ", ".join(f"{count} {what}" for what, count in sorted(field.counts.items())))
    return judge.failed


if __name__ == "__main__":
    sys.exit(main())
