#!/usr/bin/env python3
"""Tries `path_server serve` from outside, over TCP, and judges every reply.

    tests/load.py [--seconds N] [--clients N] [--hostile N] [--doors N] [--side K] [--room N] [--port P] [--seed S]
                  [--program FILE]

Clients send queries, edits, builds and status, in sessions of one to some hundred requests, one or several at a time.
Beside them hostile ones send half frames, random bytes, lengths that are too long, requests byte by byte, or more
requests than they read the replies of; and they close or reset their connections at any point. At the end one client
stops the server, while the sessions of others go on.

A version is as new as what its client had seen; each path is legal and optimal on the map of its version, which is the
map after so many accepted edits, and `unreachable`, refusals, totals and counts are right there, by a plain model
(load.cpp, compiled with g++); each edit's number is accepted once. What the server prints at the end agrees with that.
While nobody is connected, its memory is within LEEWAY of what it was after the first tenth of the time. Prints a line,
and what is wrong; the status is 1 then. Judging takes longer than the load. The program is the one that was built here,
or the release.
"""

import argparse
import os
import random
import socket
import subprocess
import sys
import tempfile
import threading
import time

from judging import program_here
from path_server import (
    Accepted,
    AskStatus,
    Build,
    Bye,
    Change,
    ConnectionLost,
    Done,
    EditFault,
    EditRefused,
    Malformed,
    NotConnected,
    NothingNew,
    Overtaken,
    Path,
    PathServerError,
    Published,
    Query,
    Refused,
    Server,
    Status,
    Stop,
    TcpLink,
    Terrain,
    Unreachable,
    free_port,
)
from path_server.frames import MAX_REQUEST, decoded, decoded_request, encoded, frame_of, framed, split_requests

LEEWAY = 24  # MB that the server may take at the end beyond what it took after the first tenth of the time
REST = 1  # seconds in which each door that nobody came to looks at the board
PATIENCE = 60  # seconds that a reply may take


def cut(data):
    """The whole frames at the front of some bytes, without their lengths, and whether a length behind them is refused
    before all bytes are read."""
    frames, rest = split_requests(data)
    return frames, len(rest) > 2 and int.from_bytes(rest[:2], "big") > MAX_REQUEST


class Wrong(Exception):
    """A reply that no server may send."""


class Shared:
    """What all clients share: the map's start, the edits by number, the replies to be judged, and what went wrong."""

    def __init__(self, options, cells):
        self.options, self.cells = options, cells
        self.lock = threading.Lock()
        self.edits, self.published, self.versions, self.log, self.wrong = {}, set(), set(), [], []
        self.counts = {}
        # clients go on until then; no reply is owed to a connection that came after the stop
        self.ending, self.stopping = threading.Event(), threading.Event()

    def tell(self, text):
        with self.lock:
            self.wrong.append(text)

    def count(self, what):
        with self.lock:
            self.counts[what] = self.counts.get(what, 0) + 1

    def accept(self, number, edit):
        with self.lock:
            if number in self.edits:
                raise Wrong("edit %d was accepted twice" % number)
            self.edits[number] = edit

    def publish(self, version):
        with self.lock:
            if version in self.published:
                raise Wrong("version %d was published twice" % version)
            self.published.add(version)


class Client:
    """One who asks: what he has seen, over all his connections, and how each reply is judged at once."""

    def __init__(self, shared, seed):
        self.shared, self.rng = shared, random.Random(seed)
        self.version = self.accepted = 0
        self.link = None

    # ---- connections

    def connect(self):
        self.link = TcpLink(self.shared.options.port, timeout=PATIENCE)

    def close(self, reset=False):
        if reset:
            self.link.reset()
        self.link.close()

    def send(self, data):
        self.link.send(data, time.monotonic() + PATIENCE)

    def ends(self):
        """The server has closed the connection, or closes it now."""
        self.link.end(time.monotonic() + PATIENCE)

    # ---- what is asked

    def place(self):
        """Mostly inside the map."""
        side = self.shared.options.side
        column, row = [self.rng.randrange(side if self.rng.random() < 0.995 else 65536) for _ in range(2)]
        return column, row

    def request(self):
        dice = self.rng.random()
        if dice < 0.85:
            # few starts, so that the judge's searches are few
            start = self.rng.choice(self.shared.options.starts) if self.rng.random() < 0.995 else self.place()
            return Query(start, self.place())
        if dice < 0.95:
            return Change(self.place(), Terrain.LAND if self.rng.random() < 0.75 else Terrain.BLOCKED)
        return Build() if dice < 0.96 else AskStatus()

    # ---- how replies are judged

    def judge(self, frame, told):
        """Judges the reply to a frame. What needs the maps is kept for the end."""
        asked = decoded_request(frame)
        if asked is None:
            wanted = Malformed(frame[0] if frame else 0, len(frame))
            if told != wanted:
                raise Wrong("%s was answered %s, not %s" % (frame.hex(), told, wanted))
            return
        judges = {Query: self.query, Change: self.change, Build: self.build, AskStatus: self.status}
        judges.get(type(asked), self.done)(asked, told)

    def sees(self, version=0, accepted=0):
        """An answer tells a version, and how many edits are accepted: neither is below what was seen."""
        if version and version < self.version or accepted and accepted < self.accepted:
            raise Wrong("seen: version %d, %d edits; then told: %d, %d" % (self.version, self.accepted, version, accepted))
        self.version = max(self.version, version)
        self.accepted = max(self.accepted, accepted, version)

    def keep(self, *words):
        self.shared.log.append(" ".join(str(word) for word in words))

    def is_one_of(self, asked, told, *kinds):
        if not isinstance(told, kinds):
            raise Wrong("%s was answered %s" % (asked, told))

    def query(self, asked, told):
        self.is_one_of(asked, told, Path, Unreachable, Refused)
        if told.version < self.version:
            raise Wrong("version %d was seen, and then one reply had %d" % (self.version, told.version))
        self.sees(told.version)
        self.shared.versions.add(told.version)
        question = ("query", told.version, *asked.start, *asked.goal)
        if isinstance(told, Path):
            moves = "." + "".join(str(int(move)) for move in told.moves)
            self.keep(*question, "path", told.straight, told.diagonal, moves)
        elif isinstance(told, Unreachable):
            self.keep(*question, "unreachable")
        else:
            self.keep(*question, "refused", told.reason.value - 1, told.end.value)

    def change(self, asked, told):
        if max(asked.cell) >= self.shared.options.side:
            if told != EditRefused(EditFault.OUTSIDE):
                raise Wrong("an edit outside was answered %s" % told)
            return
        self.is_one_of(asked, told, Accepted)
        if told.number <= self.accepted:
            raise Wrong("%d edits were seen, and then one was answered %s" % (self.accepted, told))
        self.shared.accept(told.number, (*asked.cell, asked.terrain.value))
        self.sees(accepted=told.number)

    def build(self, asked, told):
        self.is_one_of(asked, told, Published, NothingNew, Overtaken)
        if told.version < self.accepted:
            raise Wrong("%d edits were seen, and then a build was answered %s" % (self.accepted, told))
        self.shared.versions.add(told.version)
        if isinstance(told, Published):
            self.shared.publish(told.version)
            self.keep("published", self.version, told.version, told.built, told.kept)
        self.sees(told.version, told.version)

    def status(self, asked, told):
        self.is_one_of(asked, told, Status)
        if told.version < self.version or told.accepted < max(self.accepted, told.version):
            raise Wrong("version %d, %d edits were seen, and then: %s" % (self.version, self.accepted, told))
        self.sees(told.version, told.accepted)
        self.shared.versions.add(told.version)
        self.keep("status", told.version, told.cells, told.components, told.runs)

    def done(self, asked, told):
        self.is_one_of(asked, told, Done)

    # ---- sessions

    def hear(self, frames):
        """Reads and judges the replies to these frames."""
        for asked in frames:
            self.judge(asked, decoded(self.link.receive(time.monotonic() + PATIENCE)))
            self.shared.count("replies")

    def session(self):
        """Some requests, one or several at a time, and one of the ends."""
        for _ in range(self.rng.randint(1, 40)):
            asked = [self.request() for _ in range(self.rng.choice((1, 1, 1, 2, 8)))]
            self.send(b"".join(map(encoded, asked)))
            self.hear(map(frame_of, asked))
            time.sleep(self.rng.random() * 0.01)
        end = self.rng.random()
        if end < 0.4:
            self.send(encoded(Bye()))
            self.hear([frame_of(Bye())])
            self.ends()
        elif end < 0.8:
            self.link.end_input()
            self.ends()
        self.close(reset=0.9 < end)

    def run(self):
        """Sessions until the end. A connection that came after the stop gets no answer."""
        while not (self.shared.ending.is_set() or self.shared.stopping.is_set()):
            try:
                self.connect()
                self.session()
                self.shared.count("sessions")
            except (ConnectionLost, NotConnected) as error:
                if not self.shared.stopping.is_set():
                    self.shared.tell("a session broke off: %r" % error)


class Hostile(Client):
    """One who asks as no client should. The replies that he reads are judged as any."""

    def data(self):
        """Requests that change nothing, so that no edit is accepted whose number nobody reads."""
        asked = [Query(self.rng.choice(self.shared.options.starts), self.place()) for _ in range(8)]
        sent = [*map(encoded, [*asked, AskStatus(), Build()]), framed(b""), framed(b"\xc8"), framed(b"\3\0")]
        return b"".join(sent[self.rng.randrange(8) :])

    def pour(self, data, ends=True):
        """Sends all at once, and hears the replies to the whole frames and then the end. What the server does not read
        resets the connection, so that replies may be lost."""
        frames, refused = cut(data)
        try:
            self.send(data)
            if ends:
                self.link.end_input()
            self.hear(frames)
            self.ends()
        except (ConnectionLost, OSError):
            if not refused:
                raise

    def half_frame(self):
        data = self.data()
        self.pour(data[: self.rng.randrange(1, len(data))])

    def random_bytes(self):
        data = bytes(self.rng.choice((0, 0, 1, 2, 9, self.rng.randrange(256))) for _ in range(self.rng.randrange(200)))
        if not any(isinstance(decoded_request(each), (Change, Bye, Stop)) for each in cut(data)[0]):
            self.pour(data)

    def long_length(self):
        length = self.rng.choice((65, 256, 65535, self.rng.randrange(65, 65536)))
        data = self.data() + length.to_bytes(2, "big")
        self.pour(data + b"\1" * self.rng.choice((0, 1, 70, 70000)), ends=False)

    def byte_by_byte(self):
        for _ in range(self.rng.randint(1, 4)):
            asked = self.request()
            for byte in encoded(asked):
                self.send(bytes([byte]))
                time.sleep(self.rng.random() * 0.005)
            self.hear([frame_of(asked)])

    def reset(self):
        data = self.data()
        data = data[: self.rng.randrange(len(data) + 1)]
        self.send(data)
        frames = cut(data)[0]
        self.hear(frames[: self.rng.randrange(3)])

    def unread(self):
        """Asks for more than the server can send to one who does not read."""
        with socket.create_connection(("127.0.0.1", self.shared.options.port), timeout=1) as blind:
            try:
                for _ in range(1000):
                    blind.sendall(self.data() * 100)
            except socket.timeout:
                self.shared.count("unread until nothing went")

    def run(self):
        kinds = [self.half_frame, self.random_bytes, self.long_length, self.byte_by_byte, self.reset]
        while not self.shared.ending.is_set():
            kind = self.unread if self.rng.random() < 0.01 else self.rng.choice(kinds)
            self.connect()
            kind()
            self.close(reset=kind in (self.reset, self.unread) or self.rng.random() < 0.3)
            self.shared.count(kind.__name__)
            time.sleep(self.rng.random() * 0.02)


def guarded(client):
    """Runs a client to its end, and keeps what went wrong."""
    try:
        client.run()
    except (Wrong, PathServerError, OSError) as error:
        client.shared.tell("%s: %r" % (type(client).__name__, error))
    finally:
        if client.link:
            client.close()


def memory_of(process):
    """What a process has in memory, in MB."""
    with open("/proc/%d/status" % process.pid) as file:
        return next(int(line.split()[1]) for line in file if line.startswith("VmRSS:")) / 1024


def begin(clients):
    """Starts clients, and gives their threads."""
    clients[0].shared.ending.clear()
    threads = [threading.Thread(target=guarded, args=[client], daemon=True) for client in clients]
    for thread in threads:
        thread.start()
    return threads


def end(shared, threads):
    """Lets all clients end their sessions."""
    shared.ending.set()
    for thread in threads:
        thread.join(2 * PATIENCE)


def load(shared, process):
    """Runs all clients for a tenth of the time, and for the rest; and then those that are not hostile, until the server is
    stopped. Returns what it takes of memory while nobody is there: after a tenth, and after the whole time."""
    options, memory = shared.options, []
    clients = [Client(shared, "%d client %d" % (options.seed, number)) for number in range(options.clients)]
    hostile = [Hostile(shared, "%d hostile %d" % (options.seed, number)) for number in range(options.hostile)]
    for part in (0.1, 0.9):
        threads = begin(clients + hostile)
        time.sleep(options.seconds * part)
        end(shared, threads)
        time.sleep(REST)
        memory.append(memory_of(process))
    threads = begin(clients)
    time.sleep(REST)
    last = Client(shared, 0)
    last.connect()
    shared.stopping.set()
    asked = [AskStatus(), Stop()]
    last.send(b"".join(map(encoded, asked)))
    last.hear(map(frame_of, asked))
    last.ends()
    end(shared, threads)
    return memory


def judge_end(shared, totals):
    """What the server printed against what was accepted and published."""
    accepted = len(shared.edits)
    if sorted(shared.edits) != list(range(1, accepted + 1)):
        shared.tell("the numbers of accepted edits have gaps")
    # the builder hears the last edit before it hears of the end
    if totals.accepted != accepted or totals.version != accepted:
        shared.tell("%d edits were accepted, and the server told: %s" % (accepted, totals))
    elif not len((shared.published | shared.versions) - {0}) <= totals.published <= accepted:
        shared.tell("%d versions were seen, and the server told: %s" % (len(shared.versions), totals))


def judge_replies(shared, folder):
    """The replies against the maps of their versions. Returns what the judge says of its work."""
    side, judge = shared.options.side, os.path.join(folder, "judge")
    source = os.path.join(os.path.dirname(os.path.abspath(__file__)), "load.cpp")
    subprocess.run(["g++", "-O2", "-pthread", "-o", judge, source], check=True)
    rows = ["".join(".@"[(x, y) not in shared.cells] for x in range(side)) for y in range(side)]
    edits = ["%d %d %d" % shared.edits[number] for number in sorted(shared.edits)]
    text = ["map %d %d" % (side, side), *rows, "edits %d" % len(edits), *edits, *shared.log]
    judged = subprocess.run([judge], input="\n".join(text) + "\n", stdout=subprocess.PIPE, text=True)
    lines = judged.stdout.splitlines()
    if judged.returncode != 0:
        shared.tell("\n  ".join(["the replies against the maps:"] + lines))
    return lines[-1] if lines else ""


def main():
    parser = argparse.ArgumentParser(description=__doc__.split("\n", maxsplit=1)[0])
    parser.add_argument("--seconds", type=float, default=60)
    for name, default in (("clients", 16), ("hostile", 16), ("doors", 40), ("side", 64), ("room", 65536), ("port", 0), ("seed", 1)):
        parser.add_argument("--" + name, type=int, default=default)
    parser.add_argument("--program", default=program_here())
    options = parser.parse_args()
    options.port = options.port or free_port()
    rng, side = random.Random(options.seed), options.side
    cells = {(x, y) for y in range(side) for x in range(side) if rng.random() < 0.75}
    options.starts = [(rng.randrange(side), rng.randrange(side)) for _ in range(40)]
    shared = Shared(options, cells)
    with tempfile.TemporaryDirectory() as folder:
        name = os.path.join(folder, "m.map")
        with open(name, "w") as file:
            file.write("type octile\nheight %d\nwidth %d\nmap\n" % (side, side))
            file.writelines("".join(".@"[(x, y) not in cells] for x in range(side)) + "\n" for y in range(side))
        server = None
        try:
            room = ["--room", str(options.room)]
            server = Server(name, *room, port=options.port, doors=options.doors, program=options.program)
            before, after = load(shared, server.process)
            judge_end(shared, server.ended(PATIENCE))
        except (Wrong, PathServerError, OSError) as error:
            sys.exit("\n".join("load.py: %s" % text for text in shared.wrong[:10] + ["the server does not end: %r" % error]))
        finally:
            if server:
                server.kill()
        if after > before + LEEWAY:
            shared.tell("its memory grew from %.0f to %.0f MB" % (before, after))
        work = judge_replies(shared, folder)
    ends = ", ".join("%d %s" % (count, what) for what, count in sorted(shared.counts.items()))
    print("load.py: %s; %d edits; %.0f and %.0f MB; %s" % (ends, len(shared.edits), before, after, work))
    for text in shared.wrong[:10]:
        print("load.py: %s" % text)
    sys.exit(1 if shared.wrong else 0)


if __name__ == "__main__":
    main()
