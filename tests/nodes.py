#!/usr/bin/env python3
"""Tries `path_server lead` and `path_server follow` from outside, over TCP.

    tests/nodes.py [--seconds N] [--clients N] [--side K] [--seed S] [--speed]

First what a leader sends and what a follower makes of what it gets, byte by byte: each end of a feed, each status; and a
leader's words for the operator. Then clients edit a leader for some seconds. Beside them followers come one after the
other, some ask often and some once; others read slowly, break off, ask wrongly, or say nothing. What each follower then
answers is, byte for byte, what a session says that made the same first edits and built once; the edits of a feed are
those that were accepted, in their order. With --speed it tells how many queries a second a leader answers with followers
and without. Prints only what is wrong; the status is 1 then.
"""

import argparse
import os
import random
import re
import socket
import subprocess
import sys
import tempfile
import threading
import time
import unittest.mock

from judging import program_here
from path_server import (
    Accepted,
    AskStatus,
    Change,
    Client,
    Edit,
    PathServerError,
    Query,
    Server,
    Terrain,
    free_port,
)
from path_server.frames import encoded

PATIENCE = 60  # seconds that an answer may take
SOON = 10  # and where nobody is in the way
ASK_TIME = 10  # seconds in which an ask that was begun has to be whole
SILENCE = 30  # seconds after which a follower that asks nothing is let go
MAX_EDITS = 1024  # in one message
ROW = "type octile\nheight 1\nwidth 3\nmap\n...\n"
ROW_START = bytes.fromhex("0000000c 31 00000003 00000001 01 01 01")
ONE_EDIT = bytes.fromhex("0000000f 32 00000000 00000001 01 0000 0000 00")


class Wrong(Exception):
    """Something that is not as it should be."""


def same(what, got, wanted):
    if got != wanted:
        raise Wrong("%s: %r, and not %r" % (what, got, wanted))


def ask(known):
    return b"\x21" + known.to_bytes(4, "big")


class Feed:
    """A follower of our own, byte by byte."""

    def __init__(self, port):
        self.link = socket.create_connection(("127.0.0.1", port), timeout=PATIENCE)

    def bytes(self, count):
        data = b""
        while len(data) < count:
            piece = self.link.recv(count - len(data))
            if not piece:
                raise Wrong("a feed ended inside a message: %s" % data.hex())
            data += piece
        return data

    def message(self):
        return self.bytes(int.from_bytes(self.bytes(4), "big"))

    def edits(self, known):
        """Asks for what comes behind so many edits, and gives it: each edit as its changes."""
        self.link.sendall(ask(known))
        frame = self.message()
        same("the head of a message", (frame[0], int.from_bytes(frame[1:5], "big")), (0x32, known))
        count, at, edits = int.from_bytes(frame[5:9], "big"), 9, []
        for _ in range(count):
            size = frame[at]
            each = [frame[at + 1 + 5 * i : at + 6 + 5 * i] for i in range(size)]
            edits.append([(int.from_bytes(c[0:2], "big"), int.from_bytes(c[2:4], "big"), c[4]) for c in each])
            at += 1 + 5 * size
        same("the length of a message", at, len(frame))
        return edits

    def ends(self):
        same("what comes at the end of a feed", self.link.recv(1), b"")
        self.link.close()


class FakeLeader(threading.Thread):
    """Somebody who sends a follower these bytes, in pieces of this size, and then closes or waits."""

    def __init__(self, data, piece=0, waits=False):
        super().__init__(daemon=True)
        self.data, self.piece, self.waits = data, piece or len(data) or 1, waits
        self.listener = socket.create_server(("127.0.0.1", 0))
        self.port = self.listener.getsockname()[1]
        self.heard = b""
        self.start()

    def run(self):
        link, _ = self.listener.accept()
        link.setsockopt(socket.IPPROTO_TCP, socket.TCP_NODELAY, 1)
        try:
            for at in range(0, len(self.data), self.piece):
                link.sendall(self.data[at : at + self.piece])
            if not self.waits:
                link.shutdown(socket.SHUT_WR)
            while True:
                piece = link.recv(4096)
                if not piece:
                    break
                self.heard += piece
        except OSError:
            pass
        link.close()
        self.listener.close()


def follow(program, port, rounds, data=b"", *options):
    """Runs a follower with this input to its end: its status, what it put, and what it said."""
    command = [program, "follow", str(port), str(rounds), *options]
    done = subprocess.run(command, input=data, capture_output=True, timeout=PATIENCE, check=False)
    return done.returncode, done.stdout, done.stderr.decode()


# ---- bytes and ends


def try_feed(program, folder):
    """What a leader of one edit sends: the bytes of two worked examples, and each end of a feed."""
    name = os.path.join(folder, "row.map")
    with open(name, "w", encoding="ascii") as file:
        file.write(ROW)
    log = unittest.mock.patch.dict(os.environ, PATH_SERVER_LOG="1")
    with log, Server(name, feed=0, doors=2, program=program) as server:
        with server.connect() as client:
            same("the first edit", client.change((0, 0), Terrain.BLOCKED), Accepted(1))
            client.wait_for(1)
        feed = Feed(server.feed)
        feed.link.sendall(ask(0))
        same("a feed of one edit", feed.bytes(len(ROW_START) + len(ONE_EDIT)), ROW_START + ONE_EDIT)
        same("the edits behind the first", feed.edits(1), [])
        feed.link.sendall(ask(2))
        same("an ask ahead", feed.message(), bytes.fromhex("33 00000001"))
        feed.link.shutdown(socket.SHUT_WR)
        feed.ends()
        for what, data in (("another first byte", b"\x22"), ("a frame of a session", encoded(Query((0, 0), (1, 0))))):
            feed = Feed(server.feed)
            same(what + ": the map", feed.bytes(len(ROW_START)), ROW_START)
            feed.link.sendall(data)
            feed.link.settimeout(2)
            feed.ends()
        feed = Feed(server.feed)
        feed.bytes(len(ROW_START))
        feed.link.sendall(ask(0)[:3])
        feed.link.shutdown(socket.SHUT_WR)
        feed.ends()
        # an ask that is left half said is waited for so long and no longer, and one who is between asks longer
        feed, began = Feed(server.feed), time.monotonic()
        feed.bytes(len(ROW_START))
        feed.link.sendall(ask(0)[:3])
        feed.ends()
        if not ASK_TIME - 1 < time.monotonic() - began < ASK_TIME + 5:
            raise Wrong("a half ask was waited for %.1f seconds" % (time.monotonic() - began))
        silent = Feed(server.feed)
        silent.bytes(len(ROW_START))
        same("the edits, asked after a silence", (time.sleep(ASK_TIME + 2), silent.edits(0))[1], [[(0, 0, 0)]])
        silent.link.close()
        # a follower that asks nothing holds the feed for so long and no longer, and the next one has it then
        silent, began = Feed(server.feed), time.monotonic()
        silent.bytes(len(ROW_START))
        waiting = Feed(server.feed)
        same("the edits of who waited", (waiting.bytes(len(ROW_START)), waiting.edits(0))[1], [[(0, 0, 0)]])
        if not SILENCE - 1 < time.monotonic() - began < SILENCE + 5:
            raise Wrong("a silent follower held the feed for %.1f seconds" % (time.monotonic() - began))
        silent.ends()
        silent = waiting
        # a stop ends who is silent at the feed, as it ends a session, and lets nobody in
        began = time.monotonic()
        with server.connect() as client:
            client.stop()
        totals = server.ended(PATIENCE)
        same("the totals", (totals.accepted, totals.version), (1, 1))
        if time.monotonic() - began > ASK_TIME + 5:
            raise Wrong("a silent follower held a stop up for %.1f seconds" % (time.monotonic() - began))
        same("who was silent", silent.link.recv(1), b"")
        words = [line.removeprefix("path_server lead: ") for line in server.told().splitlines() if "ended" in line]
    same("why connections ended", sorted(words), sorted([
        *["a connection ended inside a frame, or by one too long"] * 2,
        "a connection ended: a frame was not whole within 10 seconds",
        "a connection ended: its follower was silent for 30 seconds",
        "a connection ended: it was open 10 seconds after a stop",
        "ended; 10 connections, 5 of them by a fault"]))


def try_two(program, folder):
    """A follower hangs up before its session: while that goes on a second one gets the one door of the feed."""
    with Server(os.path.join(folder, "row.map"), feed=0, doors=1, program=program) as server:
        with server.follow(0, program=program, timeout=PATIENCE) as first:
            same("the first follower", first.status().accepted, 0)
            with server.follow(0, program=program, timeout=SOON) as second:
                same("a second follower", second.status().accepted, 0)
            same("the first follower, later", first.status().accepted, 0)


def try_words(program, folder):
    """What a leader says: which of its ports is taken, and its start and its end, by its own name."""
    row, port = os.path.join(folder, "row.map"), free_port()
    with socket.create_server(("127.0.0.1", 0)) as listener:
        taken = listener.getsockname()[1]
        told = f"path_server lead: port {taken} is taken: Address already in use (os error 98)\n"
        for ports in ((taken, port), (port, taken)):
            command = [program, "lead", row, str(ports[0]), "1", str(ports[1])]
            done = subprocess.run(command, capture_output=True, text=True, timeout=PATIENCE, check=False)
            same("a port that is taken", (done.returncode, done.stdout, done.stderr), (5, "read fault\n", told))
    with Server(row, feed=0, doors=1, program=program) as server, open("/dev/full", "wb") as full:
        done = subprocess.run([program, "follow", str(server.feed), "1"], input=encoded(AskStatus()), stdout=full,
                              stderr=subprocess.PIPE, timeout=PATIENCE, check=False)
        told = b"path_server follow: the output or the connection failed\n"
        same("follow, with an output that takes nothing", (done.stderr, done.returncode), (told, 6))
    with unittest.mock.patch.dict(os.environ, PATH_SERVER_LOG="1"):
        with Server(row, feed=0, doors=1, program=program) as server:
            server.stop(PATIENCE)
            told = re.sub(r"\d+ ms", "N ms", server.told())
    opened = ["path_server lead: port %d open, 1 door, N ms after the start" % port for port in (server.port, server.feed)]
    same("words for the operator", sorted(told.splitlines()), sorted([
        "path_server lead: ended; 1 connection, 0 of them by a fault", *opened]))


def try_follow(program):
    """What a follower makes of what it gets: its answers, each status, and its asks."""
    query = encoded(Query((1, 0), (2, 0)))
    reply = bytes.fromhex("0000000e 81 00000001 00000001 00000000 02")
    for piece in (0, 1, 7):
        leader = FakeLeader(ROW_START + ONE_EDIT, piece)
        same("a follower", follow(program, leader.port, 1, query), (0, b"following 1\n" + reply, ""))
        leader.join(PATIENCE)
        same("its ask", leader.heard, ask(0))
    leader = FakeLeader(ROW_START, waits=True)
    same("a follower of the map alone", follow(program, leader.port, 0), (0, b"following 0\n", ""))
    leader.join(PATIENCE)
    same("its asks", leader.heard, b"")
    none = bytes.fromhex("00000009 32 00000001 00000000")
    leader = FakeLeader(ROW_START + ONE_EDIT + none + none)
    same("a follower in three rounds", follow(program, leader.port, 3), (0, b"following 1\n", ""))
    leader.join(PATIENCE)
    same("its three asks", leader.heard, ask(0) + ask(1) + ask(1))
    other = ONE_EDIT[:8] + b"\x01" + ONE_EDIT[9:]
    blocked = ONE_EDIT[:-1] + b"\x03"
    bad = {
        "edits behind others": ROW_START + other,
        "a message that ends": (ROW_START + ONE_EDIT)[:20],
        "an ahead": ROW_START + bytes.fromhex("00000005 33 00000000"),
        "the map twice": ROW_START + ROW_START,
        "no map first": ONE_EDIT,
        "a terrain that there is not": ROW_START + blocked,
        "a length beyond all messages": ROW_START + bytes.fromhex("00100210"),
        "a map of no rows": bytes.fromhex("00000009 31 00000003 00000000"),
        "nothing": b"",
    }
    for what, data in bad.items():
        leader = FakeLeader(data)
        told = f"invalid or incomplete feed from port {leader.port}"
        same(what, follow(program, leader.port, 1, query), (10, b"bad answer\n", f"path_server follow: {told}\n"))
    leader, port = FakeLeader(ROW_START + bytes.fromhex("00000001 34")), free_port()
    told = f"path_server follow: the leader at port {leader.port} is out of memory\n"
    same("a leader without memory", follow(program, leader.port, 1, query), (13, b"leader out of memory\n", told))
    told = f"path_server follow: no leader at port {port}, or the connection or the input failed\n"
    same("nobody there", follow(program, port, 1, query), (5, b"read fault\n", told))
    leader = FakeLeader(ROW_START + ONE_EDIT)
    told = "path_server follow: the input ended inside a frame, 4 of 11 bytes\n"
    same("a torn session", follow(program, leader.port, 1, query[:4]), (9, b"following 1\n", told))
    for words in (["follow", "1"], ["follow", "0", "1"], ["follow", "1", "1048577"], ["lead", "m", "9", "1", "9"]):
        done = subprocess.run([program, *words], capture_output=True, timeout=PATIENCE, check=False)
        same(" ".join(words), (done.returncode, done.stdout[:7]), (1, b"usage: "))


# ---- a leader under load


class Load:
    """What all who take part share."""

    def __init__(self, options, program, name):
        self.options, self.program, self.name = options, program, name
        self.lock = threading.Lock()
        self.ending = threading.Event()
        self.edits, self.told, self.wrong, self.counts = {}, [], [], {}
        self.server = None

    def count(self, what, number=1):
        with self.lock:
            self.counts[what] = self.counts.get(what, 0) + number

    def until_end(self, work, seed):
        """Does the work again and again until the end."""
        rng = random.Random(seed)
        while not self.ending.is_set():
            try:
                work(rng)
            except (Wrong, PathServerError, OSError) as error:
                with self.lock:
                    self.wrong.append("%s: %r" % (work.__name__, error))
                return

    def cell(self, rng):
        return rng.randrange(self.options.side), rng.randrange(self.options.side)

    def edit(self, rng):
        """A session of edits, some of several changes, and of queries."""
        with self.server.connect(PATIENCE) as client:
            client.hello()
            for _ in range(40):
                if self.ending.is_set():
                    return
                cells = {self.cell(rng) for _ in range(rng.choice((1, 1, 1, 2, 30)))}
                changes = [(cell, rng.choice((Terrain.BLOCKED, Terrain.LAND, Terrain.LAND, Terrain.WATER))) for cell in cells]
                told = client.edit(changes)
                if isinstance(told, Accepted):
                    with self.lock:
                        if told.number in self.edits:
                            raise Wrong("edit %d was accepted twice" % told.number)
                        self.edits[told.number] = [(*cell, terrain.value) for cell, terrain in changes]
                for _ in range(4):
                    client.query(self.cell(rng), self.cell(rng))
                self.count("edits")
                time.sleep(rng.random() * 0.02)

    def steady(self, rng):
        """A follower that asks often."""
        self.follow(rng, rng.choice((20, 100)))

    def again(self, rng):
        """A follower that asks once or twice, and comes again."""
        self.follow(rng, rng.choice((0, 1, 2)))

    def follow(self, rng, rounds):
        order = rng.choice(("rows", "dfs"))
        with self.server.follow(rounds, "--order", order, program=self.program, timeout=4 * PATIENCE) as client:
            status = client.status()
            same("a follower's version", status.version, status.accepted)
            asked = [(self.cell(rng), self.cell(rng)) for _ in range(50)]
            told = [repr(answer) for answer in client.queries(asked)]
        with self.lock:
            self.told.append((status, order, asked, told))
        self.count("followers")

    def read_slowly(self, rng):
        """Takes a feed of our own in small pieces; the edits are those that were accepted."""
        feed, known = Feed(self.server.feed), 0
        feed.message()
        for _ in range(rng.choice((1, 3))):
            time.sleep(rng.random() * 0.3)
            edits = feed.edits(known)
            known += len(edits)
            self.count("edits fed", len(edits))
            with self.lock:
                self.told.append((known - len(edits), edits))
        feed.link.close()

    def be_hostile(self, rng):
        """Wrong asks, half asks, an end at any point, and silence."""
        feed = Feed(self.server.feed)
        kind = rng.choice(("wrong", "half", "reset", "silent", "unread"))
        if kind == "wrong":
            feed.link.sendall(rng.randbytes(rng.randrange(1, 300)))
        elif kind == "half":
            feed.link.sendall(ask(0)[: rng.randrange(1, 5)])
        elif kind == "silent":
            time.sleep(rng.random())
        elif kind == "unread":
            feed.link.sendall(ask(0) * 50)
        time.sleep(rng.random() * 0.2)
        feed.link.close()
        self.count("hostile")


def run_load(load):
    """Clients, followers and others, for so many seconds, and then a stop."""
    options = load.options
    works = [(load.edit, number) for number in range(options.clients)]
    works += [(load.steady, 0), (load.again, 1), (load.read_slowly, 2), (load.be_hostile, 3)]
    threads = [
        threading.Thread(target=load.until_end, args=(work, "%d %s %d" % (options.seed, work.__name__, number)), daemon=True)
        for work, number in works
    ]
    for thread in threads:
        thread.start()
    time.sleep(options.seconds)
    load.ending.set()
    for thread in threads:
        thread.join(5 * PATIENCE)
    return load.server.stop(PATIENCE)


def replies_of(load, edits, order, asked):
    """What a session says that makes these edits and builds once."""
    with Client.talk(load.name, "--order", order, program=load.program, timeout=PATIENCE) as client:
        client.hello()
        pending = [client.send(edit) for edit in edits]
        for each in pending:
            each.result(PATIENCE)
        client.build(PATIENCE)
        return client.status(), [repr(answer) for answer in client.queries(asked)]


def judge(load, totals):
    """What followers said, against sessions of the same edits."""
    same("the accepted edits", sorted(load.edits), list(range(1, totals.accepted + 1)))
    edits = [load.edits[number] for number in range(1, totals.accepted + 1)]
    for each in load.told:
        if len(each) == 2:
            known, fed = each
            same("edits of a feed behind %d" % known, [sorted(edit) for edit in fed], [sorted(e) for e in edits[known : known + len(fed)]])
            continue
        status, order, asked, told = each
        requests = [edit_of(edit) for edit in edits[: status.accepted]]
        wanted = replies_of(load, requests, order, asked)
        same("a follower's status", status, wanted[0])
        same("a follower's answers", told, wanted[1])


def edit_of(changes):
    """The request that makes these changes."""
    each = tuple(Change((x, y), Terrain(terrain)) for x, y, terrain in changes)
    return each[0] if len(each) == 1 else Edit(each)


def try_load(options, program, folder):
    rng, side = random.Random(options.seed), options.side
    name = os.path.join(folder, "load.map")
    with open(name, "w", encoding="ascii") as file:
        file.write("type octile\nheight %d\nwidth %d\nmap\n" % (side, side))
        file.writelines("".join(rng.choice("...@") for _ in range(side)) + "\n" for _ in range(side))
    load = Load(options, program, name)
    with Server(name, feed=0, doors=options.clients + 2, program=program) as load.server:
        totals = run_load(load)
    if load.wrong:
        raise Wrong("; ".join(load.wrong[:5]))
    judge(load, totals)
    if not all(load.counts.get(what) for what in ("edits", "followers", "edits fed", "hostile")):
        raise Wrong("nothing was tried: %r" % load.counts)
    return load.counts


# ---- speed


def queries_a_second(server, seconds, side):
    """How many queries two clients get answered."""
    counts = [0, 0]
    end = time.monotonic() + seconds

    def work(number):
        rng = random.Random(number)
        with server.connect(PATIENCE) as client:
            while time.monotonic() < end:
                pairs = [tuple((rng.randrange(side), rng.randrange(side)) for _ in "sg") for _ in range(200)]
                counts[number] += sum(1 for _ in client.queries(pairs, in_flight=64))

    threads = [threading.Thread(target=work, args=(number,)) for number in (0, 1)]
    for thread in threads:
        thread.start()
    for thread in threads:
        thread.join()
    return sum(counts) / seconds


def tell_speed(options, program, folder):
    """Queries a second with followers and without, in turn."""
    name, side = os.path.join(folder, "load.map"), options.side
    with Server(name, feed=0, doors=4, program=program) as server:
        for _ in range(3):
            alone = queries_a_second(server, 4, side)
            feed, over = Feed(server.feed), threading.Event()
            feed.message()

            def ask_on():
                while not over.is_set():
                    feed.edits(0)
                    time.sleep(0.005)

            asker = threading.Thread(target=ask_on)
            asker.start()
            beside = queries_a_second(server, 4, side)
            over.set()
            asker.join()
            feed.link.close()
            print("nodes.py: %.0f queries a second, %.0f beside a follower: %.2f" % (alone, beside, beside / alone))
        server.stop(PATIENCE)


def main():
    parser = argparse.ArgumentParser(description=__doc__.split("\n", maxsplit=1)[0])
    parser.add_argument("--seconds", type=float, default=8)
    for name, default in (("clients", 8), ("side", 40), ("seed", 1)):
        parser.add_argument("--" + name, type=int, default=default)
    parser.add_argument("--speed", action="store_true")
    options = parser.parse_args()
    program = program_here()
    with tempfile.TemporaryDirectory() as folder:
        try:
            try_follow(program)
            try_feed(program, folder)
            try_two(program, folder)
            try_words(program, folder)
            counts = try_load(options, program, folder)
            if options.speed:
                print("nodes.py: %s" % ", ".join("%d %s" % (count, what) for what, count in sorted(counts.items())))
                tell_speed(options, program, folder)
        except (Wrong, PathServerError, OSError) as error:
            sys.exit("nodes.py: %s" % error)


if __name__ == "__main__":
    main()
