#!/usr/bin/env python3
"""deploy/journal and deploy/serve --journal: edits of a leader that is killed are there again.

    tests/journal.py

Leaders are killed in the middle of a thousand edits, and so are recorders. What was in the file then is what the next
leader has: the first of the edits that were accepted, in their order, at least as many as a follower had heard of.
Files that are torn, spoilt or another leader's are cut off or refused.
"""
import collections, contextlib, os, resource, signal, subprocess, sys, tempfile, threading, time

from judging import TOP, Judge, program_here
from path_server import Accepted, Client, PathServerError, Server, Terrain, free_port
from path_server.feed import Feed
from path_server.frames import edit_of

judge = Judge()
os.environ["PATH_SERVER"] = program_here()
SERVE, JOURNAL, MAP = f"{TOP}/deploy/serve", f"{TOP}/deploy/journal", f"{TOP}/maps/tutorial.map"
KINDS = (Terrain.BLOCKED, Terrain.LAND, Terrain.WATER)
PATIENCE = 60


def edit(number):
    """The edit with that number: one change, or some."""
    cells = [(1 + (number + place) % 30, 1 + number % 11) for place in range(1 + number % 5 * (number % 3 == 0))]
    return [(cell, KINDS[number % 3]) for cell in cells]


def lines(numbers):
    """The lines of these edits in a journal."""
    return [" ".join(map(str, [number, *(word for (x, y), kind in edit(number) for word in (x, y, kind.value))]))
            for number in numbers]


def in_file(path):
    with open(path, encoding="ascii") as file:
        return file.read().split("\n")


class Leader:
    """A leader with a journal, that deploy/serve runs."""

    def __init__(self, path, relay=None, most=resource.RLIM_INFINITY):
        """With its journal, a port for followers of that, and how many bytes a file of it may have."""
        self.port, self.feed = free_port(), free_port()
        words = ["--journal", path, *(["--relay", str(relay)] if relay else [])]
        self.process = subprocess.Popen(
            [SERVE, *words, "lead", MAP, str(self.port), "4", str(self.feed)], stdin=subprocess.DEVNULL,
            stdout=subprocess.PIPE, stderr=subprocess.PIPE, text=True,
            preexec_fn=lambda: resource.setrlimit(resource.RLIMIT_FSIZE, (most, most)))
        self.said = [self.process.stdout.readline() for _ in range(4)]
        judge("the first lines", self.said[:2], [f"serving {self.port}\n", f"feeding {self.feed}\n"])

    def had(self):
        """How many edits it began with."""
        judge("the lines behind them", [line.split()[0] for line in self.said[2:]], ["replayed", "recording"])
        return int(self.said[2].split()[1])

    def connect(self):
        return Client.connect(self.port, timeout=PATIENCE)

    def end(self, sign):
        self.process.send_signal(sign)
        return (*self.process.communicate(timeout=PATIENCE), self.process.returncode)


def make_edits(client, begin, count, between=lambda accepted: None):
    """Makes so many edits after the first ones, 32 in flight, and tells `between` how many are accepted."""
    flying = collections.deque()
    for number in range(begin + 1, begin + count + 1):
        flying.append(client.send(edit_of(edit(number))))
        if len(flying) == 32 or number == begin + count:
            while len(flying) > (31 if number < begin + count else 0):
                accepted = number - len(flying) + 1
                judge("an edit", flying.popleft().result(PATIENCE), Accepted(accepted))
                between(accepted)


def edits_until_killed(path, begin, count):
    """Makes a thousand edits, and kills the leader after so many: how many it began with, how many were accepted, and
    how many a follower had heard of, which hears what is synced."""
    relay = free_port()
    leader, heard, accepted = Leader(path, relay), 0, begin

    def hear():
        nonlocal heard
        with contextlib.suppress(PathServerError), Feed.connect(relay) as feed:
            while True:
                heard += len(feed.ask(heard))

    def between(number):
        nonlocal accepted
        accepted = number
        if number == begin + count:
            os.kill(leader.process.pid, signal.SIGKILL)

    listener = threading.Thread(target=hear)
    listener.start()
    with contextlib.suppress(PathServerError), leader.connect() as client:
        make_edits(client, begin, 1000, between)
    leader.process.communicate(timeout=PATIENCE)
    listener.join()
    return leader.had(), accepted, heard


def try_kills(folder):
    path, begin, least = f"{folder}/killed", 0, 0
    for count in (500, 250, 700):
        had, accepted, heard = edits_until_killed(path, begin, count)
        judge("a new leader's edits", had, begin)
        _, *whole, torn = in_file(path)
        counts = f"{heard} heard, {len(whole)} whole lines, {accepted} accepted"
        judge(counts, heard <= len(whole) <= accepted + 32, True)
        judge("whole lines", (whole, torn), (lines(range(1, len(whole) + 1)), ""))
        begin, least = len(whole), max(least, len(whole))
    judge("edits were made", least > 0, True)
    with open(path, "a", encoding="ascii") as file:
        file.write(f"{begin + 1} 20")
    leader = Leader(path)
    judge("after a torn line", leader.had(), begin)
    with leader.connect() as client, Client.talk(MAP) as other:
        make_edits(other, 0, begin)
        other.build()
        judge("the status after a torn line", client.status(), other.status())
        ends = [((x, 3), (30 - x, 14)) for x in range(2, 28)]
        judge("the answers", list(client.queries(ends)), list(other.queries(ends)))
        judge("an edit more", client.edit(edit(begin + 1)), Accepted(begin + 1))
    out, err, status = leader.end(signal.SIGTERM)
    judge("a stop", (out.split()[0::2], status), (["accepted", "published", "version"], 0))
    judge("what is said of a torn line", err, f"journal: {path}: dropped a torn last line: b'{begin + 1} 20'\n")
    judge("an edit before a stop", in_file(path)[1:], [*lines(range(1, begin + 2)), ""])


def try_leader_killed(folder):
    """A leader that is killed ends the script."""
    leader = Leader(f"{folder}/alone")
    with open(f"/proc/{leader.process.pid}/task/{leader.process.pid}/children", encoding="ascii") as file:
        os.kill(int(file.read()), signal.SIGKILL)
    out, err = leader.process.communicate(timeout=PATIENCE)
    judge("a leader that is killed", (out, err, leader.process.returncode),
          ("", "journal: the program ended with status -9\n", 1))


def try_full(folder):
    """A file that can't grow ends the leader, and what was whole is there again."""
    path = f"{folder}/full"
    leader = Leader(path, most=4000)
    with contextlib.suppress(PathServerError), leader.connect() as client:
        make_edits(client, 0, 1000)
    out, err, status = leader.process.communicate(timeout=PATIENCE) + (leader.process.returncode,)
    judge("a full disk", (out, err, status), ("", "journal: [Errno 27] File too large\n", 1))
    whole = in_file(path)[1:-1]
    judge("what is whole", (whole, len(whole) > 100), (lines(range(1, len(whole) + 1)), True))
    leader = Leader(path)
    judge("after a full disk", leader.had(), len(whole))
    leader.end(signal.SIGTERM)


def run(*words):
    done = subprocess.run([JOURNAL, *map(str, words)], stdin=subprocess.DEVNULL, capture_output=True, text=True,
                          timeout=PATIENCE, check=False)
    return done.stdout, done.stderr, done.returncode


def try_commands(folder):
    """`record` beside a leader that runs already, killed and begun again; `replay` into a server."""
    path = f"{folder}/recorded"
    with Server(MAP, feed=0) as leader, leader.connect() as client:
        make_edits(client, 0, 1100)
        for count in (1100, 1101, 1102):
            recorder = subprocess.Popen([JOURNAL, "record", str(leader.feed), path], stdout=subprocess.PIPE, text=True)
            judge("a recorder begins", recorder.stdout.readline().split()[0], "recording")
            while len(in_file(path)) < count + 2:
                time.sleep(0.02)
            judge("two recorders", run("record", leader.feed, path), ("", f"journal: another process has {path}\n", 1))
            recorder.kill()
            recorder.communicate()
            judge("what was recorded", in_file(path)[1:], [*lines(range(1, count + 1)), ""])
            client.edit(edit(count + 1))
    with Server(MAP) as server, server.connect() as client:
        judge("a replay", run("replay", server.port, path), ("replayed 1102\n", "", 0))
        judge("its version", client.status().version, 1102)
        again = "journal: the server has 1102 edits already\n"
        judge("a replay again", run("replay", server.port, path), ("", again, 1))
        judge("a journal that is not there", run("replay", server.port, f"{folder}/none")[2], 1)
    return path


def try_refusals(folder, path):
    """Files that are no journal, and leaders that are others."""
    text = in_file(path)
    spoilt = {
        "another number": (4, "\n".join([*text[:3], "4 1 1 1", *text[4:]])),
        "a word that is left out": (3, "\n".join([*text[:2], text[2].rsplit(" ", 1)[0], *text[3:]])),
        "a carriage return": (2, "\n".join([text[0], text[1] + "\r", *text[2:]])),
        "a map": (1, open(MAP, encoding="ascii").read()),
    }
    with Server(MAP, feed=0) as leader, leader.connect() as client:
        for what, (line, data) in spoilt.items():
            with open(f"{folder}/spoilt", "w", encoding="ascii", newline="") as file:
                file.write(data)
            said = f"journal: {folder}/spoilt:{line}: not a line of a journal\n"
            judge(what, run("record", leader.feed, f"{folder}/spoilt"), ("", said, 1))
        judge("a leader without edits", run("record", leader.feed, path),
              ("", f"journal: {path} has 1102 edits, and the leader has 0\n", 1))
        make_edits(client, 0, 1050)
        client.edit(edit(2))
        make_edits(client, 1051, 100)
        judge("a leader with others", run("record", leader.feed, path),
              ("", f"journal: {path} has other edits than the leader, after 1024\n", 1))
    with Server(f"{TOP}/tests/maps/row.map", feed=0) as leader:
        judge("a leader of another map", run("record", leader.feed, path),
              ("", f"journal: {path} is the journal of another map\n", 1))


def main():
    with tempfile.TemporaryDirectory() as folder:
        try_kills(folder)
        try_leader_killed(folder)
        try_full(folder)
        try_refusals(folder, try_commands(folder))
    return judge.failed


if __name__ == "__main__":
    sys.exit(main())
