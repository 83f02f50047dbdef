#!/usr/bin/env python3
"""Want of memory in the program: the N-th request for memory is refused, for N from 1 until a run meets no refusal, in
a session of `talk` and in one of `serve`, with the room that they have and with none, in `export` and in `verify`, in
`follow` and its session, and in `lead` with a feed; and then all requests from the N-th on. (allocs.c refuses)

Each run ends with status 7, or one reply tells of want of memory: that to a build or, without room, to an edit or a
stop. All other replies are right for a board on which nothing came of it. A run that feels nothing of a single refusal
did without that memory: a list grew by less, or was not cut to its size; a thread's work was done by another (only the
threads that `serve` tries before it begins are felt: status 7). Where all that follow are refused too, only the last
requests go unfelt, behind the last reply.
"""
import os, shutil, socket, subprocess, sys, tempfile, time

from judging import ROW_MAP, TOP, Judge, program_here, skip
from nodes import ONE_EDIT, ROW_START, FakeLeader
from path_server import (Accepted, AskStatus, BadReply, Build, Bye, Change, ConnectionLost, Done, Move, NotConnected,
                         NothingNew, OutOfMemory, Path, Published, Query, Status, Stop, TcpLink, Terrain, Unreachable, free_port)
from path_server.frames import decoded, encoded, split_replies

program, row = program_here(), ROW_MAP
judge = Judge()
QUERY, CHANGE = Query((0, 0), (2, 0)), Change((1, 0), Terrain.LAND)
TALK = [QUERY, CHANGE, QUERY, Build(), QUERY, AskStatus(), Bye()]
NAMES = {Query: "query", Change: "change", Build: "build", AskStatus: "status", Bye: "bye", Stop: "stop"}
EAST_TWICE = bytes([Move.E, Move.E])

class Run:
    """A run of the program in which a request for memory is refused, if it comes so far, and those after it where that
    lasts."""

    def __init__(self, number, lasting, *words):
        self.told, told = os.pipe()
        self.said = tempfile.TemporaryFile()
        env = dict(os.environ, LD_PRELOAD=library, ALLOCS_REFUSED=str(number), ALLOCS_TOLD=str(told))
        if lasting:
            env["ALLOCS_LASTING"] = "1"
        self.process = subprocess.Popen([program, *words], env=env, pass_fds=[told], stdin=subprocess.PIPE,
                                        stdout=subprocess.PIPE, stderr=self.said, bufsize=0)
        os.close(told)

    def end(self, data=b""):
        """What it printed, its status, and what was refused, a letter each."""
        try:
            text = self.process.communicate(data, timeout=20)[0]
        except subprocess.TimeoutExpired:
            self.process.kill()
            text = self.process.communicate()[0] + b" and then nothing for 20 seconds"
        with open(self.told, "rb") as told:
            return text, self.process.returncode, told.read().decode()

    def is_late(self, command, needed, ports):
        """Whether it says that all threads but one have begun."""
        self.said.seek(0)
        return self.said.read().decode() == (
            f"path_server {command}: {needed - 1} of {needed} threads began, and nobody is served by fewer\n"
            f"path_server {command}: accept failed at port {ports}\n")

def wanted(kind, accepted, published):
    """The reply to a request of TALK, on a board of `.@.` with so many edits and versions."""
    return {
        Query: Path(1, 2, 0, EAST_TWICE) if published else Unreachable(0),
        Change: Accepted(1),
        Build: Published(1, 3, 0) if accepted else NothingNew(0),
        AskStatus: Status(1, accepted, 3, 1, 4) if published else Status(0, accepted, 2, 2, 2),
        Bye: Done(),
    }[kind]

def talk(number, lasting, room):
    """What was refused, what came of it, and what is wrong."""
    text, status, told = Run(number, lasting, "talk", row, *room).end(b"".join(map(encoded, TALK)))
    if status == 7:
        # the line of this status is put where not even the words can be read
        return told, ["status 7"], text not in (b"", b"out of memory\n") and f"status 7 behind {text.hex()}"
    try:
        frames, rest = split_replies(text)
        replies = [decoded(frame) for frame in frames]
    except BadReply as fault:
        return told, [], repr(fault)
    if status != 0 or rest or len(replies) != len(TALK):
        return told, [], f"status {status} and {text.hex()}"
    accepted = published = 0
    felt = []
    for asked, reply in zip(TALK, replies):
        kind = type(asked)
        if reply == OutOfMemory():
            felt.append(NAMES[kind])
        elif reply != wanted(kind, accepted, published):
            return told, felt, f"a {NAMES[kind]} is answered {reply}, after want of memory at {felt}"
        elif kind == Change:
            accepted = 1
        elif kind == Build:
            published = accepted
    return told, felt, False

# what a server prints at its end where a thread has not begun in 10 seconds: nobody was let in
LATE = b"accepted 0\npublished 0\nversion 0\nread fault\n"

def ask(link, request):
    """The reply to a request, or nothing where the connection ends."""
    deadline = time.monotonic() + 30
    try:
        link.send(encoded(request), deadline)
        return decoded(link.receive(deadline))
    except ConnectionLost:
        return None

def serve(number, lasting, room):
    """The same, over a connection: the path, and the stop until it is done."""
    run = Run(number, lasting, "serve", open_map, str(port), "1", *room)
    first = run.process.stdout.readline()
    replies = []
    if first == b"serving %d\n" % port:
        try:
            link = TcpLink(port)
            replies = [ask(link, QUERY), ask(link, Stop())]
            if replies[1] == OutOfMemory():
                replies.append(ask(link, Stop()))
            link.close()
        except NotConnected:
            pass
    text, status, told = run.end()
    text = first + text
    if status == 5:
        wrong = any(replies) or text != b"serving %d\n" % port + LATE or not run.is_late("serve", 2, port)
        return told, ["late"], wrong and f"status 5, {text!r} and {replies}"
    felt = ["stop"] if replies[1:2] == [OutOfMemory()] else []
    right = [Path(0, 2, 0, EAST_TWICE), *[OutOfMemory() for _ in felt], Done()]
    whole = b"serving %d\naccepted 0\npublished 0\nversion 0\n" % port
    if status == 7:
        felt.append("status 7")
        replies = [reply for reply in replies if reply]
        text, whole = text.removeprefix(b"serving %d\n" % port), b"out of memory\n"
        right = right[: len(replies)]
    wrong = status not in (0, 7) or text != whole or replies != right
    return told, felt, wrong and f"status {status}, {text!r} and {replies}"

FOLLOW = [Query((1, 0), (2, 0)), Change((0, 0), Terrain.LAND), Build(), AskStatus(), Bye()]

def follow(number, lasting, room):
    """What came of it in a follower of a leader with one edit, and in its session."""
    leader = FakeLeader(ROW_START + ONE_EDIT)
    run = Run(number, lasting, "follow", str(leader.port), "1", *room)
    text, status, told = run.end(b"".join(map(encoded, FOLLOW)))
    if status == 7:
        return told, ["status 7"], text not in (b"", b"out of memory\n") and f"status 7 behind {text.hex()}"
    frames, rest = split_replies(text.removeprefix(b"following 1\n"))
    replies = [decoded(frame) for frame in frames]
    felt = [NAMES[type(asked)] for asked, reply in zip(FOLLOW, replies) if reply == OutOfMemory()]
    edits = 1 if "change" in felt else 2
    version = 1 if felt else 2
    right = [
        Path(1, 1, 0, bytes([Move.E])),
        OutOfMemory() if "change" in felt else Accepted(2),
        OutOfMemory() if "build" in felt else NothingNew(1) if edits == 1 else Published(2, 3, 0),
        Status(2, 2, 3, 1, 4) if version == 2 else Status(1, edits, 2, 1, 2),
        Done(),
    ]
    wrong = status != 0 or rest or replies != right or not text.startswith(b"following 1\n")
    return told, felt, wrong and f"status {status}, {text!r} and {replies}"

EDIT = Change((1, 0), Terrain.BLOCKED)
NO_EDIT = bytes.fromhex("00000009 32 00000000 00000000")
EDIT_FED = bytes.fromhex("0000000f 32 00000000 00000001 01 0001 0000 00")
NO_MEMORY_FED = bytes.fromhex("00000001 34")

def fed():
    """What a leader sends to who asks once."""
    data = b""
    try:
        with socket.create_connection(("127.0.0.1", feed_port), timeout=10) as link:
            link.sendall(b"\x21" + bytes(4))
            link.shutdown(socket.SHUT_WR)
            while piece := link.recv(4096):
                data += piece
    except OSError:
        pass
    return data

def lead(number, lasting, room):
    """The same, of a leader: a path and an edit over a connection, then a feed, and then the stop."""
    run = Run(number, lasting, "lead", open_map, str(port), "1", str(feed_port), *room)
    begun = b"serving %d\nfeeding %d\n" % (port, feed_port)
    text = run.process.stdout.readline()
    text += run.process.stdout.readline() if text.startswith(b"serving") else b""
    replies, feed, stops = [], None, []
    if text == begun:
        try:
            link = TcpLink(port)
            replies = [ask(link, QUERY), ask(link, EDIT), ask(link, Bye())]
            link.close()
            feed = fed()
            link = TcpLink(port)
            stops = [ask(link, Stop())]
            if stops == [OutOfMemory()]:
                stops.append(ask(link, Stop()))
            link.close()
        except NotConnected:
            pass
    more, status, told = run.end()
    if status == 7:
        right = text + more in (b"out of memory\n", begun + b"out of memory\n", b"")
        return told, ["status 7"], not right and f"status 7 behind {text + more!r}"
    if status == 5:
        wrong = any(replies) or any(stops) or feed or text + more != begun + LATE
        wrong = wrong or not run.is_late("lead", 3, f"{port} or {feed_port}")
        return told, ["late"], wrong and f"status 5, {text + more!r}, {replies} and {feed}"
    edits = 0 if replies[1:2] == [OutOfMemory()] else 1
    refused = {
        "change": not edits,
        "stop": stops[:1] == [OutOfMemory()],
        "feed": feed in (NO_MEMORY_FED, ROW_START + NO_MEMORY_FED),
    }
    felt = [name for name, is_felt in refused.items() if is_felt]
    wrong = (
        status != 0
        or replies != [Path(0, 2, 0, EAST_TWICE), Accepted(1) if edits else OutOfMemory(), Done()]
        or stops[-1:] != [Done()]
        or not felt and feed != ROW_START + (EDIT_FED if edits else NO_EDIT)
        or more not in [b"accepted %d\npublished %d\nversion %d\n" % (edits, each, each) for each in (0, edits)]
    )
    return told, felt, wrong and f"status {status}, {text + more!r}, {replies}, {feed} and {stops}"

def prints(number, lasting, words):
    """The same, in a command that prints: it prints all that it has to, or the line of status 7 alone."""
    text, status, told = Run(number, lasting, *words).end()
    if status == 7:
        return told, ["status 7"], text != b"out of memory\n" and f"status 7 behind {text.hex()}"
    return told, [], (text, status) != (whole[words[0]], 0) and f"status {status} and {text.hex()}"

def refuse_each(run, lasting, room, allowed):
    """Refuses one request after the other, and says what came of it. Nothing but what is allowed may."""
    name = " ".join([run.__name__, *room, *["lasting" for _ in range(lasting)]])
    seen, unfelt = set(), False
    # a server tries whether the threads are there that its doors and its builder need, for each port: `lead` tries one
    # and then two; each is a thread and a block for it. Nobody is let in where one is refused behind that
    tried = {serve: 2, lead: 6}.get(run, 0)
    for number in range(1, 100000):
        told, felt, wrong = run(number, lasting, room)
        if not told and not felt and not wrong:
            break
        if felt and told == "t" and felt != ["late"]:
            tried -= 1
        if not wrong and (not told or len(felt) > 1 or set(felt) - allowed or tried < 0 or (lasting and felt and unfelt)):
            wrong = f"refused: {told!r}, and felt: {felt}"
        if wrong:
            judge.fail(f"{name}, request {number}: {wrong}")
            if not told:
                break
        seen.update(felt)
        unfelt = unfelt or not felt
    return name, seen

def try_all(run, lasting, room, allowed):
    """The same, and all that is allowed does come. The threads of `serve` ask for memory in no fixed order, so that a
    number may be another request each time: what did not come is looked for twice more."""
    seen = set()
    for _ in range(3):
        name, more = refuse_each(run, lasting, room, allowed)
        seen |= more
        if seen == allowed:
            return
    judge(f"{name}, what is felt", sorted(seen), sorted(allowed))

if not shutil.which("gcc"):
    skip("there is no gcc")
folder = tempfile.TemporaryDirectory()
library, open_map, database = (os.path.join(folder.name, name) for name in ("allocs.so", "open.map", "row.db"))
subprocess.run(["gcc", "-shared", "-fPIC", "-O2", "-o", library, os.path.join(TOP, "tests/allocs.c")], check=True)
with open(open_map, "w") as file:
    file.write("type octile\nheight 1\nwidth 3\nmap\n...\n")
port, feed_port = free_port(), free_port()
whole = {"export": subprocess.run([program, "export", row], capture_output=True, check=True).stdout}
with open(database, "wb") as file:
    file.write(whole["export"])
whole["verify"] = subprocess.run([program, "verify", database], capture_output=True, check=True).stdout
for lasting in (False, True):
    try_all(talk, lasting, [], {"status 7", "build"})
    try_all(talk, lasting, ["--room", "0"], {"status 7", "change", "build"})
    try_all(serve, lasting, [], {"status 7"} if lasting else {"status 7", "late"})
    try_all(prints, lasting, ["export", row], {"status 7"})
    try_all(prints, lasting, ["verify", database], {"status 7"})
    try_all(follow, lasting, [], {"status 7", "change", "build"})
    try_all(lead, lasting, [], {"status 7"} if lasting else {"status 7", "feed", "late"})
# nothing but its end would end a server that has no memory for a stop
try_all(serve, False, ["--room", "0"], {"status 7", "stop", "late"})
sys.exit(judge.failed)
