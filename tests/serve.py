#!/usr/bin/env python3
"""The program as a server and as its client, over real connections on this machine: two doors that answer side by
side, each request and each printed answer of `ask`, peers that lie or hang up, a port that is taken, a server that is
started again at once, and words for the operator. Prints only where something is not as it should be.
"""
import os, random, re, socket, subprocess, sys, threading, time

from judging import ROW_MAP, Judge, program_here
from path_server import AskStatus, Bye, PathServerError, Query, Server, Stop, TcpLink, Totals, free_port
from path_server.frames import encoded

program, row = program_here(), ROW_MAP
judge = Judge()
PATIENCE = 10  # seconds that a reply may take

def serve(map_file, port, doors, *options):
    """A server whose first line was read."""
    return Server(map_file, *options, port=port, doors=doors, program=program, timeout=20)

def ended(server, accepted, published, version):
    """Judges the last lines of a server, and its end."""
    try:
        totals = server.ended(20)
    except PathServerError as fault:
        totals = repr(fault)
    judge("the last lines", (totals, server.told()), (Totals(accepted, published, version), ""))

def connect(port):
    return TcpLink(port, timeout=PATIENCE)

def send(link, data):
    link.send(data, time.monotonic() + PATIENCE)

def read_frame(link):
    """One reply's frame, or what came instead."""
    try:
        return link.receive(time.monotonic() + PATIENCE).hex()
    except PathServerError as fault:
        return repr(fault)

def end_of(link):
    """Nothing where the server closes the connection, or what came instead."""
    try:
        return link.end(time.monotonic() + PATIENCE)
    except PathServerError as fault:
        return repr(fault)

def ask(port, words):
    done = subprocess.run([program, "ask", str(port), *words.split()], stdin=subprocess.DEVNULL,
                          capture_output=True, timeout=20)
    return done.stdout.decode(), done.stderr.decode(), done.returncode

def answer_of(data):
    """What `ask` says of a peer that reads a request, answers with these bytes and hangs up."""
    listener = socket.socket()
    listener.bind(("127.0.0.1", 0))
    listener.listen()
    def peer():
        link, _ = listener.accept()
        link.recv(64)
        link.sendall(data)
        link.close()
    one = threading.Thread(target=peer, daemon=True)
    one.start()
    port = listener.getsockname()[1]
    said = ask(port, "status")
    one.join(5)
    listener.close()
    return said[0], said[1].replace(str(port), "PORT"), said[2]

QUERY, STATUS = encoded(Query((0, 0), (2, 0))), encoded(AskStatus())
BYE, STOP = encoded(Bye()), encoded(Stop())
UNREACHABLE, DONE = "8200000000", "8a"

# two doors beside each other: neither connection sends its second frame before both have their first reply
port = free_port()
server = serve(row, port, 2)
links = [connect(port), connect(port)]
for link in links:
    send(link, QUERY)
judge("first replies", [read_frame(link) for link in links], [UNREACHABLE] * 2)
for link in links:
    send(link, BYE)
judge("second replies", [read_frame(link) for link in links], [DONE] * 2)
judge("behind a Bye", [end_of(link) for link in links], [None, None])
for link in links:
    link.close()

# no reply is lost where a client has sent more than is read, behind a Bye or behind a frame that is too long
for last, replies in ((BYE, [DONE]), (b"\0\x41", [])):
    link = connect(port)
    send(link, QUERY * 2000 + last + QUERY * 100)
    time.sleep(0.3)
    found = [read_frame(link) for _ in range(2000 + len(replies))]
    judge("replies to whom sends on", (found.count(UNREACHABLE), found[2000:]), (2000, replies))
    judge("behind them", end_of(link), None)
    link.close()

# each request, and each answer that a row of `.@.` can give
# A change rings for the builder, so that its version may be there at once.
DIALOGUE = [
    ("status", "version 0 accepted 0 cells 2 components 2 runs 2\n"),
    ("query 0 0 2 0", "version 0\nunreachable\n"),
    ("query 3 0 1 0", "version 0\noutside start\n"),
    ("query 0 0 1 0", "version 0\nblocked goal\n"),
    ("query 0 0 0 0", "version 0\ncost 0 0\nlength 0.000000\nmoves\n"),
    ("change 0 1 1", "outside\n"),
    ("change 1 0 1", "accepted 1\n"),
    ("build", "published 1 built 3 kept 0\n", "nothing new 1\n", "overtaken 1\n"),
    ("query 0 0 2 0", "version 1\ncost 2 0\nlength 2.000000\nmoves E E\n"),
    ("build", "nothing new 1\n"),
    ("bye", "done\n"),
    ("status", "version 1 accepted 1 cells 3 components 1 runs 4\n"),
]
for words, *texts in DIALOGUE:
    said, told, status = ask(port, words)
    judge(f"ask {words}", (said if said not in texts else texts[0], told, status), (texts[0], "", 0))

# connections that lie, stop short or break off end alone
for data in (b"\0", QUERY[:5], b"\0\x41", b"\xff\xff" * 40, b"\0\0" * 50, random.Random(1).randbytes(300)):
    for reset in (False, True):
        link = connect(port)
        send(link, data)
        if reset:
            link.reset()
        link.close()
link = connect(port)
for at in range(len(QUERY)):
    send(link, QUERY[at:at + 1])
    time.sleep(0.002)
judge("a frame byte by byte", read_frame(link), "8100000001000000020000000002" + "02")
link.close()
judge("ask stop", ask(port, "stop"), ("done\n", "", 0))
ended(server, 1, 1, 1)

# at once again at the same port, with 64 doors; twice at one port is refused
server = serve(row, port, 64, "--room", "0", "--workers", "2", "--order", "dfs")
second = subprocess.run([program, "serve", row, str(port), "1"], capture_output=True, timeout=20)
judge("a port that is taken", (second.stdout, second.stderr.decode(), second.returncode),
      (b"read fault\n", f"path_server serve: port {port} is taken: Address already in use (os error 98)\n", 5))
idle = [connect(port) for _ in range(63)]
judge("one door left", ask(port, "change 1 0 1")[0], "accepted 1\n")
for link in idle:
    send(link, STATUS)
judge("63 that were idle", {read_frame(link)[:8] for link in idle}, {"89000000"})
# a change that nobody asked to build is built at the ring of the bell
deadline = time.monotonic() + 10
while ask(port, "status")[0].split()[1] != "1" and time.monotonic() < deadline:
    time.sleep(0.02)
judge("the builder's version", ask(port, "status")[0], "version 1 accepted 1 cells 3 components 1 runs 4\n")
with open("/dev/full", "wb") as full:
    done = subprocess.run([program, "ask", str(port), "status"], stdin=subprocess.DEVNULL, stdout=full,
                          stderr=subprocess.PIPE, timeout=20)
judge("ask, with an output that takes nothing", (done.stderr, done.returncode),
      (b"path_server ask: the output or the connection failed\n", 6))
# doors at which nobody changed anything: each sees the edit that came in at another one, and the version after it
for link in idle:
    send(link, STATUS)
SEEN = "89" + "00000001" "00000001" "00000003" "00000001" "0000000000000004"
judge("what 63 other doors see", {read_frame(link) for link in idle}, {SEEN})
for link in idle:
    send(link, QUERY)
judge("what 63 other doors answer", {read_frame(link) for link in idle}, {"810000000100000002000000000202"})
link = idle[0]
send(link, STOP)
judge("a Stop", read_frame(link), DONE)
for link in idle:
    link.close()
ended(server, 1, 1, 1)

# peers that are no server
judge("nobody listens", ask(port, "status"),
      ("read fault\n", f"path_server ask: no server at port {port}, or the connection was lost\n", 5))
BAD = ("bad answer\n", "path_server ask: invalid or incomplete answer from port PORT\n", 10)
for name, data in (("too long", "0000800D"), ("half a frame", "0000000582000000"), ("nothing", ""),
                   ("half a length", "0000"), ("no reply", "0000000101"), ("a request", "000104")):
    judge(f"a peer that sends {name}", answer_of(bytes.fromhex(data)), BAD)
judge("a peer that answers", answer_of(bytes.fromhex("00000005" + UNREACHABLE))[0::2], ("version 0\nunreachable\n", 0))

# words for the operator, by their numbers
os.environ["PATH_SERVER_LOG"] = "1"
port = free_port()
server = serve(row, port, 2)
link = connect(port)
send(link, b"\0")
link.close()
ask(port, "change 1 0 1")
ask(port, "build")
judge("ask stop", ask(port, "stop"), ("done\n", "", 0))
server.ended(20)
told = [re.sub(r"\d+ ms", "N ms", line) for line in server.told().splitlines()]
judge("words for the operator", sorted(told), [
    "path_server serve: a connection ended inside a frame, or by one too long",
    "path_server serve: ended; 4 connections, 1 of them by a fault",
    f"path_server serve: port {port} open, 2 doors, N ms after the start",
    "path_server serve: version 1, 3 cells built, 0 kept, N ms",
])
sys.exit(judge.failed)
