#!/usr/bin/env python3
"""The program beside peers that are slow or silent, at its end, and where the system gives little.

    tests/edge.py [--long]

The times that docs/reference/formats.md states, who is refused after a stop, words for the operator, and deploy/serve. It takes
a minute, and two more with --long.
"""
import os, re, resource, select, shutil, signal, socket, subprocess, sys, tempfile, threading, time

from judging import ROW_MAP, TOP, Judge, program_here
from path_server import AskStatus, Bye, Change, Query, Server, Stop, Terrain, free_port
from path_server.frames import encoded

program, row, serve = program_here(), ROW_MAP, f"{TOP}/deploy/serve"
judge = Judge()
STATUS, BYE, STOP, DONE = encoded(AskStatus()), encoded(Bye()), encoded(Stop()), b"\0\0\0\1\x8a"
FRAME_TIME, REPLY_TIME, CLOSING_TIME, ANSWER_TIME = 10, 30, 10, 120  # as docs/reference/formats.md states them, in seconds
LEEWAY = 5  # seconds that a loaded machine may take beyond them
FILL_TIME = 60  # seconds in which megabytes of replies are made, until the system holds no more of them

os.environ.pop("PATH_SERVER_LOG", None)


def connect(port):
    return socket.create_connection(("127.0.0.1", port), timeout=REPLY_TIME + 30)


def answer(link, request=STATUS):
    link.sendall(request)
    head = link.recv(4, socket.MSG_WAITALL)
    return link.recv(int.from_bytes(head, "big"), socket.MSG_WAITALL) if head else b""


def end_of(link):
    """How the other side ended it."""
    try:
        while link.recv(1 << 16):
            pass
        return "ended"
    except ConnectionResetError:
        return "reset"
    except OSError as fault:
        return repr(fault)


def is_due(took, limit, spare=LEEWAY):
    return limit - 1 <= took <= limit + spare


def run(*words, timeout=60, **how):
    begun = time.monotonic()
    done = subprocess.run([program, *words], stdin=subprocess.DEVNULL, capture_output=True, timeout=timeout, **how)
    return done.stdout.decode(), done.stderr.decode(), done.returncode, time.monotonic() - begun


class Trial(threading.Thread):
    """A peer that runs beside others. What it has found is judged where it is joined."""

    def __init__(self, work, *arguments):
        super().__init__(daemon=True)
        self.work, self.arguments, self.found = work, arguments, ("nothing yet", float("inf"))
        self.start()

    def run(self):
        begun = time.monotonic()
        try:
            how = self.work(*self.arguments)
        except OSError as fault:
            how = repr(fault)
        self.found = how, time.monotonic() - begun

    def within(self, what, wanted, limit, spare):
        self.join(limit + spare + LEEWAY)
        how, took = self.found
        judge(f"{what}: how it ends", (how in wanted, how), (True, how))
        judge(f"{what}: after {limit} seconds and not {took:.1f}", is_due(took, limit, spare), True)


# peers that are slow or silent, each at a door of its own, and one that is not, which is answered all the time

def half_frame(port):
    with connect(port) as link:
        link.sendall(encoded(Query((0, 0), (2, 0)))[:5])
        return end_of(link)


def half_length(port):
    """Behind a frame, with the first byte of the next length."""
    with connect(port) as link:
        link.sendall(STATUS + b"\0")
        link.recv(29, socket.MSG_WAITALL)
        return end_of(link)


def byte_by_byte(port):
    """A frame of 64 bytes, one in a second."""
    with connect(port) as link:
        link.sendall(b"\0\x40")
        link.settimeout(1)
        for _ in range(60):
            try:
                if not link.recv(1):
                    return "ended"
            except socket.timeout:
                link.sendall(b"\7")
        return "a frame that took a minute"


def never_reads(port):
    """Requests whenever one is taken, until the server ends the connection."""
    with socket.socket() as link:
        link.setsockopt(socket.SOL_SOCKET, socket.SO_RCVBUF, 4096)
        link.connect(("127.0.0.1", port))
        link.setblocking(False)
        events = select.poll()
        events.register(link.fileno(), select.POLLOUT)
        until = time.monotonic() + REPLY_TIME + FILL_TIME
        try:
            while time.monotonic() < until:
                if events.poll(1000):
                    link.send(STATUS * 1000)
        except ConnectionError:  # the server resets the connection, since what it wrote is there still
            return "ended"
        return "nothing"


def reads_late(port):
    """Takes its replies late once, and asks again when more time than a reply may take has gone by since."""
    with socket.socket() as link:
        for option in (socket.SO_RCVBUF, socket.SO_SNDBUF):
            link.setsockopt(socket.SOL_SOCKET, option, 4096)
        link.connect(("127.0.0.1", port))
        link.setblocking(False)
        taken, sent = select.poll(), 0
        taken.register(link.fileno(), select.POLLOUT)
        while taken.poll(2000):
            sent += link.send(STATUS * 1000)
        link.setblocking(True)
        whole, part = divmod(sent, len(STATUS))
        for _ in range(whole):
            link.recv(29, socket.MSG_WAITALL)
        link.sendall(STATUS[part:])
        link.recv(29, socket.MSG_WAITALL)
        time.sleep(REPLY_TIME + 2)
        for _ in range(2):
            link.sendall(STATUS)
            if len(link.recv(29, socket.MSG_WAITALL)) != 29:
                return "ended"
        return "answered"


log = {**os.environ, "PATH_SERVER_LOG": "1"}
port = free_port()
with tempfile.TemporaryFile() as words:
    server = subprocess.Popen([program, "serve", row, str(port), "8"], stdin=subprocess.DEVNULL, stdout=subprocess.PIPE,
                              stderr=words, env=log)
    judge("the first line", server.stdout.readline(), b"serving %d\n" % port)
    quick, silent = connect(port), connect(port)
    judge("a session begins", len(answer(silent)), 25)
    trials = [(Trial(work, port), work.__name__, limit, spare) for work, limit, spare in
              ((half_frame, FRAME_TIME, LEEWAY), (half_length, FRAME_TIME, LEEWAY), (byte_by_byte, FRAME_TIME, LEEWAY),
               (never_reads, REPLY_TIME, FILL_TIME))]
    late = Trial(reads_late, port)
    slowest = 0
    until = time.monotonic() + REPLY_TIME + 2
    while time.monotonic() < until:
        begun = time.monotonic()
        judge("a status meanwhile", len(answer(quick)), 25)
        slowest = max(slowest, time.monotonic() - begun)
        time.sleep(0.05)
    judge(f"the slowest reply meanwhile, {slowest:.2f} seconds", slowest < 2, True)
    for trial, name, limit, spare in trials:
        trial.within(name, ("ended", "reset"), limit, spare)
    late.join(2 * REPLY_TIME + FILL_TIME)
    judge("a session that once took its replies late", late.found[0], "answered")
    judge("a session that was silent meanwhile", len(answer(silent)), 25)

    # a stop: nobody is let in any more, and who is in has some time
    others = [connect(port) for _ in range(6)]
    for link in others:
        judge("a door for each", len(answer(link)), 25)
    waiting = connect(port)  # no door is free
    judge("a stop", answer(quick, STOP), DONE[4:])
    begun = time.monotonic()
    try:
        connect(port).close()
        judge("a connect behind a stop", "taken", "refused")
    except ConnectionRefusedError:
        judge("a connect behind a stop is refused at once", time.monotonic() - begun < 1, True)
    judge("who waited for a door", end_of(waiting) in ("ended", "reset"), True)
    judge("who had the stop", end_of(quick), "ended")
    judge("a session goes on behind a stop", len(answer(others[0])), 25)
    judge("a bye behind a stop", answer(others[1], BYE), DONE[4:])
    busy = 0
    try:
        while answer(others[0]):
            busy = time.monotonic() - begun
            time.sleep(0.1)
    except OSError:
        pass
    judge(f"a busy session ends {busy:.1f} seconds behind a stop", is_due(busy, CLOSING_TIME), True)
    judge("a silent one", end_of(silent), "ended")
    judge("the end", (server.wait(LEEWAY), server.stdout.read()), (0, b"accepted 0\npublished 0\nversion 0\n"))
    judge("it ends soon", is_due(time.monotonic() - begun, CLOSING_TIME), True)
    words.seek(0)
    told = words.read().decode().splitlines()
judge("words for the operator", sorted({re.sub(r"\d+", "N", line) for line in told}), sorted([
    "path_server serve: a connection ended: a frame was not whole within N seconds",
    "path_server serve: a connection ended: a reply was not taken within N seconds",
    "path_server serve: a connection ended: it was open N seconds after a stop",
    "path_server serve: ended; N connections, N of them by a fault",
    "path_server serve: port N open, N doors, N ms after the start",
]))
judge("the first and the last of them", ("open" in told[0], "ended;" in told[-1]), (True, True))

# `ask` says that it waits, and nothing where it need not

def peer(pause, data):
    listener = socket.create_server(("127.0.0.1", 0))

    def speak():
        link, _ = listener.accept()
        link.recv(64)
        time.sleep(pause)
        link.sendall(data)
        link.close()

    threading.Thread(target=speak, daemon=True).start()
    return str(listener.getsockname()[1])


WAITING = "path_server: waiting: no door may be free, or a build goes on\n"
judge("ask waits", run("ask", peer(2.5, DONE), "status")[:3], ("done\n", WAITING, 0))
judge("ask need not wait", run("ask", peer(0, DONE), "status")[:3], ("done\n", "", 0))
if "--long" in sys.argv:
    at = peer(600, DONE)
    *said, took = run("ask", at, "status", timeout=ANSWER_TIME + 30)
    gives_up = f"path_server: no whole answer came in {ANSWER_TIME} seconds\n"
    judge("ask gives up", said,
          ["read fault\n", f"{WAITING}{gives_up}path_server ask: no server at port {at}, or the connection was lost\n", 5])
    judge(f"ask gives up after {took:.0f} seconds", is_due(took, ANSWER_TIME), True)

# standard error that nobody reads stops nothing, and the next line that it takes says how many were lost

def full_pipe():
    """A pipe that takes no more bytes: where it is read, and where it is written."""
    out, into = os.pipe()
    os.set_blocking(into, False)
    try:
        while True:
            os.write(into, b"\0" * 4096)
    except BlockingIOError:
        os.set_blocking(into, True)
    return out, into


def beside_full_pipe(server, port, out, into):
    """A server's sessions while its standard error takes nothing, and what it says of that later."""
    begins = select.select([server.stdout], [], [], FRAME_TIME)[0]
    judge("it begins beside a standard error that takes nothing", begins and server.stdout.readline(), b"serving %d\n" % port)
    if not begins:
        return server.kill()
    for _ in range(3):
        with connect(port) as link:  # ends inside a frame, which is told
            link.sendall(b"\0")
    with connect(port) as link:
        answer(link, b"\0\6\2" + bytes.fromhex("0001000001"))
        judge("it builds", answer(link, b"\0\1\3")[:1] in (b"\x86", b"\x87", b"\x88"), True)
        while os.read(out, 1 << 16)[-1:] == b"\0" and select.select([out], [], [], 0)[0]:
            pass
        judge("a stop", answer(link, STOP), DONE[4:])
    judge("its end", server.wait(LEEWAY), 0)
    os.close(into)
    told = os.fdopen(out).read().replace("\0", "").splitlines()
    judge("lines that were lost", [re.sub(r"\d+", "N", line) for line in told[:1]],
          ["path_server serve: standard error took no lines for a while; lost before this one: N"])


out, into = full_pipe()
port = free_port()
beside_full_pipe(subprocess.Popen([program, "serve", row, str(port), "1"], stdin=subprocess.DEVNULL, stdout=subprocess.PIPE,
                                  stderr=into, env=log), port, out, into)

# where nobody is there the doors sleep, and a client and a stop wake them

def switches(pid):
    """How often the threads of a process have waited."""
    tasks = f"/proc/{pid}/task"
    texts = (open(f"{tasks}/{task}/status").read() for task in os.listdir(tasks))
    return sum(int(re.search(r"^voluntary_ctxt_switches:\s*(\d+)", text, re.M).group(1)) for text in texts)


with Server(row, doors=64, program=program) as server:
    time.sleep(1)
    before, begun = switches(server.process.pid), time.monotonic()
    time.sleep(12)
    idle = (switches(server.process.pid) - before) / (time.monotonic() - begun)
    judge(f"{idle:.0f} context switches a second of 64 doors without a client", idle <= 30, True)
    begun = time.monotonic()
    with connect(server.port) as link:
        judge("a status of a sleeping server", len(answer(link)), 25)
        judge("a stop of a sleeping server", answer(link, STOP), DONE[4:])
    judge("its end", (server.process.wait(LEEWAY), time.monotonic() - begun < 2), (0, True))

# a request whose bytes come together takes one read and one write

def calls_of(server, count=100):
    """How many reads and writes so many requests take, by strace, or nothing where it cannot look."""
    with tempfile.NamedTemporaryFile("r") as log, connect(server.port) as link:
        answer(link)
        words = ["strace", "-f", "-qq", "-e", "trace=read,recvfrom,write,sendto", "-o", log.name, "-p", str(server.process.pid)]
        tracer = subprocess.Popen(words, stdin=subprocess.DEVNULL, stderr=subprocess.DEVNULL)
        time.sleep(1)
        for _ in range(count):
            answer(link)
        looks = tracer.poll() is None
        tracer.terminate()
        tracer.wait()
        text = log.read()
    return [len(re.findall(f" (?:{names})\\(", text)) for names in ("read|recvfrom", "write|sendto")] if looks else []


if shutil.which("strace"):
    with Server(row, doors=1, program=program) as server:
        calls = calls_of(server)
    if calls:
        # and the read that waits for the next one
        judge(f"reads and writes of 100 requests: {calls}", [100 <= found <= 101 for found in calls], [True, True])
    else:
        print("skipped: strace may not look at a program")
else:
    print("skipped: there is no strace")

# where the system gives fewer descriptors than the doors need
at = free_port()
few = run("serve", row, str(at), "16", preexec_fn=lambda: resource.setrlimit(resource.RLIMIT_NOFILE, (12, 12)))
judge("few descriptors", few[:3], (
    "read fault\n", "path_server serve: the doors need 16 more descriptors, and the system gives fewer\n"
    f"path_server serve: port {at} cannot be opened for 16 doors: Too many open files (os error 24)\n", 5))

# a port that the system forbids, where it forbids any
with open("/proc/sys/net/ipv4/ip_unprivileged_port_start") as file:
    at = int(file.read()) - 1
if at > 0:
    try:
        forbidden = run("serve", row, str(at), "1", preexec_fn=lambda: os.geteuid() or os.setuid(65534))
    except PermissionError:  # the program lies where nobody else may go
        pass
    else:
        judge("a forbidden port", forbidden[:3], (
            "read fault\n", f"path_server serve: port {at} is forbidden: Permission denied (os error 13)\n", 5))

# deploy/serve: a signal is a stop, of a server and of a leader
for lead, sign in ((False, signal.SIGTERM), (False, signal.SIGINT), (False, signal.SIGHUP), (True, signal.SIGTERM)):
    at, feed = free_port(), free_port()
    words = ["lead", row, str(at), "3", str(feed)] if lead else [row, str(at), "3"]
    script = subprocess.Popen([serve, *words], stdin=subprocess.DEVNULL, stdout=subprocess.PIPE, stderr=subprocess.PIPE,
                              env={**os.environ, "PATH_SERVER": program})
    judge(f"{sign.name}: the first line", script.stdout.readline(), b"serving %d\n" % at)
    if lead:
        judge("a leader's second line", script.stdout.readline(), b"feeding %d\n" % feed)
    with connect(at) as link:
        judge(f"{sign.name}: a session", answer(link, encoded(Change((1, 0), Terrain.LAND))), b"\x84\0\0\0\1")
        begun = time.monotonic()
        script.send_signal(sign)
        while time.monotonic() < begun + 5:
            try:
                connect(at).close()
                time.sleep(0.05)
            except (ConnectionRefusedError, ConnectionResetError):  # reset: the port was closed meanwhile
                break
        judge(f"{sign.name}: refused within a second", time.monotonic() - begun < 1, True)
    out, err = script.communicate(timeout=30)
    lines = re.sub(rb"published \d", b"published N", out).split(b"\n")[:2]
    judge(f"{sign.name}: the end", (lines, err, script.returncode), ([b"accepted 1", b"published N"], b"", 0))

# a stop that finds no free door is given up: the status is one that the unit takes for a success
at = free_port()
script = subprocess.Popen([serve, row, str(at), "1"], stdin=subprocess.DEVNULL, stdout=subprocess.PIPE,
                          env={**os.environ, "PATH_SERVER": program, "STOP_TIME": "1"})
judge("one door", script.stdout.readline(), b"serving %d\n" % at)
with connect(at) as link:
    judge("the door is taken", len(answer(link)), 25)
    script.send_signal(signal.SIGTERM)
    judge("a stop without a door", script.communicate(timeout=30)[0] + b"%d" % script.returncode, b"143")
for words in (["lead", row, "1", "2"], [row, "x", "2"], []):
    done = subprocess.run([serve, *words], stdin=subprocess.DEVNULL, capture_output=True)
    judge(f"the words {words}", (done.stderr[:7], done.returncode), (b"usage: ", 1))
sys.exit(judge.failed)
