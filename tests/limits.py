#!/usr/bin/env python3
"""A server where the system gives just the threads or the descriptors that it needs, and where it gives one fewer.

With as many it begins, each time, and all of its doors answer at once, that of a leader's feed among them; with one fewer
it says what lacks, and puts no line of a server. For threads the program runs as a user who has no other process.
Status: 0 it did; 1 it did not; 77 threads cannot be limited here, as only root may run a program as another user.
"""
import contextlib
import os
import resource
import shutil
import socket
import subprocess
import sys
import tempfile

from judging import ROW_MAP, SKIPPED, Judge, program_here
from path_server import AskStatus, Stop, free_port
from path_server.frames import encoded

STARTS = 30
DOORS = 3
NOBODY = 61_234  # the number of a user who has no process
SOON = 20  # seconds
STATUS_SIZE, DONE = 29, b"\0\0\0\1\x8a"
MAP_START = bytes.fromhex("0000000c 31")  # of the map .@. in a feed
judge = Judge()


def limited(limits):
    """What a child does before it runs the program."""
    def limit_it():
        if resource.RLIMIT_NPROC in limits:
            os.setgroups([])
            os.setgid(NOBODY)
            os.setuid(NOBODY)
        for kind, limit in limits.items():
            resource.setrlimit(kind, (limit, limit))
    return limit_it


def taken(link, count):
    """So many bytes of a connection, or fewer where it ends or is silent."""
    data = b""
    with contextlib.suppress(OSError):
        while len(data) < count:
            piece = link.recv(count - len(data))
            if not piece:
                break
            data += piece
    return data


class Start:
    """A program that was started as a server, or as a leader, under limits."""

    def __init__(self, program, leads, limits):
        self.port, self.feed = free_port(), free_port()
        words = ["lead", "row.map", self.port, DOORS, self.feed] if leads else ["serve", "row.map", self.port, DOORS]
        self.leads = leads
        self.process = subprocess.Popen(
            [program, *map(str, words)], cwd=os.path.dirname(program), stdin=subprocess.DEVNULL, stdout=subprocess.PIPE,
            stderr=subprocess.PIPE, preexec_fn=limited(limits))

    def answers(self):
        """Whether all of its doors answer side by side."""
        with contextlib.ExitStack() as stack:
            def connect(port):
                return stack.enter_context(socket.create_connection(("127.0.0.1", port), timeout=SOON))
            links = [connect(self.port) for _ in range(DOORS)]
            for link in links:
                link.sendall(encoded(AskStatus()))
            sizes = [len(taken(link, STATUS_SIZE)) for link in links]
            fed = taken(connect(self.feed), len(MAP_START)) if self.leads else MAP_START
        return sizes == [STATUS_SIZE] * DOORS and fed == MAP_START

    def ended(self):
        """What it still prints and says, and its status; it is killed where it does not end."""
        try:
            text, told = self.process.communicate(timeout=SOON)
        except subprocess.TimeoutExpired:
            self.process.kill()
            text, told = self.process.communicate()
        return text.decode(), told.decode(), self.process.returncode

    def begins(self):
        """What is wrong with its start, if anything is. It is ended."""
        first = self.process.stdout.readline()
        wrong = ""
        if first != b"serving %d\n" % self.port:
            wrong = f"its first line is {first}"
        elif not self.answers():
            wrong = "a door does not answer"
        else:
            with socket.create_connection(("127.0.0.1", self.port), timeout=SOON) as link:
                link.sendall(encoded(Stop()))
                if taken(link, len(DONE)) != DONE:
                    wrong = "it takes no stop"
        if wrong:
            self.process.kill()
        _, told, status = self.ended()
        return wrong and f"{wrong}; status {status}, {told}"


def try_limit(program, leads, kind, needed, refusal):
    """Starts with as many as are needed, and one start with one fewer."""
    name = ("lead" if leads else "serve") + (", threads" if kind == resource.RLIMIT_NPROC else ", descriptors")
    wrong = list(filter(None, (Start(program, leads, {kind: needed}).begins() for _ in range(STARTS))))
    judge(f"{name}: {len(wrong)} of {STARTS} starts with {needed}", wrong[:1], [])
    few = Start(program, leads, {kind: needed - 1})
    judge(f"{name}: a start with one fewer", few.ended(), refusal(few))


def few_threads(start):
    """What a server says that lacks a thread."""
    name, needed = ("lead", DOORS + 2) if start.leads else ("serve", DOORS + 1)
    return ("out of memory\n", f"path_server {name}: {needed} threads are needed, and the system gives fewer\n"
            "path_server: out of memory\n", 7)


def few_descriptors(start):
    """What a server says that lacks a descriptor."""
    name, needed, refused = ("lead", DOORS + 1, start.feed) if start.leads else ("serve", DOORS, start.port)
    doors = "" if start.leads else f" for {DOORS} doors"
    return ("read fault\n", f"path_server {name}: the doors need {needed} more descriptors, and the system gives fewer\n"
            f"path_server {name}: port {refused} cannot be opened{doors}: Too many open files (os error 24)\n", 5)


with tempfile.TemporaryDirectory() as folder:
    os.chmod(folder, 0o755)
    program = os.path.join(folder, "path_server")
    shutil.copyfile(program_here(), program)
    os.chmod(program, 0o755)
    shutil.copyfile(ROW_MAP, os.path.join(folder, "row.map"))
    for leads in (False, True):
        # three are open from the start, two for each port, and a connection at each door
        ports, doors = (2, DOORS + 1) if leads else (1, DOORS)
        descriptors, threads = 3 + 2 * ports + doors, doors + 1
        try_limit(program, leads, resource.RLIMIT_NOFILE, descriptors, few_descriptors)
        if os.geteuid() == 0:
            # a thread for each door, and the builder's
            try_limit(program, leads, resource.RLIMIT_NPROC, threads, few_threads)
            both = Start(program, leads, {resource.RLIMIT_NOFILE: descriptors - 1, resource.RLIMIT_NPROC: threads - 1})
            judge("descriptors are judged before threads", both.ended(), few_descriptors(both))
if os.geteuid() and not judge.failed:
    print("only root may run a program as another user, with just so many threads")
    sys.exit(SKIPPED)
sys.exit(judge.failed)
