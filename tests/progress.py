#!/usr/bin/env python3
"""How far a build is, on standard error: at a terminal, in a pipe, and as the environment says.
"""
import os, re, subprocess, sys, tempfile, time

from judging import ROW_MAP, Judge, program_here
from path_server import Client, free_port
from terminal import CLEARED, Terminal

program, row = program_here(), ROW_MAP
judge = Judge()
MADE = ("made", "120", "120", "5")  # some seconds
ROWS = 11540  # of that map
LONGER = ("made", "150", "150", "5")
AFTER, TICK, LINE = 0.5, 0.2, 3  # when a terminal's line comes, how long it stands, and what is between two lines, in seconds
TOLD = r"path_server: (\d+) of (\d+) rows, (\d+) s gone, (\d+) s left"

for name in ("PATH_SERVER_PROGRESS", "PATH_SERVER_LOG"):
    os.environ.pop(name, None)


def at_terminal(*words, **environment):
    """What a command puts on standard output and on a terminal, and how long it takes."""
    terminal = Terminal()
    begun = time.monotonic()
    done = subprocess.run([program, *words], stdin=subprocess.DEVNULL, stdout=subprocess.PIPE, stderr=terminal.theirs,
                          env={**os.environ, **environment}, timeout=600)
    took = time.monotonic() - begun
    return done.stdout, terminal.text(), took


def in_pipe(*words, **environment):
    """The same in pipes."""
    begun = time.monotonic()
    done = subprocess.run([program, *words], stdin=subprocess.DEVNULL, capture_output=True,
                          env={**os.environ, **environment}, timeout=600)
    return done.stdout, done.stderr.decode(), time.monotonic() - begun


def judge_told(what, told, rows, took):
    """Lines in their order, by their numbers: rows are built, time goes by, and none says more than there is."""
    told = [tuple(map(int, line)) for line in told]
    judge(f"{what}: rows of how many", {line[1] for line in told} <= {rows}, True)
    judge(f"{what}: rows are built", all(0 < line[0] <= rows for line in told) and told == sorted(told), True)
    judge(f"{what}: time", all(line[2] <= took for line in told), True)
    for built, _, gone, left in told:  # as fast as so far
        least, most = gone * (rows - built) / built, (gone + 1) * (rows - built) / built + 1
        judge(f"{what}: {left} s left of {rows - built} rows, after {built} in {gone} s", least <= left <= most, True)


def judge_shown(what, shown, rows, took):
    """What a terminal was shown: a line that is rewritten, and cleared at the end."""
    if not shown and took < 2 * AFTER:
        return  # a fast machine
    lines = re.findall(r"\r" + TOLD + r"\x1b\[K", shown)
    judge(f"{what}: nothing else", re.sub(r"\r" + TOLD + r"\x1b\[K", "", shown).replace("\n", ""), CLEARED)
    judge(f"{what}: cleared at the end", shown.endswith(CLEARED), True)
    judge(f"{what}: {len(lines)} lines in {took:.1f} seconds", 0 < len(lines) <= (took - AFTER) / TICK + 2, True)
    judge_told(what, lines, rows, took)


# a terminal, a pipe, and one that wants nothing
answer, nothing, _ = in_pipe(*MADE)
judge("a pipe", nothing, "")
for words in (MADE, (*MADE, "--workers", "3")):
    out, shown, took = at_terminal(*words)
    judge("the answer is the same", out, answer)
    judge_shown(" ".join(words), shown, ROWS, took)
out, shown, took = at_terminal(*MADE, PATH_SERVER_PROGRESS="1")
judge_shown("a terminal that wants it", shown, ROWS, took)
judge("a terminal that wants none", at_terminal(*MADE, PATH_SERVER_PROGRESS="0")[:2], (answer, ""))
judge("what takes no time", at_terminal("check", row)[1], "")
judge("what takes no time, in lines", in_pipe("check", row, PATH_SERVER_PROGRESS="1")[1], "")

# lines
out, told, took = in_pipe(*LONGER, PATH_SERVER_PROGRESS="1")
lines = re.findall(TOLD + r"\n", told)
rows = int(out.split()[1])
judge("nothing but lines", re.sub(TOLD + r"\n", "", told), "")
judge(f"{len(lines)} lines in {took:.1f} seconds", (took < LINE + 1 or 0 < len(lines)) and len(lines) <= took / LINE, True)
judge_told("lines", lines, rows, took)
judge("another value", in_pipe(*MADE, PATH_SERVER_PROGRESS="10")[1], "")

# serve, before its first line
with tempfile.NamedTemporaryFile("w", suffix=".map") as file:
    file.write("type octile\nheight 120\nwidth 96\nmap\n" + ("." * 96 + "\n") * 120)
    file.flush()
    port, terminal, begun = free_port(), Terminal(), time.monotonic()
    server = subprocess.Popen([program, "serve", file.name, str(port), "1"], stdin=subprocess.DEVNULL,
                              stdout=subprocess.PIPE, stderr=terminal.theirs)
    judge("the first line", server.stdout.readline(), b"serving %d\n" % port)
    took = time.monotonic() - begun
    Client.connect(port).stop()
    server.communicate(timeout=60)
    shown, _, words = terminal.text().partition("path_server serve: ")
    judge_shown("serve", shown, 96 * 120, took)
    judge("words for the operator", words.startswith(f"port {port} open, 1 door, "), True)
sys.exit(judge.failed)
