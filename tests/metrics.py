#!/usr/bin/env python3
"""deploy/metrics: a server's numbers beside its status, and those of its log beside the log's lines.

    tests/metrics.py
"""
import os, re, subprocess, sys, tempfile, time, urllib.error, urllib.request

from judging import TOP, Judge, program_here
from path_server import Client, Terrain, free_port

MAP = f"{TOP}/maps/tutorial.map"
PATIENCE = 60
SAMPLE = re.compile(r"(path_server_[a-z_]+) ([0-9.e+-]+)")
judge = Judge()
program = program_here()


def scrape(at, page="metrics"):
    """The status of a page, and its text."""
    try:
        with urllib.request.urlopen(f"http://127.0.0.1:{at}/{page}", timeout=PATIENCE) as reply:
            return reply.status, reply.read().decode()
    except urllib.error.HTTPError as refused:
        return refused.code, ""
    except OSError:
        return 0, ""


def numbers_of(at):
    """The numbers by their names: behind `# HELP` and `# TYPE`, each once."""
    status, text = scrape(at)
    judge("the status of the numbers", status, 200)
    lines, found = text.splitlines(), {}
    for about, kind, sample in zip(lines[0::3], lines[1::3], lines[2::3]):
        name, value = SAMPLE.fullmatch(sample).groups()
        judge(f"the lines before {name}", (about.split()[:3], kind.split()[:3], name in found),
              (["#", "HELP", name], ["#", "TYPE", name], False))
        judge(f"the kind of {name}", kind.split()[3], "counter" if name.endswith("_total") else "gauge")
        found[name.removeprefix("path_server_")] = float(value)
    return found


def wait_for(is_there):
    until = time.monotonic() + PATIENCE
    while not is_there() and time.monotonic() < until:
        time.sleep(0.1)
    judge("in time", is_there(), True)


def try_server(folder):
    """A server that edits come to, that a client breaks off, and that is killed and started again."""
    port, at, path = free_port(), free_port(), f"{folder}/log"
    command = [program, "serve", MAP, str(port), "4"]
    how = {"stdin": subprocess.DEVNULL, "stdout": subprocess.PIPE, "env": {**os.environ, "PATH_SERVER_LOG": "1"}}
    with open(path, "wb") as log:
        server = subprocess.Popen(command, stderr=log, **how)
    metrics = subprocess.Popen([f"{TOP}/deploy/metrics", str(at), str(port), "--log", path], stdin=subprocess.DEVNULL)
    try:
        judge("the server", server.stdout.readline(), b"serving %d\n" % port)
        wait_for(lambda: scrape(at)[0] == 200)
        judge("another page", scrape(at, "")[0], 404)
        with Client.connect(port, timeout=PATIENCE) as client:
            for column in range(3, 30, 3):
                client.wait_for(client.change((column, 9), Terrain.BLOCKED).number)
            status = client.status()
        with Client.connect(port, timeout=PATIENCE) as client:
            client.status()
            client._link._socket.sendall(b"\0\x09\1")  # a frame that is broken off
        wait_for(lambda: numbers_of(at)["connection_faults_total"] > 0)
        found = numbers_of(at)
        with open(path, encoding="ascii") as file:
            text = file.read()
        builds = re.findall(r": version \d+, (\d+) cells? built, \d+ kept, (\d+) ms", text)
        told = {"accepted_edits": status.accepted, "published_version": status.version, "unpublished_edits": status.lag,
                "cells": status.cells, "components": status.components, "runs": status.runs}
        judge("what the status tells", {name: found[name] for name in told}, told)
        judge("what the log tells",
              (found["builds_total"], found["built_cells_total"], found["connection_faults_total"]),
              (len(builds), sum(int(cells) for cells, _ in builds), text.count("a connection ended")))
        judge("the time of builds", round(1000 * found["build_seconds_total"]), sum(int(each) for _, each in builds))
        judge("builds were made", len(builds) > 0, True)
        server.kill()
        server.communicate()
        wait_for(lambda: scrape(at)[0] == 503)
        os.rename(path, path + ".1")
        with open(path, "wb") as log:
            server = subprocess.Popen(command, stderr=log, **how)
        judge("the server again", server.stdout.readline(), b"serving %d\n" % port)
        wait_for(lambda: scrape(at)[0] == 200)
        judge("what the status tells again", numbers_of(at)["accepted_edits"], 0)
        with Client.connect(port, timeout=PATIENCE) as client:
            client.wait_for(client.change((3, 9), Terrain.BLOCKED).number)
        wait_for(lambda: numbers_of(at)["builds_total"] == len(builds) + 1)
    finally:
        for process in (server, metrics):
            process.terminate()
    judge("the end", metrics.wait(PATIENCE), 0)


def main():
    with tempfile.TemporaryDirectory() as folder:
        try_server(folder)
    return judge.failed


if __name__ == "__main__":
    sys.exit(main())
