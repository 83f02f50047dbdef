#!/usr/bin/env python3
"""Counts the instructions of a follower that takes a long feed, beside those of `replay` of the same edits.

    bench/feed.py [--messages N] [--program FILE]

A leader of this script's own sends a map of 3 by 1 cells and so many messages of 1,024 edits of one change; `follow`
takes them and ends. `replay` submits the same edits from a file. Instructions are callgrind's, each less those of the
same command without an edit, and the memory is the most that was resident in a run without callgrind. Prints both, and
what the follower takes of the other. The program is the one that was built here, or the released one."""
import argparse
import os
import socket
import subprocess
import tempfile
import threading

from programs import counted, program

EACH = 1024  # edits in a message
START = bytes.fromhex("0000000c 31 00000003 00000001 01 01 01")
MAP = "type octile\nheight 1\nwidth 3\nmap\n...\n"


def change_of(number):
    """The edit with that number, from 0 on: cells close and open in turn."""
    return number % 3, 0, number // 3 % 2


def message(number):
    """The message with the edits behind so many messages."""
    known = number * EACH
    edits = b"".join(bytes((1, 0, x, 0, y, terrain)) for x, y, terrain in map(change_of, range(known, known + EACH)))
    frame = b"\x32" + known.to_bytes(4, "big") + EACH.to_bytes(4, "big") + edits
    return len(frame).to_bytes(4, "big") + frame


def lead(listener, messages):
    """Sends the map, and then a message for each ask."""
    link, _ = listener.accept()
    with link:
        link.sendall(START)
        for number in range(messages):
            ask = b""
            while len(ask) < 5:
                ask += link.recv(5 - len(ask)) or b"\0" * 5
            assert ask == b"\x21" + (number * EACH).to_bytes(4, "big"), ask.hex()
            link.sendall(message(number))


def memory_of(words):
    """The most memory that a command had, in MB."""
    with subprocess.Popen(words, stdin=subprocess.DEVNULL, stdout=subprocess.DEVNULL) as process:
        _, status, used = os.wait4(process.pid, 0)
        process.returncode = os.waitstatus_to_exitcode(status)
    assert process.returncode == 0, (words, process.returncode)
    return used.ru_maxrss / 1024


def with_leader(messages, work, program):
    """Does the work on a follower of so many messages."""
    with socket.create_server(("127.0.0.1", 0)) as listener:
        thread = threading.Thread(target=lead, args=(listener, messages))
        thread.start()
        told = work([program, "follow", str(listener.getsockname()[1]), str(messages)])
        thread.join()
    return told


def main():
    parser = argparse.ArgumentParser(description=__doc__.split("\n", maxsplit=1)[0])
    parser.add_argument("--messages", type=int, default=1024)
    parser.add_argument("--program", default=program())
    options = parser.parse_args()
    count = options.messages * EACH
    with tempfile.TemporaryDirectory() as folder:
        name, events, none = (os.path.join(folder, each) for each in ("row.map", "events", "none"))
        with open(name, "w", encoding="ascii") as file:
            file.write(MAP)
        with open(events, "w", encoding="ascii") as file:
            file.writelines("submit 0 %d %d %d\n" % change_of(number) for number in range(count))
        with open(none, "w", encoding="ascii"):
            pass
        replay = [options.program, "replay", name]
        all_lines, _ = counted([*replay, events])
        no_lines, _ = counted([*replay, none])
        all_messages, out = with_leader(options.messages, counted, options.program)
        no_messages, _ = with_leader(0, counted, options.program)
        assert out == b"following %d\n" % count, out
        follower = with_leader(options.messages, memory_of, options.program)
        replayed = memory_of([*replay, events])
    lines, messages = all_lines - no_lines, all_messages - no_messages
    print("%d edits: replay %.0f instructions an edit, %.0f MB" % (count, lines / count, replayed))
    print("%d messages: follow %.0f instructions an edit, %.0f MB" % (options.messages, messages / count, follower))
    print("follow / replay: %.2f" % (messages / lines))


if __name__ == "__main__":
    main()
