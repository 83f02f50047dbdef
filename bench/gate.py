#!/usr/bin/env python3
"""Sums what the prover takes while `rt ci` runs, in processor seconds, by crate and by kind of work.

    bench/gate.py FILE       looks at the prover's processes until it is stopped, and keeps in FILE what each has taken
    bench/gate.py --sum FILE prints the sums: each crate's own proof, what its edits are tried over, and its edits

It reads /proc, and sees a process that lives for less than half a second only in part.
"""

import collections
import json
import os
import re
import sys
import time

TICKS = os.sysconf("SC_CLK_TCK")
REST = 0.4  # seconds between two looks
KINDS = ("proof", "seed", "edits", "build")


def prover_words(pid):
    """The words of a process, if it is one of the prover."""
    with open(f"/proc/{pid}/cmdline", "rb") as file:
        words = file.read().decode(errors="replace").split("\0")
    return words if os.path.basename(words[0]) in ("rattle", "rattle-link") else None


def look(seen):
    """Notes of each process of the prover what it has taken so far."""
    for pid in filter(str.isdigit, os.listdir("/proc")):
        try:
            with open(f"/proc/{pid}/stat", encoding="utf-8") as file:
                stat = file.read()
            fields = stat[stat.rindex(")") + 2 :].split()
            key = f"{pid} {fields[19]}"
            if key not in seen and (words := prover_words(pid)):
                seen[key] = [" ".join(words), os.readlink(f"/proc/{pid}/cwd"), 0]
            if key in seen:
                seen[key][2] = (int(fields[11]) + int(fields[12])) / TICKS
        except (OSError, ValueError, IndexError):
            pass


def kind_of(line, folder):
    """What a process of the prover was for."""
    over = re.search(r"--incremental (\S*rt-edits\S*)", line)
    if over or "rt-edit-" in folder:
        return "seed" if over and over[1].endswith("/seed") else "edits"
    return "build" if "--crate-checked" in line else "proof"


def watch(name):
    """Looks until it is stopped."""
    seen = {}
    while True:
        for _ in range(20):
            look(seen)
            time.sleep(REST)
        with open(name + ".new", "w", encoding="utf-8") as file:
            json.dump(list(seen.values()), file)
        os.replace(name + ".new", name)


def print_sums(name):
    """Prints a line a crate, the costliest first, and the whole."""
    sums = collections.defaultdict(collections.Counter)
    with open(name, encoding="utf-8") as file:
        for line, folder, taken in json.load(file):
            crate = re.search(r"--crate-name (\w+)", line)
            if crate:
                sums[crate[1]][kind_of(line, folder)] += taken
    print(f"{'crate':15}" + "".join(f"{kind:>8}" for kind in KINDS) + f"{'all':>8}")
    for crate, kinds in sorted(sums.items(), key=lambda it: -sum(it[1].values())):
        print(f"{crate:15}" + "".join(f"{kinds[kind]:8.0f}" for kind in KINDS) + f"{sum(kinds.values()):8.0f}")
    whole = sum(sum(kinds.values()) for kinds in sums.values())
    print(f"{whole:.0f} seconds, {whole / 60:.0f} minutes")


if __name__ == "__main__":
    if sys.argv[1:2] == ["--sum"] and len(sys.argv) == 3:
        print_sums(sys.argv[2])
    elif len(sys.argv) == 2 and not sys.argv[1].startswith("-"):
        watch(sys.argv[1])
    else:
        sys.exit(__doc__)
