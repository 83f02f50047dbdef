#!/usr/bin/env python3
"""Measures the whole program, `path_server check MAP`, with one worker and with four: processor time, time by the clock
and peak memory, on four maps of some 30,000 cells in both orders. Beside them it runs the program with one worker four
times at once: these share nothing but the machine, so what they lose to a single one no program could save.

    bench/workers.py [ROUNDS [KIND SIDE]..]
    bench/workers.py even ROUNDS [KIND SIDE]..

The three run in turn, ROUNDS times (3); of each figure the least counts. KIND and SIDE name other maps, as
`drawn` of bench/maps.py does. Prints a table in Markdown; a peak below this script's own, some 15 MB, can't be seen. The
program is the one that was built here, or the released one. Nothing else may be done on the machine, which has to have
four processors.

With `even` it is for a machine whose processors others share. A round is one worker, four, four programs, and one worker
again, and it counts where the processors were even: where the two with one worker and the mean of the four programs lie
within 5 in 100 in processor time, so that four processors gave what one gave. What the four workers took does not decide
it. It goes on until ROUNDS such rounds are there, or 40 times as many rounds; the medians of them count."""
import os
import statistics
import subprocess
import sys
import time

import maps
import programs

top = os.path.dirname(os.path.dirname(os.path.abspath(__file__)))
program = programs.program()
MAPS = ["open", "173", "blocked25", "200", "rooms", "181", "caves", "213"]


def run(commands):
    """Runs commands at once: the mean of their processor times, the time by the clock, and the greatest peak memory in
    MB; and what the first one printed."""
    began = time.monotonic()
    started = [subprocess.Popen(command, stdout=subprocess.PIPE) for command in commands]
    spent, peak = 0, 0
    for process in started:
        text = process.stdout.read().decode()
        _, status, used = os.wait4(process.pid, 0)
        if status != 0:
            sys.exit("workers.py: %s ends with %d" % (" ".join(commands[0]), status))
        spent += used.ru_utime + used.ru_stime
        peak = max(peak, used.ru_maxrss / 1024 * 1.048576)
    return (spent / len(commands), time.monotonic() - began, peak), text


def map_of(kind, side):
    """The name of a file with the map of a kind."""
    os.makedirs(os.path.join(top, "bench/build"), exist_ok=True)
    name = os.path.join(top, "bench/build/workers.%s.map" % kind)
    rows = maps.drawn(kind, int(side))
    with open(name, "w") as file:
        file.write(maps.map_text(rows))
    return name


def least(rounds):
    return [min(figures) for figures in zip(*rounds)]


def measure(name, map_name, order, rounds):
    """A row of the table."""
    alone = [program, "check", map_name, "--order", order]
    found = [[run([alone]), run([alone + ["--workers", "4"]]), run([alone] * 4)] for _ in range(rounds)]
    texts = {text for turn in found for _, text in turn}
    if len(texts) != 1:
        sys.exit("workers.py: the programs differ on %s" % name)
    one, four, copies = (least([turn[way][0] for turn in found]) for way in range(3))
    numbers = dict(line.split(" ", 1) for line in texts.pop().splitlines())
    cells, runs = int(numbers["cells"]), int(numbers["runs"])
    fields = [name, str(cells), order, str(runs)]
    for figure, share in [(0, 1), (1, 4)]:
        fields.append("%.2f / %.2f s" % (one[figure], four[figure]))
        fields.append("%.2f (%.2f)" % (four[figure] / one[figure], copies[figure] / one[figure] / share))
    fields.append("%.1f" % (one[0] * 1e9 / cells**2))
    fields.append("%.1f / %.1f MB" % (one[2], four[2]))
    fields.append("%.1f MB" % (4 * runs / 1e6))
    print("|", " | ".join(fields), "|", flush=True)


def even_rounds(alone, rounds):
    """Even rounds, each with the ratios to one worker of what four took, by processor time and by the clock; and of how
    many rounds they are."""
    found, tries = [], 0
    while len(found) < rounds and tries < 40 * rounds:
        tries += 1
        turn = [run(commands)[0] for commands in ([alone], [alone + ["--workers", "4"]], [alone] * 4, [alone])]
        one, four, copies, again = turn
        spent = [figures[0] for figures in (one, copies, again)]
        if max(spent) <= 1.05 * min(spent):
            found.append([2 * four[way] / (one[way] + again[way]) for way in (0, 1)])
    return found, tries


def measure_even(name, map_name, order, rounds):
    """A row of the table of even rounds."""
    found, tries = even_rounds([program, "check", map_name, "--order", order], rounds)
    fields = [name, order, "%d of %d" % (len(found), tries)]
    for ratios in zip(*found):
        low, middle, high = min(ratios), statistics.median(ratios), max(ratios)
        fields.append("%.2f (%.2f to %.2f)" % (middle, low, high))
    print("|", " | ".join(fields), "|", flush=True)


def main():
    is_even = sys.argv[1:2] == ["even"]
    words = sys.argv[2:] if is_even else sys.argv[1:]
    rounds = int(words[0]) if words else 3
    wanted = words[1:] or MAPS
    heads = ["map", "passable cells", "order", "runs", "processor time, 1 / 4 workers", "ratio (four programs)",
             "by the clock", "ratio (a quarter of four programs)", "ns a pair", "peak memory", "4 bytes a run"]
    if is_even:
        heads = ["map", "order", "even rounds", "processor time, 4 workers to 1", "by the clock"]
    print("|", " | ".join(heads), "|")
    print("|" + "---|" * len(heads))
    for kind, side in zip(wanted[::2], wanted[1::2]):
        map_name = map_of(kind, side)
        for order in ["rows", "dfs"]:
            (measure_even if is_even else measure)(kind, map_name, order, rounds)


if __name__ == "__main__":
    main()
