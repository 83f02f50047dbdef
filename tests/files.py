#!/usr/bin/env python3
"""Hostile files, and scenarios as the field writes them: what each map and each list of scenarios is answered with,
that a file of scenarios made from printed paths matches line by line, and that no number of workers changes a byte.
"""
import math, os, re, subprocess, sys, tempfile

from judging import TOP, Judge, program_here

program = program_here()
judge = Judge()
TUTORIAL = os.path.join(TOP, "maps/tutorial.map")
ROW = "type octile\nheight 1\nwidth 3\nmap\n...\n"
WIDE = "." * 4096 + "\n"

# a map, and why it is refused
MAPS = (
    ("empty", "", "header at line 1"),
    ("one line", "type octile\n", "header at line 2"),
    ("one line without its end", "type octile", "header at line 2"),
    ("height 0", "type octile\nheight 0\nwidth 1\nmap\n.\n", "size at line 2"),
    ("two heights", "type octile\nheight 2\nheight 2\nmap\n.\n", "header at line 3"),
    ("too many cells in the sides", "type octile\nheight 4096\nwidth 4096\nmap\n", "size at line 3"),
    ("a side of twenty digits", "type octile\nheight 99999999999999999999\nwidth 1\nmap\n.\n", "size at line 2"),
    ("a carriage return in a row", "type octile\nheight 1\nwidth 3\nmap\n.\r.\n", "byte 13 at 1 0"),
    ("a small letter w", "type octile\nheight 2\nwidth 4\nmap\n....\n...w\n", "byte 119 at 3 1"),
    ("a short row", "type octile\nheight 1\nwidth 3\nmap\n..\n", "line 5 has 2 cells, not 3"),
    ("a row too few", "type octile\nheight 3\nwidth 1\nmap\n.\n.\n", "2 rows found"),
    ("a row too many", "type octile\nheight 1\nwidth 1\nmap\n.\n.\n", "extra line 6"),
    ("a null byte", "type octile\nheight 1\nwidth 1\nmap\n\0\n", "byte 0 at 0 0"),
    ("a cell too many", "type octile\nheight 9\nwidth 4096\nmap\n" + WIDE * 9, "too many cells at 0 8"),
)

# lines of scenarios on the row of three cells, the status, and the answer
HEAD = "version 1\n"
SCENARIOS = (
    ("empty", "", 3, "scenario refused: version"),
    ("no version", "0\tm\t3\t1\t0\t0\t2\t0\t2\n", 3, "scenario refused: version"),
    ("eight fields", HEAD + "0\tm\t3\t1\t0\t0\t2\t0\n", 3, "scenario refused: line 2 has 8 fields"),
    ("a number too great", HEAD + "4294967296\tm\t3\t1\t0\t0\t2\t0\t2\n", 3, "scenario refused: line 2 field 1"),
    ("a point without digits", HEAD + "0\tm\t3\t1\t0\t0\t2\t0\t0.\n", 3, "scenario refused: line 2 field 9"),
    ("a length of eight digits", HEAD + "0\tm\t3\t1\t0\t0\t2\t0\t12345678\n", 3, "scenario refused: line 2 field 9"),
    ("ten decimals", HEAD + "0\tm\t3\t1\t0\t0\t2\t0\t0.1234567891\n", 0,
     "1 differs 2 0 2.000000\nscenarios 1 match 0 differs 1 unreachable 0 refused 0 scaled 0"),
    ("the ends of what matches",
     HEAD + "".join(f"0\tm\t3\t1\t0\t0\t2\t0\t{length}\n" for length in "2.01 1.99 2.010000001 1.989999999".split()), 0,
     "1 match 2 0 2.000000\n2 match 2 0 2.000000\n3 differs 2 0 2.000000\n4 differs 2 0 2.000000\n"
     "scenarios 4 match 2 differs 2 unreachable 0 refused 0 scaled 0"),
    ("sides of another map, and an end outside", HEAD + "0\tm\t6\t2\t9\t0\t2\t0\t2\n0\tm\t3\t1\t0\t0\t3\t0\t2\n", 0,
     "1 scaled\n2 outside goal\nscenarios 2 match 0 differs 0 unreachable 0 refused 1 scaled 1"),
)

EVENTS = """0 version 0 cost 2 0 moves E E
0 accepted 1
0 job 1 rows 1
0 row left 0
0 published 1 built 1 kept 598
0 version 0 blocked start
1 version 1 accepted 1
1 version 1 unreachable
"""


def run(*words):
    """The status of a command, and what it prints."""
    done = subprocess.run([program, *words], stdin=subprocess.DEVNULL, capture_output=True, timeout=120)
    return done.returncode, done.stdout.decode()


def put(name, text):
    """The name of a file in the folder of the test, with this text."""
    name = os.path.join(folder, name)
    with open(name, "w", newline="") as file:
        file.write(text)
    return name


def judge_files():
    for what, text, why in MAPS:
        judge(f"map: {what}", run("check", put("text.map", text)), (2, f"map refused: {why}\n"))
    judge("map: a byte too many", run("check", put("text.map", "\0" * 2_097_153)), (8, "file too long: 2097152\n"))
    row = put("row.map", ROW)
    for what, text, status, told in SCENARIOS:
        judge(f"scenarios: {what}", run("scen", row, put("text.scen", text)), (status, told + "\n"))


def judge_water():
    """No path leads from land to water, and no corner of the other class is cut."""
    shore = put("shore.map", "type octile\nheight 2\nwidth 2\nmap\n.W\n.W\n")
    bay = put("bay.map", "type octile\nheight 2\nwidth 2\nmap\nWW\nW.\n")
    judge("a shore", run("check", shore), (0, "size 2 2\ncells 4\ncomponents 2\nruns 4\n"))
    judge("from land to water", run("path", shore, *"0010"), (0, "unreachable\n"))
    judge("a bay", run("check", bay), (0, "size 2 2\ncells 4\ncomponents 2\nruns 5\n"))
    judge("round a corner of land", run("path", bay, *"1001"), (0, "cost 2 0\nlength 2.000000\nmoves W S\n"))


def judge_tutorial():
    """Scenarios made from printed paths, with lengths of eight decimals as in the field's own files, and the files that
    lie beside the map."""
    walks = [HEAD]
    for ends in ("2 2 37 17", "1 1 38 1", "38 18 1 1", "5 5 5 5", "14 1 25 18", "1 18 38 1"):
        found = re.match(r"cost (\d+) (\d+)\n", run("path", TUTORIAL, *ends.split())[1])
        if found:
            length = int(found[1]) + int(found[2]) * math.sqrt(2)
            fields = (len(walks), "tutorial.map", 40, 20, *ends.split(), f"{length:.8f}")
            walks.append("\t".join(map(str, fields)) + "\n")
    count = len(walks) - 1
    judge("at least four walks", count >= 4, True)
    for order in ("rows", "dfs"):
        status, told = run("scen", TUTORIAL, put("walks.scen", "".join(walks)), "--order", order)
        sums = f"scenarios {count} match {count} differs 0 unreachable 0 refused 0 scaled 0"
        judge(f"walks in order {order}", (status, told.splitlines()[-1]), (0, sums))
    judge("the events of the tutorial", run("replay", TUTORIAL, TUTORIAL.replace(".map", ".events")), (0, EVENTS))
    status, told = run("scen", TUTORIAL, f"{TUTORIAL}.scen")
    sums = "scenarios 21 match 21 differs 0 unreachable 0 refused 0 scaled 0"
    judge("the scenarios of the tutorial", (status, told.splitlines()[-1]), (0, sums))


def judge_workers():
    for words in ("made 64 64 7", "made 49 49 1 --order dfs", "path MAP 2 2 37 17", "check MAP --order dfs"):
        words = [TUTORIAL if word == "MAP" else word for word in words.split()]
        alone = run(*words)[1]
        for workers in ("2", "7"):
            judge(f"{words} with {workers} workers", run(*words, "--workers", workers), (0, alone))


with tempfile.TemporaryDirectory() as folder:
    judge_files()
    judge_water()
    judge_tutorial()
    judge_workers()
sys.exit(judge.failed)
