#!/usr/bin/env python3
"""Paths while cells are blocked, beside a search that shares nothing with the library (tests/pathdb_live.cpp): on 40
made maps in both orders, told and searched, whole and cut; spoilt images, wrong sizes and any scratch between pages
that may not be touched; threads that ask while cells change between two ticks; and the sample examples/doors.c.

    tests/live.py [QUERIES [ROUNDS]], 400,000 and 20,000 where they are not given

What needs a tool that is not here is skipped.
"""
import ctypes, os, re, shutil, subprocess, sys, tempfile

from judging import TOP, Judge, library_here, needs_new_library, skip

judge = Judge()
needs_new_library()
archive = os.path.abspath(library_here())
if not hasattr(ctypes.CDLL(archive.removesuffix("a") + "so"), "pathdb_path_live"):
    skip("the library is older than include/pathdb.h: release/lib makes it")
queries = sys.argv[1] if len(sys.argv) > 1 else "400000"
rounds = sys.argv[2] if len(sys.argv) > 2 else "20000"
os.chdir(TOP)
CPP = ["g++", "-std=c++17", "-pedantic", "-pthread", "tests/pathdb_live.cpp"]
C = ["gcc", "-std=c99", "-pedantic", "examples/doors.c"]
CHECKED = ["-O1", "-g", "-fsanitize=address,undefined", "-fno-sanitize-recover=all"]
RACED = ["-O1", "-g", "-fsanitize=thread"]


def is_here(tool):
    """Whether there is this tool; where there is none, a line says what is skipped."""
    if shutil.which(tool) is None:
        print(f"skipped: there is no {tool}")
        return False
    return True


def ran(what, *words):
    """What a command prints; where it fails, nothing, and that is told."""
    done = subprocess.run(words, stdin=subprocess.DEVNULL, capture_output=True, text=True, errors="replace")
    if done.returncode == 0:
        return done.stdout
    judge.fail(f"{what}: status {done.returncode}\n{done.stderr[:4000]}{done.stdout[:4000]}")
    return None


def compiled(name, words, *options):
    """The program that a compiler makes, or nothing where it fails."""
    made = os.path.join(folder, name)
    more = ["-Wall", "-Wextra", "-Wshadow", "-Werror", "-Iinclude", "-o", made, *options, archive, "-lm"]
    return made if ran(f"{name} is compiled", *words, *more) is not None else None


def try_judge():
    plain = compiled("judge", CPP, "-O2")
    if plain is None:
        return
    told = ran("queries beside a search", plain, "judge", "40", queries, "1")
    if told is not None:
        print(told, end="")
        judge("paths are told and searched", len(re.findall(r"told [1-9]\d*, searched [1-9]", told)), 8)
    ran("fences", plain, "fences", rounds, "1")
    if is_here("valgrind"):
        ran("fences under valgrind", "valgrind", "-q", "--error-exitcode=9", plain, "fences", "300", "2")
        ran("threads under helgrind", "valgrind", "-q", "--tool=helgrind", "--error-exitcode=9", plain, "threads", "20")
    checked = compiled("checked", CPP, *CHECKED)
    if checked:
        ran("queries with sanitizers", checked, "judge", "8", "16000", "2")
        ran("fences with sanitizers", checked, "fences", str(int(rounds) // 10 + 1), "3")
    raced = compiled("raced", CPP, *RACED)
    if raced:
        ran("threads with a sanitizer", raced, "threads", "200")


def try_sample():
    for name, options in (("doors", ["-O2"]), ("doors_checked", CHECKED)):
        made = compiled(name, C, *options)
        told = made and ran(name, made, "test", "40")
        wanted = r"\d+ doors: [1-9]\d* paths told, [1-9]\d* searched, \d+ unreachable; 1600 judged\n"
        if told and not re.fullmatch(wanted, told):
            judge.fail(f"{name} prints: {told}")


if not shutil.which("gcc") or not shutil.which("g++"):
    skip("there is no gcc or no g++")
with tempfile.TemporaryDirectory() as folder:
    try_judge()
    try_sample()
sys.exit(judge.failed)
