#!/usr/bin/env python3
"""include/pathdb_read.h beside the library: the same answers to queries, and the same status and part for spoilt
images; and then as other machines have it, with 32 bits, with the highest byte first and under Windows, beside this one.

    tests/read.py [QUERIES [SPOILT]], 1,000,000 and 100,000 where they are not given

What needs a tool that is not here is skipped.
"""
import os, shutil, subprocess, sys, tempfile

from judging import TOP, Judge, aarch64_here, library_here, needs_new_library
from read_images import put_images

judge = Judge()
needs_new_library()
archive = os.path.abspath(library_here())
queries = int(sys.argv[1]) if len(sys.argv) > 1 else 1_000_000
spoilt = int(sys.argv[2]) if len(sys.argv) > 2 else 100_000
os.chdir(TOP)
WARNED = ["-Wall", "-Wextra", "-Wshadow", "-Wconversion", "-pedantic", "-Werror", "-Iinclude"]
CHECKED = ["-fsanitize=address,undefined", "-fno-sanitize-recover=all", "-g"]
OTHERS = [
    ("sanitizers", ["gcc", "-std=c99", *CHECKED], []),
    ("clang", ["clang", "-std=c99"], []),
    ("C++", ["g++", "-std=c++11", "-x", "c++"], []),
    ("32 bits", ["gcc", "-std=c99", "-m32"], []),
    ("aarch64", ["aarch64-linux-gnu-gcc", "-std=c99", "-static"], [aarch64_here()]),
    ("powerpc, highest byte first and 32 bits", ["powerpc-linux-gnu-gcc", "-std=c99", "-static"], ["qemu-ppc-static"]),
    ("s390x, highest byte first", ["s390x-linux-gnu-gcc", "-std=c99", "-static"], ["qemu-s390x-static"]),
    ("Windows", ["x86_64-w64-mingw32-gcc", "-std=c99"], ["wine"]),
]
"""Other readers: what they are, how they are compiled and what runs them."""


def compiled(what, words, *more):
    made = os.path.join(folder, what.replace(" ", "_")) + ".exe"
    done = subprocess.run([*words, *WARNED, "-O2", "-o", made, "tests/pathdb_read.c", *more], capture_output=True,
                          text=True)
    if done.returncode == 0:
        return made
    judge.fail(f"{what} is not compiled\n{done.stderr[:4000]}")
    return None


def lines_of(what, program, asked, changed):
    """What a digest prints."""
    wine = {"WINEPREFIX": f"{folder}/wine", "WINEDEBUG": "-all"}
    done = subprocess.run([*program, str(asked), str(changed), *images], capture_output=True, text=True,
                          env={**os.environ, **wine})
    if done.returncode == 0:
        return done.stdout.split("\n")
    judge.fail(f"{what}: status {done.returncode}\n{done.stderr[:4000]}")
    return None


def try_library():
    """The reader beside the library; answers whether there is one to compare others with."""
    proved = compiled("the library", ["gcc", "-std=c99"], archive)
    ours = compiled("the reader", ["gcc", "-std=c99", "-DREADER"])
    wanted = lines_of("the library", [proved], queries, spoilt) if proved else None
    if ours and wanted:
        judge("the reader beside the library", lines_of("the reader", [ours], queries, spoilt), wanted)
        refused, passed = (int(word) for word in wanted[16].split()[1::2])
        judge("some images are refused and some pass", refused > spoilt // 4 and passed > spoilt // 100, True)
    return ours


def try_others(ours):
    """The reader as others have it, beside that of this machine, on fewer queries."""
    asked, changed = max(queries // 20, 16), max(spoilt // 5, 16)
    wanted = lines_of("the reader", [ours], asked, changed)
    for what, compiler, runner in OTHERS:
        absent = [tool for tool in (compiler[0], *runner) if shutil.which(tool) is None]
        if not absent and "-m32" in compiler and not has_32_bits():
            absent = ["C library of 32 bits"]
        if absent:
            print(f"skipped: there is no {absent[0]}")
            continue
        made = compiled(what, [*compiler, "-DREADER"])
        if made:
            judge(what, lines_of(what, [*runner, made], asked, changed), wanted)


def has_32_bits():
    """Whether the compiler makes programs of 32 bits that run."""
    made = os.path.join(folder, "small")
    words = ["gcc", "-m32", "-x", "c", "-", "-o", made]
    done = subprocess.run(words, input="#include <stdio.h>\nint main(void) { return 0; }\n", text=True,
                          capture_output=True)
    return done.returncode == 0 and subprocess.run([made]).returncode == 0


with tempfile.TemporaryDirectory() as folder:
    images = put_images(archive, folder)
    reader = try_library()
    if reader:
        try_others(reader)
    shutil.rmtree(f"{folder}/wine", ignore_errors=True)  # a server of wine's may be at work there yet
sys.exit(judge.failed)
