#!/usr/bin/env python3
"""The library for C as its users have it: the samples of examples/ are built and run, and each has to print the path
of README.md, under valgrind and the sanitizers of gcc too, and for aarch64 under qemu; threads side by side under
helgrind; want of memory; and spoilt images, of which every status and move is looked at, and whoever reads outside is
ended by a signal.

    tests/samples.py [ROUNDS], where ROUNDS images are spoilt, 100,000 where it is not given

What needs a tool that is not here is skipped.
"""
import os, re, shutil, subprocess, sys, tempfile

from judging import TOP, Judge, aarch64_here, library_here, needs_new_library, program_here, skip

judge = Judge()
needs_new_library()
library = os.path.dirname(os.path.abspath(library_here()))
archive, shared = os.path.join(library, "libpathdb.a"), os.path.join(library, "libpathdb.so")
rounds = int(sys.argv[1]) if len(sys.argv) > 1 else 100_000
os.chdir(TOP)
os.environ["PYTHONDONTWRITEBYTECODE"] = "1"
QUERY = ["maps/tutorial.map", "2", "2", "37", "17"]
MAPS = ["maps/tutorial.map", "tests/maps/row.map", "tests/maps/water.map"]
CHECKED = ["-fsanitize=address,undefined", "-fno-sanitize-recover=all"]
RACED = ["-O1", "-fsanitize=thread"]
WATCHED = ["valgrind", "-q", "--fair-sched=yes", "--error-exitcode=9", "--leak-check=full"]
C = ["gcc", "-std=c99", "-pedantic"]
C11 = ["gcc", "-std=c11"]
CPP = ["g++", "-std=c++17", "-pedantic", "-pthread"]


def is_here(tool):
    """Whether there is this tool; where there is none, a line says what is skipped."""
    found = shutil.which(tool) is not None
    if not found and tool not in missing:
        missing.add(tool)
        print(f"skipped: there is no {tool}")
    return found


def ran(what, *words):
    """What a command prints; where it fails, nothing, and that is told."""
    done = subprocess.run(words, stdin=subprocess.DEVNULL, capture_output=True, text=True, errors="replace")
    if done.returncode == 0:
        return done.stdout
    judge.fail(f"{what}: status {done.returncode}\n{done.stderr[:4000]}{done.stdout[:4000]}")
    return None


def prints(what, *words):
    """A command prints the path of README.md."""
    found = ran(what, *words)
    if found is not None:
        judge(what, found, wanted)


def compiled(name, compiler, source, *options):
    """The program that a compiler makes of a file, or nothing where it fails."""
    made = os.path.join(folder, name)
    words = [*compiler, "-Wall", "-Wextra", "-Werror", "-g", "-Iinclude", "-o", made, source]
    return made if ran(f"{name} is compiled", *words, *options) is not None else None


def try_sample(name, compiler, options):
    """A sample as it is, with each of these sanitizers, and under valgrind."""
    if not is_here(compiler[0]):
        return
    file = f"examples/{name}"
    plain = compiled(name, compiler, file, archive, "-O2")
    if plain:
        prints(name, plain, *QUERY)
        if is_here("valgrind"):
            prints(f"{name} under valgrind", *WATCHED, plain, *QUERY)
    for number, option in enumerate(options):
        made = compiled(f"{name}.{number}", compiler, file, archive, *option)
        if made:
            prints(f"{name} with {option}", made, *QUERY)


def try_others():
    """The sample in C over the library that is shared, and those in Python, C# and Rust."""
    linked = compiled("shared", ["gcc"], "examples/path.c", "-O2", f"-L{library}", "-lpathdb", f"-Wl,-rpath,{library}")
    if linked:
        prints("path.c over libpathdb.so", linked, *QUERY)
    prints("path.py", sys.executable, "examples/path.py", shared, *QUERY)
    if is_here("mcs") and is_here("mono"):
        made = os.path.join(folder, "path.exe")
        if ran("Path.cs is compiled", "mcs", "-unsafe", "-warnaserror", f"-out:{made}", "examples/Path.cs") is not None:
            prints("Path.cs", "env", f"LD_LIBRARY_PATH={library}", "mono", made, *QUERY)
    if is_here("rustc"):
        rust = os.path.join(folder, "rust")
        words = ["rustc", "--edition", "2021", "-O", "-D", "warnings", "-L", library, "-o", rust, "examples/path.rs"]
        if ran("path.rs is compiled", *words) is not None:
            prints("path.rs", rust, *QUERY)


def try_aarch64():
    """The samples in C and C++ over the libraries for aarch64, and what a bake does without memory there."""
    folder_there = os.path.join(library, "aarch64")
    if not os.path.exists(os.path.join(folder_there, "libpathdb.a")):
        print("skipped: there is no library for aarch64")
        return
    if not all([is_here("aarch64-linux-gnu-gcc"), is_here("aarch64-linux-gnu-g++"), is_here(aarch64_here())]):
        return
    there, emulated = os.path.join(folder_there, "libpathdb.a"), [aarch64_here(), "-L", "/usr/aarch64-linux-gnu"]
    for name, compiler in (("path.c", C), ("threads.cpp", CPP), ("parts.cpp", CPP), ("competition.cpp", CPP)):
        words = ["aarch64-linux-gnu-" + compiler[0], *compiler[1:]]
        made = compiled(f"{name}.aarch64", words, f"examples/{name}", there, "-O2")
        if made:
            prints(f"{name} on aarch64", *emulated, made, *QUERY)
    gcc = ["aarch64-linux-gnu-gcc"]
    linked = compiled("shared.aarch64", gcc, "examples/path.c", "-O2", f"-L{folder_there}", "-lpathdb")
    if linked:
        found = ["-E", f"LD_LIBRARY_PATH={folder_there}"]
        prints("path.c over libpathdb.so on aarch64", *emulated, *found, linked, *QUERY)
    memory = compiled("memory.aarch64", ["aarch64-linux-gnu-gcc", "-std=c11"], "tests/pathdb_memory.c", there, "-O2")
    if memory:
        ran("want of memory on aarch64", *emulated, memory, "tests/maps/row.map")
    empty = compiled("empty.aarch64", ["aarch64-linux-gnu-gcc", "-std=c99"], "tests/pathdb_empty.c", there, "-O2")
    if empty:
        ran("empty lists on aarch64", *emulated, empty)


def try_threads_and_memory():
    threads = is_here("valgrind") and compiled("threads", C, "tests/pathdb_threads.c", archive, "-O2", "-pthread")
    if threads:
        words = ["valgrind", "-q", "--tool=helgrind", "--error-exitcode=9", threads, "maps/tutorial.map", "100"]
        ran("threads under helgrind", *words)
    memory = compiled("memory", C11, "tests/pathdb_memory.c", archive, "-O2", *CHECKED)
    if memory:
        ran("want of memory", memory, "maps/tutorial.map")


def try_spoilt(what, *words):
    """Spoilt images: some are refused and some are answered."""
    found = ran(what, *words, *MAPS)
    if found is not None and not re.fullmatch(r"refused [1-9]\d* answered [1-9]\d*\n", found):
        judge.fail(f"{what}: {found}")


def try_images():
    plain = compiled("spoilt", C11, "tests/pathdb.c", archive, "-O2")
    if plain:
        try_spoilt("spoilt images", plain, str(rounds))
        if is_here("valgrind"):
            try_spoilt("spoilt images under valgrind", *WATCHED, plain, str(rounds // 100 + 1))
    checked = compiled("spoilt_checked", C11, "tests/pathdb.c", archive, "-O1", *CHECKED)
    if checked:
        try_spoilt("spoilt images with sanitizers", checked, str(rounds))


if not shutil.which("gcc"):
    skip("there is no gcc")
missing = set()
wanted = subprocess.run([program_here(), "path", *QUERY], stdout=subprocess.PIPE, text=True, check=True).stdout
with tempfile.TemporaryDirectory() as folder:
    try_sample("path.c", C, [CHECKED])
    try_sample("threads.cpp", CPP, [CHECKED, RACED])
    try_sample("parts.cpp", CPP, [CHECKED, RACED])
    try_sample("competition.cpp", CPP, [CHECKED])
    try_others()
    try_aarch64()
    try_threads_and_memory()
    try_images()
sys.exit(judge.failed)
