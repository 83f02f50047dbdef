"""The programs to measure, and how many instructions they take."""
import os
import re
import subprocess

TOP = os.path.dirname(os.path.dirname(os.path.abspath(__file__)))


def newest(named, built, released):
    """Returns the file that the environment names, or the one built here, or the released one if there is none."""
    built = os.environ.get(named) or os.path.join(TOP, built)
    return built if os.access(built, os.R_OK) else os.path.join(TOP, released)


def program():
    """Returns the main program."""
    return newest("PATH_SERVER", "crates/path_server/out/path_server", "release/path_server")


def counted(words, given=b"", within=None):
    """Returns how many instructions a run takes, in all or inside one function, and what it prints. Needs valgrind."""
    grind = ["valgrind", "--tool=callgrind", "--callgrind-out-file=/dev/null"]
    grind += ["--toggle-collect=" + within] if within else []
    done = subprocess.run(grind + words, input=given, capture_output=True, check=False)
    found = re.search(rb"Collected : (\d+)", done.stderr)
    if done.returncode != 0 or not found:
        raise SystemExit("%s ends with %d: %s" % (" ".join(words), done.returncode, done.stderr.decode()[-400:]))
    return int(found[1]), done.stdout


def said(words):
    """Returns what a run prints."""
    return subprocess.run(words, stdout=subprocess.PIPE, check=True).stdout


def queries(folder):
    """Compiles bench/queries.c with the library built here, or the released one, and returns the program."""
    library = newest("PATHDB", "crates/pathdb/out/libpathdb.a", "release/pathdb/libpathdb.a")
    made = os.path.join(folder, "queries")
    sources = [os.path.join(TOP, "bench/queries.c")]
    if "crates" in os.path.relpath(library, TOP).split(os.sep):
        # the archive of the crate alone, which release/lib puts together with this
        sources.append(os.path.join(TOP, "lib/pathdb_memory.c"))
    gcc = ["gcc", "-std=c99", "-O2", "-I", os.path.join(TOP, "include")]
    subprocess.run([*gcc, "-o", made, *sources, library], check=True)
    return made
