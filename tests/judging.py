"""What the tests in Python share: which programs they run, the way to the client (clients/python), and the comparison
of what they find with what they expect."""
import ctypes
import os
import re
import shutil
import sys

TOP = os.path.dirname(os.path.dirname(os.path.abspath(__file__)))
ROW_MAP = os.path.join(TOP, "tests/maps/row.map")
"""The map `.@.`."""
SKIPPED = 77
"""The status of a test that cannot be run here."""
sys.path.insert(0, os.path.join(TOP, "clients/python"))


def _found(named, *places):
    """The file that the environment names, or else the first of these that is there."""
    tried = [os.path.abspath(named)] if named else [os.path.join(TOP, place) for place in places]
    for place in tried:
        if os.path.isfile(place):
            return place
    sys.exit(f"there is no {tried[-1]}; ./build builds the programs")


def program_here():
    """The program that PATH_SERVER names, or the one that was built here, or the release."""
    return _found(os.environ.get("PATH_SERVER"), "crates/path_server/out/path_server", "release/path_server")


def bake_here():
    """The program path_bake: that of PATH_BAKE, or the one that was built here, or the release."""
    return _found(os.environ.get("PATH_BAKE"), "crates/path_bake/out/path_bake", "release/pathdb/path_bake")


def library_here():
    """The archive of the library for C: that of PATHDB, or the one that `release/lib` has made, or the release."""
    return _found(os.environ.get("PATHDB"), "out/lib/libpathdb.a", "release/pathdb/libpathdb.a")


def aarch64_here():
    """The program that runs those for aarch64. A system has it by one of two names."""
    return "qemu-aarch64-static" if shutil.which("qemu-aarch64-static") else "qemu-aarch64"


def needs_new_library():
    """Ends the test where the library for C is older than include/pathdb.h: that of the last release, say."""
    with open(os.path.join(TOP, "include/pathdb.h"), encoding="utf-8") as file:
        wanted = re.search(r"define PATHDB_VERSION_MINOR (\d+)", file.read())
    calls = ctypes.CDLL(os.path.abspath(library_here()).removesuffix("a") + "so")
    found = calls.pathdb_version() // 1000 % 1000 if hasattr(calls, "pathdb_version") else 0
    if wanted is None or found < int(wanted[1]):
        skip("the library is older than include/pathdb.h: release/lib makes it")


def skip(why):
    """Ends the test, which cannot be run here."""
    print(why)
    sys.exit(SKIPPED)


class Judge:
    """Compares, and prints what differs; `failed` is the status of the test then."""

    def __init__(self):
        self.failed = 0

    def __call__(self, what, found, wanted):
        if found != wanted:
            self.fail(f"{what}\n  wanted: {wanted}\n  found:  {found}")

    def fail(self, what):
        """Something is not as it should be."""
        self.failed = 1
        print(f"{os.path.basename(sys.argv[0])}: {what}", file=sys.stderr)
