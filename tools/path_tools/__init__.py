"""What the tools share: maps, an exact search of their own, pictures, scenarios and the page. Nothing here is proved,
and nothing is taken from the program but what a client is answered."""

import os
import sys

TOP = os.path.dirname(os.path.dirname(os.path.dirname(os.path.abspath(__file__))))
sys.path[:0] = [os.path.join(TOP, "clients/python"), os.path.join(TOP, "clients/pathdb")]
os.environ.setdefault("PATHDB_LIBRARY", os.path.join(TOP, "release/pathdb/libpathdb.so"))


def program_here() -> str:
    """The program that was built here, or the release where none was."""
    return _found("crates/path_server/out/path_server", "release/path_server")


def bake_here() -> str:
    """The program path_bake that was built here, or that of the release."""
    return _found("crates/path_bake/out/path_bake", "release/pathdb/path_bake")


def _found(built: str, released: str) -> str:
    return next(path for path in (os.path.join(TOP, built), os.path.join(TOP, released)) if os.path.isfile(path))
