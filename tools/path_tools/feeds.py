"""The edits that a `path_server lead` has accepted, whoever sent them."""

from __future__ import annotations

from typing import List, Tuple

from path_server.feed import Feed, changes_of

Changes = List[Tuple[int, int, int]]
"""What one edit changes: columns, rows, and values of the client's `Terrain`."""
_TIMEOUT = 2.0


def edits_after(port: int, known: int) -> List[Changes]:
    """The changes of each edit after the first `known` ones.

    PathServerError: nobody feeds at that port of this machine, or not in time.
    """
    found: List[Changes] = []
    with Feed.connect(port, timeout=_TIMEOUT) as feed:
        while True:
            edits = feed.ask(known + len(found))
            if not edits:
                return found
            found += [[(*change.cell, change.terrain.value) for change in changes_of(edit)] for edit in edits]
