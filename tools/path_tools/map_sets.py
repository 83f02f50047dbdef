"""Sets of maps with a list of scenarios for each: which files belong together."""

from __future__ import annotations

import os
from dataclasses import dataclass
from typing import List, Optional


class SetFault(Exception):
    """A folder has no maps."""


@dataclass(frozen=True)
class Listed:
    """A map with its list of scenarios: the name under which it is told, and both files."""

    name: str
    map: str
    scen: str


def listed(words: List[str], scens: Optional[str]) -> List[Listed]:
    """The maps that these words name: a map and a list; or maps and folders, where the list of `x.map` is `x.map.scen`
    beside it, or in the folder `scens`, at the same place as the map in its own.

    SetFault: a folder has no maps.
    """
    if len(words) == 2 and not scens and not os.path.isdir(words[1]) and not words[1].endswith(".map"):
        return [Listed(words[0], words[0], words[1])]
    found: List[Listed] = []
    for word in words:
        if not os.path.isdir(word):
            found.append(_with_list(os.path.dirname(word), os.path.basename(word), word, scens))
            continue
        names = sorted(
            os.path.relpath(os.path.join(folder, name), word)
            for folder, _, names in os.walk(word)
            for name in names
            if name.endswith(".map")
        )
        if not names:
            raise SetFault("%s: no file NAME.map" % word)
        prefix = "" if len(words) == 1 else word
        found += [_with_list(word, name, os.path.join(prefix, name), scens) for name in names]
    return found


def _with_list(folder: str, name: str, told: str, scens: Optional[str]) -> Listed:
    return Listed(told, os.path.join(folder, name), os.path.join(scens or folder, name + ".scen"))
