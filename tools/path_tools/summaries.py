"""What comes of many scenarios, summed up by bucket, by map and over all: as CSV, and as a table for people."""

from __future__ import annotations

import math
from dataclasses import dataclass, field
from typing import Dict, List, Optional, Sequence

from path_server import Path

from .scenario_runs import Result, Run

PERCENTILES = (50, 90, 99)
ALL = "all"
COLUMNS = [
    *"map bucket problems".split(),
    *(result.value for result in Result),
    *"straight diagonal length moves build_seconds database_bytes queries_per_second".split(),
    *("p%d_nanoseconds" % part for part in PERCENTILES),
    *"mean_nanoseconds mean_pipe_nanoseconds mean_ratio worst_ratio skipped".split(),
]
"""What a line of the totals has."""
_SHOWN = {
    "map": "map",
    "bucket": "bucket",
    "problems": "problems",
    "match": "match",
    **{"p%d_nanoseconds" % part: "p%d ns" % part for part in PERCENTILES},
    "mean_pipe_nanoseconds": "pipe ns",
    "queries_per_second": "queries/s",
    "mean_ratio": "ratio",
    "worst_ratio": "worst",
    "build_seconds": "build s",
    "database_bytes": "bytes",
}
"""The columns that are shown to people, and how they are headed."""


def percentile(ordered: Sequence[int], part: int) -> int:
    """The least of these numbers, in ascending order, that `part` of a hundred do not exceed."""
    return ordered[max(1, math.ceil(len(ordered) * part / 100)) - 1]


@dataclass
class Totals:
    """Sums over some runs."""

    counts: Dict[Result, int] = field(default_factory=lambda: {result: 0 for result in Result})
    straight: int = 0
    diagonal: int = 0
    times: List[int] = field(default_factory=list)
    pipe_times: int = 0
    ratios: List[float] = field(default_factory=list)
    build_seconds: Optional[float] = None
    database_bytes: Optional[int] = None

    def add(self, done: Run) -> None:
        """Takes a run in."""
        self.counts[done.result] += 1
        if done.path:
            self.straight += done.path.straight
            self.diagonal += done.path.diagonal
        if done.nanoseconds is not None:
            self.times.append(done.nanoseconds)
            self.pipe_times += done.pipe_nanoseconds or 0
        if done.ratio is not None:
            self.ratios.append(done.ratio)

    def add_build(self, seconds: float, size: int) -> None:
        """Takes the build of a database in."""
        self.build_seconds = (self.build_seconds or 0.0) + seconds
        self.database_bytes = (self.database_bytes or 0) + size

    def line(self, name: str, bucket: str) -> List[object]:
        """The sums as a line of CSV."""
        length = Path(0, self.straight, self.diagonal, b"").exact_length
        sums = [self.straight, self.diagonal, length, self.straight + self.diagonal]
        build = "" if self.build_seconds is None else "%.3f" % self.build_seconds
        size = "" if self.database_bytes is None else self.database_bytes
        counts = [sum(self.counts.values()), *self.counts.values()]
        return [name, bucket, *counts, *sums, build, size, *self._times(), *self._ratios(), ""]

    def _times(self) -> List[object]:
        if not self.times:
            return [""] * (3 + len(PERCENTILES))
        ordered, total = sorted(self.times), sum(self.times)
        parts = [percentile(ordered, part) for part in PERCENTILES]
        each = len(ordered)
        return [each * 10**9 // max(1, total), *parts, total // each, self.pipe_times // each]

    def _ratios(self) -> List[object]:
        if not self.ratios:
            return ["", ""]
        return ["%.6f" % (sum(self.ratios) / len(self.ratios)), "%.6f" % max(self.ratios)]


@dataclass
class Summary:
    """The sums of all runs: by bucket over all maps, by map, and over all; and which maps were skipped, and why."""

    buckets: Dict[int, Totals] = field(default_factory=dict)
    maps: Dict[str, Totals] = field(default_factory=dict)
    skipped: Dict[str, str] = field(default_factory=dict)
    all: Totals = field(default_factory=Totals)

    def add_build(self, name: str, seconds: float, size: int) -> None:
        """Takes the build of a map's database in."""
        for totals in (self.maps.setdefault(name, Totals()), self.all):
            totals.add_build(seconds, size)

    def add(self, name: str, done: Run) -> None:
        """Takes a run on a map in, whose build was taken in before."""
        for totals in (self.buckets.setdefault(done.problem.bucket, Totals()), self.maps[name], self.all):
            totals.add(done)

    def lines(self) -> List[List[object]]:
        """The lines of CSV below COLUMNS: the buckets, the maps, those that were skipped, and all."""
        found = [totals.line(ALL, str(bucket)) for bucket, totals in sorted(self.buckets.items())]
        found += [totals.line(name, ALL) for name, totals in self.maps.items()]
        blank: List[object] = [""] * (len(COLUMNS) - 3)
        found += [[name, "", *blank, why] for name, why in self.skipped.items()]
        return [*found, self.all.line(ALL, ALL)]

    def table(self) -> str:
        """The same for people: aligned columns, without the maps that were skipped."""
        places = [COLUMNS.index(name) for name in _SHOWN]
        rows = [[str(line[place]) for place in places] for line in self.lines() if not line[-1]]
        rows.insert(0, list(_SHOWN.values()))
        widths = [max(len(row[place]) for row in rows) for place in range(len(places))]
        aligned = ["  ".join([row[0].ljust(widths[0]), *map(str.rjust, row[1:], widths[1:])]) for row in rows]
        return "".join(row.rstrip() + "\n" for row in aligned)
