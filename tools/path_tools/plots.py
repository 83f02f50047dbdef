"""Charts of runs: time and length by bucket, for one planner or several beside each other."""

from __future__ import annotations

import csv
import math
import statistics
from dataclasses import dataclass
from html import escape
from typing import Any, Dict, List, Sequence, Tuple

Point = Tuple[int, float]


class PlotFault(Exception):
    """A file has no runs, and why."""


@dataclass(frozen=True)
class Series:
    """A planner: its label, and by bucket the median time in microseconds and the mean length in cells."""

    label: str
    times: List[Point]
    lengths: List[Point]


@dataclass(frozen=True)
class Chart:
    """One chart: what its upright axis tells, whether that is logarithmic, and the points of each planner."""

    title: str
    is_log: bool
    lines: List[Tuple[str, List[Point]]]


def read_series(name: str, label: str) -> Series:
    """The runs of a CSV file with a column `bucket` and `nanoseconds` or `length` or both, as tools/scenarios and
    tools/judge write them. Lines without a number in a column have no point there.

    OSError: it is not read. PlotFault: it has no such columns, or no number where one should be.
    """
    with open(name, encoding="utf-8", errors="replace", newline="") as file:
        rows = csv.DictReader(file)
        columns = rows.fieldnames or []
        if "bucket" not in columns or not {"nanoseconds", "length"} & set(columns):
            raise PlotFault("%s: no columns 'bucket' and 'nanoseconds' or 'length'" % name)
        found: Dict[str, Dict[int, List[float]]] = {"nanoseconds": {}, "length": {}}
        for row in rows:
            for column, buckets in found.items():
                text = row.get(column)
                try:
                    if text:
                        buckets.setdefault(int(row["bucket"]), []).append(float(text))
                except ValueError:
                    raise PlotFault("%s:%d: no number" % (name, rows.line_num)) from None
    times = [(bucket, statistics.median(all_of) / 1000) for bucket, all_of in sorted(found["nanoseconds"].items())]
    lengths = [(bucket, statistics.fmean(all_of)) for bucket, all_of in sorted(found["length"].items())]
    return Series(label, times, lengths)


def charts(planners: Sequence[Series]) -> List[Chart]:
    """The charts for which there are points."""
    found = [
        Chart("median time in µs", True, [(each.label, each.times) for each in planners if each.times]),
        Chart("mean length in cells", False, [(each.label, each.lengths) for each in planners if each.lengths]),
    ]
    return [chart for chart in found if chart.lines]


LEAST_TIME = 0.001
"""What stands for a time of 0 on a logarithmic axis, in microseconds."""
WIDTH, HEIGHT = 560, 400
"""Pixels of a chart."""
_LEFT, _RIGHT, _TOP, _BOTTOM = 70, 20, 20, 50
_COLOURS = ("#2455a4", "#c8553d", "#1b7f4d", "#6a4c93")
_DASHES = ("", "7 4", "2 3", "9 3 2 3")
INK, GRID_LINE, PAPER = "#1f2430", "#d5d8de", "#ffffff"


def linear_ticks(least: float, most: float) -> List[float]:
    """Round numbers from below `least` to above `most`: six or so, 1, 2 or 5 times a power of ten apart."""
    rough = max(most - least, 1e-9) / 5
    power = 10.0 ** math.floor(math.log10(rough))
    step = next(times * power for times in (1, 2, 5, 10) if times * power >= rough * 0.999)
    return [number * step for number in range(math.floor(least / step), math.ceil(most / step) + 1)]


def log_ticks(least: float, most: float) -> List[float]:
    """1, 2 and 5 times the powers of ten, from below `least` to above `most`; powers alone where they are many."""
    powers = range(math.floor(math.log10(least)), math.ceil(math.log10(most)) + 1)
    steps = (1, 2, 5) if len(powers) <= 4 else (1,)
    ticks = [times * 10.0**power for power in powers for times in steps]
    low = max((tick for tick in ticks if tick <= least), default=ticks[0])
    high = min((tick for tick in ticks if tick >= most), default=ticks[-1])
    return [tick for tick in ticks if low <= tick <= max(high, low * 2)]


def svg(all_charts: Sequence[Chart]) -> str:
    """The charts beside each other as an SVG file, which needs nothing else. The same points give the same bytes."""
    labels = list(dict.fromkeys(label for chart in all_charts for label, _ in chart.lines))
    styles = {label: (_COLOURS[at % 4], _DASHES[at % 4]) for at, label in enumerate(labels)}
    width, height = WIDTH * len(all_charts), HEIGHT + 30
    parts = [
        '<svg xmlns="http://www.w3.org/2000/svg" width="%d" height="%d" viewBox="0 0 %d %d"' % ((width, height) * 2)
        + ' font-family="sans-serif" font-size="14" fill="%s">' % INK,
        '<rect width="%d" height="%d" fill="%s"/>' % (width, height, PAPER),
    ]
    for at, label in enumerate(labels):
        x = _LEFT + at * (width - _LEFT) / len(labels)
        parts.append(_line(styles[label], [(x, 15), (x + 40, 15)]))
        parts.append('<text x="%.1f" y="20">%s</text>' % (x + 48, escape(label)))
    for at, chart in enumerate(all_charts):
        parts.append('<g transform="translate(%d 30)">' % (at * WIDTH))
        parts += _drawn(chart, styles)
        parts.append("</g>")
    return "\n".join([*parts, "</svg>"]) + "\n"


def _line(style: Tuple[str, str], points: Sequence[Tuple[float, float]]) -> str:
    colour, dash = style
    places = " ".join("%.1f,%.1f" % point for point in points)
    dashed = ' stroke-dasharray="%s"' % dash if dash else ""
    return '<polyline points="%s" fill="none" stroke="%s" stroke-width="2"%s/>' % (places, colour, dashed)


def _drawn(chart: Chart, styles: Dict[str, Tuple[str, str]]) -> List[str]:
    """A chart: its axes with their numbers, and the points of each planner, joined by lines."""
    values = [max(value, LEAST_TIME) for _, points in chart.lines for _, value in points]
    buckets = [bucket for _, points in chart.lines for bucket, _ in points]
    if chart.is_log:
        ups = log_ticks(min(values), max(values))
    else:
        ups = linear_ticks(0, max(values))
    rights = linear_ticks(min(buckets), max(max(buckets), min(buckets) + 5))  # steps of 1 at least

    def scale(value: float) -> float:
        return math.log10(value) if chart.is_log else value

    low, high = scale(ups[0]), scale(ups[-1])

    def place(bucket: float, value: float) -> Tuple[float, float]:
        across = (bucket - rights[0]) / (rights[-1] - rights[0])
        up = (scale(value) - low) / (high - low)
        return _LEFT + across * (WIDTH - _LEFT - _RIGHT), HEIGHT - _BOTTOM - up * (HEIGHT - _TOP - _BOTTOM)

    parts = []
    for tick in ups:
        parts += _tick(place(rights[0], tick), (WIDTH - _RIGHT, 0), "%g" % tick)
    for tick in rights:
        parts += _tick(place(tick, ups[0]), (0, _TOP), "%g" % tick)
    parts.append('<text x="%d" y="%d" text-anchor="middle">bucket</text>' % ((WIDTH + _LEFT) // 2, HEIGHT - 8))
    middle = (HEIGHT - _BOTTOM + _TOP) // 2
    turned = '<text transform="translate(18 %d) rotate(-90)" text-anchor="middle">%s</text>'
    parts.append(turned % (middle, escape(chart.title)))
    for label, points in chart.lines:
        places = [place(bucket, max(value, LEAST_TIME) if chart.is_log else value) for bucket, value in points]
        parts.append(_line(styles[label], places))
        parts += ['<circle cx="%.1f" cy="%.1f" r="3" fill="%s"/>' % (x, y, styles[label][0]) for x, y in places]
    return parts


def _tick(at: Tuple[float, float], to: Tuple[int, int], text: str) -> List[str]:
    """A line of the grid from a place on an axis to the other side, and its number."""
    (x, y), (right, up) = at, to
    line = '<path d="M%.1f %.1fL%.1f %.1f" stroke="%s"/>' % (x, y, right or x, up or y, GRID_LINE)
    where = (x - 8, y + 5, "end") if right else (x, y + 20, "middle")
    return [line, '<text x="%.1f" y="%.1f" text-anchor="%s">%s</text>' % (*where, text)]


def drawn_by_matplotlib(pyplot: Any, all_charts: Sequence[Chart], name: str) -> None:
    """The charts beside each other by matplotlib, in the format that the file's name says."""
    figure, places = pyplot.subplots(1, len(all_charts), figsize=(5.6 * len(all_charts), 4.3), squeeze=False)
    for chart, axes in zip(all_charts, places[0]):
        for label, points in chart.lines:
            values = [max(value, LEAST_TIME) if chart.is_log else value for _, value in points]
            axes.plot([bucket for bucket, _ in points], values, marker="o", markersize=3, label=label)
        axes.set_xlabel("bucket")
        axes.set_ylabel(chart.title)
        axes.grid(True, color=GRID_LINE)
        if chart.is_log:
            axes.set_yscale("log")
        else:
            axes.set_ylim(bottom=0)
        axes.legend()
    figure.tight_layout()
    figure.savefig(name)
