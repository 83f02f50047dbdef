"""An exact search of the tools' own: least costs, first moves, components, and runs a row (docs/reference/definitions.md).

Costs are whole numbers. A path of `a` straight and `b` diagonal moves costs a·STRAIGHT + b·DIAGONAL units, where
DIAGONAL is √2·STRAIGHT without its fraction. Two costs of at most 32,767 moves that differ, differ by p - q√2 with both
numbers below 32,768, which is at least 1/(32,767·(1 + √2)), or 13 million units; what is cut off is below 32,768 units.
So the units compare as the exact costs do.
"""

from __future__ import annotations

import heapq
import math
from typing import Dict, Iterator, List, Tuple

from path_server import Move

from .grids import Grid

STRAIGHT = 1 << 40
DIAGONAL = math.isqrt(2 << 80)
ALL_MOVES = 255
"""A set of moves has bit i where it has move i."""
ORDERS = ("rows", "dfs")


def search(grid: Grid, source: int) -> Tuple[Dict[int, int], Dict[int, int]]:
    """From a passable place to each that a path reaches: the least cost in units, and the set of first moves of all
    best paths; at the source all moves."""
    steps = [DIAGONAL if move.is_diagonal else STRAIGHT for move in Move]
    costs, sets = {source: 0}, {source: ALL_MOVES}
    waiting, settled = [(0, source)], set()
    while waiting:
        cost, place = heapq.heappop(waiting)
        if place in settled:
            continue
        settled.add(place)
        for move, further in grid.neighbours[place]:
            longer = cost + steps[move]
            first = 1 << move if place == source else sets[place]
            known = costs.get(further)
            if known is None or longer < known:
                costs[further], sets[further] = longer, first
                heapq.heappush(waiting, (longer, further))
            elif longer == known:
                sets[further] |= first
    return costs, sets


def components(grid: Grid) -> List[List[int]]:
    """The passable places by component, row by row in each; components by their first places."""
    found: List[List[int]] = []
    met = set()
    for start in grid.places:
        if start in met:
            continue
        met.add(start)
        reached = [start]
        for place in reached:
            for _, further in grid.neighbours[place]:
                if further not in met:
                    met.add(further)
                    reached.append(further)
        found.append(sorted(reached))
    return found


def ordered(grid: Grid, component: List[int], order: str) -> List[int]:
    """The places of a component in the order of the database: `rows`, row by row, or `dfs`, depth first."""
    if order == "rows":
        return component
    found: Dict[int, None] = {}
    waiting = [component[0]]
    while waiting:
        place = waiting.pop()
        if place not in found:
            found[place] = None
            straight = [further for move, further in grid.neighbours[place] if not move.is_diagonal]
            waiting.extend(further for further in reversed(straight) if further not in found)
    return list(found)


def packed(sets: Dict[int, int], order: List[int]) -> List[Tuple[int, Move]]:
    """The row of runs for these sets: where each run starts, by index, and its move, the least that all its sets have.
    A run ends where the next set has no move in common with those before."""
    runs, start, common = [], 0, ALL_MOVES
    for index, place in enumerate(order):
        both = common & sets[place]
        if not both:
            runs.append((start, _least(common)))
            start, both = index, sets[place]
        common = both
    return runs + [(start, _least(common))]


def _least(moves: int) -> Move:
    return Move((moves & -moves).bit_length() - 1)


def stored_moves(grid: Grid, source: int, order: str) -> Dict[int, Move]:
    """To each place that a path reaches the first move that the database has for it: that of the run that covers it."""
    _, sets = search(grid, source)
    places = ordered(grid, sorted(sets), order)
    runs = packed(sets, places)
    ends = [start for start, _ in runs[1:]] + [len(places)]
    return {place: move for (start, move), end in zip(runs, ends) for place in places[start:end]}


def runs_by_row(grid: Grid, order: str) -> Iterator[Tuple[int, int]]:
    """Of each passable place how many runs its row has."""
    for component in components(grid):
        places = ordered(grid, component, order)
        for source in component:
            yield source, len(packed(search(grid, source)[1], places))


def nearest(grid: Grid, source: int, count: int) -> List[int]:
    """So many places, or all that a path reaches, by how near they are to a place; of equally near ones the first."""
    costs = search(grid, source)[0]
    return sorted(costs, key=lambda place: (costs[place], place))[:count]


def classes(grid: Grid, sources: List[int]) -> Dict[int, int]:
    """Of each place that the sources reach its class, 0 for the largest, 1 for the next: where places have one class,
    each source's costs differ from the first source's by the same amount, and its sets of first moves are the same."""
    found = [search(grid, source) for source in sources]
    told: Dict[Tuple[Tuple[int, int], ...], List[int]] = {}
    for place, cost in found[0][0].items():
        told.setdefault(tuple((costs[place] - cost, sets[place]) for costs, sets in found), []).append(place)
    largest = sorted(told.values(), key=len, reverse=True)
    return {place: number for number, places in enumerate(largest) for place in places}


def kept_and_changed(old: Grid, new: Grid) -> Tuple[List[int], List[int]]:
    """The places that are passable in both maps: those whose sets of first moves to all such places are the same in
    both, and the others."""
    both = [place for place in old.places if new.terrain[place]]
    kept: List[int] = []
    changed: List[int] = []
    for source in both:
        before, after = search(old, source)[1], search(new, source)[1]
        same = all(before.get(place) == after.get(place) for place in both)
        (kept if same else changed).append(source)
    return kept, changed
