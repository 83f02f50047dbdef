"""The views that `tools/draw` makes: a map, a path on it, components, first moves, runs a row, two versions, what one edit
leaves as it is, and which places see near sources alike."""

from __future__ import annotations

from typing import List, Tuple

from path_server import Accepted, Cell, Client, Path, Published, Refused, Terrain, Unreachable
from path_server.frames import QueryReply

from . import program_here
from .grids import Grid
from .pictures import (
    ADDED,
    BLOCKED,
    CHANGED,
    COMPONENTS,
    FORMER_PATH,
    GOAL,
    INK,
    KEPT,
    LAND,
    MOVES,
    PATH,
    REBUILT,
    REMOVED,
    START,
    WATER,
    Picture,
    heat,
)
from .searches import classes, components, kept_and_changed, nearest, runs_by_row, stored_moves

Ends = Tuple[Cell, Cell]

BUILD_TIME = 600.0
"""Seconds that the build of a database may take; the largest maps take a minute and more beside other work."""

SOURCES = 16
"""How many rows are built at once."""


class ViewFault(Exception):
    """A view that cannot be drawn, and why."""


def map_view(grid: Grid) -> Picture:
    """The map alone."""
    picture = Picture(grid)
    ground = [(LAND, "land"), (WATER, "water")] if 2 in grid.terrain else [(LAND, "passable")]
    picture.key(ground + [(BLOCKED, "blocked")])
    picture.caption("%d by %d cells, %d passable" % (grid.width, grid.height, len(grid.places)))
    return picture


def path_view(name: str, grid: Grid, ends: Ends, order: str) -> Picture:
    """A path on it, as the program answers."""
    with Client.talk(name, "--order", order, program=program_here(), start_timeout=BUILD_TIME) as client:
        answer = client.query(*ends)
    picture = Picture(grid)
    if isinstance(answer, Path):
        picture.line(answer.cells(ends[0]), PATH)
    _mark_ends(picture, ends)
    picture.caption(told(answer))
    return picture


def told(answer: QueryReply) -> str:
    """What a query's answer says, in words.

    ViewFault: an end lies outside the map or is blocked.
    """
    if isinstance(answer, Refused):
        raise ViewFault("the %s is %s" % (answer.end.name.lower(), answer.reason.name.lower()))
    if isinstance(answer, Unreachable):
        return "no path leads from A to B"
    return "A to B: %d straight and %d diagonal moves, length %s" % (answer.straight, answer.diagonal, answer.exact_length)


def components_view(grid: Grid) -> Picture:
    """The connected components, the largest ones first in the key."""
    picture, found = Picture(grid), sorted(components(grid), key=len, reverse=True)
    picture.cells({place: COMPONENTS[number % len(COMPONENTS)] for number, part in enumerate(found) for place in part})
    picture.key((COMPONENTS[number], "%d cells" % len(part)) for number, part in enumerate(found[: len(COMPONENTS)]))
    plural = "" if len(found) == 1 else "s"
    picture.caption("%d component%s, %d passable cells" % (len(found), plural, len(grid.places)))
    return picture


def moves_view(grid: Grid, source: Cell, order: str) -> Picture:
    """To each cell the first move from a source, as the database has it.

    ViewFault: the source lies outside the map or is blocked.
    """
    if not grid.is_free(source):
        raise ViewFault("the source, column %d and row %d, is outside or blocked" % source)
    picture, place = Picture(grid), grid.place(source)
    moves = stored_moves(grid, place, order)
    picture.cells({goal: MOVES[move] for goal, move in moves.items() if goal != place})
    picture.mark(source, INK, "A")
    picture.key((colour, move.name) for move, colour in MOVES.items())
    picture.caption("first moves from A to each cell, as the database has them (order %s)" % order)
    return picture


def runs_view(grid: Grid, order: str) -> Picture:
    """How many runs the row of each cell has, as colours."""
    picture, runs = Picture(grid), dict(runs_by_row(grid, order))
    if runs:
        least, most = min(runs.values()), max(runs.values())
        picture.cells({place: heat(count, least, most) for place, count in runs.items()})
        steps = sorted({least + (most - least) * step // 6 for step in range(7)})
        picture.key((heat(count, least, most), str(count)) for count in steps)
    picture.caption("runs in the row of each cell, %d in all (order %s)" % (sum(runs.values()), order))
    return picture


def difference_view(name: str, old: Grid, new: Grid, ends: List[Ends], order: str) -> Picture:
    """What differs between two versions of a map: the cells, the components that the program builds and keeps, and
    paths before and after.

    ViewFault: the maps have other sides, or the program refuses the change or an end.
    """
    if (old.width, old.height) != (new.width, new.height):
        raise ViewFault("the two maps have other sides")
    changed = [place for place in range(len(old.terrain)) if old.terrain[place] != new.terrain[place]]
    picture = Picture(new)
    kept = {frozenset(part) for part in components(old)}
    rebuilt = [place for part in components(new) if frozenset(part) not in kept for place in part]
    picture.cells({place: REBUILT for place in rebuilt})
    picture.cells({place: ADDED if new.terrain[place] else REMOVED for place in changed})
    with Client.talk(name, "--order", order, program=program_here(), start_timeout=BUILD_TIME) as client:
        client.hello()  # for water
        before = [client.query(*pair) for pair in ends]
        built = _publish(client, new, changed)
        after = [client.query(*pair) for pair in ends]
    for pair, former, later in zip(ends, before, after):
        _draw_change(picture, pair, former, later)
    changes = [(ADDED, "now passable"), (REMOVED, "now blocked")]
    picture.key([*changes, (REBUILT, "component built"), (LAND, "component kept")])
    picture.caption("%d cells differ; %s" % (len(changed), built))
    return picture


def stays_view(grid: Grid, cell: Cell) -> Picture:
    """From which cells all first moves stay as they are where one cell is blocked, or freed where it is blocked.

    ViewFault: the cell lies outside the map.
    """
    if not grid.has(cell):
        raise ViewFault("the cell, column %d and row %d, is outside" % cell)
    is_blocked = not grid.is_free(cell)
    kept, changed = kept_and_changed(grid, grid.changed({cell: is_blocked}))
    picture = Picture(grid)
    picture.cells({place: KEPT for place in kept})
    picture.cells({place: CHANGED for place in changed})
    picture.mark(cell, INK, "C")
    picture.key([(KEPT, "all first moves stay"), (CHANGED, "some change")])
    done = "freed" if is_blocked else "blocked"
    picture.caption("C is %s: of %d cells %d keep all their first moves" % (done, len(kept) + len(changed), len(kept)))
    return picture


def classes_view(grid: Grid, cell: Cell) -> Picture:
    """The places that see the sixteen sources nearest to a cell alike: each class in a colour, and pale where a
    neighbour is of another class.

    ViewFault: the cell lies outside the map or is blocked.
    """
    if not grid.is_free(cell):
        raise ViewFault("the cell, column %d and row %d, is outside or blocked" % cell)
    sources = nearest(grid, grid.place(cell), SOURCES)
    found = classes(grid, sources)
    inside = {place for place in found if all(found[near] == found[place] for _, near in grid.neighbours[place])}
    inside.difference_update(sources)
    picture = Picture(grid)
    picture.cells({place: COMPONENTS[number % len(COMPONENTS)] for place, number in found.items() if place in inside})
    picture.cells({place: START for place in sources})
    named = [(COMPONENTS[0], "one class"), (COMPONENTS[1], "another"), (LAND, "where classes meet")]
    picture.key([(START, "%d sources" % len(sources)), *named])
    count = max(found.values()) + 1
    picture.caption("%d classes; of %d cells %d are inside one" % (count, len(found), len(inside)))
    return picture


def _publish(client: Client, new: Grid, changed: List[int]) -> str:
    """Makes the program's map the new one, and tells what it built."""
    for terrain in Terrain:  # what is blocked makes room for what is freed
        for place in (place for place in changed if new.terrain[place] == terrain.value):
            answer = client.change(new.cell(place), terrain)
            if not isinstance(answer, Accepted):
                raise ViewFault("the program refuses the change of column %d and row %d" % new.cell(place))
    built = client.build(timeout=BUILD_TIME)
    if not isinstance(built, Published):
        return "nothing built"
    return "components of %d cells built, of %d kept" % (built.built, built.kept)


def _draw_change(picture: Picture, ends: Ends, former: QueryReply, later: QueryReply) -> None:
    if isinstance(former, Path):
        picture.line(former.cells(ends[0]), FORMER_PATH, dashed=True)
    if isinstance(later, Path):
        picture.line(later.cells(ends[0]), PATH)
    _mark_ends(picture, ends)
    picture.caption("before (dashed): " + told(former))
    picture.caption("after: " + told(later))


def _mark_ends(picture: Picture, ends: Ends) -> None:
    picture.mark(ends[0], START, "A")
    picture.mark(ends[1], GOAL, "B")
