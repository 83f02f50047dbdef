"""Scenarios run by the program and by the library: what each query answers and how long it takes, and a check of each
path that shares nothing with the two but the map's file."""

from __future__ import annotations

import enum
import time
from dataclasses import dataclass
from typing import List, Optional, Tuple

from path_server import AskStatus, Cell, ChildLink, Path, Query, Refused, Unreachable
from path_server.frames import Reply, Request, decoded, encoded

from .grids import Grid
from .images import TimedImage
from .problems import NANO, Problem, is_as_stated
from .searches import DIAGONAL, STRAIGHT, search

PATIENCE = 3600.0  # seconds that the program may take to build the database and to answer


class Result(enum.Enum):
    """What came of a scenario; all but MATCH and WRONG are words of the program's command `scen`."""

    MATCH = "match"
    DIFFERS = "differs"
    UNREACHABLE = "unreachable"
    REFUSED = "refused"
    SCALED = "scaled"
    WRONG = "wrong"


@dataclass(frozen=True)
class Run:
    """A scenario that was run: its result, in words too, its path if it has one, and the query's nanoseconds, in this
    process and over the pipe."""

    problem: Problem
    result: Result
    words: str
    path: Optional[Path] = None
    nanoseconds: Optional[int] = None
    pipe_nanoseconds: Optional[int] = None

    @property
    def ratio(self) -> Optional[float]:
        """The path's length over the stated one, where that is above 0."""
        return self.path.length * NANO / self.problem.nano if self.path and self.problem.nano else None


@dataclass(frozen=True)
class Runner:
    """A map that is asked: by the pipe to the program, and by the library in this process."""

    link: ChildLink
    image: TimedImage
    grid: Grid
    rounds: int
    with_search: bool

    def run(self, problem: Problem) -> Run:
        """Asks a scenario's query in each round, of which the fastest counts, and judges the answers."""
        if (problem.width, problem.height) != (self.grid.width, self.grid.height):
            return Run(problem, Result.SCALED, "scaled")
        answers = [timed(self.link, Query(problem.start, problem.goal)) for _ in range(self.rounds)]
        answer, over_pipe = answers[0][0], min(each[1] for each in answers)
        if isinstance(answer, Refused):
            words = "%s %s" % (answer.reason.name.lower(), answer.end.name.lower())
            if words == refusal_of(self.grid, problem):
                return Run(problem, Result.REFUSED, words)
            return Run(problem, Result.WRONG, "wrong: " + words)
        moves, taken = self.image.path(problem.start, problem.goal)
        path = answer if isinstance(answer, Path) else None
        fault = fault_of_answer(self.grid, problem, answer, self.with_search)
        if not fault and moves != (path.move_bytes if path else None):
            fault = "the library answers another path"
        if fault:
            return Run(problem, Result.WRONG, "wrong: " + fault, path, taken, over_pipe)
        if path is None:
            return Run(problem, Result.UNREACHABLE, "unreachable", None, taken, over_pipe)
        result = Result.MATCH if is_as_stated(path, problem.nano) else Result.DIFFERS
        return Run(problem, result, result.value, path, taken, over_pipe)


def timed(link: ChildLink, request: Request) -> Tuple[Reply, int]:
    """The reply to a request, and the nanoseconds from before it was written until the reply's last byte was read."""
    data, deadline = encoded(request), time.monotonic() + PATIENCE
    began = time.perf_counter_ns()
    link.send(data, deadline)
    frame = link.receive(deadline)
    taken = time.perf_counter_ns() - began
    return decoded(frame), taken


def empty_round(link: ChildLink, rounds: int = 101) -> int:
    """The median nanoseconds of a request that looks nothing up: what the pipes and this program take of each query."""
    return sorted(timed(link, AskStatus())[1] for _ in range(rounds))[rounds // 2]


def fault_of_answer(grid: Grid, problem: Problem, answer: Reply, with_search: bool) -> Optional[str]:
    """What is wrong with an answer that is no refusal."""
    if refusal_of(grid, problem):
        return "the query is to be refused"
    if isinstance(answer, Unreachable):
        is_reached = grid.place(problem.goal) in search(grid, grid.place(problem.start))[0]
        return "a path exists" if is_reached else None
    if not isinstance(answer, Path):
        return "no answer to a query"
    fault = fault_of(grid, problem.start, problem.goal, answer)
    return fault or (excess_of(grid, problem, answer) if with_search else None)


def refusal_of(grid: Grid, problem: Problem) -> Optional[str]:
    """Why a query is refused: the start is judged wholly before the goal."""
    for cell, end in ((problem.start, "start"), (problem.goal, "goal")):
        if not grid.is_free(cell):
            return "%s %s" % ("blocked" if grid.has(cell) else "outside", end)
    return None


def fault_of(grid: Grid, start: Cell, goal: Cell, path: Path) -> Optional[str]:
    """What is wrong with a path: a move that is not legal, another end, or a cost that is not that of its moves."""
    cells = path.cells(start)
    for cell, move in zip(cells, path.moves):
        if not grid.leads(cell, move):
            return "no legal move %s from %d %d" % (move.name, *cell)
    if cells[-1] != goal:
        return "the path ends at %d %d" % cells[-1]
    diagonal = sum(move.is_diagonal for move in path.moves)
    if (len(path.moves) - diagonal, diagonal) != (path.straight, path.diagonal):
        return "the cost is not that of the moves"
    return None


def excess_of(grid: Grid, problem: Problem, path: Path) -> Optional[str]:
    """That a path costs more than the least, by a search here."""
    costs, _ = search(grid, grid.place(problem.start))
    least = costs[grid.place(problem.goal)]
    return None if path.straight * STRAIGHT + path.diagonal * DIAGONAL == least else "a shorter path exists"


COLUMNS = [
    *"map problem bucket start_x start_y goal_x goal_y stated straight diagonal length moves".split(),
    *"nanoseconds pipe_nanoseconds result".split(),
]
"""What a run's line of CSV has."""


def line_of(name: str, done: Run) -> List[object]:
    """A run on the map of that name as a line of CSV."""
    problem, path = done.problem, done.path
    found: List[object] = [path.straight, path.diagonal, path.exact_length, len(path.move_bytes)] if path else [""] * 4
    times = ["" if taken is None else taken for taken in (done.nanoseconds, done.pipe_nanoseconds)]
    ends = [*problem.start, *problem.goal]
    return [name, problem.number, problem.bucket, *ends, problem.stated, *found, *times, done.words]


PATH_COLUMNS = "map problem step x y".split()
"""What a line of the file of paths has."""


def path_rows(name: str, done: Run) -> List[Tuple[str, int, int, int, int]]:
    """A run's path: the map's name, the scenario's number, the step from 0, and column and row."""
    cells = done.path.cells(done.problem.start) if done.path else []
    return [(name, done.problem.number, step, *cell) for step, cell in enumerate(cells)]
