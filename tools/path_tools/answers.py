"""Another planner's answers to a list of scenarios: how they are read, and what is wrong with them.

An answer is a line, in the order of the list: cells, moves or a length, or `-` where no path was found.
"""

from __future__ import annotations

import enum
import math
import re
from dataclasses import dataclass
from fractions import Fraction
from typing import Callable, Dict, List, Optional, Union

from path_server import Cell, Move
from pathdb import BadCell, Cost, Image

from .grids import Grid, lines_of
from .problems import NANO, TOLERANCE, Problem, nano_of

FORMS = ("cells", "moves", "lengths")
MAX_FILE = 1 << 30
"""Bytes of the longest file of answers."""
NONE = b"-"
"""What stands where a planner has found no path."""

Answer = Union[List[Cell], List[Move], int, None]
"""Cells, moves, a length in units of 10⁻⁹, or no path."""


class AnswerFault(Exception):
    """A file is no list of answers, and where."""


class Verdict(enum.Enum):
    """What is said of an answer."""

    BEST = "best"
    LONGER = "longer"
    """A legal path, or a length, above the least."""
    ILLEGAL = "illegal"
    """A move that leads through a blocked cell, past a corner or outside."""
    ENDS_ELSEWHERE = "ends elsewhere"
    """The path starts or ends at another cell than the scenario says."""
    TOO_SHORT = "too short"
    """A length below the least: no such path exists."""
    MISSED = "missed"
    """A path exists, and none was found."""
    INVENTED = "invented"
    """A length where no path exists."""
    SCALED = "scaled"
    """The scenario is of another map's sides; it is not judged."""


@dataclass(frozen=True)
class Judged:
    """An answer and what is said of it. `best` is the least cost, `length` that of the answer in cells, `ratio` the one
    over the other; `step` counts the moves before the place `at` where it goes wrong."""

    problem: Problem
    verdict: Verdict
    best: Optional[Cost] = None
    length: Optional[float] = None
    step: Optional[int] = None
    at: Optional[Cell] = None

    @property
    def ratio(self) -> Optional[float]:
        """The answer's length over the least, where it leads to the goal; 1 from a cell to itself."""
        if self.best is None or self.length is None or self.verdict is Verdict.ENDS_ELSEWHERE:
            return None
        return self.length / self.best.length if self.best.length else 1.0


def read_answers(name: str, form: str) -> List[Answer]:
    """The answers of a file.

    OSError: it is not read. AnswerFault: a line is no answer of that form.
    """
    with open(name, "rb") as file:
        data = file.read(MAX_FILE + 1)
    if len(data) > MAX_FILE:
        raise AnswerFault("%s: more than %d bytes" % (name, MAX_FILE))
    readers: Dict[str, Callable[[bytes], Answer]] = {"cells": _cells, "moves": _moves, "lengths": _length}
    found: List[Answer] = []
    for number, line in enumerate(lines_of(data), 1):
        try:
            found.append(None if line.strip() == NONE else readers[form](line.strip()))
        except (ValueError, KeyError):
            raise AnswerFault("%s:%d: not %s, or '-' for no path" % (name, number, WRITTEN[form])) from None
    return found


WRITTEN = {
    "cells": "cells as 'x,y x,y ..'",
    "moves": "moves as 'E SE ..' or as digits from 0 (north) to 7 (north-west)",
    "lengths": "a length as '42.97'",
}
"""How an answer of each form is written."""


def _cells(line: bytes) -> List[Cell]:
    numbers = [int(word) for word in re.split(rb"[\s,;()\[\]]+", line) if word]
    if len(numbers) % 2 or not numbers:
        raise ValueError(line)
    return list(zip(numbers[::2], numbers[1::2]))


def _moves(line: bytes) -> List[Move]:
    words = line.decode("ascii").split()
    if all(word.isdigit() for word in words):
        return [Move(int(digit)) for digit in "".join(words)]
    return [Move[word.upper()] for word in words]


def _length(line: bytes) -> int:
    nano = nano_of(line)
    if nano is None:
        raise ValueError(line)
    return nano


def judged(image: Image, grid: Grid, problem: Problem, answer: Answer) -> Judged:
    """What is said of an answer to a scenario."""
    if (problem.width, problem.height) != (grid.width, grid.height):
        return Judged(problem, Verdict.SCALED)
    try:
        best = image.cost(problem.start, problem.goal)
    except BadCell:
        best = None
    if answer is None:
        return Judged(problem, Verdict.BEST if best is None else Verdict.MISSED, best)
    if isinstance(answer, int):
        return _judged_length(problem, best, answer)
    return _judged_cells(grid, problem, best, _walked(problem.start, answer))


def _judged_length(problem: Problem, best: Optional[Cost], nano: int) -> Judged:
    """A length is best within a hundredth of the least, both ends included."""
    length = nano / NANO
    if best is None:
        return Judged(problem, Verdict.INVENTED, None, length)
    over = Fraction(nano) - best.straight * NANO - Fraction(math.isqrt(2 * best.diagonal**2 * NANO**2))
    if abs(over) <= TOLERANCE:
        return Judged(problem, Verdict.BEST, best, length)
    return Judged(problem, Verdict.LONGER if over > 0 else Verdict.TOO_SHORT, best, length)


def _walked(start: Cell, answer: Union[List[Cell], List[Move]]) -> List[Cell]:
    """The cells of an answer, with those between two that lie on one line: planners that jump tell corners alone."""
    cells = [start]
    for item in answer:
        if isinstance(item, Move):
            cells.append((cells[-1][0] + item.step[0], cells[-1][1] + item.step[1]))
        elif item is answer[0]:
            cells = [item]
        else:
            cells.extend(_between(cells[-1], item))
    return cells


def _between(one: Cell, other: Cell) -> List[Cell]:
    """The cells after one up to another, by steps in one of the eight directions; the other alone where it lies on no
    such line."""
    right, down = other[0] - one[0], other[1] - one[1]
    count = max(abs(right), abs(down))
    if not count or not (right == 0 or down == 0 or abs(right) == abs(down)):
        return [other]
    return [(one[0] + step * right // count, one[1] + step * down // count) for step in range(1, count + 1)]


def _judged_cells(grid: Grid, problem: Problem, best: Optional[Cost], cells: List[Cell]) -> Judged:
    steps = {move.step: move for move in Move}
    if cells[0] != problem.start or not grid.is_free(cells[0]):
        verdict = Verdict.ENDS_ELSEWHERE if cells[0] != problem.start else Verdict.ILLEGAL
        return Judged(problem, verdict, best, None, 0, cells[0])
    straight = diagonal = 0
    for number, (cell, to) in enumerate(zip(cells, cells[1:])):
        if cell == to:  # it waits
            continue
        move = steps.get((to[0] - cell[0], to[1] - cell[1]))
        if move is None or not grid.leads(cell, move):
            return Judged(problem, Verdict.ILLEGAL, best, None, number, cell)
        straight, diagonal = straight + (not move.is_diagonal), diagonal + move.is_diagonal
    cost = Cost(straight, diagonal)
    if cells[-1] != problem.goal:
        return Judged(problem, Verdict.ENDS_ELSEWHERE, best, cost.length, len(cells) - 1, cells[-1])
    return Judged(problem, Verdict.BEST if cost == best else Verdict.LONGER, best, cost.length)
