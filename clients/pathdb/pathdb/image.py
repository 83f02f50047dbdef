"""Images of maps, and what is read from them."""

from __future__ import annotations

import ctypes
import importlib
import mmap
import os
import sys
import threading
from array import array
from ctypes import byref, c_uint8, c_uint32
from enum import IntEnum
from typing import Any, Callable, Iterable, List, NamedTuple, Optional, Sequence, Tuple, Union

from . import _library as lib

Cell = Tuple[int, int]
Numbers = Any
"""An array of numpy, or an `array.array` where numpy is not installed."""

ROOT = 2**0.5
NO_MOVE = 255
"""What stands in `first_moves` where no move begins a path: at blocked cells, at those that cannot reach the goal, and
at the goal."""


class Order(IntEnum):
    """The order of the cells in a database: row by row, or depth first, which mostly makes a smaller image."""

    ROWS = 0
    DFS = 1


class Move(IntEnum):
    """A move to one of the eight cells around. `y` grows to the south."""

    N, NE, E, SE, S, SW, W, NW = range(8)

    @property
    def step(self) -> Cell:
        """What the move adds to the column and to the row."""
        return STEPS[self]


STEPS: Tuple[Cell, ...] = ((0, -1), (1, -1), (1, 0), (1, 1), (0, 1), (-1, 1), (-1, 0), (-1, -1))


class PathdbError(Exception):
    """Any fault that this module reports."""


class NotAnImage(PathdbError):
    """The bytes are not an image that this library reads."""


class BadMap(PathdbError, ValueError):
    """The map cannot be baked: the message says why, and where."""


class BadCell(PathdbError, ValueError):
    """A start or a goal lies outside the map, or is blocked. `cell` is the cell."""

    def __init__(self, message: str, cell: Cell) -> None:
        super().__init__(message)
        self.cell = cell


class Facts(NamedTuple):
    """What an image says of its map."""

    width: int
    height: int
    cells: int
    """How many cells are passable."""
    components: int
    """Into how many parts they fall: a path exists exactly inside one."""
    prefix: int
    """How many edits of its first map it comes after; 0 for a map that was baked."""


class Cost(NamedTuple):
    """What a path costs: straight and diagonal moves. Two costs are equal only where both numbers are."""

    straight: int
    diagonal: int

    @property
    def length(self) -> float:
        """The length in cells: a straight move has 1, a diagonal one the square root of 2."""
        return self.straight + self.diagonal * ROOT


class Path:
    """A shortest path: where it starts, and its moves as bytes, one number from 0 to 7 each."""

    __slots__ = ("start", "moves")

    def __init__(self, start: Cell, moves: bytes) -> None:
        self.start = start
        self.moves = moves

    def __len__(self) -> int:
        """How many moves the path has."""
        return len(self.moves)

    def __eq__(self, other: object) -> bool:
        return isinstance(other, Path) and (self.start, self.moves) == (other.start, other.moves)

    def __hash__(self) -> int:
        return hash((self.start, self.moves))

    def __repr__(self) -> str:
        return f"Path(start={self.start}, moves={' '.join(Move(move).name for move in self.moves)!r})"

    @property
    def cost(self) -> Cost:
        """What the path costs."""
        diagonal = sum(self.moves.count(move) for move in (1, 3, 5, 7))
        return Cost(len(self.moves) - diagonal, diagonal)

    def cells(self) -> List[Cell]:
        """The cells of the path, from the start to the goal."""
        x, y = self.start
        cells = [(x, y)]
        for move in self.moves:
            dx, dy = STEPS[move]
            x, y = x + dx, y + dy
            cells.append((x, y))
        return cells

    def corners(self) -> List[Cell]:
        """The start, each cell at which the path turns, and the goal."""
        cells, moves = self.cells(), self.moves
        turns = [cells[at] for at in range(1, len(moves)) if moves[at] != moves[at - 1]]
        return [cells[0], *turns, *cells[len(cells) - 1 : 0 : -len(cells)]]


class Told(NamedTuple):
    """What the image tells of a path while cells are blocked."""

    path: Path
    """The path, up to the first move that is not free."""
    is_free: bool
    """Whether that is the whole path: then no path is shorter now."""


class NextMove(NamedTuple):
    """The next move that the image tells while cells are blocked."""

    move: Move
    is_free: bool
    """Whether it may be made now."""


class _Room(threading.local):
    """Where a thread's calls write their answers, used again by the next call."""

    def __init__(self) -> None:
        self.moves = (c_uint8 * lib.LONGEST)()
        self.move, self.length = c_uint8(), c_uint32()
        self.cost = lib.CostOfC()
        self.scratch: lib.Words = (c_uint32 * 0)()

    def path(self, start: Cell) -> Path:
        """The path whose moves a call has written."""
        return Path(start, ctypes.string_at(self.moves, self.length.value))

    def scratch_of(self, words: int) -> lib.Words:
        """A scratch of at least so many words."""
        if len(self.scratch) < words:
            self.scratch = (c_uint32 * words)()
        return self.scratch


_room = _Room()


class Image:
    """The database of a map in one block of memory. Any number of threads may read one image at once.

    Make one by `Image.bake`, `Image.open` or `Image.of_bytes`.
    """

    def __init__(self, words: lib.Words) -> None:
        """Takes words that were baked or checked; use `bake`, `open` or `of_bytes`."""
        self._words = words
        self._count = len(words)
        told = lib.FactsOfC()
        lib.CALLS.pathdb_read_facts(words, self._count, byref(told))
        self.facts = Facts(told.width, told.height, told.cells, told.components, told.prefix)

    @classmethod
    def bake(cls, source: Union[bytes, str, Sequence[Sequence[int]], Any], order: Order = Order.ROWS) -> Image:
        """Bakes the image of a map: a text in the format of MovingAI, or rows of cells, 0 for blocked, 1 for land and 2
        for water, such as a two-dimensional array of numpy. Raises `BadMap` where no map has that form, and
        `MemoryError`. It takes a second or so for 10,000 passable cells, and ten for 30,000."""
        if isinstance(source, str):
            source = source.encode("latin-1", "replace")
        if isinstance(source, (bytes, bytearray, memoryview)):
            text = bytes(source)
            return cls(_baked(lib.CALLS.pathdb_bake_text, (text, len(text), int(order))))
        width, height, cells = _cells_of(source)
        return cls(_baked(lib.CALLS.pathdb_bake_cells, (width, height, cells, len(cells), int(order))))

    @classmethod
    def open(cls, name: Union[str, "os.PathLike[str]"]) -> Image:
        """Maps a file of an image into memory and checks it. Raises `OSError` and `NotAnImage`."""
        with open(name, "rb") as file:
            if os.fstat(file.fileno()).st_size == 0:
                raise NotAnImage(f"{os.fspath(name)}: the file is empty")
            return cls.of_bytes(mmap.mmap(file.fileno(), 0, access=mmap.ACCESS_COPY))

    @classmethod
    def of_bytes(cls, data: Union[bytes, bytearray, mmap.mmap]) -> Image:
        """The image whose words stand in these bytes, the lowest byte of each first. Bytes that cannot change are copied.
        Raises `NotAnImage`."""
        if sys.byteorder != "little":
            raise NotAnImage("images are read in place, on machines that keep the lowest byte first")
        if len(data) % 4 != 0:
            raise NotAnImage(f"an image has whole words of four bytes, and not {len(data)} bytes")
        held = bytearray(data) if isinstance(data, bytes) else data
        words = (c_uint32 * (len(held) // 4)).from_buffer(held)
        part = c_uint32()
        status = lib.CALLS.pathdb_check(words, len(words), byref(part))
        if status != lib.DONE:
            raise NotAnImage(f"{lib.meaning(status)} ({part.value})" if part.value else lib.meaning(status))
        return cls(words)

    def save(self, name: Union[str, "os.PathLike[str]"]) -> None:
        """Writes the image to a file, which `open` and the library for C read."""
        with open(name, "wb") as file:
            file.write(memoryview(self._words).cast("B"))

    def __len__(self) -> int:
        """How many bytes the image has."""
        return 4 * self._count

    def __repr__(self) -> str:
        return f"Image({self.facts.width} x {self.facts.height}, {self.facts.cells} cells, {len(self)} bytes)"

    def path(self, start: Cell, goal: Cell) -> Optional[Path]:
        """A shortest path; `None` where no path exists. Raises `BadCell`."""
        room, ends = _room, (self._cell("start", start), self._cell("goal", goal))
        status = lib.CALLS.pathdb_path(self._words, self._count, *ends, room.moves, lib.LONGEST, byref(room.length))
        if status == lib.DONE:
            return room.path(start)
        self._judged(status, start, goal)
        return None

    def cost(self, start: Cell, goal: Cell) -> Optional[Cost]:
        """What a shortest path costs; `None` where no path exists. Raises `BadCell`."""
        cost = _room.cost
        status = lib.CALLS.pathdb_path_cost(
            self._words, self._count, self._cell("start", start), self._cell("goal", goal), byref(cost)
        )
        if status == lib.DONE:
            return Cost(cost.straight, cost.diagonal)
        self._judged(status, start, goal)
        return None

    def next_move(self, at: Cell, goal: Cell) -> Optional[Move]:
        """The first move of the path from a cell to a goal; `None` at the goal, and where no path exists. A unit that asks
        again from each cell that it comes to walks a shortest path. Raises `BadCell`."""
        move = _room.move
        status = lib.CALLS.pathdb_next_move(
            self._words, self._count, self._cell("at", at), self._cell("goal", goal), byref(move)
        )
        if status == lib.DONE:
            return Move(move.value)
        self._judged(status, at, goal, "at")
        return None

    def corners(self, start: Cell, goal: Cell) -> Optional[List[Cell]]:
        """The start, each cell at which a shortest path turns, and the goal; `None` where no path exists."""
        path = self.path(start, goal)
        return None if path is None else path.corners()

    def first_moves(self, goal: Cell) -> Numbers:
        """For each cell of the map, row by row, the number of the move that begins a shortest path to a goal, and `NO_MOVE`
        where there is none. An array of numpy with a row for each row of the map; without numpy, an `array` of bytes."""
        to, call, words, count = self._cell("goal", goal), lib.CALLS.pathdb_next_move, self._words, self._count
        self._judged(call(words, count, to, to, byref(_room.move)), goal, goal)
        shape = self.facts.height, self.facts.width
        moves = bytearray([NO_MOVE]) * (shape[0] * shape[1])
        at, place = lib.CellOfC(), (c_uint8 * len(moves)).from_buffer(moves)
        here = ctypes.addressof(place)
        for at.y in range(shape[0]):
            for at.x in range(shape[1]):
                call(words, count, at, to, c_uint8.from_address(here))
                here += 1
        return _shaped("B", bytes(moves), shape)

    def costs(self, goal: Cell) -> Numbers:
        """For each cell of the map, row by row, the length of a shortest path to a goal; infinite where there is none. An
        array of numpy with a row for each row of the map; without numpy, an `array` of floats."""
        to = self._cell("goal", goal)
        self._judged(lib.CALLS.pathdb_path_cost(self._words, self._count, to, to, byref(_room.cost)), goal, goal)
        height, width = self.facts.height, self.facts.width
        return self._lengths([to], [lib.CellOfC(x, y) for y in range(height) for x in range(width)], (height, width))

    def costs_between(self, starts: Iterable[Cell], goals: Iterable[Cell]) -> Numbers:
        """The lengths of the shortest paths from each start to each goal, a row a start; infinite where no path exists or an
        end is blocked. An array of numpy; without numpy, an `array` of floats. Raises `BadCell` for an end outside."""
        froms = [self._inside("start", cell) for cell in starts]
        tos = [self._inside("goal", cell) for cell in goals]
        return self._lengths(froms, tos, (len(froms), len(tos)))

    def live(self, blocked: Iterable[Cell] = ()) -> LiveMap:
        """The map while these cells are blocked. Raises `BadCell` for a cell outside."""
        return LiveMap(self, blocked)

    def _lengths(self, starts: List[lib.CellOfC], goals: List[lib.CellOfC], shape: Tuple[int, int]) -> Numbers:
        """The lengths of the shortest paths from each start to each goal, by one call a start."""
        to, count = (lib.CellOfC * len(goals))(*goals), len(goals)
        costs = (lib.CostOfC * (len(starts) * count))()
        for number, start in enumerate(starts):
            row = ctypes.cast(byref(costs, number * count * ctypes.sizeof(lib.CostOfC)), ctypes.POINTER(lib.CostOfC))
            _costs(self._words, self._count, start, to, count, row, count)
        return _summed(costs, shape)

    def _inside(self, name: str, cell: Cell) -> lib.CellOfC:
        """A cell of the map."""
        found = self._cell(name, cell)
        if found.x >= self.facts.width or found.y >= self.facts.height:
            raise BadCell(f"{name} {cell} lies outside the map of {self.facts.width} by {self.facts.height}", cell)
        return found

    def _cell(self, name: str, cell: Cell) -> lib.CellOfC:
        """A cell as the library takes it: whole numbers that it can be asked for."""
        try:
            x, y = cell
            if x.__index__() == x and y.__index__() == y and 0 <= x <= 65535 and 0 <= y <= 65535:
                return lib.CellOfC(x, y)
        except (AttributeError, TypeError, ValueError):
            raise TypeError(f"{name} is a column and a row, two whole numbers, and not {cell!r}") from None
        raise BadCell(f"{name} {cell} lies outside the map of {self.facts.width} by {self.facts.height}", cell)

    def _judged(self, status: int, start: Cell, goal: Cell, start_name: str = "start") -> None:
        """Raises what the status of a query means, where it is a fault."""
        if status in (lib.OUTSIDE_START, lib.BLOCKED_START):
            name, cell = start_name, start
        elif status in (lib.OUTSIDE_GOAL, lib.BLOCKED_GOAL):
            name, cell = "goal", goal
        elif status in (lib.DONE, lib.ARRIVED, lib.UNREACHABLE):
            return
        else:
            raise NotAnImage(lib.meaning(status))
        self._inside(name, cell)
        raise BadCell(f"{name} {cell} is blocked", cell)


def _costs_one_by_one(
    words: lib.Words, count: int, start: lib.CellOfC, goals: Any, goal_count: int, costs: Any, room: int
) -> int:
    """`pathdb_costs` of a library that has it not yet."""
    for number in range(goal_count):
        status = lib.CALLS.pathdb_path_cost(words, count, start, goals[number], byref(costs[number]))
        if status != lib.DONE:
            costs[number] = lib.CostOfC(lib.NO_COST, lib.NO_COST)
    return goal_count


_costs: Callable[..., int] = getattr(lib.CALLS, "pathdb_costs", _costs_one_by_one)


class LiveMap:
    """A map of which some cells are blocked for now, as by doors that close, over the image of the map with all of them
    free. Each path is a shortest one now.

    Any number of threads may ask one live map while none blocks or frees a cell. Make one by `Image.live`.
    """

    def __init__(self, image: Image, blocked: Iterable[Cell] = ()) -> None:
        if not hasattr(lib.CALLS, "pathdb_path_live"):
            raise PathdbError("live maps need libpathdb 0.22 or later")
        self.image = image
        self._bits = (c_uint32 * ((image.facts.width * image.facts.height + 31) // 32))()
        self._live = image._words, image._count, self._bits, len(self._bits)
        for cell in blocked:
            self.block(cell)

    def block(self, cell: Cell) -> None:
        """Blocks a cell until it is freed. Raises `BadCell` for a cell outside."""
        word, bit = self._place(cell)
        self._bits[word] |= bit

    def free(self, cell: Cell) -> None:
        """Frees a cell that was blocked by `block`; no other is freed. Raises `BadCell` for a cell outside."""
        word, bit = self._place(cell)
        self._bits[word] &= ~bit

    def is_blocked(self, cell: Cell) -> bool:
        """Whether the cell was blocked by `block`. Raises `BadCell` for a cell outside."""
        word, bit = self._place(cell)
        return bool(self._bits[word] & bit)

    def told(self, start: Cell, goal: Cell) -> Optional[Told]:
        """The path that the image tells, as far as it is free, by look-ups alone; `None` where no path exists, even with
        every cell free. Raises `BadCell`."""
        status, path = self._told(start, goal)
        if status == lib.STALE:
            return Told(path(), False)
        found = self._judged(status, path, start, goal)
        return None if found is None else Told(found, True)

    def path(self, start: Cell, goal: Cell) -> Optional[Path]:
        """A shortest path now, by look-ups, or by a search if the told path is not free; `None` where no path exists. Raises
        `BadCell`."""
        status, path = self._told(start, goal)
        return self.search(start, goal) if status == lib.STALE else self._judged(status, path, start, goal)

    def search(self, start: Cell, goal: Cell) -> Optional[Path]:
        """A shortest path now, by a search that the image leads; `None` where no path exists. Raises `BadCell`."""
        room, scratch = _room, _room.scratch_of(lib.CALLS.pathdb_search_words(self.image.facts.cells))
        sought = lib.SearchOfC(self.image._cell("start", start), self.image._cell("goal", goal), 0xFFFFFFFF)
        told = sought, scratch, len(scratch), room.moves, lib.LONGEST, byref(room.length)
        status = lib.CALLS.pathdb_search_live(*self._live, *told)
        while status == lib.MORE:
            status = lib.CALLS.pathdb_search_on(*self._live, *told)
        return self._judged(status, lambda: room.path(start), start, goal)

    def next_move(self, at: Cell, goal: Cell) -> Optional[NextMove]:
        """The move that the image tells, and whether it is free; `None` at the goal, and where no path exists, even with
        every cell free. A unit that meets a move which is not free follows a `path` from there. Raises `BadCell`."""
        move, ends = _room.move, (self.image._cell("at", at), self.image._cell("goal", goal))
        status = lib.CALLS.pathdb_next_move_live(*self._live, *ends, byref(move))
        if status in (lib.DONE, lib.STALE):
            return NextMove(Move(move.value), status == lib.DONE)
        self.image._judged(status, at, goal, "at")
        return None

    def _told(self, start: Cell, goal: Cell) -> Tuple[int, Callable[[], Path]]:
        """How the call that looks a path up ends, and what makes the path that it wrote."""
        room, ends = _room, (self.image._cell("start", start), self.image._cell("goal", goal))
        status = lib.CALLS.pathdb_path_live(*self._live, *ends, room.moves, lib.LONGEST, byref(room.length))
        return status, lambda: room.path(start)

    def _judged(self, status: int, path: Callable[[], Path], start: Cell, goal: Cell) -> Optional[Path]:
        """The path that a call wrote, or what its status means."""
        if status == lib.DONE:
            return path()
        self.image._judged(status, start, goal)
        return None

    def _place(self, cell: Cell) -> Tuple[int, int]:
        """The word and the bit of a cell."""
        found = self.image._inside("cell", cell)
        place = found.y * self.image.facts.width + found.x
        return place // 32, 1 << place % 32


def _cells_of(rows: Any) -> Tuple[int, int, bytes]:
    """The width, the height and the cells of rows of numbers, row by row."""
    if hasattr(rows, "shape") and len(rows.shape) == 2:
        if rows.size and not (0 <= rows.min() and rows.max() <= 2):
            raise BadMap("a cell is 0 for blocked, 1 for land or 2 for water")
        return int(rows.shape[1]), int(rows.shape[0]), rows.astype("uint8").tobytes()
    lines = [bytes(row) for row in rows]
    width = len(lines[0]) if lines else 0
    for at, line in enumerate(lines):
        if len(line) != width:
            raise BadMap(f"row {at} has {len(line)} cells, and not {width}")
    return width, len(lines), b"".join(lines)


def _baked(call: Callable[..., int], source: Tuple[Any, ...]) -> lib.Words:
    """The words of an image that one of the library's bakes makes, into more room where the first was too small."""
    room, told = 1 << 16, lib.BakedOfC()
    while True:
        words = (c_uint32 * room)()
        status = call(*source, words, room, byref(told))
        if status == lib.DONE:
            found: lib.Words = (c_uint32 * told.words).from_buffer_copy(words)
            return found
        if status == lib.NO_MEMORY:
            raise MemoryError("no memory for the image of a map")
        if status != lib.TOO_SMALL:
            raise BadMap(_why(status, told))
        room = told.words


def _why(status: int, told: lib.BakedOfC) -> str:
    """Why a map cannot be baked, with the place."""
    where = {
        lib.BAD_HEADER: f"line {told.line}",
        lib.BAD_SIZE: f"line {told.line}",
        lib.BAD_ROW: f"line {told.line}: {told.found} cells, and not {told.expected}",
        lib.BAD_BYTE: f"{told.byte} at ({told.x}, {told.y})",
        lib.MISSING_ROWS: f"{told.found} rows",
        lib.EXTRA_LINE: f"line {told.line}",
        lib.TOO_MANY_CELLS: f"the first too many is ({told.x}, {told.y})",
    }.get(status)
    return f"{lib.meaning(status)}: {where}" if where else lib.meaning(status)


def _summed(costs: Any, shape: Tuple[int, int]) -> Numbers:
    """The lengths that costs stand for, as `_shaped`."""
    try:
        numpy = importlib.import_module("numpy")
    except ImportError:
        infinite = float("inf")
        return array("d", (infinite if c.straight == lib.NO_COST else c.straight + c.diagonal * ROOT for c in costs))
    numbers = numpy.frombuffer(costs, dtype="uint32").reshape(*shape, 2)
    lengths = numbers[..., 0] + numbers[..., 1] * ROOT
    lengths[numbers[..., 0] == lib.NO_COST] = float("inf")
    return lengths


def _shaped(kind: str, data: bytes, shape: Tuple[int, int]) -> Numbers:
    """The numbers in these bytes, as an array of numpy of that shape, or as an `array` where numpy is not installed."""
    try:
        numpy = importlib.import_module("numpy")
    except ImportError:
        return array(kind, data)
    return numpy.frombuffer(data, dtype={"B": "uint8", "d": "float64"}[kind]).reshape(shape)
