"""The frames of a session: what a client may ask, what a server may answer, and how both are spelled in bytes.

docs/reference/formats.md, "Frames", is the rule. In every number the highest byte comes first. A request is a length in 2 bytes
and so many bytes of frame, a reply a length in 4 bytes and so many bytes of frame; a frame's first byte is its kind.
Each request and each reply has one spelling. Only this module and `feed` pack or unpack bytes.
"""

from __future__ import annotations

import enum
import math
import struct
from dataclasses import dataclass
from typing import Callable, Dict, Iterable, List, Optional, Tuple, Union

from .faults import BadReply

MAX_REQUEST = 64
"""Bytes of the longest request frame without a Hello, and of the first one, without its length."""
MAX_REQUEST_TWO = 322
"""Bytes of the longest request frame behind a Hello, without its length."""
MAX_CHANGES = 64
"""How many changes an edit has at most."""
MAX_REPLY = 32_780
"""Bytes of the longest reply frame, without its length."""
MAX_COORDINATE = 65_535
"""The greatest column or row that a request can name."""

Cell = Tuple[int, int]
"""A column and a row, counted from 0 at the upper left."""


class Terrain(enum.Enum):
    """What a change makes of a cell. The value is the byte in the frame."""

    BLOCKED = 0
    LAND = 1
    WATER = 2  # behind a Hello alone


class Protocol(enum.Enum):
    """How a server reads the next frame of a session: its first frame decides between one and two."""

    START = 0
    ONE = 1
    TWO = 2

    @property
    def limit(self) -> int:
        """Bytes of the longest request frame, without its length."""
        return MAX_REQUEST_TWO if self is Protocol.TWO else MAX_REQUEST

    def behind(self, frame: bytes) -> Protocol:
        """What it is behind this frame."""
        if self is not Protocol.START:
            return self
        return Protocol.TWO if frame == _HELLO else Protocol.ONE


class Move(enum.IntEnum):
    """The eight moves; north is one row up, east one column to the right. Even ones are straight."""

    N = 0
    NE = 1
    E = 2
    SE = 3
    S = 4
    SW = 5
    W = 6
    NW = 7

    def __repr__(self) -> str:
        return "Move." + self.name

    @property
    def step(self) -> Cell:
        """By how much the column and the row grow."""
        return _STEPS[self]

    @property
    def is_diagonal(self) -> bool:
        """Whether the move costs √2, and not 1."""
        return self % 2 == 1


_ROOT = math.sqrt(2)
_STEPS = ((0, -1), (1, -1), (1, 0), (1, 1), (0, 1), (-1, 1), (-1, 0), (-1, -1))


class End(enum.Enum):
    """One of the two ends of a query."""

    START = 0
    GOAL = 1


class Reason(enum.Enum):
    """Why no path can be asked for from or to a cell."""

    OUTSIDE = 1
    BLOCKED = 2


class EditFault(enum.Enum):
    """Why an edit was refused."""

    OUTSIDE = 1
    TOO_MANY_CELLS = 2
    EDITS_FULL = 3
    REPEATED = 4


# ---- requests


@dataclass(frozen=True)
class Query:
    """Asks for an optimal path between two cells."""

    start: Cell
    goal: Cell


@dataclass(frozen=True)
class Change:
    """Makes a cell blocked, land or, behind a Hello, water, from the next version on."""

    cell: Cell
    terrain: Terrain


@dataclass(frozen=True)
class Edit:
    """Makes 2 to 64 changes together, or none of them. Behind a Hello alone; one change is a `Change`."""

    changes: Tuple[Change, ...]


@dataclass(frozen=True)
class Hello:
    """Asks for the second protocol, as the first request of a session alone."""


@dataclass(frozen=True)
class Build:
    """Asks for a version that has all edits accepted so far."""


@dataclass(frozen=True)
class AskStatus:
    """Asks for the numbers of the published version."""


@dataclass(frozen=True)
class Bye:
    """Ends the session."""


@dataclass(frozen=True)
class Stop:
    """Ends the session and the server."""


Request = Union[Query, Change, Edit, Hello, Build, AskStatus, Bye, Stop]

# ---- replies


@dataclass(frozen=True)
class Path:
    """An optimal path on the map of a version. It costs `straight` + `diagonal`·√2 cells, exactly."""

    version: int
    straight: int
    diagonal: int
    move_bytes: bytes
    """The moves, a byte each: the number of a `Move`."""

    @property
    def moves(self) -> Tuple[Move, ...]:
        """The moves from the start to the goal."""
        return tuple([_MOVES[number] for number in self.move_bytes])

    @property
    def length(self) -> float:
        """The length in cells, as near as a float comes."""
        return self.straight + self.diagonal * _ROOT

    @property
    def micro_length(self) -> int:
        """The exact length in millionths of a cell, the rest cut off."""
        return self.straight * 10**6 + math.isqrt(2 * self.diagonal**2 * 10**12)

    @property
    def exact_length(self) -> str:
        """The exact length with six digits, the rest cut off, as the program prints it."""
        return "%d.%06d" % divmod(self.micro_length, 10**6)

    def cells(self, start: Cell) -> List[Cell]:
        """The cells of the path from its start on; the start is the query's."""
        column, row = start
        found = [(column, row)]
        for number in self.move_bytes:
            right, down = _STEPS[number]
            column, row = column + right, row + down
            found.append((column, row))
        return found


@dataclass(frozen=True)
class Unreachable:
    """No path leads from the start to the goal on the map of this version."""

    version: int


@dataclass(frozen=True)
class Refused:
    """An end of the query lies outside the map of this version, or is blocked there."""

    version: int
    reason: Reason
    end: End


@dataclass(frozen=True)
class Accepted:
    """The edit was accepted, as the one with this number, from 1: version `number` and later ones have it."""

    number: int


@dataclass(frozen=True)
class EditRefused:
    """The edit was refused, and nothing is changed."""

    fault: EditFault


@dataclass(frozen=True)
class Published:
    """A version was built and published: its components that were built have so many cells, and those that were kept
    whole so many others. Of a built component too rows may be taken from the version before; that is not counted."""

    version: int
    built: int
    kept: int


@dataclass(frozen=True)
class NothingNew:
    """The published version has all accepted edits already."""

    version: int


@dataclass(frozen=True)
class Overtaken:
    """Another one published this version first, which is as new."""

    version: int


@dataclass(frozen=True)
class Status:
    """The published version and its numbers of passable cells, components and runs; and how many edits are accepted."""

    version: int
    accepted: int
    cells: int
    components: int
    runs: int

    @property
    def lag(self) -> int:
        """How many accepted edits the published version does not have yet."""
        return self.accepted - self.version


@dataclass(frozen=True)
class Done:
    """The session ends, as was asked."""


@dataclass(frozen=True)
class Welcome:
    """The second protocol is spoken from here on."""


@dataclass(frozen=True)
class Malformed:
    """The frame was no request: its kind, 0 for an empty one, and its length in bytes."""

    kind: int
    length: int


@dataclass(frozen=True)
class OutOfMemory:
    """The server had no memory for the request, and nothing came of it."""


QueryReply = Union[Path, Unreachable, Refused]
ChangeReply = Union[Accepted, EditRefused]
BuildReply = Union[Published, NothingNew, Overtaken]
Reply = Union[QueryReply, ChangeReply, BuildReply, Status, Done, Welcome, Malformed, OutOfMemory]

# ---- requests as bytes

_QUERY = struct.Struct(">B4H")
_CHANGE = struct.Struct(">BHHB")
_ONE_CHANGE = struct.Struct(">HHB")
_CELL = struct.Struct(">HH")
_CHANGES = 0x08
_HELLO = b"\x07\x02"
_BARE: Dict[int, Request] = {0x03: Build(), 0x04: AskStatus(), 0x05: Bye(), 0x06: Stop()}
_KINDS = {type(request): kind for kind, request in _BARE.items()}
_REQUEST_LENGTH = struct.Struct(">H")


def needs_hello(request: Request) -> bool:
    """Whether it is spoken behind a Hello alone: an edit of several changes, and a change to water."""
    return isinstance(request, Edit) or isinstance(request, Change) and request.terrain is Terrain.WATER


def edit_of(changes: Iterable[Tuple[Cell, Terrain]]) -> Union[Change, Edit]:
    """The request that makes 1 to 64 changes together.

    ValueError: there are no changes, or more than 64.
    """
    each = tuple(Change(cell, terrain) for cell, terrain in changes)
    if not 1 <= len(each) <= MAX_CHANGES:
        raise ValueError("an edit has 1 to %d changes, not %d" % (MAX_CHANGES, len(each)))
    return each[0] if len(each) == 1 else Edit(each)


def frame_of(request: Request) -> bytes:
    """The frame of a request, without its length.

    ValueError: a column or a row is not from 0 to 65,535, or an edit has not from 2 to 64 changes. TypeError: a cell is
    not two whole numbers, or a change is to something else than a Terrain.
    """
    if isinstance(request, Hello):
        return _HELLO
    if isinstance(request, Query):
        return b"\x01" + _cell_bytes("start", request.start) + _cell_bytes("goal", request.goal)
    if isinstance(request, Change):
        return b"\x02" + _change_bytes(request)
    if isinstance(request, Edit):
        count = len(request.changes)
        if not 2 <= count <= MAX_CHANGES:
            raise ValueError("an Edit has 2 to %d changes, not %d; one alone is a Change" % (MAX_CHANGES, count))
        return bytes([_CHANGES, count]) + b"".join(map(_change_bytes, request.changes))
    return bytes([_KINDS[type(request)]])


def _change_bytes(change: Change) -> bytes:
    """A change as it stands in a frame, behind the kind."""
    if not isinstance(change.terrain, Terrain):
        raise TypeError("a change makes a cell one of Terrain, not %r" % (change.terrain,))
    return _cell_bytes("cell", change.cell) + bytes([change.terrain.value])


def _cell_bytes(name: str, cell: Cell) -> bytes:
    """A cell as it stands in a frame. `name` is that of the argument, for the error's message."""
    try:
        column, row = cell
        return _CELL.pack(column, row)
    except (TypeError, ValueError):
        pass
    except struct.error:
        if hasattr(column, "__index__") and hasattr(row, "__index__"):
            raise ValueError("%s %r: columns and rows are from 0 to %d" % (name, cell, MAX_COORDINATE)) from None
    raise TypeError("%s is a column and a row, two whole numbers, and not %r" % (name, cell))


def framed(frame: bytes) -> bytes:
    """Bytes as they are sent: behind their length. Any bytes, also such as no server takes.

    ValueError: more than 65,535 bytes, which no length can say.
    """
    try:
        return _REQUEST_LENGTH.pack(len(frame)) + frame
    except struct.error:
        raise ValueError("a frame has at most 65535 bytes") from None


def encoded(request: Request) -> bytes:
    """The bytes that ask for it: the length and the frame."""
    return framed(frame_of(request))


def split_requests(data: bytes) -> Tuple[List[bytes], bytes]:
    """The whole frames at the front of what a client sent, without their lengths, and the bytes behind them. It ends at
    a length above the limit too, at which a server ends the session."""
    frames: List[bytes] = []
    rest, protocol = data, Protocol.START
    while True:
        one, behind = _split(rest, _REQUEST_LENGTH, protocol.limit, 1)
        if not one:
            return frames, rest
        frames, rest, protocol = frames + one, behind, protocol.behind(one[0])


def decoded_request(frame: bytes, protocol: Protocol = Protocol.ONE) -> Optional[Request]:
    """The request that a frame spells, or None where a server takes it for malformed. For stand-ins and judges."""
    kind = frame[0] if frame else 0
    if frame == _HELLO:
        return Hello() if protocol is Protocol.START else None
    if kind == _CHANGES:
        return _edit(frame) if protocol is Protocol.TWO else None
    if kind == 0x01 and len(frame) == _QUERY.size:
        _, start_x, start_y, goal_x, goal_y = _QUERY.unpack(frame)
        return Query((start_x, start_y), (goal_x, goal_y))
    if kind == 0x02 and len(frame) == _CHANGE.size and frame[-1] <= (2 if protocol is Protocol.TWO else 1):
        _, column, row, terrain = _CHANGE.unpack(frame)
        return Change((column, row), Terrain(terrain))
    return _BARE.get(kind) if len(frame) == 1 else None


def _edit(frame: bytes) -> Optional[Request]:
    count = frame[1] if len(frame) > 1 else 0
    if not 2 <= count <= MAX_CHANGES or len(frame) != 2 + count * _ONE_CHANGE.size:
        return None
    each = list(_ONE_CHANGE.iter_unpack(frame[2:]))
    if any(terrain > Terrain.WATER.value for _, _, terrain in each):
        return None
    return Edit(tuple(Change((column, row), Terrain(terrain)) for column, row, terrain in each))


# ---- replies from bytes

_REPLY_LENGTH = struct.Struct(">I")
_PATH_HEAD = struct.Struct(">3I")
_MOVES = tuple(Move)
_DIAGONAL = bytes(move for move in Move if move.is_diagonal)


def split_replies(data: bytes) -> Tuple[List[bytes], bytes]:
    """The whole frames at the front of what a server sent, without their lengths, and the bytes behind them.

    BadReply: a length that no reply has.
    """
    frames, rest = _split(data, _REPLY_LENGTH, MAX_REPLY)
    if len(rest) >= _REPLY_LENGTH.size:
        length = _REPLY_LENGTH.unpack_from(rest)[0]
        if not 1 <= length <= MAX_REPLY:
            raise BadReply("a reply of %d bytes; it has 1 to %d" % (length, MAX_REPLY), rest)
    return frames, rest


def _split(data: bytes, head: struct.Struct, most: int, count: float = math.inf) -> Tuple[List[bytes], bytes]:
    frames: List[bytes] = []
    at = 0
    while len(data) - at >= head.size and len(frames) < count:
        length = head.unpack_from(data, at)[0]
        if length > most or len(data) - at - head.size < length:
            break
        at += head.size
        frames.append(data[at : at + length])
        at += length
    return frames, data[at:]


def decoded(frame: bytes) -> Reply:
    """The reply that a frame spells.

    BadReply: it spells none.
    """
    read = _READERS.get(frame[0]) if frame else None
    if read is None:
        raise BadReply("the frame is of no reply's kind", frame)
    try:
        return read(frame[1:])
    except (struct.error, ValueError, IndexError):
        raise BadReply("the frame is no reply of its kind", frame) from None


def reply_bytes(frame: bytes) -> bytes:
    """A reply's bytes as a server sends them: the frame behind its length. For tests that stand in for a server."""
    return _REPLY_LENGTH.pack(len(frame)) + frame


def _path(rest: bytes) -> Path:
    version, straight, diagonal = _PATH_HEAD.unpack_from(rest)
    numbers = rest[_PATH_HEAD.size :]
    odd = sum(map(numbers.count, _DIAGONAL))
    if (len(numbers) - odd, odd) != (straight, diagonal) or max(numbers, default=0) > Move.NW:
        raise ValueError("the moves are not those that are counted")
    return Path(version, straight, diagonal, numbers)


def _refused(rest: bytes) -> Refused:
    version, reason, end = struct.unpack(">IBB", rest)
    return Refused(version, Reason(reason), End(end))


def _edit_refused(rest: bytes) -> EditRefused:
    return EditRefused(EditFault(*struct.unpack(">B", rest)))


def _welcome(rest: bytes) -> Welcome:
    if rest != _HELLO[1:]:
        raise ValueError("another protocol")
    return Welcome()


def _numbers(layout: str, kind: Callable[..., Reply]) -> Callable[[bytes], Reply]:
    """A reader of a reply that has numbers alone, of exactly that layout."""
    shape = struct.Struct(layout)
    return lambda rest: kind(*shape.unpack(rest))


_READERS: Dict[int, Callable[[bytes], Reply]] = {
    0x81: _path,
    0x82: _numbers(">I", Unreachable),
    0x83: _refused,
    0x84: _numbers(">I", Accepted),
    0x85: _edit_refused,
    0x86: _numbers(">III", Published),
    0x87: _numbers(">I", NothingNew),
    0x88: _numbers(">I", Overtaken),
    0x89: _numbers(">IIIIQ", Status),
    0x8A: _numbers(">", Done),
    0x8B: _numbers(">BH", Malformed),
    0x8C: _numbers(">", OutOfMemory),
    0x8D: _welcome,
}
