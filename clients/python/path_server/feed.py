"""A leader's feed: its map before any edit, and the edits that it has accepted, in their order.

    from path_server.feed import Feed

    with Feed.connect(5000) as feed:
        print(feed.map.width, feed.map.height)
        for edit in feed.ask(known=0):  # a Change, or an Edit of several
            print(edit)

docs/reference/formats.md, "Feeds", is the rule. What is here is enough for a follower of your own, and for a feed of your own.
"""

from __future__ import annotations

import socket
import struct
from dataclasses import dataclass
from types import TracebackType
from typing import Optional, Sequence, Tuple, Type, Union

from .client import TIMEOUT
from .faults import BadReply, ConnectionLost, FeedAhead, NotConnected, ServerOutOfMemory, SessionOver, TimedOut
from .frames import Change, Edit, OutOfMemory, Terrain, edit_of

MAX_EDITS = 1_024
"""How many edits a message has at most."""
MAX_MESSAGE = 1_048_585
"""Bytes of the longest message, without its length."""
MAX_ASKS = 1_048_576
"""After so many asks a leader ends the feed."""

AnyEdit = Union[Change, Edit]

_LENGTH = struct.Struct(">I")
_ASK = struct.Struct(">BI")
_MAP = struct.Struct(">BII")
_EDITS = struct.Struct(">BII")
_AHEAD = struct.Struct(">BI")
_CHANGE = struct.Struct(">HHB")
_ASK_KIND, _MAP_KIND, _EDITS_KIND, _AHEAD_KIND, _MEMORY_KIND = 0x21, 0x31, 0x32, 0x33, 0x34


@dataclass(frozen=True)
class FedMap:
    """The map before any edit. `cells` has a byte a cell, row by row: the value of its `Terrain`."""

    width: int
    height: int
    cells: bytes


@dataclass(frozen=True)
class FedEdits:
    """The edits after the first `known` ones: all of them, or as many as a message has."""

    known: int
    edits: Tuple[AnyEdit, ...]


@dataclass(frozen=True)
class Ahead:
    """The ask knows more edits than the `accepted` ones."""

    accepted: int


Message = Union[FedMap, FedEdits, Ahead, OutOfMemory]


def ask_bytes(known: int) -> bytes:
    """The ask for the edits after the first `known` ones."""
    return _ASK.pack(_ASK_KIND, known)


def known_of(ask: bytes) -> int:
    """How many edits an ask knows.

    ValueError: the bytes are not an ask.
    """
    if len(ask) != _ASK.size or ask[0] != _ASK_KIND:
        raise ValueError("not an ask: %s" % ask.hex())
    known: int = _ASK.unpack(ask)[1]
    return known


def message_bytes(message: Message) -> bytes:
    """A message as a leader sends it, with its length in front."""
    frame = _frame_of(message)
    return _LENGTH.pack(len(frame)) + frame


def _frame_of(message: Message) -> bytes:
    if isinstance(message, FedMap):
        return _MAP.pack(_MAP_KIND, message.width, message.height) + message.cells
    if isinstance(message, FedEdits):
        head = _EDITS.pack(_EDITS_KIND, message.known, len(message.edits))
        return head + b"".join(_edit_bytes(changes_of(edit)) for edit in message.edits)
    if isinstance(message, Ahead):
        return _AHEAD.pack(_AHEAD_KIND, message.accepted)
    return bytes([_MEMORY_KIND])


def changes_of(edit: AnyEdit) -> Tuple[Change, ...]:
    """The changes that an edit makes together."""
    return (edit,) if isinstance(edit, Change) else edit.changes


def _edit_bytes(changes: Sequence[Change]) -> bytes:
    return bytes([len(changes)]) + b"".join(_CHANGE.pack(*each.cell, each.terrain.value) for each in changes)


def decoded_message(frame: bytes) -> Message:
    """The message that a frame spells.

    BadReply: it spells none.
    """
    try:
        return _message(frame)
    except (struct.error, ValueError, IndexError):
        raise BadReply("the frame is no message of a feed", frame) from None


def _message(frame: bytes) -> Message:
    kind = frame[0]
    if kind == _MAP_KIND:
        _, width, height = _MAP.unpack_from(frame)
        cells = frame[_MAP.size :]
        if len(cells) != width * height or max(cells, default=0) > Terrain.WATER.value:
            raise ValueError("the cells are not those of the map")
        return FedMap(width, height, cells)
    if kind == _EDITS_KIND:
        return _fed_edits(frame)
    if kind == _AHEAD_KIND:
        return Ahead(_AHEAD.unpack(frame)[1])
    if frame == bytes([_MEMORY_KIND]):
        return OutOfMemory()
    raise ValueError("no such kind")


def _fed_edits(frame: bytes) -> FedEdits:
    _, known, count = _EDITS.unpack_from(frame)
    at, edits = _EDITS.size, []
    for _ in range(count):
        end = at + 1 + frame[at] * _CHANGE.size
        edits.append(edit_of(((x, y), Terrain(kind)) for x, y, kind in _CHANGE.iter_unpack(frame[at + 1 : end])))
        at = end
    if at != len(frame) or count > MAX_EDITS:
        raise ValueError("another length")
    return FedEdits(known, tuple(edits))


class Feed:
    """A connection to a leader's port for followers. `map` is its map before any edit."""

    def __init__(self, link: socket.socket, timeout: float = TIMEOUT) -> None:
        """Reads the map. Use `connect`."""
        self._socket, self._timeout = link, timeout
        link.settimeout(timeout)
        told = decoded_message(self._frame())
        if not isinstance(told, FedMap):
            raise BadReply("a feed begins with the map, and not with %r" % (told,))
        self.map = told

    @classmethod
    def connect(cls, port: int, host: str = "127.0.0.1", timeout: float = TIMEOUT) -> Feed:
        """Follows a leader. Each message may take `timeout` seconds.

        NotConnected: nobody answers there. TimedOut: the leader feeds somebody else. BadReply: it is not a feed.
        """
        try:
            link = socket.create_connection((host, port), timeout=timeout)
        except (OSError, OverflowError) as fault:
            raise NotConnected("nobody answers at port %d of %s" % (port, host)) from fault
        link.setsockopt(socket.IPPROTO_TCP, socket.TCP_NODELAY, 1)
        try:
            return cls(link, timeout)
        except BaseException:
            link.close()
            raise

    def ask(self, known: int) -> Tuple[AnyEdit, ...]:
        """The edits after the first `known` ones, at most 1,024; none where there are no others yet.

        FeedAhead: the leader has accepted fewer than `known`. ServerOutOfMemory: the leader said so. ConnectionLost:
        the feed ended, as it does after 1,048,576 asks. TimedOut, BadReply: the feed can't be used any more.
        """
        try:
            self._socket.sendall(ask_bytes(known))
        except OSError as fault:
            raise self._lost(fault) from fault
        told = decoded_message(self._frame())
        if isinstance(told, Ahead) and told.accepted < known:
            raise FeedAhead(told.accepted, known)
        if isinstance(told, OutOfMemory):
            raise ServerOutOfMemory("the leader has no memory for its edits")
        if not isinstance(told, FedEdits) or told.known != known:
            raise BadReply("an ask for the edits after %d was answered with %r" % (known, told))
        return told.edits

    def _frame(self) -> bytes:
        length: int = _LENGTH.unpack(self._received(_LENGTH.size))[0]
        if not 1 <= length <= MAX_MESSAGE:
            raise BadReply("a message of %d bytes; it has 1 to %d" % (length, MAX_MESSAGE))
        return self._received(length)

    def _received(self, size: int) -> bytes:
        data = bytearray()
        while len(data) < size:
            try:
                piece = self._socket.recv(size - len(data))
            except OSError as fault:
                raise self._lost(fault) from fault
            if not piece:
                raise ConnectionLost("the leader ended the feed", bytes(data))
            data += piece
        return bytes(data)

    def _lost(self, fault: OSError) -> Union[TimedOut, SessionOver, ConnectionLost]:
        if isinstance(fault, socket.timeout):
            return TimedOut("a message of the feed", self._timeout)
        if self._socket.fileno() < 0:
            return SessionOver("the feed was closed")
        return ConnectionLost("the feed failed")

    def close(self) -> None:
        """Ends the feed. A second time is no fault."""
        self._socket.close()

    def __enter__(self) -> Feed:
        return self

    def __exit__(
        self, kind: Optional[Type[BaseException]], fault: Optional[BaseException], trace: Optional[TracebackType]
    ) -> None:
        self.close()
