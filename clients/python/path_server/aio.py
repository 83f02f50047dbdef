"""The client over asyncio: the calls of `Client`, to be awaited. Any number may be in flight.

    import asyncio
    from path_server import aio

    async def main() -> None:
        async with await aio.Client.connect(4000) as client:
            ends = [((2, 2), (x, 17)) for x in range(14, 25)]
            for answer in await asyncio.gather(*(client.query(start, goal) for start, goal in ends)):
                print(answer)
"""

from __future__ import annotations

import asyncio
import collections
import contextlib
import math
import time
from types import TracebackType
from typing import Deque, Iterable, Optional, Tuple, Type, cast

from .answers import granted, matched
from .client import LONGEST_PAUSE, SHORTEST_PAUSE, TIMEOUT
from .faults import ConnectionLost, NeedsHello, NotConnected, PathServerError, RequestRefused, SessionOver, TimedOut
from .frames import (
    AskStatus,
    Build,
    BuildReply,
    Bye,
    Cell,
    Change,
    ChangeReply,
    Done,
    Hello,
    Query,
    QueryReply,
    Reply,
    Request,
    Status,
    Stop,
    Terrain,
    decoded,
    edit_of,
    encoded,
    needs_hello,
    split_replies,
)

_PIECE = 1 << 16


class Client:
    """One session with a server over TCP, for the tasks of one event loop. It ends with `close` or with an `async with`
    block. What each call returns and raises is what that of `path_server.Client` does."""

    def __init__(self, reader: asyncio.StreamReader, writer: asyncio.StreamWriter, timeout: float = TIMEOUT) -> None:
        self._reader, self._writer, self._timeout = reader, writer, timeout
        self._waiting: Deque[Tuple[Request, asyncio.Future[Reply]]] = collections.deque()
        self._hello: Optional[asyncio.Future[Reply]] = None
        self._fault: Optional[PathServerError] = None
        self._reading = asyncio.ensure_future(self._read_all())

    @classmethod
    async def connect(cls, port: int, host: str = "127.0.0.1", timeout: float = TIMEOUT) -> Client:
        """A session with a server.

        NotConnected: nobody answers there, or not in time.
        """
        try:
            ends = await asyncio.wait_for(asyncio.open_connection(host, port), _seconds(timeout))
        except (OSError, OverflowError, asyncio.TimeoutError) as fault:
            raise NotConnected("nobody answers at port %d of %s" % (port, host)) from fault
        return cls(*ends, timeout)

    async def query(self, start: Cell, goal: Cell, timeout: Optional[float] = None) -> QueryReply:
        """An optimal path from one cell to another, on the map of the published version."""
        return cast(QueryReply, await self.send(Query(start, goal), timeout))

    async def change(self, cell: Cell, terrain: Terrain, timeout: Optional[float] = None) -> ChangeReply:
        """Makes a cell blocked, land or water."""
        return cast(ChangeReply, await self.send(Change(cell, terrain), timeout))

    async def edit(self, changes: Iterable[Tuple[Cell, Terrain]], timeout: Optional[float] = None) -> ChangeReply:
        """Makes 1 to 64 changes together, or none of them: one edit."""
        return cast(ChangeReply, await self.send(edit_of(changes), timeout))

    async def hello(self, timeout: Optional[float] = None) -> bool:
        """Whether the server speaks the protocol that has water and edits of several cells."""
        if self._hello is None:
            self._write(Hello())
        try:
            granted(Hello(), await self._awaited(cast("asyncio.Future[Reply]", self._hello), timeout))
        except RequestRefused:
            return False
        return True

    async def build(self, timeout: Optional[float] = None) -> BuildReply:
        """Builds and publishes a version with all edits accepted so far, and returns when it is there."""
        return cast(BuildReply, await self.send(Build(), timeout))

    async def status(self, timeout: Optional[float] = None) -> Status:
        """The published version, its numbers, and how many edits are accepted."""
        return cast(Status, await self.send(AskStatus(), timeout))

    async def wait_for(self, version: int, timeout: Optional[float] = None) -> Status:
        """Waits until this version or a later one is published."""
        limit = self._timeout if timeout is None else timeout
        deadline, pause = time.monotonic() + limit, SHORTEST_PAUSE
        while True:
            status = await self.status(deadline - time.monotonic())
            if status.version >= version:
                return status
            if time.monotonic() + pause > deadline:
                raise TimedOut("version %d" % version, limit)
            await asyncio.sleep(pause)
            pause = min(2 * pause, LONGEST_PAUSE)

    async def bye(self, timeout: Optional[float] = None) -> Done:
        """Ends the session in good form, and closes the connection."""
        done = cast(Done, await self.send(Bye(), timeout))
        await self.close()
        return done

    async def stop(self, timeout: Optional[float] = None) -> Done:
        """Ends the session and the server, whose other sessions go on to their end; closes the connection."""
        done = cast(Done, await self.send(Stop(), timeout))
        await self.close()
        return done

    async def send(self, request: Request, timeout: Optional[float] = None) -> Reply:
        """Sends a request and waits for its reply; others may be sent meanwhile. A call that is cancelled, or late, leaves
        the session in order."""
        reply = self._write(request)
        with contextlib.suppress(ConnectionError):  # the reader tells it, after the replies that came before
            await self._writer.drain()
        return granted(request, await self._awaited(reply, timeout))

    def _write(self, request: Request) -> asyncio.Future[Reply]:
        """Sends a request, and gives what will be its reply."""
        data = encoded(request)
        if self._fault is not None:
            raise SessionOver("the session was closed, or has ended by a fault") from self._fault
        if self._hello is None and not isinstance(request, Hello):
            self._hello = self._awaiting(Hello())
            data = encoded(Hello()) + data
        elif needs_hello(request) and self._is_refused():
            raise NeedsHello("the server does not speak the protocol that has water and edits of several cells")
        reply = self._awaiting(request)
        if isinstance(request, Hello):
            self._hello = reply
        self._writer.write(data)
        return reply

    def _awaiting(self, request: Request) -> asyncio.Future[Reply]:
        reply: asyncio.Future[Reply] = asyncio.get_running_loop().create_future()
        self._waiting.append((request, reply))
        return reply

    def _is_refused(self) -> bool:
        """Whether the server has said that it does not know the second protocol."""
        if self._hello is None or not self._hello.done() or self._hello.exception():
            return False
        try:
            granted(Hello(), self._hello.result())
        except PathServerError:
            return True
        return False

    async def _awaited(self, reply: asyncio.Future[Reply], timeout: Optional[float]) -> Reply:
        seconds = self._timeout if timeout is None else timeout
        try:
            return await asyncio.wait_for(asyncio.shield(reply), _seconds(seconds))
        except asyncio.TimeoutError:
            raise TimedOut("a reply", seconds) from None

    async def _read_all(self) -> None:
        """Hands each reply to the request that was sent first of those in flight."""
        held = b""
        try:
            while True:
                piece = await self._reader.read(_PIECE)
                if not piece:
                    raise ConnectionLost("the server closed the connection", held)
                frames, held = split_replies(held + piece)
                for frame in frames:
                    request, reply = self._waiting[0]
                    told = matched(request, decoded(frame))
                    self._waiting.popleft()
                    if not reply.done():
                        reply.set_result(told)
        except PathServerError as fault:
            self._end(fault)
        except OSError as cause:
            lost = ConnectionLost("the connection failed", held)
            lost.__cause__ = cause
            self._end(lost)

    def _end(self, fault: PathServerError) -> None:
        """Ends the session by a fault, of which each request in flight hears."""
        self._fault = self._fault or fault
        for _, reply in self._waiting:
            if not reply.done():
                reply.set_exception(fault)
                reply.exception()  # it was looked at, also where nobody awaits it any more
        self._waiting.clear()

    async def close(self) -> None:
        """Ends the connection. Requests in flight get no reply any more. A second time is no fault."""
        self._end(SessionOver("the session was closed"))
        self._reading.cancel()
        self._writer.close()
        with contextlib.suppress(OSError):
            await self._writer.wait_closed()

    async def __aenter__(self) -> Client:
        return self

    async def __aexit__(
        self, kind: Optional[Type[BaseException]], fault: Optional[BaseException], trace: Optional[TracebackType]
    ) -> None:
        await self.close()


def _seconds(timeout: float) -> Optional[float]:
    """A time-out as asyncio takes it."""
    return None if math.isinf(timeout) else timeout
