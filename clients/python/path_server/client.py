"""A session with a server: requests go out, and each reply comes back as a value."""

from __future__ import annotations

import collections
import contextlib
import math
import threading
import time
from types import TracebackType
from typing import Callable, Deque, Generic, Iterable, Iterator, Optional, Tuple, Type, TypeVar, Union, cast

from .answers import granted, matched
from .faults import (
    ConnectionLost,
    NeedsHello,
    PathServerError,
    ProgramEnded,
    RequestRefused,
    SessionOver,
    TimedOut,
)
from .frames import (
    AskStatus,
    Build,
    BuildReply,
    Bye,
    Cell,
    Change,
    ChangeReply,
    Done,
    Hello,
    Malformed,
    Query,
    QueryReply,
    Reply,
    Request,
    Status,
    Stop,
    Terrain,
    decoded,
    edit_of,
    encoded,
    needs_hello,
)
from .links import ChildLink, Link, TcpLink
from .programs import find_program

Answer = TypeVar("Answer")

TIMEOUT = 10.0
"""Seconds that a reply may take where nothing else is said."""
START_TIMEOUT = 60.0
"""Seconds that a child process may take until its first reply, before which it builds the map's database."""
SHORTEST_PAUSE, LONGEST_PAUSE = 0.001, 0.05  # seconds between two looks at the version

class Pending(Generic[Answer]):
    """A request in flight. Its reply is read by `result`, and those before it on the way."""

    def __init__(self, client: Client, request: Request) -> None:
        self.request = request
        self._client = client
        self._reply: Optional[Reply] = None
        self._lost: Optional[PathServerError] = None

    @property
    def is_there(self) -> bool:
        """Whether the reply was read already."""
        return self._reply is not None

    @property
    def is_refused(self) -> bool:
        """Whether the reply was read already, and says that the server does not know the request."""
        return isinstance(self._reply, Malformed)

    def result(self, timeout: Optional[float] = None) -> Answer:
        """The reply, for which it waits `timeout` seconds, or as long as the client says.

        TimedOut: the reply did not come in time; it may be asked for again. ServerOutOfMemory, RequestRefused: the
        server said so. ConnectionLost, BadReply, SessionOver: the session is over.
        """
        deadline = self._client.deadline(timeout)
        while self._reply is None:
            if self._lost is not None:
                raise SessionOver("the session has ended by a fault") from self._lost
            self._client.read_for(self, deadline)
        return cast(Answer, granted(self.request, self._reply))

    def take(self, reply: Reply) -> None:
        """Keeps the reply.

        BadReply: it is none to what was asked.
        """
        self._reply = matched(self.request, reply)

    def lose(self, fault: PathServerError) -> None:
        """Keeps why no reply will come."""
        self._lost = fault


class Client:
    """One session, which ends with `close` or with a `with` block. Threads may share it: each gets the replies to what
    it asked, and while one waits for a reply the others wait for their turn.

    It says hello before its first request, so that water and edits of several cells may be sent at any time; only a
    server from before 0.17 refuses that.

    Time-outs are seconds, and `math.inf` waits for ever. Where a call has none, it is that of the client, or up to the
    first reply the `start_timeout` where that is longer.
    """

    def __init__(
        self,
        link: Link,
        timeout: float = TIMEOUT,
        start_timeout: float = 0.0,
        again: Optional[Callable[[], Link]] = None,
    ) -> None:
        """A session over a link. `again` makes a new link where the connection was lost."""
        self._link = link
        self._again = again
        self.connections = 1
        """How many connections there have been: more than one only with `reconnect`."""
        self._timeout = timeout
        self._start_timeout = max(timeout, start_timeout)
        self._lock = threading.RLock()
        self._hello: Optional[Pending[Reply]] = None
        self._waiting: Deque[Pending[Reply]] = collections.deque()
        self._has_heard = False
        self._is_closed = False
        self._fault: Optional[PathServerError] = None

    @classmethod
    def connect(
        cls, port: int, host: str = "127.0.0.1", timeout: float = TIMEOUT, reconnect: bool = False
    ) -> Client:
        """A session with a server over TCP.

        With `reconnect`, the request after a lost connection makes a new one. What was in flight is lost, and nothing is
        sent twice. A server that was started again has forgotten all edits and counts versions from 0: where
        `connections` has grown, a version may be lower than one seen before.

        NotConnected: nobody answers there. A server that has no free door answers later.
        """

        def link() -> Link:
            return TcpLink(port, host, timeout)

        return cls(link(), timeout, again=link if reconnect else None)

    @classmethod
    def talk(
        cls,
        map_file: str,
        *options: str,
        program: Optional[str] = None,
        timeout: float = TIMEOUT,
        start_timeout: float = START_TIMEOUT,
    ) -> Client:
        """A session with a program of one's own, `path_server talk MAP_FILE OPTIONS`, as a child process. It builds the
        map's database first, and the first reply may take `start_timeout` seconds.

        NotConnected: there is no such program. A map that is refused is told by the first reply: ProgramEnded.
        """
        return cls(ChildLink([program or find_program(), "talk", map_file, *options]), timeout, start_timeout)

    @classmethod
    def follow(
        cls,
        feed: int,
        rounds: int,
        *options: str,
        program: Optional[str] = None,
        timeout: float = TIMEOUT,
        start_timeout: float = START_TIMEOUT,
    ) -> Client:
        """A session with a follower of one's own, `path_server follow FEED ROUNDS OPTIONS`, as a child process. It asks the
        leader so many times for up to 1,024 edits that it does not know yet, and answers then from its own board, whose
        edits are the leader's first: `status` tells how many. It waits `start_timeout` seconds, or `timeout` where that
        is longer, until it has followed.

        NotConnected: there is no such program. ProgramEnded: nobody feeds at the port, or something else than a feed
        came. TimedOut: it did not follow in time.
        """
        link = ChildLink([program or find_program(), "follow", str(feed), str(rounds), *options])
        try:
            line = link.first_line(time.monotonic() + max(timeout, start_timeout))
            if not line.startswith(b"following "):
                link.end(time.monotonic() + timeout)
                raise ProgramEnded(link.process.wait(timeout), link.told(), line)
        except PathServerError:
            link.close()
            raise
        return cls(link, timeout)

    # ---- one request

    def query(self, start: Cell, goal: Cell, timeout: Optional[float] = None) -> QueryReply:
        """An optimal path from one cell to another, on the map of the published version."""
        return cast(QueryReply, self._asked(Query(start, goal), timeout))

    def change(self, cell: Cell, terrain: Terrain, timeout: Optional[float] = None) -> ChangeReply:
        """Makes a cell blocked, land or water. Queries see it once a version with it was published: `wait_for`.

        NeedsHello: it is water, and the server does not know that.
        """
        return cast(ChangeReply, self._asked(Change(cell, terrain), timeout))

    def edit(self, changes: Iterable[Tuple[Cell, Terrain]], timeout: Optional[float] = None) -> ChangeReply:
        """Makes 1 to 64 changes together, or none of them: one edit.

        ValueError: there are no changes, or more than 64. NeedsHello: there are several, or one to water, and the server
        does not know that.
        """
        return cast(ChangeReply, self._asked(edit_of(changes), timeout))

    def hello(self, timeout: Optional[float] = None) -> bool:
        """Whether the server speaks the second protocol, which has water and edits of several cells. It was asked for
        with the first request, or is now."""
        with self._turn(self.deadline(timeout)):
            if self._hello is None:
                self.send(Hello())
        try:
            cast("Pending[Reply]", self._hello).result(timeout)
        except RequestRefused:
            return False
        return True

    def build(self, timeout: Optional[float] = None) -> BuildReply:
        """Builds and publishes a version with all edits accepted so far, and returns when it is there."""
        return cast(BuildReply, self._asked(Build(), timeout))

    def status(self, timeout: Optional[float] = None) -> Status:
        """The published version, its numbers, and how many edits are accepted."""
        return cast(Status, self._asked(AskStatus(), timeout))

    def wait_for(self, version: int, timeout: Optional[float] = None) -> Status:
        """Waits until this version or a later one is published: over TCP the server builds it, else it is asked to.

        TimedOut: it was not in time, as where so many edits were never accepted.
        """
        deadline, pause, began = self.deadline(timeout), SHORTEST_PAUSE, time.monotonic()
        while True:
            status = self.status(deadline - time.monotonic())
            if status.version >= version:
                return status
            if isinstance(self._link, ChildLink) and status.lag > 0:
                self.build(deadline - time.monotonic())
                continue
            if time.monotonic() + pause > deadline:
                raise TimedOut("version %d" % version, deadline - began)
            time.sleep(pause)
            pause = min(2 * pause, LONGEST_PAUSE)

    def bye(self, timeout: Optional[float] = None) -> Done:
        """Ends the session in good form, and closes the connection."""
        return self._last(Bye(), timeout)

    def stop(self, timeout: Optional[float] = None) -> Done:
        """Ends the session and the server, whose other sessions go on to their end; closes the connection."""
        return self._last(Stop(), timeout)

    def _last(self, request: Union[Bye, Stop], timeout: Optional[float]) -> Done:
        done = cast(Done, self._asked(request, timeout))
        self.close()
        return done

    def _asked(self, request: Request, timeout: Optional[float]) -> Reply:
        """Sends a request and waits for its reply."""
        deadline = self.deadline(timeout)
        return self.send(request, timeout).result(deadline - time.monotonic())

    # ---- several in flight

    def send(self, request: Request, timeout: Optional[float] = None) -> Pending[Reply]:
        """Sends a request without waiting for its reply. Any number may be in flight; replies come in their order.

        ValueError, TypeError: it fits no frame. NeedsHello: it has water or several changes, and the server is known not
        to speak the protocol that has them. SessionOver: the session was closed or has ended by a fault.
        """
        data = encoded(request)
        deadline = self.deadline(timeout)
        with self._turn(deadline):
            self._connect_again()
            self._must_be_open()
            pending: Pending[Reply] = Pending(self, request)
            if self._hello is None:
                if isinstance(request, Hello):
                    self._hello = pending
                else:
                    self._hello = Pending(self, Hello())
                    self._waiting.append(self._hello)
                    data = encoded(Hello()) + data
            elif needs_hello(request) and self._hello.is_refused:
                raise NeedsHello("the server does not speak the protocol that has water and edits of several cells")
            self._waiting.append(pending)
            with self._ending_by_faults():
                self._link.send(data, deadline)
        return pending

    def send_query(self, start: Cell, goal: Cell) -> Pending[QueryReply]:
        """Sends a query without waiting for its reply."""
        return cast("Pending[QueryReply]", self.send(Query(start, goal)))

    def queries(self, ends: Iterable[Tuple[Cell, Cell]], in_flight: int = 256) -> Iterator[QueryReply]:
        """The reply to each query from a start to a goal, in their order, with up to so many in flight."""
        flying: Deque[Pending[QueryReply]] = collections.deque()
        for start, goal in ends:
            if len(flying) >= in_flight:
                yield flying.popleft().result()
            flying.append(self.send_query(start, goal))
        while flying:
            yield flying.popleft().result()

    def read_for(self, pending: Pending[Answer], deadline: float) -> None:
        """Reads the next reply, that of the request that was sent first of those in flight, by a time of
        `time.monotonic()`, unless this one is there by then; `Pending.result` calls it."""
        with self._turn(deadline):
            if pending.is_there:
                return
            self._must_be_open()
            with self._ending_by_faults():
                self._waiting[0].take(decoded(self._link.receive(deadline)))
            self._waiting.popleft()
            self._start_timeout = self._timeout
            self._has_heard = True

    @contextlib.contextmanager
    def _turn(self, deadline: float) -> Iterator[None]:
        """One thread at a time sends, or reads a reply."""
        began = time.monotonic()
        if not self._lock.acquire(timeout=-1 if math.isinf(deadline) else max(0.0, deadline - began)):
            raise TimedOut("the session's turn, which other threads have,", max(0.0, deadline - began))
        try:
            yield
        finally:
            self._lock.release()

    @contextlib.contextmanager
    def _ending_by_faults(self) -> Iterator[None]:
        """Notes the fault by which the session ends."""
        try:
            yield
        except TimedOut as late:
            if not self._has_heard and isinstance(self._link, TcpLink):
                raise TimedOut("a first reply (all doors of the server may be taken)", late.seconds) from None
            raise
        except PathServerError as fault:
            self._fault = fault
            for pending in self._waiting:
                pending.lose(fault)
            self._waiting.clear()
            raise

    def _connect_again(self) -> None:
        """Makes a new connection where one was lost, if that was asked for."""
        if self._again is not None and isinstance(self._fault, ConnectionLost) and not self._is_closed:
            self._link.close()
            self._link, self._fault, self._hello, self._has_heard = self._again(), None, None, False
            self.connections += 1

    # ---- its end

    def close(self) -> None:
        """Ends the connection, also while another thread waits for a reply. Requests in flight get no reply any more. A
        second time is no fault."""
        self._is_closed = True
        if not self._lock.acquire(blocking=False):
            self._link.interrupt()
            self._lock.acquire()
        try:
            self._link.close()
        finally:
            self._lock.release()

    def __enter__(self) -> Client:
        return self

    def __exit__(
        self, kind: Optional[Type[BaseException]], fault: Optional[BaseException], trace: Optional[TracebackType]
    ) -> None:
        self.close()

    def _must_be_open(self) -> None:
        if self._fault is not None:
            raise SessionOver("the session has ended by a fault") from self._fault
        if self._is_closed:
            raise SessionOver("the session was closed")

    def deadline(self, timeout: Optional[float]) -> float:
        """The time of `time.monotonic()` that lies so many seconds ahead, or as many as the client says."""
        return time.monotonic() + (self._start_timeout if timeout is None else timeout)
