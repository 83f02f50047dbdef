"""Bytes to and from a server: over TCP, or through the pipes of a child process.

A link sends and reads at once: while it waits for room to send it takes what comes in, so that any number of requests
may be in flight. Deadlines are times of `time.monotonic()`, in seconds.
"""

from __future__ import annotations

import abc
import array
import collections
import contextlib
import math
import os
import select
import socket
import subprocess
import time
from typing import Deque, NoReturn, Optional, Sequence

from .faults import BadReply, ConnectionLost, NotConnected, ProgramEnded, TimedOut
from .frames import split_replies
from .programs import Program

_PIECE = 1 << 16
_LAST_WORDS = 1.0  # seconds in which a program ends that has closed its output


class Link(abc.ABC):
    """One connection. It is for one thread at a time, but for `interrupt`."""

    def __init__(self, read_end: int, write_end: int) -> None:
        self._read_end, self._write_end = read_end, write_end
        self._unsent = bytearray()
        self._held = b""
        self._frames: Deque[bytes] = collections.deque()
        self._send_fault: Optional[OSError] = None
        for end in (read_end, write_end):
            os.set_blocking(end, False)

    def send(self, data: bytes, deadline: float) -> None:
        """Sends bytes, any at all.

        TimedOut: the other side did not take them in time. What was not sent goes first with the next `send`.
        ConnectionLost, BadReply: as of `receive`. A connection that can no longer be written is told by `receive`, for
        replies may have come before.
        """
        self._unsent += data
        began = time.monotonic()
        while self._unsent and self._send_fault is None:
            self._exchange(deadline, began, "room to send")

    def receive(self, deadline: float) -> bytes:
        """The next reply's frame, without its length.

        TimedOut: it did not come in time, and may still come. ConnectionLost: the connection ended or failed before it
        was whole. BadReply: its length is none.
        """
        began = time.monotonic()
        while not self._frames:
            self._exchange(deadline, began, "a reply")
        return self._frames.popleft()

    def end(self, deadline: float) -> None:
        """Waits until the other side has closed the connection.

        TimedOut: it did not in time. BadReply: it sent something before.
        """
        try:
            found = self.receive(deadline)
        except ConnectionLost as lost:
            found = lost.held
            if not found:
                return
        raise BadReply("bytes came in where the connection should end", found)

    def _exchange(self, deadline: float, began: float, what: str) -> None:
        """Sends and reads what goes at once, or waits until something does."""
        poll = select.poll()
        poll.register(self._read_end, select.POLLIN)
        if self._unsent and self._send_fault is None:
            same = self._read_end == self._write_end
            poll.register(self._write_end, select.POLLOUT | (select.POLLIN if same else 0))
        left = max(0.0, deadline - time.monotonic())
        ready = poll.poll(None if math.isinf(left) else math.ceil(left * 1000))
        if not ready:
            raise TimedOut(what, max(0.0, deadline - began))
        for end, events in ready:
            if end == self._write_end and self._unsent and events & ~select.POLLIN:
                self._write_some()
            if end == self._read_end and events & ~select.POLLOUT:
                self._read_some()

    def _write_some(self) -> None:
        try:
            del self._unsent[: os.write(self._write_end, self._unsent[:_PIECE])]
        except BlockingIOError:
            pass
        except OSError as fault:
            self._send_fault = fault
            self._unsent.clear()

    def _read_some(self) -> None:
        try:
            piece = os.read(self._read_end, _PIECE)
        except BlockingIOError:
            return
        except OSError as fault:
            self._lost(fault)
        if not piece:
            self._lost(self._send_fault)
        frames, self._held = split_replies(self._held + piece)
        self._frames.extend(frames)

    @abc.abstractmethod
    def _lost(self, cause: Optional[OSError]) -> NoReturn:
        """Raises what is to be said of a connection that is no longer there."""

    @abc.abstractmethod
    def end_input(self) -> None:
        """Tells the other side that no more is sent; its replies may still be read."""

    @abc.abstractmethod
    def interrupt(self) -> None:
        """Ends what another thread waits for here, by a fault of its own."""

    @abc.abstractmethod
    def close(self) -> None:
        """Ends the connection. A second time is no fault."""


class TcpLink(Link):
    """A connection over TCP."""

    def __init__(self, port: int, host: str = "127.0.0.1", timeout: float = 10.0) -> None:
        """Connects within `timeout` seconds.

        NotConnected: nobody answers there, or not in time.
        """
        try:
            limit = None if math.isinf(timeout) else timeout
            self._socket = socket.create_connection((host, port), timeout=limit)
        except (OSError, OverflowError) as fault:
            raise NotConnected("nobody answers at port %d of %s" % (port, host)) from fault
        self._socket.setsockopt(socket.IPPROTO_TCP, socket.TCP_NODELAY, 1)
        super().__init__(self._socket.fileno(), self._socket.fileno())

    def _lost(self, cause: Optional[OSError]) -> NoReturn:
        raise ConnectionLost("the server closed the connection", self._held) from cause

    def end_input(self) -> None:
        self._socket.shutdown(socket.SHUT_WR)

    def interrupt(self) -> None:
        with contextlib.suppress(OSError):
            self._socket.shutdown(socket.SHUT_RDWR)

    def close(self) -> None:
        self._socket.close()

    def reset(self) -> None:
        """Ends the connection with a reset: what was sent may be lost."""
        linger = array.array("i", [1, 0]).tobytes()  # on, and for 0 seconds
        self._socket.setsockopt(socket.SOL_SOCKET, socket.SO_LINGER, linger)
        self._socket.close()


class ChildLink(Link):
    """A child process whose standard input and output are the connection."""

    def __init__(self, command: Sequence[str]) -> None:
        """Starts it.

        NotConnected: it could not be started.
        """
        self._program = Program(command, has_input=True)
        self.process = self._program.process
        super().__init__(self._program.output.fileno(), self._program.input.fileno())

    def first_line(self, deadline: float) -> bytes:
        """The line that the program puts before the first reply, without its end.

        TimedOut: it did not come in time. ProgramEnded: the program ended before it was whole.
        """
        began, line = time.monotonic(), b""
        poll = select.poll()
        poll.register(self._read_end, select.POLLIN)
        while not line.endswith(b"\n"):
            left = max(0.0, deadline - time.monotonic())
            if not poll.poll(None if math.isinf(left) else math.ceil(left * 1000)):
                raise TimedOut("the program's first line", max(0.0, deadline - began))
            byte = os.read(self._read_end, 1)
            if not byte:
                self._held = line
                self._lost(None)
            line += byte
        return line[:-1]

    def told(self) -> str:
        """What the program has said on standard error so far, or up to its end."""
        return self._program.told()

    def _lost(self, cause: Optional[OSError]) -> NoReturn:
        try:
            status: Optional[int] = self.process.wait(_LAST_WORDS)
        except subprocess.TimeoutExpired:
            status = None
        raise ProgramEnded(status, self.told(), self._held) from cause

    def end_input(self) -> None:
        self._program.input.close()
        self._write_end = -1

    def interrupt(self) -> None:
        self.process.kill()

    def close(self) -> None:
        """Closes the pipes, at which the program ends; it is killed where it does not in a second."""
        self._program.end(_LAST_WORDS)
