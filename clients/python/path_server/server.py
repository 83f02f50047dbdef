"""Starts the program `path_server` as a server, and ends it."""

from __future__ import annotations

import contextlib
import random
import select
import socket
import subprocess
import time
from dataclasses import dataclass
from types import TracebackType
from typing import Callable, Optional, Type

from .client import Client
from .faults import ProgramEnded, TimedOut
from .programs import Program, find_program

_GRACE = 15.0  # seconds in which a server ends after a stop: open sessions have ten
_LOOK = 0.2  # seconds between two looks at what a program says while it starts
_PORTS = range(20_000, 32_768)  # below those that Linux gives to connections
_TRIES = 5  # free ports that may be taken by another before the server has them
_PORT_TAKEN = 5  # the program's status then


def free_port() -> int:
    """A port of this machine at which nobody listens now, and which the system doesn't give to connections."""
    for port in [*random.sample(_PORTS, 100), 0]:
        with socket.socket() as one, contextlib.suppress(OSError):
            one.bind(("127.0.0.1", port))
            found: int = one.getsockname()[1]
            return found
    raise OSError("no port of this machine is free")


@dataclass(frozen=True)
class Totals:
    """What a server says at its end: edits accepted, versions published, and the last version."""

    accepted: int
    published: int
    version: int


class Server:
    """A `path_server serve` of one's own, or a `path_server lead` where it has a port for followers. It is stopped by
    `stop`, or killed where a `with` block ends."""

    def __init__(
        self,
        map_file: str,
        *options: str,
        port: int = 0,
        doors: int = 8,
        feed: Optional[int] = None,
        program: Optional[str] = None,
        timeout: float = 60.0,
        heard: Optional[Callable[[str], object]] = None,
        keeps_stderr: bool = True,
    ) -> None:
        """Starts it at a port, or at a free one, and waits up to `timeout` seconds until it serves. With `feed` it
        leads: it feeds followers at that port, or at a free one where it is 0. What it says on standard error is kept
        for `told`, or goes where this Python's goes. `heard` is called with each piece of it until the program serves,
        where it is kept.

        NotConnected: there is no such program. ProgramEnded: it refuses the map, the port or the options. TimedOut: the
        map's database was not built in time.
        """
        command = [program or find_program(), "serve" if feed is None else "lead", map_file]
        for left in reversed(range(1 if port and feed != 0 else _TRIES)):
            self.port = port or free_port()
            self.feed = feed if feed != 0 else free_port()
            words = [str(word) for word in (self.port, doors, self.feed) if word is not None]
            self._program = Program([*command, *words, *options], has_input=False, keeps_stderr=keeps_stderr)
            self.process = self._program.process
            try:
                self._hear_first_line(timeout, heard or (lambda _: None))
                return
            except ProgramEnded as ended:
                if ended.status != _PORT_TAKEN or "port" not in ended.told or not left:
                    raise

    def _hear_first_line(self, timeout: float, heard: Callable[[str], object]) -> None:
        wanted = [b"serving %d\n" % self.port]
        if self.feed is not None:
            wanted.append(b"feeding %d\n" % self.feed)
        for each in wanted:
            self._wait_for_output(timeout, heard)
            line = self._program.output.readline()
            if line != each:
                self._program.end(timeout)
                raise ProgramEnded(self.process.returncode, self.told(), line)

    def _wait_for_output(self, timeout: float, heard: Callable[[str], object]) -> None:
        poll = select.poll()
        poll.register(self._program.output.fileno(), select.POLLIN)
        deadline, known = time.monotonic() + timeout, 0
        while not poll.poll(min(_LOOK, timeout) * 1000):
            told = self.told()
            if len(told) > known:
                heard(told[known:])
            known = len(told)
            if time.monotonic() >= deadline:
                self.kill()
                raise TimedOut("the server", timeout)

    def told(self) -> str:
        """What the program has said on standard error so far, or up to its end."""
        return self._program.told()

    def connect(self, timeout: float = 10.0) -> Client:
        """A session with it."""
        return Client.connect(self.port, timeout=timeout)

    def follow(self, rounds: int, *options: str, program: Optional[str] = None, timeout: float = 60.0) -> Client:
        """A session with a follower of it, which asks so many times. It needs a `feed`."""
        if self.feed is None:
            raise ValueError("the server has no port for followers")
        return Client.follow(self.feed, rounds, *options, program=program, timeout=timeout)

    def stop(self, timeout: float = _GRACE) -> Totals:
        """Stops it, waits until its last session has ended, and reads what it says then.

        Sessions that are still open are cut off after ten seconds. TimedOut: it did not end in time, and is killed.
        ProgramEnded: it ended with another status than 0.
        """
        try:
            with self.connect(timeout) as client:
                client.stop()
        except TimedOut:
            self.kill()
            raise
        return self.ended(timeout)

    def ended(self, timeout: float = _GRACE) -> Totals:
        """Waits until it has ended by a stop, and reads what it says then."""
        try:
            text = self.process.communicate(timeout=timeout)[0].decode(errors="replace")
        except subprocess.TimeoutExpired:
            self.kill()
            raise TimedOut("the server's end", timeout) from None
        self.kill()
        words = text.split()
        if self.process.returncode != 0 or words[0::2] != ["accepted", "published", "version"]:
            raise ProgramEnded(self.process.returncode, self.told(), text.encode())
        return Totals(*(int(word) for word in words[1::2]))

    def kill(self) -> None:
        """Ends the program at once, where it still runs. A second time is no fault."""
        self._program.end()

    def __enter__(self) -> Server:
        return self

    def __exit__(
        self, kind: Optional[Type[BaseException]], fault: Optional[BaseException], trace: Optional[TracebackType]
    ) -> None:
        self.kill()
