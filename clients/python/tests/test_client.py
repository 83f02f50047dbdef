#!/usr/bin/env python3
"""The client over both ways, TCP and a child process, and beside servers that are killed, slow or speak nonsense.

    PATH_SERVER=FILE clients/python/tests/test_client.py

FILE is the program. Stand-ins answer with bytes that no server sends.
"""

from __future__ import annotations

import asyncio
import contextlib
import io
import math
import os
import signal
import socket
import subprocess
import sys
import tempfile
import threading
import time
import unittest
from typing import Iterator

sys.path.insert(0, os.path.dirname(os.path.dirname(os.path.abspath(__file__))))

from path_server import (
    Accepted,
    BadReply,
    Change,
    Client,
    ConnectionLost,
    Done,
    Edit,
    EditFault,
    EditRefused,
    End,
    Hello,
    Move,
    NeedsHello,
    NotConnected,
    NothingNew,
    Path,
    PathServerError,
    ProgramEnded,
    Protocol,
    Published,
    Query,
    Reason,
    Refused,
    RequestRefused,
    Server,
    ServerOutOfMemory,
    SessionOver,
    Status,
    Terrain,
    TimedOut,
    Unreachable,
    Welcome,
    free_port,
)
from path_server import aio, frames

LEEWAY = 2.0  # seconds that an exception may come later than the time-out says, on a loaded machine
ROW = ".@."
HALL = "\n".join(["." * 60] * 40)
WELCOME = bytes.fromhex("00000002 8D 02")


@contextlib.contextmanager
def map_file(rows: str) -> Iterator[str]:
    """A file with that map."""
    lines = rows.split("\n")
    with tempfile.NamedTemporaryFile("w", suffix=".map") as file:
        file.write("type octile\nheight %d\nwidth %d\nmap\n%s\n" % (len(lines), len(lines[0]), rows))
        file.flush()
        yield file.name


@contextlib.contextmanager
def both_ways(rows: str, timeout: float = 10.0) -> Iterator[list[Client]]:
    """A session over TCP and one with a child process, over the same map."""
    with map_file(rows) as name, Server(name) as server:
        with server.connect(timeout) as over_tcp, Client.talk(name, timeout=timeout) as over_pipes:
            yield [over_tcp, over_pipes]


@contextlib.contextmanager
def stand_in(*answers: bytes, hello: bytes = WELCOME, hang_up: bool = True) -> Iterator[int]:
    """A port where a peer sends the next answer after each piece that it reads, the first one after its answer to a hello,
    and hangs up after the last."""
    with socket.socket() as listener:
        listener.bind(("127.0.0.1", 0))
        listener.listen()
        over = threading.Event()

        def peer() -> None:
            link, _ = listener.accept()
            with link, contextlib.suppress(OSError):
                for number, answer in enumerate(answers):
                    link.recv(64)
                    link.sendall(answer if number else hello + answer)
                if not hang_up:
                    over.wait(300)

        thread = threading.Thread(target=peer, daemon=True)
        thread.start()
        yield listener.getsockname()[1]
        over.set()
        thread.join(5)


@contextlib.contextmanager
def slow_program() -> Iterator[str]:
    """A program that answers a status and a query after a second, and then nothing until its input ends."""
    told = WELCOME + bytes.fromhex("00000019 89" + 24 * "00" + "00000005 82 00000000")
    text = "".join("\\%03o" % byte for byte in told)
    with tempfile.TemporaryDirectory() as folder:
        name = os.path.join(folder, "program")
        with open(name, "w", encoding="utf-8") as file:
            file.write("#!/bin/sh\nsleep 1\nprintf '%s'\nexec sed d\n" % text)
        os.chmod(name, 0o755)
        yield name


class Timed(unittest.TestCase):
    @contextlib.contextmanager
    def within(self, seconds: float) -> Iterator[None]:
        """What is inside takes about so long."""
        began = time.monotonic()
        yield
        taken = time.monotonic() - began
        self.assertLessEqual(taken, seconds + LEEWAY)
        self.assertGreaterEqual(taken, seconds - 0.05)


class Sessions(Timed):
    def test_each_request_and_reply(self) -> None:
        with both_ways(ROW) as clients:
            for client in clients:
                self.assertEqual(client.status(), Status(0, 0, 2, 2, 2))
                self.assertEqual(client.query((0, 0), (2, 0)), Unreachable(0))
                self.assertEqual(client.query((3, 0), (1, 0)), Refused(0, Reason.OUTSIDE, End.START))
                self.assertEqual(client.query((0, 0), (1, 0)), Refused(0, Reason.BLOCKED, End.GOAL))
                self.assertEqual(client.query((0, 0), (0, 0)), Path(0, 0, 0, b""))
                self.assertEqual(client.change((0, 1), Terrain.LAND), EditRefused(EditFault.OUTSIDE))
                self.assertEqual(client.change((1, 0), Terrain.LAND), Accepted(1))
                self.assertEqual(client.wait_for(1), Status(1, 1, 3, 1, 4))
                self.assertEqual(client.query((0, 0), (2, 0)), Path(1, 2, 0, bytes([Move.E, Move.E])))
                self.assertEqual(client.build(), NothingNew(1))
                self.assertEqual(client.bye(), Done())
                self.assertRaises(SessionOver, client.status)

    def test_a_hello(self) -> None:
        with both_ways("...") as clients:
            for client in clients:
                self.assertTrue(client.hello())
                ends = [((0, 0), Terrain.BLOCKED), ((2, 0), Terrain.BLOCKED)]
                self.assertEqual(client.edit(ends), Accepted(1))
                self.assertEqual(client.wait_for(1), Status(1, 1, 1, 1, 1))
                self.assertEqual(client.edit(ends[:1] * 2), EditRefused(EditFault.REPEATED))
                self.assertEqual(client.edit([((1, 0), Terrain.WATER)]), Accepted(2))
                self.assertTrue(client.hello())
                client.bye()

    def test_a_first_request_that_needs_a_hello(self) -> None:
        ends = [((0, 0), Terrain.BLOCKED), ((2, 0), Terrain.BLOCKED)]
        with both_ways("...") as clients:
            for number, client in enumerate(clients):
                if number == 0:
                    self.assertEqual(client.edit(ends), Accepted(1))
                else:
                    self.assertEqual(client.change((0, 0), Terrain.WATER), Accepted(1))
                self.assertTrue(client.hello())
                self.assertEqual(client.change((1, 0), Terrain.WATER), Accepted(2))
                client.bye()

    def test_a_hello_that_the_server_does_not_know(self) -> None:
        refusals = bytes.fromhex("00000004 8B 07 0002"), bytes.fromhex("00000004 8B 02 0006")
        accepted = bytes.fromhex("00000005 84 00000001")
        with stand_in(refusals[1], accepted, hello=refusals[0]) as port, Client.connect(port) as client:
            with self.assertRaises(RequestRefused) as refused:
                client.change((0, 0), Terrain.WATER)
            self.assertEqual((refused.exception.kind, refused.exception.length), (2, 6))
            self.assertFalse(client.hello())
            self.assertRaises(NeedsHello, client.change, (0, 0), Terrain.WATER)
            with self.assertRaises(NeedsHello):
                client.edit([((0, 0), Terrain.LAND), ((1, 0), Terrain.LAND)])
            self.assertEqual(client.change((0, 0), Terrain.LAND), Accepted(1))

    def test_edits_of_several_cells_at_any_time(self) -> None:
        ends = [((0, 0), Terrain.BLOCKED), ((2, 0), Terrain.WATER)]
        with both_ways("...") as clients:
            for client in clients:
                client.query((0, 0), (2, 0))
                self.assertEqual(client.edit(ends), Accepted(1))
                self.assertTrue(client.hello())

    def test_build(self) -> None:
        with map_file(ROW) as name, Client.talk(name) as client:
            client.change((1, 0), Terrain.LAND)
            self.assertEqual(client.status().lag, 1)
            self.assertEqual(client.build(), Published(1, 3, 0))

    def test_a_path_in_numbers(self) -> None:
        with both_ways("..\n..") as clients:
            for client in clients:
                path = client.query((0, 0), (1, 1))
                assert isinstance(path, Path)
                self.assertEqual((path.straight, path.diagonal, path.exact_length), (0, 1, "1.414213"))
                self.assertEqual((path.moves, path.length), ((Move.SE,), 2**0.5))
                self.assertEqual(path.cells((0, 0)), [(0, 0), (1, 1)])

    def test_a_thousand_in_flight(self) -> None:
        with both_ways(HALL) as clients:
            for client in clients:
                sent = [client.send_query((0, 0), (number % 60, number % 40)) for number in range(1000)]
                for number, pending in enumerate(sent):
                    path = pending.result()
                    assert isinstance(path, Path)
                    self.assertEqual(path.cells((0, 0))[-1], (number % 60, number % 40))

    def test_threads_that_share_a_session(self) -> None:
        def ask(client: Client, row: int, wrong: list[object]) -> None:
            for column in range(60):
                path = client.query((0, row), (column, row))
                if not isinstance(path, Path) or path.cells((0, row))[-1] != (column, row):
                    wrong.append(path)

        with both_ways(HALL) as clients:
            for client in clients:
                wrong: list[object] = []
                threads = [threading.Thread(target=ask, args=(client, row, wrong)) for row in range(16)]
                for thread in threads:
                    thread.start()
                for thread in threads:
                    thread.join(30)
                self.assertEqual(wrong, [])

    def test_a_thread_waits_no_longer_than_it_says(self) -> None:
        with stand_in(hang_up=False) as port, Client.connect(port, timeout=5) as client:
            first = threading.Thread(target=lambda: self.assertRaises(PathServerError, client.status), daemon=True)
            first.start()
            while not client._waiting:
                time.sleep(0.01)
            with self.within(0.2), self.assertRaises(TimedOut):
                client.status(timeout=0.2)
            with self.within(0):
                client.close()
            first.join(LEEWAY)
            self.assertFalse(first.is_alive())

    def test_more_in_flight_than_pipes_hold(self) -> None:
        # neither the requests nor the replies fit into pipes
        with both_ways(HALL) as clients:
            for client in clients:
                sent = [client.send_query((0, 0), (59, 39)) for _ in range(10_000)]
                self.assertEqual(len({pending.result() for pending in sent}), 1)

    def test_queries_in_their_order(self) -> None:
        goals = [(column, 0) for column in range(60)] * 10
        with both_ways(HALL) as clients:
            for client in clients:
                found = client.queries((((0, 0), goal) for goal in goals), in_flight=7)
                lengths = [path.straight for path in found if isinstance(path, Path)]
                self.assertEqual(lengths, [goal[0] for goal in goals])

    def test_wait_for_a_version_that_never_comes(self) -> None:
        with both_ways(ROW) as clients:
            for client in clients:
                with self.within(0.2), self.assertRaises(TimedOut):
                    client.wait_for(1, timeout=0.2)
                self.assertEqual(client.status().version, 0)

    def test_cells_that_are_none(self) -> None:
        with map_file(ROW) as name, Client.talk(name) as client:
            for cell in ((2.0, 0), (0, 0, 0), "ab", None):
                with self.assertRaisesRegex(TypeError, "^goal is a column and a row, two whole numbers, and not "):
                    client.query((0, 0), cell)  # type: ignore[arg-type]
            self.assertEqual(client.query((0, 0), (2, 0)), Unreachable(0))

    def test_numbers_that_fit_no_frame(self) -> None:
        with both_ways(ROW) as clients:
            for client in clients:
                self.assertRaises(ValueError, client.query, (-1, 0), (0, 0))
                self.assertRaises(ValueError, client.query, (0, 0), (65_536, 0))
                self.assertEqual(client.query((65_535, 0), (0, 0)), Refused(0, Reason.OUTSIDE, End.START))

    def test_edits_that_are_none(self) -> None:
        one = ((1, 0), Terrain.LAND)
        with map_file(ROW) as name, Client.talk(name) as client:
            for count in (0, 65):
                with self.assertRaisesRegex(ValueError, "^an edit has 1 to 64 changes, not %d$" % count):
                    client.edit([one] * count)
            with self.assertRaisesRegex(ValueError, r"^cell \(0, 65536\): columns and rows are from 0 to 65535$"):
                client.edit([one, ((0, 65_536), Terrain.LAND)])
            with self.assertRaisesRegex(TypeError, "one of Terrain, not 5"):
                client.change((1, 0), 5)  # type: ignore[arg-type]  # what untyped code may do
            self.assertEqual(client.change(*one), Accepted(1))

    def test_stop_beside_an_open_session(self) -> None:
        with map_file(ROW) as name, Server(name) as server, server.connect() as client:
            client.status()
            self.assertEqual(server.stop().version, 0)

    def test_a_server_ends_with_its_parent(self) -> None:
        folder = os.path.dirname(os.path.dirname(os.path.abspath(__file__)))
        begin = "import os, sys; sys.path.insert(0, %r); from path_server import Server; server = Server(%r, port=%d)"
        for how, end in {"at its end": "", "killed": "; os.kill(os.getpid(), 9)"}.items():
            with self.subTest(how), map_file(ROW) as name:
                port = free_port()
                subprocess.run([sys.executable, "-c", begin % (folder, name, port) + end], check=False)
                time.sleep(0.2)
                self.assertRaises(NotConnected, Client.connect, port)

    def test_what_a_server_says_while_it_starts(self) -> None:
        heard: list[str] = []
        with tempfile.TemporaryDirectory() as folder:
            program = os.path.join(folder, "program")
            with open(program, "w", encoding="utf-8") as file:
                file.write("#!/bin/sh\necho 1 >&2\nsleep 1\necho 2 >&2\nsleep 2\necho serving $3\nexec sleep 60\n")
            os.chmod(program, 0o755)
            with Server("-", program=program, heard=heard.append) as server:
                self.assertEqual("".join(heard), "1\n2\n")
                self.assertEqual(server.told(), "1\n2\n")

    def test_stop(self) -> None:
        with map_file(ROW) as name, Server(name) as server:
            with server.connect() as client:
                client.change((1, 0), Terrain.LAND)
                client.wait_for(1)
            self.assertEqual(server.stop().version, 1)
            self.assertRaises(NotConnected, server.connect)


class Asyncio(Timed):
    """The same calls over asyncio."""

    def test_each_call(self) -> None:
        async def session(port: int) -> None:
            async with await aio.Client.connect(port) as client:
                self.assertEqual(await client.query((0, 0), (2, 0)), Unreachable(0))
                self.assertTrue(await client.hello())
                self.assertEqual(await client.edit([((1, 0), Terrain.LAND), ((0, 0), Terrain.LAND)]), Accepted(1))
                self.assertEqual(await client.change((0, 0), Terrain.WATER), Accepted(2))
                self.assertEqual((await client.wait_for(2)).version, 2)
                self.assertEqual(await client.build(), NothingNew(2))
                self.assertEqual(await client.bye(), Done())
                with self.assertRaises(SessionOver):
                    await client.status()

        with map_file(ROW) as name, Server(name) as server:
            asyncio.run(session(server.port))

    def test_many_in_flight(self) -> None:
        async def session(port: int) -> None:
            async with await aio.Client.connect(port) as client:
                goals = [(column, row) for row in range(40) for column in range(60)]
                answers = await asyncio.gather(*(client.query((0, 0), goal) for goal in goals))
                for goal, answer in zip(goals, answers):
                    assert isinstance(answer, Path)
                    self.assertEqual(answer.cells((0, 0))[-1], goal)

        with map_file(HALL) as name, Server(name) as server:
            asyncio.run(session(server.port))

    def test_faults(self) -> None:
        async def late(port: int) -> None:
            async with await aio.Client.connect(port, timeout=0.2) as client:
                with self.within(0.2), self.assertRaises(TimedOut):
                    await client.status()

        async def lost(port: int) -> None:
            async with await aio.Client.connect(port) as client:
                with self.assertRaises(ConnectionLost):
                    await asyncio.gather(client.status(), client.status())
                with self.assertRaises(SessionOver):
                    await client.status()

        async def nonsense(port: int) -> None:
            async with await aio.Client.connect(port) as client:
                with self.assertRaises(BadReply):
                    await client.status()

        async def nobody(port: int) -> None:
            with self.assertRaises(NotConnected):
                await aio.Client.connect(port, timeout=1)

        with stand_in(hang_up=False) as port:
            asyncio.run(late(port))
        with stand_in(b"") as port:
            asyncio.run(lost(port))
        with stand_in(b"HTTP/1.1 400 Bad Request\r\n\r\n", hang_up=False) as port:
            asyncio.run(nonsense(port))
        asyncio.run(nobody(free_port()))


class Faults(Timed):
    """What goes wrong, each with its exception and within the time that was said."""

    def test_a_server_that_is_killed(self) -> None:
        with map_file(ROW) as name, Server(name) as server, server.connect() as client:
            client.status()
            server.kill()
            with self.within(0), self.assertRaises(ConnectionLost):
                client.query((0, 0), (2, 0))
            with self.assertRaises(SessionOver) as over:
                client.status()
            self.assertIsInstance(over.exception.__cause__, ConnectionLost)

    def test_a_connection_that_is_made_again(self) -> None:
        with map_file(ROW) as name, Server(name) as first:
            with Client.connect(first.port, reconnect=True) as client:
                self.assertEqual(client.change((1, 0), Terrain.LAND), Accepted(1))
                os.kill(first.process.pid, signal.SIGSTOP)
                os.waitpid(first.process.pid, os.WUNTRACED)  # all its threads have stopped
                lost = client.send_query((0, 0), (2, 0))
                first.kill()
                with self.assertRaises(ConnectionLost):
                    lost.result()
                with self.assertRaises(NotConnected):
                    client.status()
                with Server(name, port=first.port):
                    self.assertEqual(client.status().accepted, 0)
                    self.assertEqual(client.connections, 2)
                    self.assertRaises(SessionOver, lost.result)

    def test_a_program_that_is_killed(self) -> None:
        with map_file(ROW) as name, Client.talk(name) as client:
            client.status()
            client._link.process.kill()  # type: ignore[attr-defined]
            with self.within(0), self.assertRaises(ProgramEnded) as ended:
                client.query((0, 0), (2, 0))
            self.assertEqual(ended.exception.status, -signal.SIGKILL)

    def test_a_server_that_is_slow(self) -> None:
        with map_file(ROW) as name, Server(name) as server, server.connect(0.3) as client:
            client.status()
            os.kill(server.process.pid, signal.SIGSTOP)
            os.waitpid(server.process.pid, os.WUNTRACED)
            pending = client.send_query((0, 0), (2, 0))
            with self.within(0.3), self.assertRaises(TimedOut) as late:
                pending.result()
            self.assertEqual(round(late.exception.seconds, 1), 0.3)
            with self.within(0.1), self.assertRaises(TimedOut):
                client.status(timeout=0.1)
            os.kill(server.process.pid, signal.SIGCONT)
            self.assertEqual(pending.result(5), Unreachable(0))
            self.assertEqual(client.status(5).version, 0)

    def test_a_program_that_builds_for_long(self) -> None:
        with slow_program() as program:
            with Client.talk("-", program=program, timeout=0.2) as client:
                with self.within(0.1), self.assertRaises(TimedOut):
                    client.status(timeout=0.1)
                self.assertEqual(client.query((0, 0), (2, 0)), Unreachable(0))
                with self.within(0.2), self.assertRaises(TimedOut):
                    client.query((0, 0), (2, 0))
            with Client.talk("-", program=program, timeout=0.2, start_timeout=0.3) as client:
                with self.within(0.3), self.assertRaises(TimedOut):
                    client.query((0, 0), (2, 0))

    def test_a_server_that_takes_nothing(self) -> None:
        with stand_in(hang_up=False) as port, Client.connect(port, timeout=0.3) as client:
            with self.assertRaises(TimedOut):
                for _ in range(10**6):
                    client.send(Edit(64 * (Change((0, 0), Terrain.LAND),)))

    def test_a_server_without_a_free_door(self) -> None:
        with map_file(ROW) as name, Server(name, doors=1) as server, server.connect() as first:
            first.status()
            with server.connect(0.2) as second, self.within(0.2):
                self.assertRaises(TimedOut, second.status)

    def test_nonsense(self) -> None:
        said = {
            "a length above all": bytes.fromhex("0000800D"),
            "an empty frame": bytes.fromhex("00000000"),
            "no kind of reply": bytes.fromhex("0000000101"),
            "a frame too short": bytes.fromhex("0000000482000000"),
            "a frame too long": bytes.fromhex("00000006820000000000"),
            "a reason that is none": bytes.fromhex("00000007830000000003 00"),
            "a move that is none": bytes.fromhex("0000000E 81 00000000 00000001 00000000 08"),
            "moves that are not counted": bytes.fromhex("0000000E 81 00000000 00000001 00000000 01"),
            "the reply to another request": bytes.fromhex("000000018A"),
            "text": b"HTTP/1.1 400 Bad Request\r\n\r\n",
        }
        for name, data in said.items():
            with self.subTest(name), stand_in(data, hang_up=False) as port, Client.connect(port, timeout=5) as client:
                with self.within(0), self.assertRaises(BadReply):
                    client.query((0, 0), (2, 0))
                with self.assertRaises(SessionOver) as over:
                    client.status()
                self.assertIsInstance(over.exception.__cause__, BadReply)

    def test_a_program_that_is_another(self) -> None:
        for program, kind in (("/bin/echo", BadReply), ("/bin/true", ProgramEnded), ("/nowhere", NotConnected)):
            with self.subTest(program), self.assertRaises(kind), Client.talk("-", program=program) as client:
                client.status()

    def test_half_a_reply(self) -> None:
        with stand_in(bytes.fromhex("0000000582")) as port, Client.connect(port) as client:
            with self.within(0), self.assertRaises(ConnectionLost) as lost:
                client.query((0, 0), (2, 0))
            self.assertEqual(lost.exception.held.hex(), "0000000582")

    def test_what_the_server_refuses(self) -> None:
        answers = (
            bytes.fromhex("000000018C"),
            bytes.fromhex("00000004 8B 01 0009"),
            bytes.fromhex("00000005 82 00000007"),
        )
        with stand_in(*answers) as port, Client.connect(port) as client:
            self.assertRaises(ServerOutOfMemory, client.query, (0, 0), (2, 0))
            self.assertRaises(RequestRefused, client.query, (0, 0), (2, 0))
            self.assertEqual(client.query((0, 0), (2, 0)), Unreachable(7))

    def test_nobody_there(self) -> None:
        with self.assertRaises(NotConnected) as fault:
            Client.connect(free_port(), timeout=1)
        self.assertIsInstance(fault.exception.__cause__, ConnectionRefusedError)

    def test_a_map_that_is_refused(self) -> None:
        with map_file("..x") as name:
            with Client.talk(name) as client, self.assertRaises(ProgramEnded) as ended:
                client.query((0, 0), (2, 0))
            self.assertEqual(ended.exception.status, 2)
            self.assertIn("'x'", ended.exception.told)
            with self.assertRaises(ProgramEnded):
                Server(name)

    def test_a_port_that_is_taken(self) -> None:
        with map_file(ROW) as name, Server(name) as server, self.assertRaises(ProgramEnded) as ended:
            Server(name, port=server.port)
        self.assertIn("is taken", ended.exception.told)

    def test_every_fault_is_one(self) -> None:
        for kind in (BadReply, ConnectionLost, NotConnected, ProgramEnded, SessionOver, TimedOut, ServerOutOfMemory):
            self.assertTrue(issubclass(kind, PathServerError))


class Readme(unittest.TestCase):
    """README.md: its examples, one after the other, at the top of the repository."""

    def test_its_examples(self) -> None:
        folder = os.path.dirname(os.path.dirname(os.path.abspath(__file__)))
        with open(os.path.join(folder, "README.md"), encoding="utf-8") as file:
            examples = [part.split("```")[0] for part in file.read().split("```python\n")[1:]]
        place = os.getcwd()
        os.chdir(os.path.join(folder, "../.."))
        said = []
        try:
            for code in examples:
                with contextlib.redirect_stdout(io.StringIO()) as out:
                    exec(code, {})
                said.append(out.getvalue().splitlines())
        finally:
            os.chdir(place)
        first, second = said
        self.assertTrue(first[0].startswith("26 12 42.970562"), first[0])
        self.assertEqual(first[1], "Status(version=1, accepted=1, cells=597, components=1, runs=21754)")
        self.assertEqual((len(first), len(second)), (3 + 11, 11))


class Frames(unittest.TestCase):
    """docs/reference/formats.md, "Frames": its examples, and what it refuses."""

    def test_requests(self) -> None:
        self.assertEqual(frames.encoded(Query((0, 0), (2, 0))).hex(" "), "00 09 01 00 00 00 00 00 02 00 00")
        change = frames.Change((1, 0), Terrain.LAND)
        self.assertEqual(frames.encoded(change).hex(" "), "00 06 02 00 01 00 00 01")
        bare: list[frames.Request] = [frames.Build(), frames.Stop()]
        self.assertEqual([frames.encoded(request).hex() for request in bare], ["000103", "000106"])

    def test_edits_of_several_changes(self) -> None:
        edit = Edit((frames.Change((0, 0), Terrain.BLOCKED), frames.Change((2, 0), Terrain.WATER)))
        self.assertEqual(frames.encoded(edit).hex(" "), "00 0c 08 02 00 00 00 00 00 00 02 00 00 02")
        self.assertEqual(frames.decoded_request(frames.frame_of(edit), Protocol.TWO), edit)
        self.assertIsNone(frames.decoded_request(frames.frame_of(edit), Protocol.ONE))
        self.assertRaises(ValueError, frames.encoded, Edit(edit.changes * 33))
        self.assertRaises(ValueError, frames.encoded, Edit(edit.changes[:1]))

    def test_the_first_frame_decides(self) -> None:
        long = frames.framed(b"\x08" + bytes(321))
        self.assertEqual([len(each) for each in frames.split_requests(frames.encoded(Hello()) + long)[0]], [2, 322])
        self.assertEqual(frames.split_requests(frames.encoded(frames.Build()) + long), ([b"\3"], long))
        self.assertEqual(frames.split_requests(long), ([], long))
        self.assertEqual(frames.decoded(b"\x8d\2"), Welcome())
        self.assertRaises(BadReply, frames.decoded, b"\x8d\1")

    def test_replies(self) -> None:
        told = bytes.fromhex("0000000582000000000000000F81000000010000000200000000020200")
        whole, rest = frames.split_replies(told)
        self.assertEqual([frames.decoded(frame) for frame in whole], [Unreachable(0), Path(1, 2, 0, bytes([Move.E, Move.E]))])
        self.assertEqual(rest, b"\0")
        self.assertRaises(BadReply, frames.decoded, b"")

    def test_every_other_length_is_refused(self) -> None:
        for kind, size in {
            0x82: 5,
            0x83: 7,
            0x84: 5,
            0x85: 2,
            0x86: 13,
            0x87: 5,
            0x89: 25,
            0x8A: 1,
            0x8B: 4,
            0x8C: 1,
        }.items():
            for other in set(range(1, 40)) - {size}:
                self.assertRaises(BadReply, frames.decoded, bytes([kind]) + b"\1" * (other - 1))

    def test_lengths_are_cut_off(self) -> None:
        self.assertEqual(Path(0, 26, 12, b"").exact_length, "42.970562")
        self.assertEqual(Path(0, 0, 32_767, b"").micro_length, math.isqrt(2 * 32_767**2 * 10**12))


if __name__ == "__main__":
    unittest.main(warnings="error")
