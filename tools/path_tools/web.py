"""The page of `./demo`: a small web server before a `path_server lead`, both at 127.0.0.1.

| request | answer, as JSON but for the page's two files |
|---|---|
| GET / and /page.js | the page |
| GET /map | the map that the server began with: its name, its rows, two ends, and the order of the cells |
| GET /look?edits=N[&ends=SX,SY,GX,GY] | the version and its numbers, the edits behind the N-th, a query's answer |
| POST /change {"cells": [[X, Y], ..], "terrain": NAME} | how many edits are accepted, and why others were not |

A fault of the server is answered with status 503 and its text. Whoever can reach the port can edit: so the page is
answered only where it is asked for at 127.0.0.1 or localhost, and changes come as JSON, which other sites may not send.
Terrains have the names of the client's `Terrain`, in small letters.
"""

from __future__ import annotations

import argparse
import json
import os
import socket
import sys
import threading
import time
import webbrowser
from http.server import BaseHTTPRequestHandler, ThreadingHTTPServer
from itertools import takewhile
from typing import Any, Callable, Dict, List, Optional, Tuple, TypeVar, Union, cast
from urllib.parse import parse_qs, urlsplit

from path_server import (
    Accepted,
    AskStatus,
    Cell,
    Client,
    ConnectionLost,
    Path,
    PathServerError,
    ProgramEnded,
    Refused,
    Server,
    SessionOver,
    Status,
    Terrain,
)
from path_server.frames import MAX_COORDINATE, QueryReply

from . import TOP, program_here
from .feeds import Changes, edits_after
from .grids import Grid, MapFault, read_grid
from .searches import ORDERS, components

Json = Dict[str, object]
Found = TypeVar("Found")
PAGE = os.path.join(os.path.dirname(os.path.abspath(__file__)), "page")
FILES = {"/": ("page.html", "text/html"), "/page.js": ("page.js", "text/javascript")}
LOOK_PAUSE = 0.002
"""Seconds between two looks at the version while an edit waits for its own."""
MAX_BODY = 1 << 20
"""Bytes of the longest change that is read."""


class Table:
    """The server's map and its edits, and one session that all threads share."""

    def __init__(self, name: str, grid: Grid, server: Server, order: str, start_ms: float) -> None:
        self.name, self.grid, self.order = os.path.basename(name), grid, order
        self._run = str(time.time_ns())
        self._behind: Optional[Tuple[int, float]] = None
        self._last_ms = start_ms
        self._server = server
        self._client: Optional[Client] = None
        self._session, self._news = threading.Lock(), threading.Condition()
        self._edits: Dict[int, Changes] = {}
        self._awaited: Optional[Tuple[int, float]] = None
        self.build_ms: Optional[float] = None
        threading.Thread(target=self._watch, daemon=True).start()

    def asked(self, work: Callable[[Client], Found]) -> Found:
        """What some work with the session finds. A session that the server has ended, as after five silent minutes or a
        million requests, is begun anew once."""
        with self._session:
            for is_last in (self._client is None, True):
                self._client = self._client or self._connected()
                try:
                    return work(self._client)
                except (ConnectionLost, SessionOver):
                    self._client.close()
                    self._client = None
                    if is_last:
                        raise
            raise AssertionError("the second try returns or raises")

    def _connected(self) -> Client:
        client = self._server.connect()
        client.hello()  # for water
        return client

    def change(self, cells: List[Cell], terrain: Terrain) -> Json:
        """Changes cells, and tells how many edits are accepted now and why others were refused."""

        def work(client: Client) -> Json:
            refused: List[str] = []
            last = None
            for cell in cells:
                answer = client.change(cell, terrain)
                if isinstance(answer, Accepted):
                    last = answer.number
                    self._edits[last] = [(*cell, terrain.value)]
                    self._await(last)
                else:
                    refused.append(answer.fault.name.lower().replace("_", " "))
            return {"accepted": last, "refused": sorted(set(refused))}

        return self.asked(work)

    def _await(self, number: int) -> None:
        """Lets the watcher wait for the version with this edit, accepted just now."""
        with self._news:
            self._awaited = (number, time.monotonic())
            self._news.notify()

    def look(self, known: int, ends: Optional[List[int]]) -> Json:
        """The version, the edits behind those that are known, and the answer to a query where there are ends."""

        def work(client: Client) -> Json:
            began = time.perf_counter()
            query = client.send_query((ends[0], ends[1]), (ends[2], ends[3])) if ends else None
            status = client.send(AskStatus())
            answer = answer_of(query.result()) if query else None
            query_ms = (time.perf_counter() - began) * 1000
            found = status.result()
            assert isinstance(found, Status)
            told: Json = dict(vars(found), run=self._run, build_ms=self.build_ms, answer=answer, query_ms=query_ms)
            told.update(self._progress(found))
            return told

        told = self.asked(work)
        told["edits"] = self._edits_between(known, cast(int, told["accepted"]))
        return told

    def _edits_between(self, known: int, accepted: int) -> List[Changes]:
        """The edits after the first `known` ones. Those that came past this page are read from the server's feed; where
        that fails, they and all later ones are missing, and the next look asks for them."""
        numbers = range(known + 1, accepted + 1)
        unread = next((number for number in numbers if number not in self._edits), None)
        if unread is not None and self._server.feed is not None:
            try:
                self._edits.update(enumerate(edits_after(self._server.feed, unread - 1), unread))
            except PathServerError:
                pass  # the page counts what it has not got
        return [self._edits[number] for number in takewhile(self._edits.__contains__, numbers)]

    def _progress(self, found: Status) -> Json:
        """For how long the version after the published one is waited for, and how long the one before it was."""
        now = time.monotonic()
        if self._behind and self._behind[0] != found.version:
            self._last_ms = (now - self._behind[1]) * 1000
            self._behind = None
        if found.lag == 0:
            return {}
        self._behind = self._behind or (found.version, now)
        return {"waited_ms": (now - self._behind[1]) * 1000, "last_ms": self._last_ms}

    def explained(self, fault: PathServerError) -> str:
        """A fault, in the words of the page."""
        status = self._server.process.poll()
        if status is None:
            return "path_server does not answer: %s" % fault
        how = "was ended by signal %d" % -status if status < 0 else "has ended with status %d" % status
        return "path_server is gone: it %s. End ./demo with Ctrl-C and start it again" % how

    def _watch(self) -> None:
        """Measures how long the newest edit waits for the version that has it."""
        while True:
            with self._news:
                while self._awaited is None:
                    self._news.wait()
                (number, began), self._awaited = self._awaited, None
            try:
                while self.asked(Client.status).version < number:
                    time.sleep(LOOK_PAUSE)
                self.build_ms = (time.monotonic() - began) * 1000
            except PathServerError:
                pass  # the page's own requests tell of it

    def begin(self) -> Json:
        """The map that the server began with, and two ends: the first and the last cell of its largest component."""
        largest: List[int] = max(components(self.grid), key=len, default=[0])
        ends = [*self.grid.cell(largest[0]), *self.grid.cell(largest[-1])]
        terrains = [{"name": terrain.name.lower(), "value": terrain.value} for terrain in Terrain]
        return {
            "run": self._run,
            "name": self.name,
            "rows": self.grid.rows(),
            "ends": ends,
            "order": self.order,
            "terrains": terrains,
        }


def answer_of(reply: QueryReply) -> Json:
    """A query's answer for the page."""
    if isinstance(reply, Path):
        return {
            "kind": "path",
            "version": reply.version,
            "straight": reply.straight,
            "diagonal": reply.diagonal,
            "length": reply.exact_length,
            "moves": list(reply.move_bytes),
        }
    if isinstance(reply, Refused):
        return {
            "kind": "refused",
            "version": reply.version,
            "text": "%s %s" % (reply.reason.name.lower(), reply.end.name.lower()),
        }
    return {"kind": "unreachable", "version": reply.version}


class Handler(BaseHTTPRequestHandler):
    """Answers one connection of a browser."""

    protocol_version = "HTTP/1.1"
    disable_nagle_algorithm = True
    table: Table

    def do_GET(self) -> None:
        """The page, the map, and looks."""
        place = urlsplit(self.path)
        if not self._is_asked_here():
            self._send(403, {"fault": "this page is for 127.0.0.1 alone"})
        elif place.path in FILES:
            name, kind = FILES[place.path]
            with open(os.path.join(PAGE, name), "rb") as file:
                self._send(200, file.read(), kind + "; charset=utf-8")
        elif place.path == "/map":
            self._answer(self.table.begin)
        elif place.path == "/look":
            words = parse_qs(place.query)
            self._answer(lambda: self.table.look(_numbers(words, "edits", 1)[0], _numbers(words, "ends", 4) or None))
        else:
            self._send(404, {"fault": "there is nothing here"})

    def do_POST(self) -> None:
        """Changes."""
        size = self.headers.get("Content-Length", "")
        body = self.rfile.read(int(size)) if size.isdecimal() and int(size) <= MAX_BODY else b""
        is_json = self.headers.get_content_type() == "application/json"
        if not self._is_asked_here() or not is_json or self.path != "/change":
            self.close_connection = True
            self._send(403, {"fault": "changes come as JSON, from the page itself"})
            return
        self.close_connection = self.close_connection or not body
        self._answer(lambda: self._change(json.loads(body)))

    def _change(self, asked: Any) -> Json:
        """Makes the change that a browser's JSON asks for, which may be anything: faults are raised as it is read."""
        cells = [(int(column), int(row)) for column, row in asked["cells"]]
        if any(not 0 <= number <= MAX_COORDINATE for cell in cells for number in cell):
            raise ValueError("no such cell")
        return self.table.change(cells, Terrain[str(asked["terrain"]).upper()])

    def _is_asked_here(self) -> bool:
        host = urlsplit("//" + (self.headers.get("Host") or "")).hostname
        origin = self.headers.get("Origin")
        return host in ("127.0.0.1", "localhost") and (
            origin is None or urlsplit(origin).netloc == self.headers.get("Host")
        )

    def _answer(self, work: Callable[[], Json]) -> None:
        try:
            self._send(200, work())
        except PathServerError as fault:
            self._send(503, {"fault": self.table.explained(fault)})
        except (ValueError, KeyError, TypeError, LookupError) as fault:
            self._send(400, {"fault": "faulty request: %s" % fault})

    def _send(self, status: int, body: Union[bytes, Json], kind: str = "application/json") -> None:
        data = body if isinstance(body, bytes) else json.dumps(body).encode()
        self.send_response(status)
        for name, value in (("Content-Type", kind), ("Content-Length", str(len(data))), ("Cache-Control", "no-store")):
            self.send_header(name, value)
        self.end_headers()
        try:
            self.wfile.write(data)
        except ConnectionError:
            self.close_connection = True

    def log_message(self, format: str, *args: object) -> None:
        """Nothing: a request comes with each frame."""


def _numbers(words: Dict[str, List[str]], name: str, count: int) -> List[int]:
    """Numbers of a query string: so many, or none where the name is not there."""
    if name not in words:
        return [0] if count == 1 else []
    found = [int(word) for word in words[name][0].split(",")]
    if len(found) != count or any(not 0 <= number <= 2**32 for number in found):
        raise ValueError("%s has %d numbers" % (name, count))
    return found


class QuietServer(ThreadingHTTPServer):
    """A web server that says nothing of browsers that hang up."""

    daemon_threads = True

    def handle_error(
        self, request: Union[socket.socket, Tuple[bytes, socket.socket]], client_address: Tuple[str, int]
    ) -> None:
        """Prints what is not a browser's hanging up."""
        if not isinstance(sys.exc_info()[1], ConnectionError):
            super().handle_error(request, client_address)


def read_words(about: str) -> argparse.Namespace:
    """What is asked for."""
    head, end = about.split("\n\n")
    parser = argparse.ArgumentParser(prog="demo", description=head, epilog=end)
    parser.add_argument(
        "map", metavar="MAP", nargs="?", default=os.path.join(TOP, "maps/tutorial.map"), help="the map (the tutorial)"
    )
    parser.add_argument("--port", type=int, default=0, help="the port of the page (a free one)")
    parser.add_argument("--order", choices=ORDERS, default="rows", help="the order of the cells in the database")
    parser.add_argument("--workers", type=int, default=1, help="the number of threads that build (1)")
    parser.add_argument("--no-browser", action="store_true", help="only print the page's address")
    return parser.parse_args()


def main(about: str) -> int:
    """Serves until Ctrl-C. Status: 0 stopped so; 1 it could not be started, and a line says why; 2 faulty words."""
    asked = read_words(about)
    try:
        options = ["--order", asked.order, "--workers", str(asked.workers)]
        os.environ.setdefault("PATH_SERVER_PROGRESS", "1")
        began = time.monotonic()
        with Server(
            asked.map, *options, feed=0, program=program_here(), timeout=600, heard=sys.stderr.write
        ) as server:
            start_ms = (time.monotonic() - began) * 1000
            Handler.table = Table(asked.map, read_grid(asked.map), server, asked.order, start_ms)
            with QuietServer(("127.0.0.1", asked.port), Handler) as pages:
                _serve(pages, server, asked.no_browser)
    except ProgramEnded as fault:
        print("demo: %s" % (fault.told.strip() or fault), file=sys.stderr)
        return 1
    except (OSError, OverflowError, MapFault, PathServerError) as fault:
        print("demo: %s" % fault, file=sys.stderr)
        return 1
    except KeyboardInterrupt:
        print(file=sys.stderr)
    return 0


def _serve(pages: QuietServer, server: Server, is_browserless: bool) -> None:
    address = "http://127.0.0.1:%d/" % pages.server_address[1]
    print("the page is at %s; Ctrl-C ends it" % address)
    print("path_server is at port %d, for clients and `ask`" % server.port, flush=True)
    if not is_browserless and (os.environ.get("DISPLAY") or os.environ.get("WAYLAND_DISPLAY")):
        webbrowser.open(address)
    pages.serve_forever()
