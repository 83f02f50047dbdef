"""Numbers of a server in Prometheus' text form, at a port of this machine.

Where they can't be had, as from a server that does not answer, the status is 503. So HAProxy can check the port.
"""

from __future__ import annotations

import contextlib
import http.server
import threading
import time
from typing import Callable, List, NamedTuple

from path_server import Client, ConnectionLost, PathServerError, Status

PATIENCE = 5.0  # seconds that a status may take


class Number(NamedTuple):
    """A number: its name behind `path_server_`, what it is, and its value."""

    name: str
    about: str
    value: float
    kind: str = "gauge"


def text_of(numbers: List[Number]) -> str:
    """The numbers as Prometheus reads them."""
    lines = []
    for each in numbers:
        name = "path_server_" + each.name
        lines += ["# HELP %s %s" % (name, each.about), "# TYPE %s %s" % (name, each.kind)]
        lines.append("%s %.12g" % (name, each.value))
    return "\n".join(lines) + "\n"


def status_of(client: Client) -> Status:
    """The status, by a session that is made again where it had ended."""
    try:
        return client.status(PATIENCE)
    except ConnectionLost:
        return client.status(PATIENCE)


def status_numbers(client: Client) -> List[Number]:
    """What a status tells, and how long it took."""
    began = time.monotonic()
    status = status_of(client)
    took = time.monotonic() - began
    return [
        Number("accepted_edits", "Edits that the server has accepted.", status.accepted),
        Number("published_version", "Edits that queries see.", status.version),
        Number("unpublished_edits", "Accepted edits that queries do not see yet.", status.lag),
        Number("cells", "Passable cells of the published version.", status.cells),
        Number("components", "Components of the published version.", status.components),
        Number("runs", "Runs of the published version, 4 bytes each.", status.runs),
        Number("status_seconds", "Time of the status request that gave these numbers.", took),
    ]


class Numbers(http.server.ThreadingHTTPServer):
    """Serves `/metrics` from when it is made on. Each request gathers the numbers anew."""

    daemon_threads = True

    def __init__(self, port: int, gather: Callable[[], List[Number]]) -> None:
        super().__init__(("127.0.0.1", port), _Scrape)
        self.gather = gather
        threading.Thread(target=self.serve_forever, daemon=True).start()


class _Scrape(http.server.BaseHTTPRequestHandler):
    server: Numbers

    def do_GET(self) -> None:
        if self.path != "/metrics":
            self._send(404, "the numbers are at /metrics\n")
            return
        try:
            self._send(200, text_of(self.server.gather()))
        except PathServerError as fault:
            self._send(503, "%s\n" % fault)

    def _send(self, status: int, text: str) -> None:
        with contextlib.suppress(ConnectionError):  # whoever asks may hang up, as HAProxy does after the first line
            self.send_response(status)
            self.send_header("Content-Type", "text/plain; version=0.0.4")
            self.send_header("Content-Length", str(len(text.encode())))
            self.end_headers()
            self.wfile.write(text.encode())

    def log_message(self, format: str, *args: object) -> None:
        """Says nothing of requests."""
