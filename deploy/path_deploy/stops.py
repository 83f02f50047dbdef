"""Signals as a stop: a server's sessions get their time, and its last lines are printed."""

from __future__ import annotations

import os
import signal
import sys

from path_server import PathServerError, Server, TimedOut

_STOP_TIME = float(os.environ.get("STOP_TIME", "20"))  # seconds that a stop may wait for a door
_END_TIME = 30.0  # seconds in which a server ends after a stop


class Stopping:
    """Hears SIGTERM, SIGINT and SIGHUP. Until the server `is_ready` each ends this program at once."""

    def __init__(self) -> None:
        self.is_ready = self.is_asked = self.is_sent = False
        for sign in (signal.SIGTERM, signal.SIGINT, signal.SIGHUP):
            signal.signal(sign, self._ask)

    def _ask(self, sign: int, _: object) -> None:
        self.is_asked = True
        if not self.is_ready:
            sys.exit(128 + signal.SIGTERM)

    def send(self, server: Server) -> bool:
        """Sends the server a stop, once, where a signal has come; whether one has."""
        if not self.is_asked or self.is_sent:
            return self.is_asked
        self.is_sent = True
        try:
            with server.connect(_STOP_TIME) as client:
                client.stop()
        except TimedOut:
            server.process.terminate()
        except PathServerError:
            pass  # it has ended
        return True


def print_end(server: Server) -> None:
    """Waits for the server's end, and prints its last lines.

    ProgramEnded: it ended in another way than by a stop.
    """
    totals = server.ended(_END_TIME)
    print("accepted %d\npublished %d\nversion %d" % (totals.accepted, totals.published, totals.version), flush=True)
