"""A feed of what is in a journal, for any number of followers at once. What it sends is on the disk."""

from __future__ import annotations

import contextlib
import socketserver
import threading

from path_server.feed import MAX_ASKS, MAX_EDITS, Ahead, FedEdits, FedMap, Message, ask_bytes, known_of, message_bytes

from .journals import Journal

_SILENCE = 300  # seconds that a follower may be silent


class Relay(socketserver.ThreadingTCPServer):
    """A feed at a port of this machine, from when it is made on."""

    allow_reuse_address = True
    daemon_threads = True
    request_queue_size = 64

    def __init__(self, port: int, start: FedMap, journal: Journal) -> None:
        super().__init__(("127.0.0.1", port), _Follower)
        self.start, self.journal = start, journal
        threading.Thread(target=self.serve_forever, daemon=True).start()


class _Follower(socketserver.StreamRequestHandler):
    server: Relay
    timeout = _SILENCE
    disable_nagle_algorithm = True

    def handle(self) -> None:
        with contextlib.suppress(OSError, ValueError):  # it broke off, or asked for something else
            self._send(self.server.start)
            for _ in range(MAX_ASKS):
                known = known_of(self.rfile.read(len(ask_bytes(0))))
                accepted = self.server.journal.accepted
                if known > accepted:
                    self._send(Ahead(accepted))
                else:
                    self._send(FedEdits(known, self.server.journal.edits(known, MAX_EDITS)))

    def _send(self, message: Message) -> None:
        self.wfile.write(message_bytes(message))
