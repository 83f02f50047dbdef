"""What may go wrong in a session. Each fault is an exception of its own; where the system said why, that is its
`__cause__`. After any of them but `TimedOut`, `ServerOutOfMemory`, `RequestRefused` and `NeedsHello` the session is
over."""

from __future__ import annotations

from typing import Optional


class PathServerError(Exception):
    """Any fault of a session."""


class NotConnected(PathServerError):
    """Nobody answers at the port, or the program could not be started."""


class ConnectionLost(PathServerError):
    """The connection ended or failed before all replies had come. `held` are the bytes of a reply that had begun."""

    def __init__(self, message: str, held: bytes = b"") -> None:
        super().__init__(message)
        self.held = held


class ProgramEnded(ConnectionLost):
    """The program ended before all replies had come: `status` is how (below 0: minus the number of a signal), and
    `told` what it had said on standard error, as that a map is refused."""

    def __init__(self, status: Optional[int], told: str, held: bytes = b"") -> None:
        super().__init__("the program ended with status %s%s" % (status, told and ": " + told.strip()), held)
        self.status = status
        self.told = told


class TimedOut(PathServerError):
    """What was waited for did not come in `seconds`."""

    def __init__(self, what: str, seconds: float) -> None:
        super().__init__("%s did not come in %g seconds" % (what, round(seconds, 2)))
        self.seconds = seconds


class BadReply(PathServerError):
    """What came in is no reply, or none to what was asked. `data` are its bytes."""

    def __init__(self, message: str, data: bytes = b"") -> None:
        shown = data[:32].hex() + (".." if len(data) > 32 else "")
        super().__init__(message + (": " + shown if shown else ""))
        self.data = data


class ServerOutOfMemory(PathServerError):
    """The server had no memory for the request. Nothing came of it, and the session goes on."""


class RequestRefused(PathServerError):
    """The server takes the frame for no request: it is of another version. The session goes on."""

    def __init__(self, kind: int, length: int) -> None:
        super().__init__("the server knows no request of kind %d with %d bytes" % (kind, length))
        self.kind = kind
        self.length = length


class NeedsHello(PathServerError):
    """The request has water or several changes, and the server does not speak the protocol that has them. Nothing was
    sent, and the session goes on."""


class FeedAhead(PathServerError):
    """A leader has `accepted` fewer edits than the `known` ones: it is another leader, or was started again. The feed
    goes on."""

    def __init__(self, accepted: int, known: int) -> None:
        super().__init__("the leader has accepted %d edits, and %d are known" % (accepted, known))
        self.accepted = accepted
        self.known = known


class SessionOver(PathServerError):
    """The session was closed, or had ended by the fault that is the cause."""
