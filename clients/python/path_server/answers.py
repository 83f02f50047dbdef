"""Which replies a request may have, and which of them are faults."""

from __future__ import annotations

from typing import Dict, Tuple, Type

from .faults import BadReply, RequestRefused, ServerOutOfMemory
from .frames import (
    Accepted,
    AskStatus,
    Build,
    Bye,
    Change,
    Done,
    Edit,
    EditRefused,
    Hello,
    Malformed,
    NothingNew,
    OutOfMemory,
    Overtaken,
    Path,
    Published,
    Query,
    Refused,
    Reply,
    Request,
    Status,
    Stop,
    Unreachable,
    Welcome,
)

_ANSWERS: Dict[Type[Request], Tuple[Type[Reply], ...]] = {
    Query: (Path, Unreachable, Refused),
    Change: (Accepted, EditRefused),
    Edit: (Accepted, EditRefused),
    Hello: (Welcome,),
    Build: (Published, NothingNew, Overtaken),
    AskStatus: (Status,),
    Bye: (Done,),
    Stop: (Done,),
}


def matched(request: Request, reply: Reply) -> Reply:
    """The reply, where it is one to this request.

    BadReply: it is not.
    """
    if not isinstance(reply, (Malformed, OutOfMemory, *_ANSWERS[type(request)])):
        raise BadReply("%r was answered with %r" % (request, reply))
    return reply


def granted(request: Request, reply: Reply) -> Reply:
    """The reply, where the server has done what was asked.

    ServerOutOfMemory, RequestRefused: the server said so.
    """
    if isinstance(reply, OutOfMemory):
        raise ServerOutOfMemory("the server has no memory for %r" % (request,))
    if isinstance(reply, Malformed):
        raise RequestRefused(reply.kind, reply.length)
    return reply
