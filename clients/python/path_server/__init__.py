"""A client of path_server: exact optimal paths on grid maps, over TCP or from a child process.

    from path_server import Client, Path, Terrain

    with Client.connect(4000) as client:
        answer = client.query((2, 2), (37, 17))
        if isinstance(answer, Path):
            print(answer.straight, answer.diagonal, answer.length, answer.cells((2, 2)))
        edit = client.change((20, 9), Terrain.BLOCKED)
        client.wait_for(edit.number)

Each reply is a value of a class of its own (`frames`), and each fault an exception (`faults`).
"""

from .client import START_TIMEOUT, TIMEOUT, Client, Pending
from .faults import (
    BadReply,
    ConnectionLost,
    FeedAhead,
    NeedsHello,
    NotConnected,
    PathServerError,
    ProgramEnded,
    RequestRefused,
    ServerOutOfMemory,
    SessionOver,
    TimedOut,
)
from .frames import (
    Accepted,
    AskStatus,
    Build,
    BuildReply,
    Bye,
    Cell,
    Change,
    ChangeReply,
    Done,
    Edit,
    EditFault,
    EditRefused,
    End,
    Hello,
    Malformed,
    Move,
    NothingNew,
    OutOfMemory,
    Overtaken,
    Path,
    Protocol,
    Published,
    Query,
    QueryReply,
    Reason,
    Refused,
    Reply,
    Request,
    Status,
    Stop,
    Terrain,
    Unreachable,
    Welcome,
)
from .links import ChildLink, Link, TcpLink
from .programs import find_program
from .server import Server, Totals, free_port

__all__ = [
    "Accepted",
    "AskStatus",
    "BadReply",
    "Build",
    "BuildReply",
    "Bye",
    "Cell",
    "Change",
    "ChangeReply",
    "ChildLink",
    "Client",
    "ConnectionLost",
    "Done",
    "Edit",
    "EditFault",
    "EditRefused",
    "End",
    "FeedAhead",
    "Hello",
    "Link",
    "Malformed",
    "Move",
    "NeedsHello",
    "NotConnected",
    "NothingNew",
    "OutOfMemory",
    "Overtaken",
    "Path",
    "PathServerError",
    "Pending",
    "ProgramEnded",
    "Protocol",
    "Published",
    "Query",
    "QueryReply",
    "Reason",
    "Refused",
    "Reply",
    "Request",
    "RequestRefused",
    "Server",
    "ServerOutOfMemory",
    "START_TIMEOUT",
    "SessionOver",
    "Status",
    "Stop",
    "TIMEOUT",
    "TcpLink",
    "Terrain",
    "TimedOut",
    "Totals",
    "Unreachable",
    "Welcome",
    "find_program",
    "free_port",
]
