#!/usr/bin/env python3
"""Feeds: of a leader, of stand-ins that send other bytes, and the bytes of docs/reference/formats.md.

    PATH_SERVER=FILE clients/python/tests/test_feed.py
"""

from __future__ import annotations

import contextlib
import os
import socket
import sys
import threading
import unittest
from typing import Iterator, List, Tuple

sys.path.insert(0, os.path.dirname(os.path.dirname(os.path.abspath(__file__))))

from path_server import (
    BadReply,
    Change,
    ConnectionLost,
    Edit,
    FeedAhead,
    NotConnected,
    OutOfMemory,
    Server,
    ServerOutOfMemory,
    Terrain,
    TimedOut,
    free_port,
)
from path_server.feed import (
    Ahead,
    FedEdits,
    FedMap,
    Feed,
    Message,
    ask_bytes,
    changes_of,
    decoded_message,
    known_of,
    message_bytes,
)

TOP = os.path.dirname(os.path.dirname(os.path.dirname(os.path.dirname(os.path.abspath(__file__)))))
MAP = bytes.fromhex("0000000C 31 00000003 00000001 010101")
ONE = bytes.fromhex("0000000F 32 00000000 00000001 01 0000 0000 00")
NONE = bytes.fromhex("00000009 32 00000001 00000000")
AHEAD = bytes.fromhex("00000005 33 00000001")
BLOCKED = Change((0, 0), Terrain.BLOCKED)


@contextlib.contextmanager
def leader(*answers: bytes) -> Iterator[Tuple[int, List[bytes]]]:
    """Somebody who sends the first bytes at once and the next ones after each ask. Gives the port and the asks that
    came."""
    asks: List[bytes] = []
    listener = socket.create_server(("127.0.0.1", 0))

    def speak() -> None:
        link, _ = listener.accept()
        with link:
            link.sendall(answers[0])
            for answer in answers[1:]:
                asks.append(link.recv(5, socket.MSG_WAITALL))
                link.sendall(answer)

    speaker = threading.Thread(target=speak, daemon=True)
    speaker.start()
    with listener:
        yield listener.getsockname()[1], asks
        speaker.join(10)


class Bytes(unittest.TestCase):
    def test_messages_of_the_page(self) -> None:
        examples: List[Tuple[bytes, Message]] = [
            (MAP, FedMap(3, 1, b"\1\1\1")),
            (ONE, FedEdits(0, (BLOCKED,))),
            (NONE, FedEdits(1, ())),
            (AHEAD, Ahead(1)),
            (bytes.fromhex("00000001 34"), OutOfMemory()),
        ]
        for data, message in examples:
            self.assertEqual(decoded_message(data[4:]), message)
            self.assertEqual(message_bytes(message), data)

    def test_an_edit_of_several_changes(self) -> None:
        data = bytes.fromhex("00000014 32 00000007 00000001 02 0001 0002 01 0100 0003 02")
        edit = Edit((Change((1, 2), Terrain.LAND), Change((256, 3), Terrain.WATER)))
        self.assertEqual(decoded_message(data[4:]), FedEdits(7, (edit,)))
        self.assertEqual(message_bytes(FedEdits(7, (edit,))), data)

    def test_asks(self) -> None:
        self.assertEqual(ask_bytes(258).hex(), "2100000102")
        self.assertEqual(known_of(bytes.fromhex("2100000102")), 258)
        for other in ("", "21000001", "2200000102", "210000010200"):
            self.assertRaises(ValueError, known_of, bytes.fromhex(other))

    def test_every_other_frame_is_refused(self) -> None:
        for frame in (MAP[4:], ONE[4:], NONE[4:], AHEAD[4:], b"\x34"):
            for other in (frame[:-1], frame + b"\0", b"\x30" + frame[1:]):
                self.assertRaises(BadReply, decoded_message, other)
        for text in (
            "31 00000001 00000001 03",  # a cell of no terrain
            "32 00000000 00000001 01 0000 0000 03",  # a change to none
            "32 00000000 00000001 00",  # an edit without changes
            "32 00000000 00000001 41" + 65 * "0000000000",  # one of 65
            "32 00000000 00000401" + 1025 * "010000000000",  # 1,025 edits
        ):
            self.assertRaises(BadReply, decoded_message, bytes.fromhex(text))


class Feeds(unittest.TestCase):
    def test_what_a_leader_may_answer(self) -> None:
        with leader(MAP, ONE, NONE, AHEAD, bytes.fromhex("00000001 34")) as (port, asks), Feed.connect(port) as feed:
            self.assertEqual(feed.map, FedMap(3, 1, b"\1\1\1"))
            self.assertEqual(feed.ask(0), (BLOCKED,))
            self.assertEqual(feed.ask(1), ())
            with self.assertRaises(FeedAhead) as ahead:
                feed.ask(2)
            self.assertEqual((ahead.exception.accepted, ahead.exception.known), (1, 2))
            self.assertRaises(ServerOutOfMemory, feed.ask, 1)
            self.assertRaises(ConnectionLost, feed.ask, 1)
        self.assertEqual([ask.hex() for ask in asks], ["2100000000", "2100000001", "2100000002", "2100000001"])

    def test_what_it_may_not(self) -> None:
        for answers in ((NONE,), (AHEAD,), (b"\0\0\0\0",), (b"\0\x10\0\x0a",), (b"HTTP/1.1 400\r\n",)):
            with leader(*answers) as (port, _), self.subTest(answers[0]), self.assertRaises(BadReply):
                Feed.connect(port)
        for answer in (MAP, NONE, AHEAD[:-1] + b"\0"):
            with leader(MAP, answer) as (port, _), Feed.connect(port) as feed, self.assertRaises(BadReply):
                feed.ask(0)

    def test_a_leader_that_goes(self) -> None:
        for data in (b"", MAP[:3], MAP[:9]):
            with leader(data) as (port, _), self.assertRaises(ConnectionLost):
                Feed.connect(port)
        self.assertRaises(NotConnected, Feed.connect, free_port())
        with socket.create_server(("127.0.0.1", 0)) as silent, self.assertRaises(TimedOut):
            Feed.connect(silent.getsockname()[1], timeout=0.2)

    def test_more_edits_than_a_message_has(self) -> None:
        kinds = (Terrain.BLOCKED, Terrain.LAND, Terrain.WATER)
        edits = [[((2 + n % 7, 2), kinds[n % 3])] for n in range(1500)]
        edits += [[((n, 3), Terrain.LAND), ((n, 4), Terrain.BLOCKED)] for n in range(3, 9)]
        with Server(os.path.join(TOP, "maps", "tutorial.map"), feed=0) as server, server.connect() as client:
            for edit in edits:
                client.edit(edit)
            assert server.feed is not None
            with Feed.connect(server.feed) as feed:
                first = feed.ask(0)
                self.assertEqual(len(first), 1024)
                found = [*first, *feed.ask(1024)]
        self.assertEqual(
            [[(each.cell, each.terrain) for each in changes_of(edit)] for edit in found],
            edits,
        )


if __name__ == "__main__":
    unittest.main()
