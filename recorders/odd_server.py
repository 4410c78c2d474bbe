#!/usr/bin/env python3
"""A server for tests, which treats each client as the name in its Client Identifier says: rightly, late, or not at all.

usage: recorders/odd_server.py PORT
"""
from __future__ import annotations

import contextlib
import socket
import sys
import threading
import time
from dataclasses import dataclass

HOST = "127.0.0.1"
CONNACK, PINGREQ, PINGRESP = bytes.fromhex("2003000000"), bytes.fromhex("c000"), bytes.fromhex("d000")
LEAVING = bytes.fromhex("e00181")  # a DISCONNECT, Malformed Packet
LATE = 1.6  # seconds that a CONNACK takes that isn't missing: more than the usual silence


@dataclass(frozen=True)
class Manner:
    """What a server does, and what is to be said of it."""

    delay: float | None  # seconds before its CONNACK; None: it sends none
    after: str = ""  # what it does after what is broken: `on`, `close`, `leave` or `stay`
    broken: str = ""  # what the client sends after the CONNACK, in hexadecimal digits
    wanted: str = ""  # the further statement that it breaks
    is_odd: bool = False  # the CONNECT is malformed


MANNERS = {
    "ignores": Manner(None, wanted="C24"),
    "late": Manner(LATE),
    "flags": Manner(0, "on", "c100", "D01"),
    "length": Manner(0, "on", "30ffffffff01", "D01"),
    "overlong": Manner(0, "on", "c08000", "D01"),
    "body": Manner(0, "on", "c00178", "D01"),
    "odd-unanswered": Manner(None, wanted="D01", is_odd=True),
    "closes": Manner(0, "close", "c100"),
    "closes-at-length": Manner(0, "close", "30ffffffff01"),
    "disconnects": Manner(0, "leave", "c100"),
    "disconnects-and-stays": Manner(0, "stay", "c100"),
}


def manner_of(data: bytes) -> Manner:
    """The manner whose name is in a CONNECT: the longest one."""
    return MANNERS[max((name for name in MANNERS if name.encode() in data), key=len)]


def serve(port: int) -> None:
    """A server that treats each client as its Client Identifier says."""
    with socket.create_server((HOST, port), backlog=100) as listener:
        while True:
            connection, _ = listener.accept()
            threading.Thread(target=answer, args=(connection,), daemon=True).start()


def answer(connection: socket.socket) -> None:
    with connection, contextlib.suppress(OSError):
        if not (data := connection.recv(4096)):
            return
        manner = manner_of(data)
        if manner.delay is not None:
            time.sleep(manner.delay)
            connection.sendall(CONNACK)
        while data := connection.recv(4096):
            if manner.delay is None:
                continue
            if data == PINGREQ:
                connection.sendall(PINGRESP)
            elif manner.after in ("leave", "stay"):
                connection.sendall(LEAVING)
            if manner.after in ("close", "leave"):
                return


if __name__ == "__main__":
    serve(int(sys.argv[1]))
