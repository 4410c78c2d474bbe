"""Looks at a log: whether it has a REST, and what its bytes are where they aren't MQTT's: HTTP, TLS or a WebSocket."""
from __future__ import annotations

import re
from dataclasses import dataclass
from itertools import islice
from pathlib import Path
from typing import BinaryIO

from log_format import HEADER_SIZE, places, version_of

LOOKED_AT = 4_096  # bytes of each direction of the first connection
LOOKED_AT_RECORDS = 64
OPEN, SENT, RECV, CLOSE, REST = 1, 2, 3, 4, 5
ROLE_AT, SERVER = 5, 1  # of the tested end in a header
SHOWN = 80  # characters of a first line
REQUEST = re.compile(rb"(?:GET|HEAD|POST|PUT|DELETE|OPTIONS|PATCH|TRACE|CONNECT|PRI) \S[^\r\n]*")
ANSWER = re.compile(rb"HTTP/\d\.\d \d{3}[^\r\n]*")
UPGRADE = re.compile(rb"^upgrade:[^\r\n]*\bwebsocket\b", re.IGNORECASE | re.MULTILINE)
HELLO = re.compile(rb"\x16\x03[\0-\x04]..\x01", re.DOTALL)  # a TLS record with a ClientHello
TLS = re.compile(rb"[\x15\x16]\x03[\0-\x04]", re.DOTALL)  # an alert, or a handshake


@dataclass(frozen=True)
class Looked:
    """What can be seen of a log without judging it."""

    foreign: str = ""  # what is spoken on its first connection, in words, where that isn't MQTT
    is_only: bool = True  # it has no other connection, if that one is foreign
    has_rest: bool | None = None  # one after what the server sent on its connection; None where it isn't a log


def look_at(log: Path) -> Looked:
    """Looks at the first bytes of each direction, and for a REST. Of all else it reads only the heads of records.

    What is no file, such as a pipe, can't be read again.
    """
    if not log.is_file():
        return Looked()
    with log.open("rb") as file:
        header = file.read(HEADER_SIZE)
        if version_of(header) is None:
            return Looked()
        sent, received = first_bytes(file)
        client, server = (received, sent) if header[ROLE_AT] == SERVER else (sent, received)
        foreign = of_client(client) or of_server(server)
        is_only = not foreign or sum(kind == OPEN for kind, _, _ in places(file)) <= 1
        return Looked(foreign, is_only, has_answered_rest(file, SENT if header[ROLE_AT] == SERVER else RECV))


def has_answered_rest(file: BinaryIO, answers: int) -> bool:
    """Whether a REST comes after something that the server sent on its connection: before that none imposes anything."""
    is_answered = False
    for kind, _, _ in places(file):
        if kind == REST and is_answered:
            return True
        is_answered = kind == answers or (is_answered and kind != OPEN)
    return False


def first_bytes(file: BinaryIO) -> tuple[bytes, bytes]:
    """The first bytes that were sent on a log's first connection, and those that were received."""
    first = {SENT: b"", RECV: b""}
    for kind, begin, end in [*islice(places(file), LOOKED_AT_RECORDS)]:
        if kind == CLOSE:
            break
        if kind in first:
            file.seek(begin)
            first[kind] += file.read(min(end - begin, LOOKED_AT - len(first[kind])))
    return first[SENT], first[RECV]


def of_client(data: bytes) -> str:
    """What a client's first bytes are, and what to do."""
    if request := REQUEST.match(data):
        if UPGRADE.search(data):
            return (f"the client asks for a WebSocket ({shown(request[0])}), and no MQTT is recorded: have the proxy"
                    " listen on ws://HOST:PORT, or record inside the WebSocket")
        return f"the client speaks HTTP ({shown(request[0])}), not MQTT"
    if HELLO.match(data):
        return ("the client begins TLS (a ClientHello), and no MQTT is recorded: have the proxy listen with"
                " --tls-listen, or record inside TLS")
    return ""


def of_server(data: bytes) -> str:
    """What a server's first bytes are, and what to do."""
    if answer := ANSWER.match(data):
        return f"the server answers with HTTP ({shown(answer[0])}), not MQTT: is it the right port?"
    if TLS.match(data):
        return "the server answers with TLS, not MQTT: connect to it with TLS (the proxy's --tls-broker)"
    return ""


def shown(line: bytes) -> str:
    """The beginning of a line, as it can be printed."""
    text = line[:SHOWN].decode("ascii", "replace")
    return "".join(sign if sign.isprintable() else "?" for sign in text) + (" .." if len(line) > SHOWN else "")
