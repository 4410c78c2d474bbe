"""Cuts a direction of a connection into Control Packets, and reads as little of them as recorders need.

That is whose connection it is (CONNECT and CONNACK), and where each packet ends. What a peer sends never makes it fail.
"""
from __future__ import annotations

from dataclasses import dataclass

KEPT_MOST = 1_048_576  # bytes of a packet, and of a connection until it is known whose they are
CONNECT, CONNACK, DISCONNECT = 1, 2, 14
FIXED_FLAGS = {6: 2, 8: 2, 10: 2}  # PUBREL, SUBSCRIBE and UNSUBSCRIBE; the others but PUBLISH have 0
PUBLISH = 3
ASSIGNED_CLIENT_IDENTIFIER, USER_PROPERTY, SUBSCRIPTION_IDENTIFIER = 0x12, 0x26, 0x0B
PROPERTY_SIZES = (
    dict.fromkeys((0x01, 0x17, 0x19, 0x24, 0x25, 0x28, 0x29, 0x2A), 1)
    | dict.fromkeys((0x13, 0x21, 0x22, 0x23), 2)
    | dict.fromkeys((0x02, 0x11, 0x18, 0x27), 4)
)


# ---- the packets that say whose connection it is


@dataclass(frozen=True)
class Connect:
    """A CONNECT. The Client Identifier is None where it couldn't be read."""

    protocol: bytes
    version: int
    clean_start: bool
    identifier: bytes | None


@dataclass(frozen=True)
class Connack:
    """A CONNACK."""

    reason: int
    session_present: bool
    assigned: bytes | None


class Fields:
    """Reads fields one after the other, and raises IndexError where there are too few bytes."""

    def __init__(self, data: bytes) -> None:
        self.data, self.at = data, 0

    def take(self, count: int) -> bytes:
        piece = self.data[self.at : self.at + count]
        if len(piece) < count:
            raise IndexError("the packet ends before the field does")
        self.at += count
        return piece

    def number(self, size: int) -> int:
        return int.from_bytes(self.take(size), "big")

    def varint(self) -> int:
        value = 0
        for place in range(4):
            byte = self.number(1)
            value |= (byte & 0x7F) << (7 * place)
            if byte < 0x80:
                return value
        raise IndexError("a variable byte integer has more than four bytes")

    def text(self) -> bytes:
        return self.take(self.number(2))


def read_connect(body: bytes) -> Connect | None:
    """The CONNECT with this body, as far as it can be read; None where not even its version can be."""
    fields = Fields(body)
    try:
        protocol, version, flags = fields.text(), fields.number(1), fields.number(1)
    except IndexError:
        return None
    identifier = None
    try:
        fields.number(2)  # Keep Alive
        if version == 5:
            fields.take(fields.varint())  # properties
        identifier = fields.text()
    except IndexError:
        pass
    return Connect(protocol, version, bool(flags & 2), identifier)


def read_connack(body: bytes) -> Connack | None:
    """The CONNACK with this body, as far as it can be read; None where not even its Reason Code can be."""
    if len(body) < 2:
        return None
    return Connack(body[1], bool(body[0] & 1), assigned_identifier(body[2:]))


def assigned_identifier(properties: bytes) -> bytes | None:
    """The Assigned Client Identifier in a property list, if there is one before anything that can't be read."""
    fields = Fields(properties)
    try:
        fields = Fields(fields.take(fields.varint()))
        while fields.at < len(fields.data):
            identifier = fields.varint()
            if identifier in PROPERTY_SIZES:
                fields.take(PROPERTY_SIZES[identifier])
            elif identifier == SUBSCRIPTION_IDENTIFIER:
                fields.varint()
            else:
                value = fields.text()
                if identifier == ASSIGNED_CLIENT_IDENTIFIER:
                    return value
                if identifier == USER_PROPERTY:
                    fields.text()
    except IndexError:
        pass
    return None


class Framer:
    """Cuts one direction of a connection into Control Packets, and keeps the bodies of one type, but for long ones."""

    def __init__(self, wanted: int) -> None:
        self.wanted: int | None = wanted  # None: no body is kept any more
        self.is_sound = True  # so far each packet could be cut, and has the flags of its type
        self.is_lost = False
        self._header = bytearray()
        self._missing = 0  # bytes of the body that haven't come yet
        self._body: bytearray | None = None

    @property
    def is_between(self) -> bool:
        """No packet has begun and isn't whole yet."""
        return not self._header and not self._missing

    def keep_none(self) -> None:
        """Keeps no body any more."""
        self.wanted = self._body = None

    def feed(self, data: bytes) -> list[tuple[int, bytes | None]]:
        """The packets that these bytes end: the type of each, and its body if it is wanted and short enough."""
        packets, at = [], 0
        while at < len(data) and not self.is_lost:
            if self._missing:
                piece = data[at : at + self._missing]
                at += len(piece)
                self._missing -= len(piece)
                if self._body is not None:
                    self._body += piece
            else:
                self._header.append(data[at])
                at += 1
                self._begin()
            if self._header and self._is_whole():
                packets.append((self._header[0] >> 4, None if self._body is None else bytes(self._body)))
                self._header.clear()
                self._body = None
        return packets

    def _is_whole(self) -> bool:
        return len(self._header) > 1 and self._header[-1] < 0x80 and not self._missing

    def _begin(self) -> None:
        """Takes in one more byte of a fixed header."""
        first, length = self._header[0], self._header[1:]
        if not length:
            kind = first >> 4
            is_right = first & 6 != 6 if kind == PUBLISH else kind != 0 and first & 15 == FIXED_FLAGS.get(kind, 0)
            if not is_right:
                self.is_sound = False
        elif length[-1] < 0x80:
            if len(length) > 1 and length[-1] == 0:
                self._lose()
                return
            self._missing = sum((byte & 0x7F) << (7 * place) for place, byte in enumerate(length))
            is_kept = first >> 4 == self.wanted and self._missing <= KEPT_MOST
            self._body = bytearray() if is_kept else None
        elif len(length) == 4:
            self._lose()

    def _lose(self) -> None:
        self.is_lost, self.is_sound = True, False
        self._header.clear()
