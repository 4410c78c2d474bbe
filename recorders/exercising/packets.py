"""Control Packets of MQTT 5.0 as bytes: how they are made, and as much of one that came as the exerciser needs.

What is made here is right, as long as its values are. Packets that break a rule are written byte by byte
(`notation.py`). Reading never fails, whatever the bytes are: what can't be read stays None.
"""
from __future__ import annotations

import struct
from collections.abc import Sequence
from dataclasses import dataclass, field
from enum import IntEnum

from framing import PROPERTY_SIZES, Fields


class Type(IntEnum):
    """The types of Control Packets."""

    CONNECT = 1
    CONNACK = 2
    PUBLISH = 3
    PUBACK = 4
    PUBREC = 5
    PUBREL = 6
    PUBCOMP = 7
    SUBSCRIBE = 8
    SUBACK = 9
    UNSUBSCRIBE = 10
    UNSUBACK = 11
    PINGREQ = 12
    PINGRESP = 13
    DISCONNECT = 14
    AUTH = 15


class Prop(IntEnum):
    """The properties that the exerciser sends or looks at."""

    MESSAGE_EXPIRY = 0x02
    SUBSCRIPTION_IDENTIFIER = 0x0B
    SESSION_EXPIRY = 0x11
    ASSIGNED_CLIENT_IDENTIFIER = 0x12
    REQUEST_PROBLEM_INFORMATION = 0x17
    WILL_DELAY = 0x18
    REQUEST_RESPONSE_INFORMATION = 0x19
    AUTHENTICATION_METHOD = 0x15
    RESPONSE_INFORMATION = 0x1A
    REASON_STRING = 0x1F
    RECEIVE_MAXIMUM = 0x21
    TOPIC_ALIAS_MAXIMUM = 0x22
    TOPIC_ALIAS = 0x23
    MAXIMUM_QOS = 0x24
    RETAIN_AVAILABLE = 0x25
    USER_PROPERTY = 0x26
    MAXIMUM_PACKET_SIZE = 0x27
    WILDCARD_AVAILABLE = 0x28
    SUBSCRIPTION_IDENTIFIER_AVAILABLE = 0x29
    SHARED_AVAILABLE = 0x2A


ACKNOWLEDGEMENTS = frozenset((Type.PUBACK, Type.PUBREC, Type.PUBREL, Type.PUBCOMP))
FIXED_FLAGS = {Type.PUBREL: 2, Type.SUBSCRIBE: 2, Type.UNSUBSCRIBE: 2}
RESERVED = 0x80  # a Reason Code from here on says that something failed
LARGEST_IDENTIFIER = 65_535
LENGTH_BYTES = 4  # of a Variable Byte Integer at most
PACKET_IDENTIFIER_FIRST = frozenset((*ACKNOWLEDGEMENTS, Type.SUBSCRIBE, Type.SUBACK, Type.UNSUBSCRIBE, Type.UNSUBACK))
Value = int | bytes | tuple[bytes, bytes]
Properties = Sequence[tuple[int, Value]]


def varint(number: int) -> bytes:
    """A Variable Byte Integer, as short as it can be."""
    out = bytearray()
    while True:
        number, low = number >> 7, number & 0x7F
        out.append(low | (0x80 if number else 0))
        if not number:
            return bytes(out)


def two(number: int) -> bytes:
    return struct.pack(">H", number)


def text(value: str | bytes) -> bytes:
    """A text with its length before it."""
    raw = value.encode() if isinstance(value, str) else value
    return two(len(raw)) + raw


def property_bytes(identifier: int, value: Value) -> bytes:
    """One property."""
    if isinstance(value, tuple):
        return bytes((identifier,)) + text(value[0]) + text(value[1])
    if isinstance(value, bytes):
        return bytes((identifier,)) + text(value)
    size = PROPERTY_SIZES.get(identifier)
    return bytes((identifier,)) + (varint(value) if size is None else value.to_bytes(size, "big"))


def property_list(properties: Properties) -> bytes:
    """Properties with their length before them."""
    body = b"".join(property_bytes(*one) for one in properties)
    return varint(len(body)) + body


def packet(kind: Type, body: bytes = b"", flags: int | None = None) -> bytes:
    """A packet of this type; its flags are those that the type has, unless others are given."""
    chosen = FIXED_FLAGS.get(kind, 0) if flags is None else flags
    return bytes((kind << 4 | chosen,)) + varint(len(body)) + body


@dataclass(frozen=True)
class Will:
    """A Will Message."""

    topic: str
    payload: bytes = b"will"
    qos: int = 0
    retain: bool = False
    properties: Properties = ()

    @property
    def flags(self) -> int:
        return 4 | self.qos << 3 | (32 if self.retain else 0)


def connect(
    identifier: str, clean: bool, properties: Properties = (), *, keep_alive: int = 60, will: Will | None = None,
    user: str | None = None, password: str | None = None
) -> bytes:
    """A CONNECT. Keep Alive is in seconds."""
    flags, tail = (2 if clean else 0), b""
    if will is not None:
        flags |= will.flags
        tail += property_list(will.properties) + text(will.topic) + text(will.payload)
    if user is not None:
        flags |= 0x80
        tail += text(user)
    if password is not None:
        flags |= 0x40
        tail += text(password)
    head = text("MQTT") + bytes((5, flags)) + two(keep_alive) + property_list(properties)
    return packet(Type.CONNECT, head + text(identifier) + tail)


def connack(session_present: bool = False, code: int = 0, properties: Properties = ()) -> bytes:
    return packet(Type.CONNACK, bytes((session_present, code)) + property_list(properties))


def publish(
    topic: str | bytes, payload: bytes = b"", qos: int = 0, identifier: int = 0, *, dup: bool = False,
    retain: bool = False, properties: Properties = ()
) -> bytes:
    body = text(topic) + (two(identifier) if qos else b"") + property_list(properties) + payload
    return packet(Type.PUBLISH, body, dup << 3 | qos << 1 | retain)


def acknowledgement(kind: Type, identifier: int, code: int | None = None, properties: Properties = ()) -> bytes:
    """A PUBACK, PUBREC, PUBREL or PUBCOMP; without a Reason Code it is the short form."""
    tail = b"" if code is None else bytes((code,)) + (property_list(properties) if properties else b"")
    return packet(kind, two(identifier) + tail)


def subscribe(identifier: int, filters: Sequence[tuple[str, int]], properties: Properties = ()) -> bytes:
    """A SUBSCRIBE with filters and their Subscription Options."""
    pairs = b"".join(text(name) + bytes((options,)) for name, options in filters)
    return packet(Type.SUBSCRIBE, two(identifier) + property_list(properties) + pairs)


def unsubscribe(identifier: int, filters: Sequence[str], properties: Properties = ()) -> bytes:
    return packet(Type.UNSUBSCRIBE, two(identifier) + property_list(properties) + b"".join(map(text, filters)))


def codes(kind: Type, identifier: int, reasons: Sequence[int], properties: Properties = ()) -> bytes:
    """A SUBACK or an UNSUBACK."""
    return packet(kind, two(identifier) + property_list(properties) + bytes(reasons))


def disconnect(code: int | None = None, properties: Properties = ()) -> bytes:
    tail = b"" if code is None else bytes((code,)) + (property_list(properties) if properties else b"")
    return packet(Type.DISCONNECT, tail)


PING, PONG = packet(Type.PINGREQ), packet(Type.PINGRESP)


# ---- reading


class Reader(Fields):
    """Reads fields one after the other, also all that is left and property lists."""

    def rest(self) -> bytes:
        return self.take(len(self.data) - self.at)

    def properties(self) -> list[tuple[int, Value]]:
        inner = Reader(self.take(self.varint()))
        found: list[tuple[int, Value]] = []
        while inner.at < len(inner.data):
            identifier = inner.varint()
            found.append((identifier, inner.property_value(identifier)))
        return found

    def property_value(self, identifier: int) -> Value:
        if identifier in PROPERTY_SIZES:
            return self.number(PROPERTY_SIZES[identifier])
        if identifier == Prop.SUBSCRIPTION_IDENTIFIER:
            return self.varint()
        value = self.text()
        return (value, self.text()) if identifier == Prop.USER_PROPERTY else value


@dataclass
class Packet:
    """A packet that came. A field that it hasn't, or that couldn't be read, is None, or empty."""

    first: int  # its first byte
    body: bytes
    identifier: int | None = None
    code: int | None = None
    topic: bytes | None = None
    payload: bytes = b""
    clean: bool | None = None  # a CONNECT's Clean Start
    client: bytes | None = None  # a CONNECT's Client Identifier
    has_will: bool = False  # a CONNECT has a Will
    session_present: bool | None = None
    properties: list[tuple[int, Value]] = field(default_factory=list)
    filters: list[tuple[bytes, int]] = field(default_factory=list)  # with their Subscription Options
    codes: bytes = b""  # of a SUBACK or UNSUBACK

    def __post_init__(self) -> None:
        try:
            self._read(Reader(self.body))
        except IndexError:
            pass

    @property
    def kind(self) -> int:
        """Its type, a number that needn't be one of `Type`."""
        return self.first >> 4

    @property
    def name(self) -> str:
        return Type(self.kind).name if self.kind else "type 0"

    @property
    def qos(self) -> int:
        """The QoS of a PUBLISH."""
        return self.first >> 1 & 3

    @property
    def dup(self) -> bool:
        return bool(self.first & 8)

    @property
    def size(self) -> int:
        """How many bytes the packet has in all."""
        return 1 + len(varint(len(self.body))) + len(self.body)

    def has(self, identifier: int) -> bool:
        """Whether there is such a property."""
        return any(known == identifier for known, _ in self.properties)

    def number(self, identifier: int, absent: int) -> int:
        """The value of a property that is a number, or another one where it is absent."""
        found = next((value for known, value in self.properties if known == identifier), absent)
        return found if isinstance(found, int) else absent

    def __str__(self) -> str:
        parts = [self.name]
        if self.identifier is not None:
            parts.append(f"id {self.identifier}")
        if self.code is not None:
            parts.append(f"0x{self.code:02x}")
        return " ".join(parts)

    def _read(self, fields: Reader) -> None:
        kind = self.kind
        if kind == Type.PUBLISH:
            self.topic = fields.text()
            self.identifier = fields.number(2) if self.qos else None
            self.properties = fields.properties()
            self.payload = fields.rest()
        elif kind == Type.CONNECT:
            self._read_connect(fields)
        elif kind == Type.CONNACK:
            self.session_present, self.code = bool(fields.number(1) & 1), fields.number(1)
            self.properties = fields.properties()
        elif kind in PACKET_IDENTIFIER_FIRST:
            self.identifier = fields.number(2)
            self._read_identified(fields)
        elif kind in (Type.DISCONNECT, Type.AUTH):
            self.code = fields.number(1) if self.body else 0
            self.properties = fields.properties() if fields.at < len(self.body) else []

    def _read_connect(self, fields: Reader) -> None:
        fields.text()
        fields.number(1)
        flags = fields.number(1)
        self.clean, self.has_will = bool(flags & 2), bool(flags & 4)
        fields.number(2)
        self.properties = fields.properties()
        self.client = fields.text()

    def _read_identified(self, fields: Reader) -> None:
        """What follows the Packet Identifier, where that comes first."""
        if self.kind in ACKNOWLEDGEMENTS:
            self.code = fields.number(1) if fields.at < len(self.body) else 0
            self.properties = fields.properties() if fields.at < len(self.body) else []
            return
        self.properties = fields.properties()
        if self.kind in (Type.SUBACK, Type.UNSUBACK):
            self.codes = fields.rest()
            return
        while fields.at < len(self.body):
            name = fields.text()
            self.filters.append((name, fields.number(1) if self.kind == Type.SUBSCRIBE else 0))


class Cutter:
    """Cuts the bytes of one direction into packets. After an invalid Remaining Length there are none any more. If it is strict,
    one in more bytes than it needs is invalid too, as it is in a log."""

    def __init__(self, is_strict: bool = False) -> None:
        self._left = b""
        self.is_strict = is_strict
        self.is_lost = False

    @property
    def is_between(self) -> bool:
        """No packet has begun and isn't whole yet."""
        return not self._left

    def feed(self, data: bytes) -> list[Packet]:
        """The packets that these bytes end."""
        self._left += data
        packets, at = [], 0
        while not self.is_lost and (end := self._end_of_packet(at)) is not None:
            head = at + 1
            while self._left[head] >= 0x80:
                head += 1
            packets.append(Packet(self._left[at], self._left[head + 1 : end]))
            at = end
        self._left = self._left[at:]
        return packets

    def _end_of_packet(self, at: int) -> int | None:
        """Where the packet ends that begins here; None where it isn't whole yet, or can't be cut."""
        length = 0
        for place in range(LENGTH_BYTES):
            position = at + 1 + place
            if position >= len(self._left):
                return None
            byte = self._left[position]
            length |= (byte & 0x7F) << (7 * place)
            if self.is_strict and place and not byte:
                break
            if byte < 0x80:
                end = position + 1 + length
                return end if end <= len(self._left) else None
        self.is_lost = True
        return None


def reply(got: Packet, code: int | None = None) -> bytes | None:
    """What a right end answers to a packet of a QoS exchange; None where it answers nothing."""
    if got.identifier is None:
        return None
    if got.kind == Type.PUBLISH and got.qos:
        return acknowledgement(Type.PUBACK if got.qos == 1 else Type.PUBREC, got.identifier, code)
    if got.kind == Type.PUBREC and (got.code or 0) < RESERVED:
        return acknowledgement(Type.PUBREL, got.identifier)
    if got.kind == Type.PUBREL:
        return acknowledgement(Type.PUBCOMP, got.identifier, code)
    return None
