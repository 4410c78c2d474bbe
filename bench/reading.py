"""Reads a log of one end of an MQTT 5.0 session: its packets, its records and events.

It is a part of the second opinion that reference.py gives, and no part of the program.
"""
from collections.abc import Callable
from dataclasses import dataclass, field
from functools import lru_cache

# ---- packets (MQTT 5.0, sections 1.5, 2 and 3)

(CONNECT, CONNACK, PUBLISH, PUBACK, PUBREC, PUBREL, PUBCOMP, SUBSCRIBE, SUBACK, UNSUBSCRIBE, UNSUBACK, PINGREQ, PINGRESP,
 DISCONNECT, AUTH) = range(1, 16)
NAMES = ("", "CONNECT", "CONNACK", "PUBLISH", "PUBACK", "PUBREC", "PUBREL", "PUBCOMP", "SUBSCRIBE", "SUBACK", "UNSUBSCRIBE", "UNSUBACK",
         "PINGREQ", "PINGRESP", "DISCONNECT", "AUTH")
FROM_CLIENT_ALONE = {CONNECT, SUBSCRIBE, UNSUBSCRIBE, PINGREQ}
FROM_SERVER_ALONE = {CONNACK, SUBACK, UNSUBACK, PINGRESP}
SHORT, MOST_KEPT = 200, 16_384  # packets of so many bytes are decoded once, as long as so many are kept
WILL = 0  # the list of a Will's properties, beside those of the packets' types
ACKNOWLEDGEMENTS = (PUBACK, PUBREC, PUBREL, PUBCOMP)
WITH_REASON = {CONNACK, *ACKNOWLEDGEMENTS, SUBACK, UNSUBACK, DISCONNECT, AUTH}
ALL_LISTS = {CONNECT, CONNACK, PUBLISH, *ACKNOWLEDGEMENTS, SUBSCRIBE, SUBACK, UNSUBSCRIBE, UNSUBACK, DISCONNECT, AUTH, WILL}

# identifier: the reader of its value, and the lists that it may be in
PROPERTIES: dict[int, tuple[str, set[int]]] = {
    0x01: ("u8", {PUBLISH, WILL}),
    0x02: ("u32", {PUBLISH, WILL}),
    0x03: ("text", {PUBLISH, WILL}),
    0x08: ("text", {PUBLISH, WILL}),
    0x09: ("binary", {PUBLISH, WILL}),
    0x0B: ("varint", {PUBLISH, SUBSCRIBE}),
    0x11: ("u32", {CONNECT, CONNACK, DISCONNECT}),
    0x12: ("text", {CONNACK}),
    0x13: ("u16", {CONNACK}),
    0x15: ("text", {CONNECT, CONNACK, AUTH}),
    0x16: ("binary", {CONNECT, CONNACK, AUTH}),
    0x17: ("u8", {CONNECT}),
    0x18: ("u32", {WILL}),
    0x19: ("u8", {CONNECT}),
    0x1A: ("text", {CONNACK}),
    0x1C: ("text", {CONNACK, DISCONNECT}),
    0x1F: ("text", WITH_REASON),
    0x21: ("u16", {CONNECT, CONNACK}),
    0x22: ("u16", {CONNECT, CONNACK}),
    0x23: ("u16", {PUBLISH}),
    0x24: ("u8", {CONNACK}),
    0x25: ("u8", {CONNACK}),
    0x26: ("pair", ALL_LISTS),
    0x27: ("u32", {CONNECT, CONNACK}),
    0x28: ("u8", {CONNACK}),
    0x29: ("u8", {CONNACK}),
    0x2A: ("u8", {CONNACK}),
}
NOT_ZERO = {0x0B, 0x21, 0x23, 0x27}
ZERO_OR_ONE = {0x17, 0x19, 0x24, 0x25, 0x28, 0x29, 0x2A}


def codes(text: str) -> set[int]:
    """Numbers and ranges of them, in hexadecimal."""
    out: set[int] = set()
    for word in text.split():
        first, _, last = word.partition("-")
        out |= set(range(int(first, 16), int(last or first, 16) + 1))
    return out


REASON_CODES = {
    CONNACK: codes("00 80-8A 8C 90 95 97 99 9A 9B 9C 9D 9F"),
    PUBACK: codes("00 10 80 83 87 90 91 97 99"),
    PUBREC: codes("00 10 80 83 87 90 91 97 99"),
    PUBREL: codes("00 92"),
    PUBCOMP: codes("00 92"),
    SUBACK: codes("00 01 02 80 83 87 8F 91 97 9E A1 A2"),
    UNSUBACK: codes("00 11 80 83 87 8F 91"),
    DISCONNECT: codes("00 04 80 81 82 83 87 89 8B-90 93-A2"),
    AUTH: codes("00 18 19"),
}


@dataclass(slots=True)
class Packet:
    type: int
    size: int = 0
    identifier: int | None = None
    code: int = 0
    qos: int = 0
    dup: bool = False
    retain: bool = False
    topic: bytes = b""
    filters: list[tuple[bytes, int]] = field(default_factory=list)
    codes: list[int] = field(default_factory=list)
    clean_start: bool = False
    client_identifier: bytes = b""
    session_present: bool = False
    keep_alive: int = 0
    will_qos: int | None = None  # None: there is no Will
    will_retain: bool = False
    properties: list[tuple[int, object]] = field(default_factory=list)
    will: list[tuple[int, object]] = field(default_factory=list)  # the properties of a CONNECT's Will

    def get(self, identifier: int):
        """The first property of this kind."""
        return next((value for kind, value in self.properties if kind == identifier), None)


@dataclass
class Bad(Exception):
    rule: str
    at: int
    packet: bytes = b""


@dataclass
class OtherVersion(Exception):
    version: int


@dataclass
class Lost:
    """A Remaining Length that is none, as these first bytes of a packet show."""

    size: int


class Reader:
    """Reads a packet's fields in turn; a field that isn't spelled raises Bad at its beginning."""

    def __init__(self, packet: bytes, at: int):
        self.packet, self.at, self.end = packet, at, len(packet)

    def take(self, count: int, at: int) -> bytes:
        if self.at + count > self.end:
            raise Bad("W06", at)
        self.at += count
        return self.packet[self.at - count : self.at]

    def number(self, count: int) -> int:
        return int.from_bytes(self.take(count, self.at), "big")

    def u8(self) -> int:
        return self.number(1)

    def u16(self) -> int:
        return self.number(2)

    def u32(self) -> int:
        return self.number(4)

    def varint(self) -> int:
        begin, value = self.at, 0
        for n in range(4):
            byte = self.take(1, begin)[0]
            value |= (byte & 0x7F) << (7 * n)
            if byte < 0x80:
                if n > 0 and byte == 0:
                    raise Bad("W03", begin)
                return value
        raise Bad("W03", begin)

    def binary(self) -> bytes:
        begin = self.at
        count = int.from_bytes(self.take(2, begin), "big")
        return self.take(count, begin)

    def text(self) -> bytes:
        begin = self.at
        value = self.binary()
        check_text(value, begin)
        return value

    def pair(self) -> tuple[bytes, bytes]:
        begin = self.at
        try:
            return self.text(), self.text()
        except Bad as bad:
            raise Bad(bad.rule, begin) from None


def check_text(value: bytes, at: int) -> None:
    try:
        value.decode("utf-8")
    except UnicodeDecodeError:
        raise Bad("W04", at) from None
    if b"\0" in value:
        raise Bad("W05", at)


def read_properties(reader: Reader, place: int) -> list[tuple[int, object]]:
    begin = reader.at
    length = reader.varint()
    if reader.at + length > reader.end:
        raise Bad("W06", begin)
    outer, reader.end = reader.end, reader.at + length
    out: list[tuple[int, object]] = []
    while reader.at < reader.end:
        at = reader.at
        kind = reader.varint()
        if kind not in PROPERTIES or place not in PROPERTIES[kind][1]:
            raise Bad("W10", at)
        repeats = kind == 0x26 or (kind == 0x0B and place == PUBLISH)
        if not repeats and any(kind == other for other, _ in out):
            raise Bad("W11", at)
        at = reader.at
        value = getattr(reader, PROPERTIES[kind][0])()
        if (kind in NOT_ZERO and value == 0) or (kind in ZERO_OR_ONE and value not in (0, 1)):
            raise Bad("W12", at)
        if kind == 0x08 and place == PUBLISH and has_wildcard(value):
            raise Bad("W14", at)
        out.append((kind, value))
    reader.end = outer
    return out


def has_wildcard(name: bytes) -> bool:
    return b"#" in name or b"+" in name


def is_filter(text: bytes) -> bool:
    """A Topic Filter that MQTT 5.0, section 4.7 allows."""
    levels = text.split(b"/")
    return text != b"" and all(
        not has_wildcard(level) or level == b"+" or (level == b"#" and n == len(levels) - 1) for n, level in enumerate(levels)
    )


def decode(packet: bytes, begin: int) -> Packet | Bad | OtherVersion:
    """What a whole packet is, whose body begins there."""
    return decode_short(packet, begin) if len(packet) <= SHORT else decode_anew(packet, begin)


def decode_anew(packet: bytes, begin: int) -> Packet | Bad | OtherVersion:
    try:
        return decode_fields(packet[0], Reader(packet, begin))
    except Bad as bad:
        return Bad(bad.rule, bad.at, packet)
    except OtherVersion as other:
        return OtherVersion(other.version)


# (Sessions have the same short packets again and again. Nobody changes one.)
decode_short = lru_cache(maxsize=MOST_KEPT)(decode_anew)


def decode_fields(first: int, reader: Reader) -> Packet:
    kind, flags = first >> 4, first & 15
    p = Packet(kind, len(reader.packet))
    if kind == 0:
        raise Bad("W02", 0)
    if kind == PUBLISH:
        p.qos, p.dup, p.retain = flags >> 1 & 3, flags >= 8, flags & 1 == 1
        if p.qos == 3:
            raise Bad("W07", 0)
        if p.dup and p.qos == 0:
            raise Bad("W08", 0)
    elif flags != (2 if kind in (PUBREL, SUBSCRIBE, UNSUBSCRIBE) else 0):
        raise Bad("W01", 0)
    BODIES[kind](p, reader)
    if reader.at < reader.end:
        raise Bad("W06", reader.at)
    return p


def read_connect(p: Packet, reader: Reader) -> None:
    at = reader.at
    if reader.text() != b"MQTT":
        raise Bad("W18", at)
    version = reader.u8()
    if version != 5:
        raise OtherVersion(version)
    at = reader.at
    flags = reader.u8()
    has_will, will_qos = bool(flags & 4), flags >> 3 & 3
    if flags & 1 or will_qos == 3 or (not has_will and (will_qos or flags & 0x20)):
        raise Bad("W19", at)
    p.clean_start = bool(flags & 2)
    p.will_qos, p.will_retain = will_qos if has_will else None, bool(flags & 0x20)
    p.keep_alive = reader.u16()
    p.properties = read_properties(reader, CONNECT)
    p.client_identifier = reader.text()
    if has_will:
        p.will = read_properties(reader, WILL)
        reader.text()
        reader.binary()
    if flags & 0x80:
        reader.text()
    if flags & 0x40:
        reader.binary()


def read_connack(p: Packet, reader: Reader) -> None:
    at = reader.at
    flags = reader.u8()
    if flags > 1:
        raise Bad("W20", at)
    p.session_present = flags == 1
    p.code = read_code(p, reader)
    p.properties = read_properties(reader, CONNACK)


def read_code(p: Packet, reader: Reader) -> int:
    at = reader.at
    value = reader.u8()
    if value not in REASON_CODES[p.type]:
        raise Bad("W13", at)
    return value


def read_identifier(p: Packet, reader: Reader) -> None:
    at = reader.at
    p.identifier = reader.u16()
    if p.identifier == 0:
        raise Bad("W09", at)


def read_publish(p: Packet, reader: Reader) -> None:
    at = reader.at
    p.topic = reader.text()
    if has_wildcard(p.topic):
        raise Bad("W14", at)
    if p.qos > 0:
        read_identifier(p, reader)
    at = reader.at
    p.properties = read_properties(reader, PUBLISH)
    if p.topic == b"" and p.get(0x23) is None:
        raise Bad("W21", at)
    reader.at = reader.end


def read_acknowledgement(p: Packet, reader: Reader) -> None:
    read_identifier(p, reader)
    read_reason(p, reader)


def read_reason(p: Packet, reader: Reader) -> None:
    """A Reason Code and a property list, each of which may be absent at the packet's end."""
    if reader.at < reader.end:
        p.code = read_code(p, reader)
    if reader.at < reader.end:
        p.properties = read_properties(reader, p.type)


def read_request(p: Packet, reader: Reader) -> None:
    read_identifier(p, reader)
    p.properties = read_properties(reader, p.type)
    while reader.at < reader.end:
        at = reader.at
        text = reader.text()
        if not is_filter(text):
            raise Bad("W15", at)
        at, options = reader.at, 0
        if p.type == SUBSCRIBE:
            options = reader.u8()
            if options & 3 == 3 or options >> 4 & 3 == 3 or options & 0xC0:
                raise Bad("W17", at)
        p.filters.append((text, options))
    if not p.filters:
        raise Bad("W16", reader.end)


def read_answer(p: Packet, reader: Reader) -> None:
    read_identifier(p, reader)
    p.properties = read_properties(reader, p.type)
    while reader.at < reader.end:
        p.codes.append(read_code(p, reader))


def read_nothing(p: Packet, reader: Reader) -> None:
    pass


BODIES: dict[int, Callable[[Packet, Reader], None]] = {
    CONNECT: read_connect,
    CONNACK: read_connack,
    PUBLISH: read_publish,
    **dict.fromkeys(ACKNOWLEDGEMENTS, read_acknowledgement),
    SUBSCRIBE: read_request,
    UNSUBSCRIBE: read_request,
    SUBACK: read_answer,
    UNSUBACK: read_answer,
    PINGREQ: read_nothing,
    PINGRESP: read_nothing,
    DISCONNECT: read_reason,
    AUTH: read_reason,
}

# ---- the log: its records and events, and why it may be refused

REFUSALS = ("", "Header", "Version", "Role", "Flags", "Kind", "Length", "Nested", "NotOpen", "ReleaseUnrecorded", "Cut", "TooLarge",
            "OtherVersion", "TooManyEarly", "TooLong")
# For each byte of a header: the refusal of another one, and the bytes that it may be.
HEADER = (*((1, (byte,)) for byte in b"MQTR"), (2, (1, 2)), (3, (0, 1)), (4, (0, 1)), (4, (0,)))
MOST_EARLY = 4_096  # events of a connection before its CONNACK
OPEN, SENT, RECV, CLOSE, REST, RELEASE = range(1, 7)
MOST_IN_RECORD = {1: 1_048_576, 2: 16_777_216}  # by version
DEFAULT_LIMIT = 16_777_216  # the size of a packet, in bytes
BROKEN, LOST = 16, 17  # in place of a packet's type
Subject = tuple[int, int]  # an event's kind, and its packet's type


@dataclass(slots=True)
class Event:
    kind: int
    record: int
    item: Packet | Bad | Lost | None = None
    released: int = 0
    # at a CLOSE: the bytes so far of the packet that the tested end had begun to send and not ended, and to receive
    unfinished: tuple[bytes, bytes] = (b"", b"")
    moment: int = 0

    @property
    def begun(self) -> int | None:
        """At a CLOSE: the first byte of the packet that the tested end had begun to send and not ended."""
        return self.unfinished[0][0] if self.unfinished[0] else None

    def subject(self) -> Subject:
        """What it is, so far as that decides which statements are about it."""
        match self.item:
            case Packet() as packet:
                return self.kind, packet.type
            case Bad():
                return self.kind, BROKEN
            case Lost():
                return self.kind, LOST
        return self.kind, 0


@dataclass
class Refusal(Exception):
    number: int
    at: int

    def text(self) -> str:
        return f"refused {self.number} {REFUSALS[self.number]} at {self.at}"


def frame(stream: bytes) -> tuple[int, int] | Lost | None:
    """How many bytes the first packet's fixed header and the whole packet have. None: more bytes are needed to tell."""
    length = 0
    for n in range(4):
        if len(stream) < n + 2:
            return None
        byte = stream[n + 1]
        length |= (byte & 0x7F) << (7 * n)
        if byte < 0x80:
            return Lost(n + 2) if n > 0 and byte == 0 else (n + 2, n + 2 + length)
    return Lost(5)


class Recording:
    """The events of a log's bytes, up to where it is refused. The bytes are looked at in turn, so the first refusal that is met is the
    earliest."""

    def __init__(self, log: bytes, limit: int = DEFAULT_LIMIT):
        self.log, self.limit = log, limit
        self.version, self.role, self.releases = 1, "client", False
        # of the record that is being read, 0 in version 1
        self.moment = 0
        self.events: list[Event] = []
        self.is_open, self.has_connack, self.begun_after = False, False, 0
        # What has come of an unfinished packet in each direction; None after Lost.
        self.streams: dict[int, bytearray | None] = {}
        self.refusal: Refusal | None = None
        try:
            self.read()
        except Refusal as refusal:
            self.refusal = refusal.with_traceback(None)

    def unfinished(self) -> tuple[bytes, bytes]:
        """The bytes so far of the packet that the tested end has begun to send on the latest connection, and not ended, and to receive."""
        return bytes(self.streams.get(SENT) or b""), bytes(self.streams.get(RECV) or b"")

    @property
    def left(self) -> tuple[bytes, bytes]:
        """Those that the log's end leaves unfinished."""
        return self.unfinished() if self.is_open else (b"", b"")

    def check_end(self, end: int) -> None:
        """Whether there are so many bytes."""
        if end > len(self.log):
            raise Refusal(10, len(self.log))

    def read(self) -> None:
        self.read_header()
        at, record = 8, 0
        while at < len(self.log):
            record += 1
            kind = self.log[at]
            self.check_kind(kind, at)
            self.check_end(at + 5)
            length = int.from_bytes(self.log[at + 1 : at + 5], "big")
            most = MOST_IN_RECORD[self.version] if kind in (SENT, RECV) else 2 if kind == RELEASE else 0
            if length > most or (kind == RELEASE and length != 2):
                raise Refusal(6, at + 4)
            at += 5
            if self.version == 2:
                self.check_end(at + 8)
                self.moment = int.from_bytes(self.log[at : at + 8], "big")
                at += 8
            self.read_body(kind, record, at, length)
            at += length

    def read_header(self) -> None:
        for at, (number, taken) in enumerate(HEADER):
            self.check_end(at + 1)
            if self.log[at] not in taken:
                raise Refusal(number, at)
        self.version, self.role, self.releases = self.log[4], ("client", "server")[self.log[5]], self.log[6] == 1

    def check_kind(self, kind: int, at: int) -> None:
        if not 1 <= kind <= 6:
            raise Refusal(5, at)
        if kind == OPEN and self.is_open:
            raise Refusal(7, at)
        if kind in (SENT, RECV, CLOSE, REST) and not self.is_open:
            raise Refusal(8, at)
        if kind == RELEASE and not self.releases:
            raise Refusal(9, at)

    def read_body(self, kind: int, record: int, begin: int, length: int) -> None:
        end = begin + length
        if kind in (SENT, RECV):
            self.take(kind, record, begin, min(end, len(self.log)))
            self.check_end(end)
            return
        self.check_end(end)
        if kind == OPEN:
            self.is_open, self.has_connack, self.begun_after = True, False, len(self.events)
            self.streams = {SENT: bytearray(), RECV: bytearray()}
        released = int.from_bytes(self.log[begin:end], "big")
        unfinished = self.unfinished() if kind == CLOSE else (b"", b"")
        self.add(Event(kind, record, None, released, unfinished), end - 1)
        if kind == CLOSE:
            self.is_open = False

    def take(self, way: int, record: int, at: int, end: int) -> None:
        """Bytes of a stream of packets. What a packet is shows at the end of its fixed header, and at its own end."""
        while at < end and (stream := self.streams[way]) is not None:
            begin = at - len(stream)  # of the packet, were all of it in this record
            match frame(stream[:5] + self.log[at : min(end, begin + 5)]):
                case Lost(size) as lost:
                    self.streams[way] = None
                    self.add(Event(way, record, lost), begin + size - 1)
                case (header, size) if size > self.limit:
                    raise Refusal(11, begin + header - 1)
                case (header, size) if begin + size <= end:
                    self.streams[way] = bytearray()
                    self.end_packet(bytes(stream + self.log[at : begin + size]), header, way, record, begin + size - 1)
                    at = begin + size
                case _:
                    stream += self.log[at:end]
                    at = end

    def end_packet(self, packet: bytes, begin: int, way: int, record: int, at: int) -> None:
        item = decode(packet, begin)
        if isinstance(item, OtherVersion):
            raise Refusal(12, at)
        from_server = (way == SENT) == (self.role == "server")
        if isinstance(item, Packet) and item.type == CONNACK and from_server:
            self.has_connack = True
        self.add(Event(way, record, item), at)

    def add(self, event: Event, at: int) -> None:
        """One more event, at this byte. A RELEASE between connections is on none."""
        is_early = self.is_open and not self.has_connack and event.kind != CLOSE
        if is_early and len(self.events) - self.begun_after >= MOST_EARLY:
            raise Refusal(13, at)
        event.moment = self.moment
        self.events.append(event)
