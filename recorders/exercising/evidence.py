"""Where a log puts each statement to the test, and in which circumstances, as the exerciser reads the statements.

A statement is tested where the tested end could have broken it: S07 where a PUBLISH uses up the Receive Maximum, S06
where a session is resumed with a message that isn't acknowledged, and then comes a REST. Such a place has the position
of its event, as the program's faults have, and tags that say what was so there: `q2`, `resumed`, `many`. This judges
nothing; `test_situations.py` compares it with the second opinion on places (`bench/places.py`).
"""
from __future__ import annotations

from collections import Counter
from collections.abc import Iterator, Mapping
from dataclasses import dataclass, field

from exercising.packets import RESERVED, Cutter, Packet, Prop, Type, varint
from log_format import HEADER_SIZE, records

SENT, RECV, OPEN, CLOSE, REST = 2, 3, 1, 4, 5
SERVER_AT = 5  # the byte of a log's header that says which end is tested
RANGED = frozenset((0x0B, 0x17, 0x19, 0x21, 0x23, 0x24, 0x25, 0x27, 0x28, 0x29, 0x2A))
REPEATABLE = frozenset((Prop.USER_PROPERTY,))
RESPONSE_TOPIC = 0x08
BARE_ACKNOWLEDGEMENT, BARE_DISCONNECT = 4, 2  # bytes of such packets without a Reason Code
SERVER_ONLY = frozenset("C04 C05 C06 C07 C08 C09 C10 C12 C19 C21 C22 E5A E5R E6A E6R E7R B01 B02 B03 B04 W20".split())
CLIENT_ONLY = frozenset("C02 C03 C13 C17 C18 C20 S05 E1O E2O E3O W15 W16 W17 W18 W19".split())
BOTH = frozenset(
    "W01 W02 W03 W04 W05 W06 W07 W08 W09 W10 W11 W12 W13 W14 W21 C01 C11 C14 C15 C16 C23"
    " S01 S02 S03 S04 S06 S07 E1A E1R E2A E2R E3A E3R E4A E4R".split()
)
BINDING = {True: SERVER_ONLY | BOTH, False: CLIENT_ONLY | BOTH}  # by whether the tested end is a server
FURTHER_OF_BOTH = frozenset(("V06", "A02", "A03"))
FURTHER = {  # what binds too if the further statements are asked for
    True: FURTHER_OF_BOTH | frozenset("B05 B06 B07 B08 B09 P01 P02 R01 R02 F05 F06 C24 D01 D02 D03 D05".split()),
    False: FURTHER_OF_BOTH | {"F01", "F02", "F03", "F04", "V03", "V04", "A01"},
}
FOREIGN = {True: CLIENT_ONLY & frozenset("W15 W16 W17 W18 W19".split()), False: frozenset(("W20",))}  # out of reach
STURDY = "WCFVDA"  # the letters of the statements that hold whatever the peer does
NEEDS_PEER = frozenset(("C08",))  # but this one: whether there is a session depends on the peer
OF_TYPES = {Type.SUBSCRIBE: {"W15", "W16", "W17"}, Type.UNSUBSCRIBE: {"W15", "W16"}, Type.CONNECT: {"W18", "W19"},
            Type.CONNACK: {"W20"}}
WITH_TEXTS = (Type.CONNECT, Type.SUBSCRIBE, Type.UNSUBSCRIBE)
LENGTHS = ("", "one-byte", "two-bytes", "three-bytes", "four-bytes")  # of a Remaining Length


@dataclass(frozen=True)
class Place:
    """Where a statement is put to the test."""

    code: str
    position: int  # of the event, from 1
    tags: frozenset[str]
    is_judged: bool = True  # False: nothing was sent that could be judged, but it would have been wrong to


@dataclass(frozen=True)
class Event:
    """An event of a log, as the program numbers them."""

    position: int
    kind: int
    packet: Packet | None = None
    is_bad: bool = False  # its bytes break a rule
    is_lost: bool = False  # an invalid Remaining Length: nothing more is read in this direction


def events_of(log: bytes, bad: Mapping[int, str]) -> Iterator[Event]:
    """The events of a log. `bad` has the positions of packets whose bytes break a rule, with the code of that rule."""
    cutters: dict[int, Cutter] = {}
    position = 0
    for kind, body, _ in records(log):
        if kind not in (SENT, RECV):
            if kind == OPEN:
                cutters = {SENT: Cutter(is_strict=True), RECV: Cutter(is_strict=True)}
            position += 1
            yield Event(position, kind)
        elif kind in cutters and not cutters[kind].is_lost:
            for packet in cutters[kind].feed(body):
                position += 1
                yield Event(position, kind, packet, position in bad)
            if cutters[kind].is_lost:
                position += 1
                yield Event(position, kind, is_lost=True)


def positions_without_rests(log: bytes) -> list[int]:
    """The positions of the events that aren't a REST: what is numbered in the log as it is for the other end."""
    return [event.position for event in events_of(log, {}) if event.kind != REST]


def binding(is_server: bool, is_of_all: bool) -> frozenset[str]:
    """The statements that bind an end, with the further ones or without."""
    return BINDING[is_server] | (FURTHER[is_server] if is_of_all else frozenset())


def is_sturdy(code: str) -> bool:
    """Whether a statement holds whatever the peer does."""
    return code[0] in STURDY and code not in NEEDS_PEER


# ---- a packet's bytes


def writes_code(packet: Packet) -> bool:
    """Whether a Reason Code is written in a packet."""
    if packet.kind in (Type.PUBACK, Type.PUBREC, Type.PUBREL, Type.PUBCOMP):
        return packet.size > BARE_ACKNOWLEDGEMENT
    if packet.kind in (Type.DISCONNECT, Type.AUTH):
        return packet.size > BARE_DISCONNECT
    return packet.kind == Type.CONNACK or bool(packet.codes)


def of_bytes(packet: Packet) -> set[str]:
    """The statements on a packet's bytes that say something of it."""
    kind, properties = packet.kind, packet.properties
    keys = {key for key, _ in properties}
    codes = {"W02", "W03", "W06"} | ({"C01"} if kind else set())
    if kind == Type.PUBLISH:
        codes |= {"W07"} if packet.qos else {"W07", "W08"}
        codes |= {"W14"} if packet.topic != b"" or RESPONSE_TOPIC in keys else set()
        codes |= {"W21"} if packet.topic == b"" else set()
    else:
        codes |= {"W01"} | OF_TYPES.get(kind, set())
    if packet.identifier is not None:
        codes.add("W09")
    if keys:
        once = keys - REPEATABLE - ({Prop.SUBSCRIPTION_IDENTIFIER} if kind == Type.PUBLISH else set())
        codes |= {"W10"} | ({"W11"} if once else set()) | ({"W12"} if keys & RANGED else set())
    if writes_code(packet):
        codes.add("W13")
    has_text = kind in WITH_TEXTS or (kind == Type.PUBLISH and packet.topic != b"")
    if has_text or any(not isinstance(value, int) for _, value in properties):
        codes |= {"W04", "W05"}
    return codes


def tags_of(packet: Packet) -> set[str]:
    """What a packet is like."""
    kind = packet.kind
    keys = {key for key, _ in packet.properties}
    says = {
        Type(kind).name.lower() if kind else "type-0": True,
        LENGTHS[len(varint(len(packet.body)))]: True,
        "error": (packet.code or 0) >= RESERVED or any(code >= RESERVED for code in packet.codes),
        "success": packet.code == 0,
        "user-property": Prop.USER_PROPERTY in keys,
        "reason-string": Prop.REASON_STRING in keys,
        "response-topic": RESPONSE_TOPIC in keys,
        "subscription-identifier": Prop.SUBSCRIPTION_IDENTIFIER in keys,
        "properties": bool(keys),
        "codes": len(packet.codes) > 1,
        "many-codes": len(packet.codes) >= 50,
    }
    if kind == Type.PUBLISH:
        says |= {f"q{packet.qos}": True, "dup": packet.dup, "retained": bool(packet.first & 1),
                 "topic": packet.topic != b"", "alias": Prop.TOPIC_ALIAS in keys}
    return {tag for tag, is_so in says.items() if is_so}


# ---- all of a log


@dataclass
class Evidence:
    """Where a log tests what."""

    is_server: bool
    places: list[Place] = field(default_factory=list)

    @property
    def tested(self) -> frozenset[str]:
        """The codes of the statements that the log puts to the test."""
        return frozenset(place.code for place in self.places if place.is_judged)

    @property
    def counts(self) -> Counter[str]:
        """How often the log puts each of them to the test: of places with the same tags no more than were kept."""
        return Counter(place.code for place in self.places if place.is_judged)

    def keep_before(self, position: int) -> None:
        """Leaves out what says nothing since the peer broke a rule at this position."""
        self.places = [place for place in self.places if place.position < position or is_sturdy(place.code)]

    def at(self, code: str, position: int) -> list[Place]:
        return [place for place in self.places if place.position == position and place.code == code]


def read(log: bytes, bad: Mapping[int, str] | None = None, is_of_all: bool = False) -> Evidence:
    """Where a log puts which statement to the test; the further ones too if they are asked for."""
    from exercising.reading import Reading  # which needs what is above

    is_server = bool(log[SERVER_AT]) if len(log) >= HEADER_SIZE else True
    reading = Reading(is_server, bad or {})
    for event in events_of(log, bad or {}):
        reading.take(event)
    bound = binding(is_server, is_of_all)
    return Evidence(is_server, [place for place in reading.places if place.code in bound])
