"""Worked logs, with all places of one statement in each, for places.py.

Those of mq_rules_tests are read from its source: there their places are computed from the definitions, in proofs. They have all
statements but W01 to W21, and the further ones that the program judges on request, those on times with moments. The rows here have
these, and more of the others; they were written from the words.

Their events are written in the words of crates/mq_rules/specs/Worked.antt and crates/mq_rules_tests/specs/Deliveries.antt, each of
which is a function here. A packet has 10 bytes there, if nothing else is said.
"""
import re
from collections.abc import Callable, Container, Iterable, Iterator
from dataclasses import dataclass, replace
from pathlib import Path

import check_rows
from further_table import ALL, ALWAYS, TIMES
from further_times import LARGE
from reading import (
    AUTH, Bad, CLOSE, CONNACK, CONNECT, DISCONNECT, Event, Lost, OPEN, PINGREQ, PINGRESP, PUBACK, PUBCOMP, PUBLISH, PUBREC,
    PUBREL, Packet, RECV, RELEASE, REST, Recording, SENT, SUBACK, SUBSCRIBE, UNSUBACK, UNSUBSCRIBE,
)
from sessions import Log

SOURCES = Path(__file__).resolve().parent.parent / "crates/mq_rules_tests/src"
PROVED = (SOURCES / "worked_places.rt", SOURCES / "worked_matching_places.rt")
PROVED_FAULTS = (SOURCES / "worked.rt", SOURCES / "worked_matching.rt")
PROVED_TIMED = (SOURCES / "worked_times.rt",)
CLAUSE = re.compile(r"ensures (\w+) \{ (applying|failing)(?:_timed)? (\w+) (\w+) \((.*)\) ≡ (.*) \}")
MOMENT = re.compile(r"\((\d+), ")  # before an event
TOKEN = re.compile(r"[()]|[^()\s]+")
CONS, NIL = "∷", "[]"

# A statement, a log in the words of check_rows.py, and all places of the statement, or `-`; other events nearby are none.
ROWS = """\
W01 | client OPEN >CONNECT <CONNACK >PUBLISH0 >PINGREQ REST CLOSE | 2 5
W01 | server OPEN <CONNECT >CONNACK >D100 >3100 | 3 4
W02 | client OPEN >CONNECT <CONNACK >PUBLISH0 >PINGREQ <PINGRESP | 2 4 5
W02 | client OPEN >CONNECT <CONNACK >0000 >C00100 >LOST | 2 4
W03 | client OPEN >CONNECT <CONNACK >PINGREQ >C00100 >LOST | 2 4 6
W03 | client OPEN >CONNECT <CONNACK >3006000161800078 | 2 4
W04 | client OPEN >CONNECT <CONNACK >SUBSCRIBE:1 >UNSUBSCRIBE:2 >PUBLISH0 >PINGREQ >PUBACK:1 >DISCONNECT | 2 4 5 6
W04 | client OPEN >CONNECT <CONNACK >30050001FF0078 >30050001000078 | 2 4
W04 | client OPEN >CONNECT <CONNACK >ALIAS-1 >300A00000723000108000178 | 2 5
W04 | server OPEN <CONNECT >CONNACK >CONNACK-NAMING >4008000190041F000178 >4009000100052600000000 >DISCONNECT-60 | 4 5 6
W05 | server OPEN <CONNECT >CONNACK >PUBLISH0 >SUBACK:1 >90080001041F00017802 | 4 6
W06 | client OPEN >CONNECT <CONNACK >PINGREQ >C00100 >D100 | 2 4 5
W07 | client OPEN >CONNECT <CONNACK >PUBLISH0 >PUBLISH1:1 >360700016100010078 >PUBREL:1 | 4 5 6
W08 | client OPEN >CONNECT <CONNACK >PUBLISH0 >PUBLISH1:1 >38050001610078 >RESEND1:1 | 4 6
W09 | client OPEN >CONNECT <CONNACK >PUBLISH0 >PUBLISH1:1 >PUBREL:1 >SUBSCRIBE:1 >320700016100000078 >PINGREQ | 5 6 7 8
W10 | client OPEN >CONNECT <CONNACK >PUBLISH0 >ALIAS-1 >300700016102170078 >DISCONNECT-0 | 5 6 7
W10 | client OPEN >CONNECT-NAMED CLOSE OPEN >CONNECT-KEPT | 5
W10 | client OPEN >101700044D5154540506003C00000163020101000161000178 | 2
W11 | server OPEN <CONNECT >CONNACK >3007000161020B0178 >ALIAS-1 >300C000161072600016100016178 >3009000161040100010078 | 5 7
W11 | client OPEN >101700044D5154540506003C00000163020101000161000178 <CONNACK >82090001020B0100016102 | 2 4
W12 | client OPEN >101700044D5154540506003C00000163020101000161000178 <CONNACK >300700016102010078 >ALIAS-1 | 5
W12 | client OPEN >CONNECT-TERSE <CONNACK >DISCONNECT-0 | 2
W12 | server OPEN <CONNECT >CONNACK >3007000161020B0078 >3007000161020B0178 | 4 5
W13 | server OPEN <CONNECT >CONNACK >PUBACK:1 >PUBREC-10:1 >SUBACK:1 >UNSUBACK:1 >DISCONNECT >E0018B >E0018A | 3 5 6 7 9 10
W13 | client OPEN >CONNECT <CONNACK >PUBLISH0 >PUBCOMP:1 >PUBCOMP-92:1 >AUTH >F00118 >9003000100 | 6 8
W14 | client OPEN >CONNECT <CONNACK >PUBLISH0 >ALIAS-1 >300A00000723000108000178 >30050001230078 >SUBSCRIBE:1 | 4 6 7
W15 | client OPEN >CONNECT <CONNACK >SUBSCRIBE:1 >UNSUBSCRIBE:2 >82080001000002612302 >PUBLISH0 | 4 5 6
W16 | client OPEN >CONNECT <CONNACK >SUBSCRIBE:1 >UNSUBSCRIBE:2 >8203000100 >82080001000002612302 | 4 5 6
W17 | client OPEN >CONNECT <CONNACK >SUBSCRIBE:1 >UNSUBSCRIBE:2 >820700010000016103 | 4 6
W17 | server OPEN <CONNECT >CONNACK <SUBSCRIBE:1 >SUBSCRIBE:1 | 5
W18 | client OPEN >CONNECT <CONNACK >PINGREQ CLOSE OPEN >BAD-CONNECT | 2 7
W19 | client OPEN >CONNECT <CONNACK CLOSE OPEN >BAD-CONNECT | 2
W20 | server OPEN <CONNECT >CONNACK >PINGRESP >BAD-CONNACK | 3 5
W20 | client OPEN >CONNECT <CONNACK <CONNACK >CONNACK | 5
W21 | client OPEN >CONNECT <CONNACK >ALIAS-SET-1 >ALIAS-1 >300400000078 | 5 6
C01 | client OPEN >CONNECT <CONNACK >0000 >PINGREQ >C00100 >LOST | 2 5 6
C08 | server OPEN <CONNECT-KEPT >CONNACK CLOSE OPEN <RECONNECT >CONNACK CLOSE | -
C11 | client OPEN >CONNECT <CONNACK >DISCONNECT >C00100 >LOST <PINGRESP REST CLOSE OPEN >CONNECT CLOSE | 5 9
C12 | server OPEN <CONNECT >CONNACK-REFUSED <PINGREQ >PINGRESP REST CLOSE | 5 7
C13 | client OPEN >CONNECT-KEPT >PINGREQ <CONNACK-RESUMED >PINGREQ >C00100 REST CLOSE | 5 8
C14 | client OPEN >CONNECT >PINGREQ <CONNACK-SIZE-10 >PINGREQ >C00100 | 5
C15 | client OPEN >CONNECT >ALIAS-SET-1 <CONNACK-ALIASES-5 >ALIAS-SET-1 >PUBLISH0 | 5
C17 | client OPEN >CONNECT >PUBLISH0 <CONNACK-QOS-1 >PUBLISH0 >PUBREL:1 | 5
C21 | server OPEN <CONNECT >CONNACK >PINGRESP CLOSE OPEN <CONNECT-TERSE >CONNACK >PUBLISH0 >PUBACK:1 >DISCONNECT | 10
C23 | client OPEN >CONNECT <CONNACK REST >DISCONNECT REST >PINGREQ CLOSE | 6 8
S01 | client OPEN >CONNECT-KEPT <CONNACK >PUBLISH1:1 CLOSE OPEN >RECONNECT <RESUMED-SIZED >PUBLISH1:2 >PUBLISH1:3 | 10
S01 | client OPEN >CONNECT <CONNACK >PUBLISH1:1 CLOSE OPEN >CONNECT <CONNACK >PUBLISH1:2 >SUBSCRIBE:1 >RESEND1:2 >PUBREL:1 | 10
S02 | client OPEN >RECONNECT <CONNACK >PUBLISH1:1 CLOSE OPEN >RECONNECT >32 CLOSE OPEN >RECONNECT <CONNACK-RESUMED >RESEND1:1 | -
S02 | client OPEN >CONNECT-KEPT <CONNACK >32 CLOSE OPEN >CONNECT-KEPT <CONNACK >RESEND1:1 >PUBLISH1:1 | 8
S02 | client OPEN >CONNECT-KEPT <CONNACK >30 CLOSE OPEN >RECONNECT <CONNACK-RESUMED >RESEND1:1 | 8
S04 | client OPEN >RECONNECT <CONNACK >PUBLISH1:1 >PUBREL:1 CLOSE OPEN >RECONNECT <CONNACK-RESUMED >RESEND1:1 >PUBREL:1 | -
S04 | client OPEN >RECONNECT <CONNACK >PUBLISH2:1 >PUBREL:1 CLOSE OPEN >RECONNECT <CONNACK-RESUMED >RESEND2:1 >PUBREL:1 | 10 11
S05 | client OPEN >CONNECT-KEPT <CONNACK >PUBLISH1:1 CLOSE OPEN >RECONNECT <CONNACK-RESUMED >RESEND1:2 >RESEND1:1 >RESEND1:1 | 11
S06 | client OPEN >RECONNECT <CONNACK >PUBLISH1:1 >PUBLISH1:1 CLOSE OPEN >RECONNECT <CONNACK-RESUMED >RESEND1:1 <PUBACK:1 REST | 5
S06 | client OPEN >RECONNECT <CONNACK >PUBLISH1:1 CLOSE OPEN >RECONNECT REST <CONNACK-RESUMED >PUBLISH1:1 <PUBACK:1 REST CLOSE | 4
S06 | client OPEN >RECONNECT <CONNACK >PUBLISH1:1 CLOSE OPEN >RECONNECT <CONNACK-RESUMED <DISCONNECT REST CLOSE | -
S07 | client OPEN >CONNECT >PUBLISH1:1 <CONNACK-RECEIVES-1 >PUBLISH0 >PUBLISH1:2 <PUBACK:2 >PUBLISH1:3 >PUBLISH1:4 | 6 8 9
E1A | client OPEN >CONNECT <CONNACK >PUBACK:1 >PUBREC:1 <PUBACK:2 | 4
E1R | client OPEN >CONNECT <CONNACK REST <PUBLISH1:1 >PUBACK:1 CLOSE | -
E1R | client OPEN >CONNECT <CONNACK <PUBLISH1:1 >PUBACK:1 <DISCONNECT REST CLOSE | -
E1R | client OPEN >CONNECT <PUBLISH1:1 <CONNACK <PUBLISH1:1 <PUBLISH1:2 >PUBACK:1 <PUBLISH1:1 REST <PUBLISH1:3 | 3 6 8
E1O | client OPEN >CONNECT <CONNACK <PUBLISH1:1 >PUBACK:2 <PUBLISH1:2 >PUBACK:2 >PUBACK:1 | 7
E3R | client OPEN >CONNECT <CONNACK <PUBREC-80:1 <PUBREC:2 REST | 5
E7R | server OPEN <CONNECT >CONNACK <PINGREQ REST REST >PINGRESP <DISCONNECT REST CLOSE | 5 6
L1 | client OPEN >CONNECT RELEASE:1 CLOSE RELEASE:1 OPEN >CONNECT <CONNACK RELEASE:2 CLOSE RELEASE:1 | 9 11
L1 | client OPEN >RECONNECT RELEASE:1 CLOSE RELEASE:1 | 3 5
L3 | client OPEN >CONNECT <CONNACK <PUBLISH2:1 >PUBREC-10:1 <PUBREL:1 >PUBCOMP:1 | -
L3 | client OPEN >CONNECT <CONNACK <PUBLISH2:1 <PUBREL:1 >PUBCOMP-92:1 >PUBCOMP:1 <PUBLISH2:1 >PUBCOMP:1 | 9
L3 | silent-client OPEN >CONNECT <CONNACK <PUBLISH2:1 >PUBREC:1 <PUBREL:1 >PUBCOMP:1 | -
B01 | server OPEN <CONNECT >CONNACK >PUBLISH0 >RESEND1:1 >PUBLISH1:1 >ALIAS-1 >ALIAS-SET-1 >ALIAS-1 | 4 6 8 9
B02 | server OPEN <CONNECT >CONNACK >PUBLISH0 >RESEND1:1 >PUBLISH1:1 >PUBLISH2:2 | 6 7
B03 | server OPEN <CONNECT >CONNACK <SUBSCRIBE:1 >UNSUBACK:1 >900400020002 >SUBACK:1 >SUBACK:1 | 7
B04 | server OPEN <CONNECT >CONNACK <UNSUBSCRIBE:1 >SUBACK:1 >UNSUBACK:1 >UNSUBACK:1 | 6"""


# A log in the same words, and what isn't judged of it: what, why, and the event from which on, if it is one, with its record, if that
# has another number.
GAPS = """\
client OPEN >CONNECT <CONNACK REST CLOSE |
client OPEN >CONNECT <CONNACK REST CLOSE RELEASE:1 |
client | answers no-rest
client OPEN >CONNECT <CONNACK >LOST CLOSE | sent lost @4, answers no-rest
client OPEN >CONNECT <CONNACK REST <LOST >PINGREQ | received lost @5
server OPEN <CONNECT >CONNACK REST <LOST >LOST CLOSE | received lost @5, sent lost @6
client OPEN >CONNECT <LOST CLOSE OPEN >CONNECT <CONNACK REST CLOSE | received lost @3
client OPEN >CONNECT | session undecided @1, answers no-rest
client OPEN >CONNECT <CONNACK REST CLOSE OPEN >CONNECT REST | session undecided @6
client OPEN >CONNECT <CONNACK REST CLOSE OPEN >CONNECT <CONNACK-REFUSED |
server OPEN <CONNECT >CONNACK REST CLOSE OPEN | session undecided @6
client OPEN >CONNECT-KEPT <CONNACK REST CLOSE OPEN >CONNECT CLOSE OPEN >RECONNECT <CONNACK-RESUMED CLOSE | session unknown @11
client OPEN >CONNECT-KEPT <CONNACK REST CLOSE OPEN >RECONNECT CLOSE OPEN >RECONNECT <CONNACK-RESUMED CLOSE |
client OPEN >CONNECT-KEPT <CONNACK REST CLOSE OPEN >CONNECT CLOSE OPEN >CONNECT <CONNACK CLOSE |
client OPEN >RECONNECT CLOSE OPEN >CONNECT CLOSE OPEN >RECONNECT <CONNACK-RESUMED REST CLOSE |
client OPEN >CONNECT-KEPT <CONNACK CLOSE OPEN >CONNECT CLOSE OPEN >RECONNECT <CONNACK-RESUMED REST CLOSE | session unknown @10, answers no-rest
server OPEN <CONNECT >CONNACK REST <SHARE CLOSE | B01 B02 shared @5
server OPEN <CONNECT >CONNACK REST <SUBSCRIBE:1 <SHARE <SHARE CLOSE | B01 B02 shared @6
server OPEN <CONNECT <SHARE CLOSE | B01 B02 shared @3, answers no-rest
client OPEN >CONNECT <CONNACK REST <SHARE >SHARE CLOSE |
client OPEN >CONNECT REST <CONNACK | answers no-rest
client OPEN >CONNECT <CONNACK >DISCONNECT REST CLOSE | answers no-rest
client OPEN >CONNECT <CONNACK <DISCONNECT REST CLOSE OPEN >CONNECT <CONNACK REST |
server OPEN <CONNECT >CONNACK >D100 REST CLOSE | answers no-rest
server OPEN <CONNECT >CONNACK-REFUSED REST CLOSE | answers no-rest
silent-client OPEN >CONNECT <CONNACK REST | L1 L2 L3 no-releases
silent-client OPEN >CONNECT <CONNACK <LOST | received lost @4, answers no-rest, L1 L2 L3 no-releases
client OPEN >CONNECT <CONNACK REST >30 CLOSE | sent unfinished PUBLISH bytes 1 @5/6
client OPEN >CONNECT <CONNACK REST >3209000161 <40 >0001 CLOSE | sent unfinished PUBLISH bytes 7 @5/8, received unfinished PUBACK bytes 1 @5/8
client OPEN >CONNECT <CONNACK REST <D0 CLOSE OPEN >CONNECT <CONNACK >C0 | received unfinished PINGRESP bytes 1 @5/6, sent unfinished PINGREQ bytes 1
client OPEN >CONNECT <CONNACK REST CLOSE OPEN >10 <20 | sent unfinished CONNECT bytes 1, received unfinished CONNACK bytes 1, session undecided @6
client OPEN >CONNECT <CONNACK REST >C0 >00 <40 <020001 CLOSE |
client OPEN >CONNECT <CONNACK REST >LOST >30 CLOSE | sent lost @5
client OPEN >CONNECT <CONNACK REST >30FF7F <LOST CLOSE | received lost @5/6, sent unfinished PUBLISH bytes 3 @6/7
server OPEN <CONNECT >CONNACK REST <82050001 <0000 CLOSE | received unfinished SUBSCRIBE bytes 6 @5/7
server OPEN <CONNECT >CONNACK REST >00 CLOSE OPEN >F00118 <LOST | received lost @8/9, sent unfinished Reserved bytes 1 @5/6, session undecided @6/7
silent-client OPEN >CONNECT <CONNACK >E0 | sent unfinished DISCONNECT bytes 1, answers no-rest, L1 L2 L3 no-releases"""
SHARE = "821000010000" + "0A" + b"$share/g/a".hex() + "00"


@dataclass(frozen=True)
class Worked:
    name: str
    rule: str
    log: Log
    places: list[int]
    asked: str = ALWAYS  # for which statements it is asked
    has_faults: bool = False  # whether the places are those at which it fails


# ---- the words of events and packets: of each a function of its arguments

IDENTIFIERS = {
    "message_expiry": 0x02,
    "identifier": 0x0B,
    "expiry": 0x11,
    "problem": 0x17,
    "response": 0x19,
    "receive": 0x21,
    "aliases": 0x22,
    "alias": 0x23,
    "qos": 0x24,
    "retain": 0x25,
    "size": 0x27,
    "wildcards": 0x28,
    "identifiers": 0x29,
    "shares": 0x2A,
}
METHOD = (0x15, b"m")
QUALITIES = ("quality.AtMostOnce", "quality.AtLeastOnce", "quality.ExactlyOnce")


def packet(kind: int, **fields: object) -> Packet:
    return Packet(kind, 10, **fields)


def given(**properties: int | None) -> list[tuple[int, object]]:
    """Those of these properties that are there."""
    return [(IDENTIFIERS[name], value) for name, value in properties.items() if value is not None]


def connect(clean: bool, expiry: int | None = 60, named: bool = True, **others: int | None) -> Packet:
    name = b"c" if named else b""
    return packet(CONNECT, clean_start=clean, client_identifier=name, properties=given(expiry=expiry, **others))


def connack(present: bool, code: int = 0, *texts: int, **others: int | None) -> Packet:
    return packet(CONNACK, session_present=present, code=code, properties=[*given(**others), *((kind, b"x") for kind in texts)])


def publish(qos: int, i: int | None, dup: bool = False, topic: bytes = b"a", retain: bool = False, **properties: int) -> Packet:
    return packet(PUBLISH, qos=qos, identifier=i, dup=dup, topic=topic, retain=retain, properties=given(**properties))


def acknowledges(kind: int) -> Callable[[int, int], Packet]:
    return lambda i, code: packet(kind, identifier=i, code=code)


def asks(filter: bytes) -> Callable[..., Packet]:
    return lambda i, qos=0: packet(SUBSCRIBE, identifier=i, filters=[(filter, qos)])


def removes(*filters: bytes) -> Callable[[int], Packet]:
    return lambda i: packet(UNSUBSCRIBE, identifier=i, filters=[(filter, 0) for filter in filters])


def subscribe(i: int, *asked: bytes | int, identifier: int | None = None) -> Packet:
    """To filters, each followed by its options."""
    filters = list(zip(asked[::2], asked[1::2]))
    return packet(SUBSCRIBE, identifier=i, filters=filters, properties=given(identifier=identifier))


def named(item: Packet, numbers: list[int]) -> Packet:
    """The packet with these Subscription Identifiers."""
    return replace(item, properties=[*item.properties, *((IDENTIFIERS["identifier"], number) for number in numbers)])


def sends(item: Packet | Bad | Lost) -> Event:
    return Event(SENT, 0, item)


def gets(item: Packet | Bad | Lost) -> Event:
    return Event(RECV, 0, item)


WORDS: dict[str, Callable] = {
    "true": lambda: True,
    "false": lambda: False,
    "None": lambda: None,
    "Some": lambda value: value,
    "Open": lambda: Event(OPEN, 0),
    "Close": lambda: Event(CLOSE, 0),
    "Cut": lambda: Event(CLOSE, 0, unfinished=(b"\x32", b"")),
    "CutOther": lambda: Event(CLOSE, 0, unfinished=(b"\x82", b"")),
    "at": lambda moment, event, *of: replace(event(*of) if callable(event) else event, moment=moment),
    "Rest": lambda: Event(REST, 0),
    "Release": lambda i: Event(RELEASE, 0, released=i),
    "sends": sends,
    "gets": gets,
    "sends_sized": lambda size, item: sends(replace(item, size=size)),
    "sends_bad": lambda first, rule: sends(Bad(rule, 2, bytes([first]))),
    "gets_bad": lambda first, rule: gets(Bad(rule, 2, bytes([first]))),
    "sends_lost": lambda: sends(Lost(5)),
    "gets_lost": lambda: gets(Lost(5)),
    "notes.Recv": gets,
    "items.Bad": lambda first, rule, at, is_large: Bad(rule, at, bytes([first]) * (LARGE + 1 if is_large else 1)),
    "lasting": lambda: connect(True),
    "again": lambda: connect(False),
    "fleeting": lambda: connect(True, None),
    "unnamed": lambda: connect(True, None, named=False),
    "kept_alive": lambda seconds: replace(connect(True), keep_alive=seconds),
    "with_will": lambda qos, retain: replace(connect(True), will_qos=qos, will_retain=retain),
    "with_method": lambda: replace(connect(True), properties=[METHOD]),
    "asking": lambda problem, response, receive, aliases, size: connect(
        True, problem=problem, response=response, receive=receive, aliases=aliases, size=size
    ),
    "accepting": lambda: connack(False),
    "resuming": lambda: connack(True),
    "refusing": lambda: connack(False, 0x87),
    "keeping_alive": lambda seconds: replace(connack(False), properties=[(0x13, seconds)]),
    "limiting": lambda present, receive, aliases, qos, size: connack(
        present, receive=receive, aliases=aliases, qos=qos, size=size
    ),
    "retaining": lambda available: connack(True, retain=available),
    "announcing": lambda code, qos, retain: connack(False, code, qos=qos, retain=retain),
    "lacking": lambda retain, wildcards, identifiers, shares: connack(
        False, retain=retain, wildcards=wildcards, identifiers=identifiers, shares=shares
    ),
    "naming_method": lambda: replace(connack(False), properties=[METHOD]),
    "naming_other": lambda: replace(connack(False), properties=[(METHOD[0], b"b")]),
    "one_method": lambda: METHOD[1],
    "other_method": lambda: b"b",
    "auth_alone": lambda: packet(AUTH),
    "auth_by": lambda method: packet(AUTH, properties=[(METHOD[0], method)]),
    "assigning": lambda: connack(False, 0, 0x12),
    "informing": lambda: connack(False, 0, 0x1A),
    "leaving": lambda expiry: packet(DISCONNECT, properties=given(expiry=expiry)),
    "leaving_by": lambda code: packet(DISCONNECT, code=code),
    "at_most_once": lambda: publish(0, None),
    "retained_at_most_once": lambda: publish(0, None, retain=True),
    "retained_again": lambda i: publish(1, i, True, retain=True),
    "once": lambda dup, i: publish(1, i, dup),
    "exactly": lambda dup, i: publish(2, i, dup),
    "retained_once": lambda i: publish(1, i, retain=True),
    "retained_exactly": lambda i: publish(2, i, retain=True),
    "expiring": lambda i: publish(2, i, message_expiry=60),
    "aliased": lambda topic, alias: publish(0, None, topic=bytes(topic), alias=alias),
    "subscribed": lambda: named(publish(0, None), [1]),
    "asks_a": asks(b"a"),
    "asks_b": asks(b"b"),
    "asks_both": lambda i, *options: packet(SUBSCRIBE, identifier=i, filters=list(zip((b"a", b"b"), options))),
    "asks_twice": lambda i: packet(SUBSCRIBE, identifier=i, filters=[(b"a", 0)] * 2),
    "removes_a": removes(b"a"),
    "removes_b": removes(b"b"),
    "removes_both": removes(b"a", b"b"),
    "removes_twice": removes(b"a", b"a"),
    "asks_shared": asks(b"$share/g/a"),
    "asks_plainly": lambda: asks(b"a")(1),
    "asks_widely": lambda: asks(b"#")(1),
    "asks_identified": lambda: named(asks(b"a")(1), [1]),
    "asks_to_share": lambda: asks(b"$share/g/a")(1),
    "asks_misnamed": lambda: asks(b"$share/+/a")(1),
    "asks_no_local": lambda: asks(b"$share/g/a")(1, 4),
    "codes": lambda text: text,
    "asks": lambda i, filter, options: subscribe(i, filter, options),
    "asks_two": lambda i, filter, options, other, more: subscribe(i, filter, options, other, more),
    "asks_with_identifier": lambda i, filter, options: subscribe(i, filter, options, identifier=1),
    "asks_two_with_identifier": lambda i, filter, options, other, more: subscribe(i, filter, options, other, more, identifier=1),
    "asks_named": lambda number, i, filter, options: subscribe(i, filter, options, identifier=number),
    "asks_two_named": lambda number, i, filter, options, other, more: subscribe(i, filter, options, other, more, identifier=number),
    "removes": lambda i, filter: removes(filter)(i),
    "delivers": lambda topic: publish(0, None, topic=topic),
    "delivers_retained": lambda topic: publish(0, None, topic=topic, retain=True),
    "delivers_for": lambda topic, numbers: named(publish(0, None, topic=topic), numbers),
    "delivers_once_for": lambda dup, topic, numbers: named(publish(1, 1, dup, topic), numbers),
    "aliased_for": lambda topic, alias, numbers: named(publish(0, None, topic=bytes(topic), alias=alias), numbers),
    "resuming_without_identifiers": lambda: connack(True, identifiers=0),
    "Puback": acknowledges(PUBACK),
    "Pubrec": acknowledges(PUBREC),
    "Pubrel": acknowledges(PUBREL),
    "Pubcomp": acknowledges(PUBCOMP),
    "Suback": lambda i, codes: packet(SUBACK, identifier=i, codes=codes),
    "Unsuback": lambda i, codes: packet(UNSUBACK, identifier=i, codes=codes),
    "Pingreq": lambda: packet(PINGREQ),
    "Pingresp": lambda: packet(PINGRESP),
}
# Whether it is a client, whether it records releases, and for which statements it is asked.
ENDS = {
    "client": ("client", True, ALWAYS),
    "server": ("server", True, ALWAYS),
    "client_unrecorded": ("client", False, ALWAYS),
    "client_asked": ("client", True, ALL),
    "server_asked": ("server", True, ALL),
    "client_timed": ("client", True, TIMES),
    "server_timed": ("server", True, TIMES),
}

# ---- reading what is written in these words


def value(tokens: list[str]) -> object:
    """The value of the tokens up to a closing parenthesis, or to the end: of a list, or of a word with its arguments."""
    items: list[object] = []
    is_list = False
    while True:
        applied = [argument(tokens)]
        while tokens and tokens[0] not in (CONS, ")"):
            applied.append(argument(tokens))
        head, *rest = applied
        items.append(head(*rest) if callable(head) else head)
        if not tokens or tokens.pop(0) == ")":
            break
        is_list = True
    return items[:-1] if is_list else items[0]


def argument(tokens: list[str]) -> object:
    """One argument. A word that takes arguments of its own is called later."""
    token = tokens.pop(0)
    if token == "(":
        return value(tokens)
    if token.isdecimal():
        return int(token)
    if token[0] == '"':
        return token[1:-1].encode()
    if token.startswith("packets."):
        return token.partition(".")[2]
    if token == NIL:
        return []
    if token in QUALITIES:
        return QUALITIES.index(token)
    word = WORDS[token]
    return word() if word.__code__.co_argcount == 0 else word


def read(text: str) -> list:
    found = value(TOKEN.findall(MOMENT.sub(r"(at \1 ", text)))
    assert isinstance(found, list), text
    return found


def proved(sources: Iterable[Path] = PROVED, rules: Container[str] | None = None) -> Iterator[Worked]:
    """The worked logs of mq_rules_tests, or those of these statements. In its files on faults the places are those of faults."""
    text = "".join(source.read_text() for source in sources)
    clauses = CLAUSE.findall(text)
    assert len(clauses) == text.count(" ensures "), "a worked log that can't be read"
    for name, word, end, rule, events, places in clauses:
        if rules is None or rule in rules:
            role, releases, asked = ENDS[end]
            log = Log(read(events), role, releases)
            yield Worked(f"{name}, {rule}", rule, log, sorted(read(places)), asked, word == "failing")


def worked_gaps() -> Iterator[tuple[str, Log, list[str]]]:
    """The rows on what isn't judged: each with its lines."""
    names = check_rows.packets()
    for line in GAPS.split("\n"):
        words, wanted = (part.strip() for part in line.split("|"))
        recording = Recording(check_rows.log_of(words.replace("SHARE", SHARE), names))
        assert recording.refusal is None, line
        log = Log(recording.events, recording.role, recording.releases, recording.left)
        yield line, log, [gap_line(one) for one in wanted.split(", ") if one]


def gap_line(words: str) -> str:
    gap, _, at = words.partition(" @")
    event, _, record = at.partition("/")
    return f"unjudged {gap} event {event} record {record or event}" if at else f"unjudged {gap}"


def rows() -> Iterator[Worked]:
    """The rows that are here."""
    names = check_rows.packets()
    for line in ROWS.split("\n"):
        rule, words, places = (part.strip() for part in line.split("|"))
        recording = Recording(check_rows.log_of(words, names))
        assert recording.refusal is None, line
        log = Log(recording.events, recording.role, recording.releases)
        yield Worked(line, rule, log, [int(place) for place in places.split() if place != "-"])
