"""The faults that are planted into what a right broker sends (`planting.py`), each with the scenarios that show it."""
from __future__ import annotations

from collections.abc import Callable, Iterator

from exercising.packets import (
    LARGEST_IDENTIFIER,
    PONG,
    Packet,
    Prop,
    Type,
    acknowledgement,
    codes,
    connack,
    disconnect,
    property_bytes,
    publish,
    two,
    Value,
    varint,
)
from planting import (
    Change,
    Flight,
    Plant,
    State,
    gone,
    on,
    once,
    raw,
    reconnack,
    republish,
    resumed,
    seldom,
    twice,
    when,
    with_body,
)

NO_SUBSCRIPTION = 0x11  # the Reason Code of an UNSUBACK
SEEN_IN = {  # scenarios in which packets of a type come
    Type.CONNACK: "connect-plain",
    Type.PUBLISH: "subscribe-granted",
    Type.PUBACK: "inbound-q1-repeats",
    Type.PUBREC: "inbound-q2-repeats",
    Type.PUBREL: "outbound-drop-q2-none-1",
    Type.PUBCOMP: "inbound-q2-repeats",
    Type.SUBACK: "subscribe-2",
    Type.UNSUBACK: "subscribe-2",
    Type.PINGRESP: "connect-plain",
    Type.DISCONNECT: "takeover-clean-300",
}
IDENTIFIED = (Type.PUBACK, Type.PUBREC, Type.PUBREL, Type.PUBCOMP, Type.SUBACK, Type.UNSUBACK)
WITH_CODE = (Type.CONNACK, Type.PUBACK, Type.PUBREC, Type.PUBREL, Type.PUBCOMP, Type.SUBACK, Type.UNSUBACK,
             Type.DISCONNECT)
WITH_PROPERTIES = (Type.CONNACK, Type.PUBLISH, Type.SUBACK, Type.UNSUBACK)

def of_bytes() -> Iterator[Plant]:
    """Faults in a packet's bytes, for each type of packet in which they can be."""
    for kind, only in SEEN_IN.items():
        name = kind.name.lower()
        if kind != Type.PUBLISH:
            yield Plant(f"W01-{name}", "W01", only, on(kind, lambda got, _: with_body(got, got.body, got.first ^ 1)))
        yield Plant(f"W02-{name}", "W02", only, on(kind, lambda got, _: raw(got) + b"\0\0"))
        yield Plant(f"W03-{name}", "W03", only, on(kind, lambda got, _: bytes(
            (got.first, len(got.body) & 0x7F | 0x80, len(got.body) >> 7 | 0x80, 0)) + got.body))
        if kind != Type.PUBLISH:
            yield Plant(f"W06-{name}", "W06", only, on(kind, lambda got, _: with_body(got, longer(got))))


def of_values() -> Iterator[Plant]:
    """Identifiers, Reason Codes, properties and texts that can't be."""
    for kind in IDENTIFIED:
        yield Plant(f"W09-{kind.name.lower()}", "W09", SEEN_IN[kind],
                    on(kind, lambda got, _: with_body(got, b"\0\0" + got.body[2:])))
    yield Plant("W09-publish", "W09", SEEN_IN[Type.PUBLISH],
                on(Type.PUBLISH, lambda got, _: without_identifier(got) if got.qos else None))
    for kind in WITH_CODE:
        yield Plant(f"W13-{kind.name.lower()}", "W13", SEEN_IN[kind], on(kind, lambda got, _: bad_code(got)))
    for kind in WITH_PROPERTIES:
        name, only = kind.name.lower(), SEEN_IN[kind]
        other = b"\x23\0\5" if kind == Type.CONNACK else b"\x13\0\5"
        yield Plant(f"W10-{name}", "W10", only, on(kind, lambda got, _, new=other: with_properties(got, new)))
        yield Plant(f"W10-{name}-unknown", "W10", only, on(kind, lambda got, _: with_properties(got, b"\x7f\1")))
    yield Plant("W11-connack", "W11", "connect-plain", on(Type.CONNACK, lambda got, _: with_properties(
        got, b"\x21\0\5\x21\0\5")))
    yield Plant("W11-publish", "W11", "publish-properties", on(Type.PUBLISH, lambda got, _: with_properties(
        got, b"\x02\0\0\0\5\x02\0\0\0\5")))
    for name, raw_property in {"receive-maximum": b"\x21\0\0", "packet-size": b"\x27\0\0\0\0", "qos": b"\x24\2",
                               "retain": b"\x25\2", "shared": b"\x2a\2"}.items():
        yield Plant(f"W12-{name}", "W12", "connect-plain", on(Type.CONNACK, lambda got, _, new=raw_property: (
            with_properties(got, new, without=new[0]))))
    yield Plant("W20", "W20", "connect-plain", on(Type.CONNACK, lambda got, _: with_body(
        got, bytes((got.body[0] | 2,)) + got.body[1:])))


def of_messages() -> Iterator[Plant]:
    """Faults in the bytes of a PUBLISH."""
    for name, tail in {"not-utf8": b"\xff", "overlong": b"\xc0\xaf", "surrogate": b"\xed\xa0\x80"}.items():
        yield Plant(f"W04-{name}", "W04", "subscribe-granted", on(Type.PUBLISH, lambda got, _, new=tail: republish(
            got, topic=(got.topic or b"") + new)))
    yield Plant("W05-topic", "W05", "subscribe-granted", on(Type.PUBLISH, lambda got, _: republish(
        got, topic=(got.topic or b"") + b"\0")))
    yield Plant("W05-user-property", "W05", "publish-properties", on(Type.PUBLISH, lambda got, _: republish(
        got, more=[(Prop.USER_PROPERTY, (b"k\0", b"v"))])))
    yield Plant("W06-publish", "W06", "subscribe-granted", on(Type.PUBLISH, lambda got, _: with_body(got, b"\0\x50a")))
    yield Plant("W07", "W07", "subscribe-granted", on(Type.PUBLISH, lambda got, _: with_body(
        got, got.body, got.first | 6) if got.qos else None))
    yield Plant("W08", "W08", "subscribe-granted", on(Type.PUBLISH, lambda got, _: None if got.qos else republish(
        got, dup=True)))
    for name, tail in {"plus": b"/+", "hash": b"/#", "inside": b"/a+"}.items():
        yield Plant(f"W14-{name}", "W14", "subscribe-granted", on(Type.PUBLISH, lambda got, _, new=tail: republish(
            got, topic=(got.topic or b"") + new)))
    yield Plant("W14-response", "W14", "subscribe-granted", on(Type.PUBLISH, lambda got, _: republish(
        got, more=[(0x08, b"a/#")])))
    yield Plant("W21", "W21", "alias-2", on(Type.PUBLISH, lambda got, _: None if got.properties else republish(
        got, topic=b"")))


def longer(got: Packet) -> bytes:
    """The body with bytes after its end, or with properties that end beyond it."""
    if got.kind in (Type.PUBACK, Type.PUBREC, Type.PUBREL, Type.PUBCOMP):
        return with_reason_code(got) + b"\5"
    if got.kind in (Type.SUBACK, Type.UNSUBACK):
        return got.body[:2] + b"\x50"
    return got.body + (b"\5" if got.kind == Type.DISCONNECT else b"\0")


def with_reason_code(got: Packet) -> bytes:
    return got.body[:2] + bytes((got.code or 0,))


def without_identifier(got: Packet) -> bytes:
    at = 2 + len(got.topic or b"")
    return with_body(got, got.body[:at] + b"\0\0" + got.body[at + 2 :])


def bad_code(got: Packet) -> bytes:
    """A packet with a Reason Code that no packet of its type has."""
    body = got.body
    if got.kind == Type.CONNACK:
        return with_body(got, body[:1] + b"\x42" + body[2:])
    if got.kind in (Type.SUBACK, Type.UNSUBACK):
        return with_body(got, body[:-1] + b"\x42")
    if got.kind == Type.DISCONNECT:
        return with_body(got, b"\x42")
    return with_body(got, body[:2] + b"\x42")


def with_properties(got: Packet, new: bytes, without: int | None = None) -> bytes:
    """The packet with more properties, as bytes."""
    kept = b"".join(property_bytes(*one) for one in got.properties if one[0] != without)
    listed = varint(len(kept) + len(new)) + kept + new
    if got.kind == Type.PUBLISH:
        head = two(len(got.topic or b"")) + (got.topic or b"") + (two(got.identifier or 0) if got.qos else b"")
        return with_body(got, head + listed + got.payload)
    return with_body(got, got.body[:2] + listed + got.codes)


def of_connections() -> Iterator[Plant]:
    """Faults in what comes when on a connection."""
    for kind in (Type.SUBACK, Type.PUBACK, Type.UNSUBACK, Type.PINGRESP):
        yield Plant(f"C01-{kind.name.lower()}", "C01", SEEN_IN[kind], on(kind, lambda got, _: raw(got) + b"\xc0\0"))
    yield Plant("C01-subscribe", "C01", "subscribe-2", on(Type.SUBACK, lambda got, _: raw(got) + bytes.fromhex(
        "82080001000002612f00")[:10]))
    yield Plant("C04", "C04", "connect-late", lambda got, _: None, at_opening=connack())
    yield Plant("C05-pong", "C05", "connect-plain", on(Type.CONNACK, lambda got, _: PONG + raw(got)))
    yield Plant("C05-publish", "C05", "connect-plain", on(Type.CONNACK, lambda got, _: publish("a") + raw(got)))
    yield Plant("C05-resumed", "C05", "resume-chain", on(Type.CONNACK, lambda got, _: PONG + raw(got)
                                                          if got.session_present else None))
    yield Plant("C06-ping", "C06", "connect-plain", on(Type.PINGRESP, lambda got, _: raw(got) + connack()))
    yield Plant("C06-at-once", "C06", "connect-plain", on(Type.CONNACK, twice))
    yield Plant("C07", "C07", "connect-plain", on(Type.CONNACK, lambda got, state: reconnack(got, True)
                                                   if state.is_clean and not got.code else None))
    yield Plant("C07-session-known", "C07", "resume-chain,outbound-new-session", on(
        Type.CONNACK, lambda got, state: reconnack(got, True) if state.is_clean and not got.code else None))
    yield Plant("C08", "C08", "resume-chain", on(Type.CONNACK, lambda got, state: reconnack(got, True)
                                                 if not state.is_clean and not got.code else None))
    yield Plant("C09", "C09", "refused-password", on(Type.CONNACK, lambda got, _: reconnack(got, True)
                                                     if got.code else None))
    yield Plant("C10", "C10", "connect-without", on(Type.CONNACK, lambda got, _: reconnack(
        got, without=Prop.ASSIGNED_CLIENT_IDENTIFIER)))
    yield Plant("C11-pong", "C11", "takeover-clean-300,bad-pong", on(Type.DISCONNECT, lambda got, _: raw(got) + PONG))
    yield Plant("C11-twice", "C11", "takeover-clean-300,bad-pong", on(Type.DISCONNECT, twice))
    yield Plant("C11-bytes", "C11", "takeover-clean-300,bad-pong", on(
        Type.DISCONNECT, lambda got, _: raw(got) + b"\0\0"))
    yield Plant("C12-pong", "C12", "refused-password", on(Type.CONNACK, lambda got, _: raw(got) + PONG
                                                          if got.code else None))
    yield Plant("C12-disconnect", "C12", "refused-password", on(Type.CONNACK, lambda got, _: raw(got) + disconnect(0x87)
                                                                if got.code else None))
    yield Plant("C19", "C19", "takeover-clean-300,bad-pong", on(Type.DISCONNECT, lambda got, _: disconnect(
        got.code, [(Prop.SESSION_EXPIRY, 5)])))
    yield Plant("C23-refusal", "C23", "refused-password", lambda got, _: None, stays_open=True)
    yield Plant("C23-disconnect", "C23", "bad-pong,bad-connack", lambda got, _: None, stays_open=True)


def of_limits() -> Iterator[Plant]:
    """Faults in what the client announced: its limits, and what it asks for."""
    too_large: Change = when(lambda _, state: bool(state.announces(Prop.MAXIMUM_PACKET_SIZE)), on(
        Type.PUBLISH, lambda got, state: republish(got, payload=b"x" * state.announces(Prop.MAXIMUM_PACKET_SIZE))))
    yield Plant("C14", "C14", "packet-size-40-q1", too_large)
    yield Plant("C14-seldom", "C14", "packet-size-40-q1", seldom(5, too_large))
    yield Plant("C14-by-one", "C14", "packet-size-60-q1", when(
        lambda got, state: got.kind == Type.PUBLISH and got.size == state.announces(Prop.MAXIMUM_PACKET_SIZE),
        lambda got, _: republish(got, payload=got.payload + b"x")))
    yield Plant("C14-resumed", "C14", "packet-size-40-q1", resumed(too_large))
    yield Plant("C14-suback", "C14", "packet-size-20-answers", on(Type.SUBACK, lambda got, _: codes(
        Type.SUBACK, got.identifier or 0, got.codes, [(Prop.REASON_STRING, b"x" * 30)])))
    yield Plant("C15", "C15", "subscribe-granted", on(Type.PUBLISH, lambda got, _: republish(
        got, more=[(Prop.TOPIC_ALIAS, 77)])))
    yield Plant("C15-by-one", "C15", "alias-2", on(Type.PUBLISH, lambda got, state: alias_over(got, state)))
    yield Plant("C16", "C16", "alias-10", on(Type.PUBLISH, lambda got, state: republish(
        without_alias(got), topic=b"", more=[(Prop.TOPIC_ALIAS, 9)])
        if state.announces(Prop.TOPIC_ALIAS_MAXIMUM) else None))
    yield Plant("C21-puback", "C21", "problem-information-0", on(Type.PUBACK, lambda got, _: acknowledgement(
        Type.PUBACK, got.identifier or 0, got.code, [(Prop.REASON_STRING, b"fine")])))
    yield Plant("C21-suback", "C21", "problem-information-0", on(Type.SUBACK, lambda got, _: codes(
        Type.SUBACK, got.identifier or 0, got.codes, [(Prop.USER_PROPERTY, (b"k", b"v"))])))
    yield Plant("C21-unsuback", "C21", "problem-information-0", on(Type.UNSUBACK, lambda got, _: codes(
        Type.UNSUBACK, got.identifier or 0, got.codes, [(Prop.REASON_STRING, b"fine")])))
    yield Plant("C22", "C22", "response-information", on(Type.CONNACK, lambda got, state: reconnack(
        got, more=[(Prop.RESPONSE_INFORMATION, b"r")])
        if not state.announces(Prop.REQUEST_RESPONSE_INFORMATION) else None))


def without_alias(got: Packet) -> Packet:
    got.properties = [one for one in got.properties if one[0] != Prop.TOPIC_ALIAS]
    return got


def alias_over(got: Packet, state: State) -> bytes | None:
    most = state.announces(Prop.TOPIC_ALIAS_MAXIMUM)
    return republish(without_alias(got), more=[(Prop.TOPIC_ALIAS, most + 1)]) if most and got.topic else None


def of_sessions() -> Iterator[Plant]:
    """Faults in Packet Identifiers, in what is sent again, and in how much is in flight."""
    taken: Change = lambda got, _: republish(got, identifier=1) if got.qos and not got.dup else None
    yield Plant("S01", "S01", "outbound-drop-q1-none-4", on(Type.PUBLISH, taken))
    yield Plant("S01-q2", "S01", "outbound-drop-q2-none-4", on(Type.PUBLISH, taken))
    yield Plant("S01-seldom", "S01", "withheld,receive-maximum-3-q1", on(
        Type.PUBLISH, lambda got, _: republish(got, identifier=1)
        if got.qos and not got.dup and (got.identifier or 0) > 20 else None))
    yield Plant("S01-until-pubcomp", "S01", "withheld-while", on(
        Type.PUBLISH, lambda got, _: republish(got, identifier=1) if got.qos == 1 and (got.identifier or 0) == 30
        else None))
    yield Plant("S02-first", "S02", "subscribe-granted", on(Type.PUBLISH, lambda got, _: republish(got, dup=True)
                                                            if got.qos and not got.dup else None))
    yield Plant("S02-last-of-many", "S02", "outbound-drop-q1-none-4", on(
        Type.PUBLISH, seldom(4, lambda got, _: republish(got, dup=True) if got.qos and not got.dup else None)))
    yield Plant("S02-after-its-end", "S02", "outbound-drop-q1-first-4", on(
        Type.CONNACK, lambda got, _: raw(got) + publish("x/again", b"", 1, 1, dup=True)
        if got.session_present else None))
    yield Plant("S03", "S03", "outbound-drop-q1-none-4", on(Type.PUBLISH, lambda got, _: raw(got) + republish(
        got, dup=True) if got.qos else None))
    yield Plant("S03-resumed", "S03", "outbound-drop-q2-none-4", resumed(once(on(
        Type.PUBLISH, lambda got, _: raw(got) + republish(got, dup=True) if got.qos else None))))
    yield Plant("S03-by-a-ping", "S03", "stay-and-wait-q1", by_a_ping())
    yield Plant("S04", "S04", "outbound-drop-q2-received-4", resumed(once(on(Type.PUBREL, lambda got, _: publish(
        "x/again", b"", 2, got.identifier or 1, dup=True) + raw(got)))))
    for ending in ("drop", "reset", "bye", "takeover"):
        for state in ("none", "first"):
            yield Plant(f"S06-{ending}-{state}", "S06", f"outbound-{ending}-q1-{state}-4", resumed(on(
                Type.PUBLISH, lambda got, _: b"" if got.dup else None)))
        yield Plant(f"S06-{ending}-pubrel", "S06", f"outbound-{ending}-q2-received-4", resumed(on(Type.PUBREL, gone)))
    yield Plant("S06-one-of-many", "S06", "outbound-drop-q1-none-4", resumed(on(Type.PUBLISH, seldom(
        4, lambda got, _: b"" if got.dup else None))))
    yield Plant("S06-queued", "S06", "outbound-offline-q1", resumed(on(Type.PUBLISH, lambda got, _: b""
                                                                       if got.dup else None)))
    yield Plant("S07", "S07", "receive-maximum-2-q1", lambda got, _: None, quota=20)
    yield Plant("S07-by-one", "S07", "receive-maximum-10-q1", lambda got, _: None, quota=11)
    yield Plant("S07-q2", "S07", "receive-maximum-3-q2", lambda got, _: None, quota=4)
    yield Plant("S07-one", "S07", "receive-maximum-1-q1", lambda got, _: None, quota=2)


def by_a_ping() -> Change:
    """At a ping the last message is sent again."""
    last: dict[int, bytes] = {}

    def changed(got: Packet, state: State) -> bytes | None:
        if got.kind == Type.PUBLISH and got.qos:
            last[id(state)] = republish(got, dup=True)
        return raw(got) + last[id(state)] if got.kind == Type.PINGRESP and id(state) in last else None

    return changed


def of_exchanges() -> Iterator[Plant]:
    """Answers that nobody asked for, and answers that don't come."""
    asked = {"E1": (Type.PUBACK, "inbound-q1-repeats"), "E2": (Type.PUBREC, "inbound-q2-repeats"),
             "E3": (Type.PUBREL, "outbound-drop-q2-first-4"), "E4": (Type.PUBCOMP, "inbound-q2-repeats"),
             "E5": (Type.SUBACK, "subscribe-2"), "E6": (Type.UNSUBACK, "subscribe-2")}
    for exchange, (kind, only) in asked.items():
        yield Plant(f"{exchange}A-twice", f"{exchange}A", only, on(kind, twice))
        yield Plant(f"{exchange}A-other", f"{exchange}A", only, on(kind, lambda got, _: raw(got) + with_body(
            got, two((got.identifier or 0) % LARGEST_IDENTIFIER + 1) + got.body[2:])))
        unanswered = {"E1": "burst-in-q1", "E2": "burst-in-q2", "E4": "burst-in-q2"}.get(exchange, only)
        yield Plant(f"{exchange}R", f"{exchange}R", unanswered, on(kind, gone))
        if exchange in ("E1", "E2", "E4"):
            yield Plant(f"{exchange}R-seldom", f"{exchange}R", unanswered, on(kind, seldom(15, gone)))
    yield Plant("E1R-resumed", "E1R", "pipelined", resumed(on(Type.PUBACK, gone)))
    yield Plant("E3R-resumed", "E3R", "outbound-drop-q2-none-4", resumed(on(Type.PUBREL, gone)))
    yield Plant("E7R", "E7R", "connect-plain", on(Type.PINGRESP, gone))
    yield Plant("E7R-second", "E7R", "connect-plain", on(Type.PINGRESP, seldom(2, gone)))


def of_subscriptions() -> Iterator[Plant]:
    """Faults in what is delivered, and in how many codes an answer has."""
    yield Plant("B01", "B01", "subscribe-granted", on(Type.PUBLISH, lambda got, _: republish(
        got, topic=b"other/" + (got.topic or b""))))
    yield Plant("B01-deeper", "B01", "subscribe-case", seldom(3, on(Type.PUBLISH, lambda got, _: republish(
        got, topic=(got.topic or b"") + b"er"))))
    yield Plant("B01-offline", "B01", "outbound-offline-q1", resumed(on(Type.PUBLISH, lambda got, _: republish(
        got, topic=b"other") if not got.dup else None)))
    yield Plant("B02", "B02", "subscribe-granted-0", on(Type.PUBLISH, lambda got, state: republish(
        got, qos=1, identifier=60_000 + next_of(state)) if not got.qos else None))
    yield Plant("B02-by-one", "B02", "subscribe-granted-1", on(Type.PUBLISH, lambda got, _: republish(got, qos=2)
                                                               if got.qos == 1 else None))
    for kind, code in ((Type.SUBACK, "B03"), (Type.UNSUBACK, "B04")):
        yield Plant(f"{code}-fewer", code, "subscribe-2,subscribe-3", on(kind, lambda got, _: codes(
            Type(got.kind), got.identifier or 0, got.codes[:-1]) if len(got.codes) > 1 else None))
        yield Plant(f"{code}-more", code, "subscribe-2", on(kind, lambda got, _: codes(
            Type(got.kind), got.identifier or 0, got.codes + b"\0")))
        yield Plant(f"{code}-many", code, "subscribe-300", on(kind, lambda got, _: codes(
            Type(got.kind), got.identifier or 0, got.codes[:-1]) if len(got.codes) > 200 else None))


def next_of(state: State) -> int:
    state.count += 1
    return state.count


# ---- faults that show only in some situation

ENDINGS = ("drop", "bye", "reset", "takeover")
DEATHS = ("kill", "term")
TAKEN_MOST = 10  # identifiers on a connection


def of_rare_bytes() -> Iterator[Plant]:
    """Faults in bytes and texts that only some packets have."""
    yield Plant("W04-user-property", "W04", "publish-properties", on(Type.PUBLISH, lambda got, _: republish(
        got, more=[(Prop.USER_PROPERTY, (b"\xff", b"v"))])))
    yield Plant("W12-publish", "W12", "subscribe-granted", on(Type.PUBLISH, lambda got, _: republish(
        got, more=[(Prop.SUBSCRIPTION_IDENTIFIER, 0)])))
    wild: Change = on(Type.PUBLISH, lambda got, _: republish(got, topic=(got.topic or b"") + b"/+"))
    yield Plant("W14-retained", "W14", "subscribe-options-00", when(lambda got, _: bool(got.first & 1), wild))
    yield Plant("W14-resumed", "W14", "outbound-offline-q1", resumed(wild))
    yield Plant("C01-greeting", "C01", "connect-plain", on(Type.CONNACK, lambda got, _: b"\xc0\0" + raw(got)))
    yield Plant("C01-resumed", "C01", "outbound-bye-q1-none-1", resumed(on(
        Type.PINGRESP, lambda got, _: raw(got) + b"\xc0\0")))
    yield Plant("C05-pipelined", "C05", "pipelined", on(Type.CONNACK, lambda got, _: PONG + raw(got)))
    yield Plant("C06-error", "C06", "connect-plain", on(Type.PINGRESP, lambda got, _: raw(got) + connack(False, 0x87)))
    yield Plant("C06-later", "C06", "resume-chain", resumed(on(Type.PINGRESP, lambda got, _: raw(got) + connack())))
    yield Plant("C08-ended", "C08", "resume-chain,takeover-resume-0", on(Type.CONNACK, lambda got, state: reconnack(
        got, True) if not state.is_clean and not got.code else None))
    explained: Change = on(Type.PUBREC, lambda got, _: acknowledgement(
        Type.PUBREC, got.identifier or 0, got.code or 0, [(Prop.REASON_STRING, b"fine")]))
    yield Plant("C21-pubrec", "C21", "problem-information-0", explained)


def of_more_limits() -> Iterator[Plant]:
    """A Maximum Packet Size that is passed by each type of packet, and at each QoS; and Topic Aliases."""
    for qos in (0, 1, 2):
        yield Plant(f"C14-q{qos}", "C14", f"packet-size-40-q{qos}", when(
            lambda got, state: got.kind == Type.PUBLISH and bool(state.announces(Prop.MAXIMUM_PACKET_SIZE)),
            lambda got, state: republish(got, payload=b"x" * state.announces(Prop.MAXIMUM_PACKET_SIZE))))
    long: list[tuple[int, Value]] = [(Prop.USER_PROPERTY, (b"k", b"v" * 200))]
    sized = when(lambda _, state: bool(state.announces(Prop.MAXIMUM_PACKET_SIZE)), on(
        Type.CONNACK, lambda got, _: reconnack(got, more=long)))
    yield Plant("C14-connack", "C14", "packet-size-40-q0", sized)
    yield Plant("C14-unsuback", "C14", "packet-size-20-answers", on(Type.UNSUBACK, lambda got, _: codes(
        Type.UNSUBACK, got.identifier or 0, got.codes, long)))
    over: Change = on(Type.PUBLISH, alias_over)
    yield Plant("C15-resumed", "C15", "alias-2", resumed(over))
    unset: Change = on(Type.PUBLISH, lambda got, state: republish(
        without_alias(got), topic=b"", more=[(Prop.TOPIC_ALIAS, 9)])
        if state.announces(Prop.TOPIC_ALIAS_MAXIMUM) else None)
    yield Plant("C16-resumed", "C16", "alias-10", resumed(unset))


def taking(beside: Callable[[Flight, State], bool]) -> Change:
    """Some new messages take the identifier of one that is in flight, and is such a one: the latest, since an earlier
    one may have been acknowledged meanwhile."""

    def changed(got: Packet, state: State) -> bytes | None:
        if got.kind != Type.PUBLISH or not got.qos or got.dup or state.count == TAKEN_MOST:
            return None
        chosen = [key for key, one in state.flights.items() if key != got.identifier and beside(one, state)]
        state.count += bool(chosen)
        return republish(got, identifier=chosen[-1]) if chosen else None

    return changed


def beside_received(got: Packet, state: State) -> bytes | None:
    """A PUBREL waits for the next message, which takes its identifier."""
    if got.kind == Type.PUBREL and not state.held:
        state.held = raw(got)
        return b""
    if got.kind == Type.PUBLISH and got.qos and state.held:
        held, state.held = state.held, b""
        return republish(got, identifier=int.from_bytes(held[2:4], "big")) + held
    return None


def of_identifiers() -> Iterator[Plant]:
    """Identifiers that are taken while they are in use, and messages that are sent again and aren't open."""
    many: Change = when(lambda _, state: len(state.flights) > 4, taking(lambda _, __: True))
    yield Plant("S01-many", "S01", "flood-q1", many)
    yield Plant("S01-queued", "S01", "outbound-offline-q1", many)
    yield Plant("S01-of-earlier", "S01", "receive-maximum-shrinks-q1", taking(
        lambda one, state: one.connection < state.number))
    yield Plant("S01-beside-received", "S01", "flood-q2", beside_received)
    yield Plant("S01-wrapped", "S01", "identifier-wrap-q1", wrapped(), is_slow=True)
    for how in DEATHS:
        yield Plant(f"S01-{how}", "S01", f"broker-{how}-q1-none-never", resumed(taking(lambda _, __: True)), dies=True)
        yield Plant(f"S02-{how}", "S02", f"broker-{how}-q1-none-never", resumed(stray(1)), dies=True)
        yield Plant(f"S04-{how}", "S04", f"broker-{how}-q2-received", resumed(again_released()), dies=True)
    for end in ENDINGS:
        yield Plant(f"S02-{end}", "S02", f"outbound-{end}-q1-none-1,outbound-{end}-q1-none-4", resumed(stray(1)))
        yield Plant(f"S04-{end}", "S04", f"outbound-{end}-q2-received", resumed(again_released()))
    yield Plant("S02-q2", "S02", "outbound-drop-q2-none", resumed(stray(2)))
    yield Plant("S03-again-and-again", "S03", "outbound-again-and-again-q1", resumed(on(
        Type.PUBLISH, lambda got, _: raw(got) + raw(got) if got.dup else None)))


def wrapped() -> Change:
    """The first identifier is taken again, once 60,000 others were."""
    return once(on(Type.PUBLISH, lambda got, _: republish(got, identifier=1)
                   if (got.identifier or 0) > 60_100 else None))


def stray(qos: int) -> Change:
    """After the CONNACK comes a message once more that was never sent."""
    return on(Type.CONNACK, lambda got, _: raw(got) + publish("x/again", b"", qos, 61_000, dup=True))


def again_released() -> Change:
    return once(on(Type.PUBREL, lambda got, _: publish("x/again", b"", 2, got.identifier or 1, dup=True) + raw(got)))


def lost(kind: Type) -> Change:
    """What is to be sent again isn't: messages, or PUBRELs."""
    if kind == Type.PUBREL:
        return resumed(on(Type.PUBREL, gone))
    return resumed(on(Type.PUBLISH, lambda got, _: b"" if got.dup else None))


def of_debts() -> Iterator[Plant]:
    """Messages that aren't sent again when their session is resumed."""
    for end in ENDINGS:
        yield Plant(f"S06-{end}-q2", "S06", f"outbound-{end}-q2-none-4", lost(Type.PUBLISH))
        yield Plant(f"S06-{end}-released", "S06", f"outbound-{end}-q2-received-1", lost(Type.PUBREL))
    for qos in (1, 2):
        yield Plant(f"S06-one-q{qos}", "S06", f"outbound-drop-q{qos}-none-1", lost(Type.PUBLISH))
    for how in DEATHS:
        yield Plant(f"S06-{how}-q1", "S06", f"broker-{how}-q1-none-never", lost(Type.PUBLISH), dies=True)
        yield Plant(f"S06-{how}-q2", "S06", f"broker-{how}-q2-none", lost(Type.PUBLISH), dies=True)
        yield Plant(f"S06-{how}-released", "S06", f"broker-{how}-q2-received", lost(Type.PUBREL), dies=True)
    yield Plant("S06-queued-q2", "S06", "outbound-offline-q2", lost(Type.PUBLISH))
    for qos in (1, 2):
        yield Plant(f"S06-small-q{qos}", "S06", f"receive-maximum-shrinks-q{qos}", lost(Type.PUBLISH))
    yield Plant("S06-again", "S06", "outbound-again-and-again-q1", when(
        lambda got, state: (got.identifier or 0) in state.flights and state.flights[got.identifier or 0].resent > 0,
        lost(Type.PUBLISH)))


def of_quotas() -> Iterator[Plant]:
    """A Receive Maximum that is passed: at each of some values, and after what gives room."""
    for most in (1, 2, 3, 10):
        for qos in (1, 2):
            yield Plant(f"S07-{most}-q{qos}", "S07", f"receive-maximum-{most}-q{qos}", lambda got, _: None,
                        quota=most + 2)
    for qos in (1, 2):
        yield Plant(f"S07-shrunk-q{qos}", "S07", f"receive-maximum-shrinks-q{qos}", lambda got, _: None, quota=8)
    yield Plant("S07-refused", "S07", "receive-maximum-refusals,ack-puback-error,ack-pubrec-error", lambda got, _: None,
                quota=5)
    yield Plant("S07-received", "S07", "ack-pubcomp-error,withheld-while", lambda got, _: None, quota=5)


def of_rare_exchanges() -> Iterator[Plant]:
    """Answers that come twice, or not at all, where it is busy, on a later connection, or with an error."""
    for exchange, kind, busy, later in (
        ("E1", Type.PUBACK, "burst-in-q1", "pipelined"),
        ("E2", Type.PUBREC, "burst-in-q2", "pipelined"),
        ("E3", Type.PUBREL, "outbound-drop-q2-received-4", "outbound-drop-q2-none-1"),
        ("E4", Type.PUBCOMP, "burst-in-q2", "inbound-q2-received-drop"),
    ):
        yield Plant(f"{exchange}A-many", f"{exchange}A", busy, on(kind, twice))
        yield Plant(f"{exchange}A-resumed", f"{exchange}A", later, resumed(on(kind, twice)))
        yield Plant(f"{exchange}R-again", f"{exchange}R", later, resumed(on(kind, gone)))
    for exchange, kind in (("E1", Type.PUBACK), ("E2", Type.PUBREC)):
        failing: Change = when(lambda got, _: (got.code or 0) >= 0x80, on(kind, twice))
        yield Plant(f"{exchange}A-error", f"{exchange}A", "denied-1", failing)
        yield Plant(f"{exchange}R-large", f"{exchange}R", f"publish-large-10000-q{exchange[1]}", on(kind, gone))
        yield Plant(f"{exchange}R-greeting", f"{exchange}R", "pipelined", on(kind, gone))
    yield Plant("E7R-resumed", "E7R", "outbound-bye-q1-none-1", resumed(on(Type.PINGRESP, gone)))
    yield Plant("E7R-greeting", "E7R", "pipelined", on(Type.PINGRESP, gone))
    for exchange, kind in (("E5", Type.SUBACK), ("E6", Type.UNSUBACK)):
        large: Change = when(lambda got, _: len(got.codes) >= 50, on(kind, twice))
        yield Plant(f"{exchange}A-many-codes", f"{exchange}A", "subscribe-60", large)
        yield Plant(f"{exchange}R-many-filters", f"{exchange}R", "subscribe-60", on(kind, gone))
    yield Plant("E5R-greeting", "E5R", "pipelined", on(Type.SUBACK, gone))


def of_rare_deliveries() -> Iterator[Plant]:
    """Messages that nobody asked for, or above what was granted, for each kind of filter and message."""
    other: Change = on(Type.PUBLISH, lambda got, _: republish(got, topic=b"other/" + (got.topic or b"")))
    above: Change = on(Type.PUBLISH, lambda got, state: republish(
        got, qos=2, identifier=got.identifier or 60_000 + next_of(state)) if got.qos < 2 else None)
    for name, only in {"filters": "subscribe-flags", "overlap": "subscribe-overlap", "retained": "subscribe-options-00",
                       "unsubscribed": "subscribe-changes-2-1", "identifier": "subscribe-overlap"}.items():
        yield Plant(f"B01-{name}", "B01", only, other)
    for name, only in {"overlap": "subscribe-overlap,subscribe-flags", "retained": "subscribe-options",
                       "unsubscribed": "subscribe-overlap,subscribe-changes"}.items():
        yield Plant(f"B02-{name}", "B02", only, above)
    yield Plant("B02-resumed", "B02", "subscribe-overlap,outbound-offline-q1", resumed(above))


def of_requests() -> Iterator[Plant]:
    """What breaks the further statements, which are judged on request."""
    announced: dict[str, tuple[str, int, Value]] = {
        "F05": ("will-accepted-q2", Prop.MAXIMUM_QOS, 1),
        "F06": ("will-accepted-retained", Prop.RETAIN_AVAILABLE, 0),
        "A02": ("connect-plain", Prop.AUTHENTICATION_METHOD, b"m"),
    }
    for code, (only, key, value) in announced.items():
        yield Plant(code, code, only, on(Type.CONNACK, lambda got, _, one=(key, value): reconnack(got, more=[one])))
    more: Change = on(Type.SUBACK, lambda got, _: codes(
        Type.SUBACK, got.identifier or 0, bytes(code or 1 for code in got.codes)) if 0 in got.codes else None)
    for name, only in {"one": "subscribe-granted-0", "some": "subscribe-mixed-up", "many": "subscribe-60"}.items():
        yield Plant(f"B05-{name}", "B05", only, more)
    denied: Change = on(Type.UNSUBACK, lambda got, _: codes(
        Type.UNSUBACK, got.identifier or 0, bytes(code or NO_SUBSCRIPTION for code in got.codes)) if 0 in got.codes else None)
    for name, only in {"one": "subscribe-1", "some": "subscribe-2", "many": "subscribe-60"}.items():
        yield Plant(f"B06-{name}", "B06", only, denied)
    yield Plant("B06-resumed", "B06", "unsubscribe-resumed", resumed(denied))
    deleted: Change = on(Type.UNSUBACK, lambda got, _: codes(
        Type.UNSUBACK, got.identifier or 0, bytes(len(got.codes))) if NO_SUBSCRIPTION in got.codes else None)
    yield Plant("B07-some", "B07", "subscribe-again", deleted)
    yield Plant("B07-resumed", "B07", "unsubscribe-resumed", resumed(deleted))
    yield Plant("C24", "C24", "connect-plain", when(is_of("connect-plain"), on(Type.CONNACK, gone)))
    yield Plant("A03", "A03", "auth-method-alone", on(Type.CONNACK, lambda got, _: reconnack(
        got, without=Prop.AUTHENTICATION_METHOD)))
    for code, only in {"D01": "bad-ping-flags", "D02": "second-connect-clean", "D03": "bad-pong",
                       "D05": "over-receive-maximum-by-1"}.items():
        yield Plant(code, code, only, on(Type.DISCONNECT, gone), goes_on=True)
    for name, only in {"new": "takeover-clean-300", "resumed": "takeover-3-times"}.items():
        yield Plant(f"V06-{name}", "V06", only, on(Type.DISCONNECT, lambda got, _: disconnect(4)))


def of_matching() -> Iterator[Plant]:
    """What breaks those of them on messages by the subscriptions that match."""
    other: Change = on(Type.PUBLISH, lambda got, _: republish(got, topic=b"other/" + (got.topic or b"")))
    above: Change = on(Type.PUBLISH, lambda got, state: None if got.qos else republish(
        got, qos=2, identifier=60_000 + next_of(state)))
    for name, only in {"granted": "shared-granted-2", "overlap": "shared-overlap", "retained": "shared-retained"}.items():
        yield Plant(f"B08-{name}", "B08", only, other)
    for name, only in {"granted": "shared-granted-1", "overlap": "shared-overlap"}.items():
        yield Plant(f"B09-{name}", "B09", only, above)
    misnumbered: Change = on(Type.PUBLISH, lambda got, _: republish(
        got, without=Prop.SUBSCRIPTION_IDENTIFIER, more=[(Prop.SUBSCRIPTION_IDENTIFIER, 77)])
        if got.has(Prop.SUBSCRIPTION_IDENTIFIER) else None)
    one_more: Change = on(Type.PUBLISH, lambda got, _: republish(
        got, more=[(Prop.SUBSCRIPTION_IDENTIFIER, 77)]) if got.has(Prop.SUBSCRIPTION_IDENTIFIER) else None)
    for name, (only, change) in {"other": ("subscribe-numbered", misnumbered), "more": ("subscribe-overlap", one_more),
                                 "resumed": ("subscribe-numbered", resumed(misnumbered))}.items():
        yield Plant(f"P01-{name}", "P01", only, change)
    unnumbered: Change = on(Type.PUBLISH, lambda got, _: republish(got, without=Prop.SUBSCRIPTION_IDENTIFIER))
    for name, only in {"some": "subscribe-numbered", "overlap": "subscribe-overlap"}.items():
        yield Plant(f"P02-{name}", "P02", only, unnumbered)
    yield Plant("P02-resumed", "P02", "subscribe-numbered", resumed(unnumbered))
    retained: Change = on(Type.PUBLISH, lambda got, _: republish(got, retain=True))
    for code, only in {"R01": "subscribe-without-retained", "R02": "shared-retained"}.items():
        yield Plant(code, code, only, retained)
        yield Plant(f"{code}-resumed", code, only, resumed(retained))


def is_of(scenario: str) -> Callable[[Packet, State], bool]:
    """The connection is this scenario's, by its Client Identifier: the exerciser's first look at a broker is no scenario."""
    return lambda _, state: state.connect is not None and scenario.encode() in (state.connect.client or b"")


def all_plants() -> dict[str, Plant]:
    """All of them, by their names."""
    groups = (of_bytes, of_values, of_messages, of_connections, of_limits, of_sessions, of_exchanges, of_subscriptions,
              of_rare_bytes, of_more_limits, of_identifiers, of_debts, of_quotas, of_rare_exchanges, of_rare_deliveries,
              of_requests, of_matching)
    return {plant.name: plant for group in groups for plant in group()}
