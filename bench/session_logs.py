#!/usr/bin/env python3
"""Writes a log of a session of one kind, with a given number of events, to standard output.

What the tested end does is right in each, so the verdict is a pass. Each record is one event. A log is the beginning of one that
could go on for ever, so it may end in the middle of an exchange. What a kind keeps open at once grows with the log, up to 65,535 Packet
Identifiers in each direction: so an event whose time grows with what is open can be seen when a log of four times as many events
is judged. `bench/run.py --growth` measures that, and `bench/check_logs.py` compares each kind with `reference.py`.

usage: bench/session_logs.py KIND EVENTS [--log-version 2] > FILE
"""
import argparse
import struct
import sys
from collections.abc import Callable, Iterable, Iterator
from dataclasses import dataclass
from functools import partial
from itertools import count, islice

sys.dont_write_bytecode = True  # the repository stays as it is
from make_log import CLOSE, OPEN, PINGREQ, PINGRESP, RECV, REST, SENT, record, varint
from versions import HEAD_SIZES, in_version

RELEASE = 6
IDENTIFIERS = 65_535
CLIENT, SERVER = 0, 1
SESSION_EXPIRY_INTERVAL = b"\x11\x00\x00\x02\x58"  # 600 seconds
# The largest packet that a server takes from a client whose messages in flight are all larger.
MAXIMUM_PACKET_SIZE = b"\x27\x00\x00\x00\x10"
FILTERS_IN_A_SUBSCRIBE = 50
MOST_EARLY = 4_096  # events of a connection that may come before its CONNACK, with its OPEN

Records = Iterator[bytes]
Order = Callable[[int], Iterable[int]]

# ---- packets (MQTT 5.0, section 3)


def packet(first: int, body: bytes) -> bytes:
    return bytes([first]) + varint(len(body)) + body


def number(value: int) -> bytes:
    return struct.pack(">H", value)


def text(value: str) -> bytes:
    return number(len(value)) + value.encode()


def connect(clean_start: bool) -> bytes:
    flags = 2 if clean_start else 0
    properties = varint(len(SESSION_EXPIRY_INTERVAL)) + SESSION_EXPIRY_INTERVAL
    return packet(0x10, text("MQTT") + bytes([5, flags]) + number(60) + properties + text("me"))


def connack(session_present: bool, properties: bytes = b"") -> bytes:
    return packet(0x20, bytes([session_present, 0]) + varint(len(properties)) + properties)


def publish(qos: int, identifier: int, topic: str = "a", dup: bool = False, payload: bytes = b"x") -> bytes:
    return packet(0x30 | dup << 3 | qos << 1, text(topic) + (number(identifier) if qos else b"") + b"\x00" + payload)


def puback(identifier: int) -> bytes:
    return packet(0x40, number(identifier))


def pubrec(identifier: int) -> bytes:
    return packet(0x50, number(identifier))


def pubrel(identifier: int) -> bytes:
    return packet(0x62, number(identifier))


def pubcomp(identifier: int) -> bytes:
    return packet(0x70, number(identifier))


def subscribe(identifier: int, filters: list[str], qos: int = 2) -> bytes:
    return packet(0x82, number(identifier) + b"\x00" + b"".join(text(one) + bytes([qos]) for one in filters))


def suback(identifier: int, filters: list[str], qos: int = 2) -> bytes:
    return packet(0x90, number(identifier) + b"\x00" + bytes([qos]) * len(filters))


def unsubscribe(identifier: int, topic_filter: str) -> bytes:
    return packet(0xA2, number(identifier) + b"\x00" + text(topic_filter))


def unsuback(identifier: int) -> bytes:
    return packet(0xB0, number(identifier) + b"\x00\x00")


# ---- records


@dataclass(frozen=True)
class End:
    """The tested end. What it sends is a SENT, and what its peer sends a RECV."""

    role: int

    def client(self, bytes_sent: bytes) -> bytes:
        """The record of what the client sends."""
        return record(SENT if self.role == CLIENT else RECV, bytes_sent)

    def server(self, bytes_sent: bytes) -> bytes:
        """The record of what the server sends."""
        return record(RECV if self.role == CLIENT else SENT, bytes_sent)

    def connection(self, resumed: bool, properties: bytes = b"", early: Iterable[bytes] = ()) -> Records:
        """A connection begins: it resumes the session, or begins a new one. The CONNACK may have properties, and records before it."""
        yield record(OPEN)
        yield self.client(connect(clean_start=not resumed))
        yield from early
        yield self.server(connack(resumed, properties))

    def subscription(self, identifier: int, filters: list[str]) -> Records:
        yield self.client(subscribe(identifier, filters))
        yield self.server(suback(identifier, filters))


def release(identifier: int) -> bytes:
    return record(RELEASE, number(identifier))


def round_size(events: int, packets: int) -> int:
    """How many exchanges of so many packets are open at once, so that a log of these events has a whole round."""
    return max(1, min(IDENTIFIERS, (events - 6) // packets))


# ---- the orders of answers, over the identifiers 1 to `size`


def in_order(size: int) -> Iterable[int]:
    return range(1, size + 1)


def in_reverse(size: int) -> Iterable[int]:
    return range(size, 0, -1)


def scattered(size: int) -> Iterable[int]:
    """Each once, in steps of about 0.6 of the size, so that neighbours are far from one another."""
    step = next(step for step in count(size * 5 // 8 + 1) if coprime(step, size))
    return (1 + n * step % size for n in range(size))


def coprime(one: int, other: int) -> bool:
    while other:
        one, other = other, one % other
    return one == 1


# ---- messages of the tested client in flight


def in_flight(events: int, order: Order) -> Records:
    """Many messages of QoS 1 are sent at once, and their PUBACKs come in this order. Then again."""
    end, size = End(CLIENT), round_size(events, 2)
    yield from end.connection(resumed=False)
    while True:
        yield from (end.client(publish(1, identifier)) for identifier in in_order(size))
        yield from (end.server(puback(identifier)) for identifier in order(size))
        yield record(REST)


def in_flight_at_qos_2(events: int, order: Order) -> Records:
    """The same at QoS 2. PUBREC and PUBCOMP come in this order; the client's PUBRELs are in the order of the PUBRECs, as they must."""
    end, size = End(CLIENT), round_size(events, 4)
    yield from end.connection(resumed=False)
    while True:
        yield from (end.client(publish(2, identifier)) for identifier in in_order(size))
        yield from (end.server(pubrec(identifier)) for identifier in order(size))
        yield from (end.client(pubrel(identifier)) for identifier in order(size))
        yield from (end.server(pubcomp(identifier)) for identifier in order(size))
        yield record(REST)


# ---- answers of the tested end


def answers(events: int, role: int, order: Order) -> Records:
    """Many messages come at once, every other one at QoS 2, and are answered in this order.

    A client must answer them in the order in which they came, but may release and complete them in any other; a server is free.
    """
    end, size = End(role), round_size(events, 4)
    from_peer, own = (end.server, end.client) if role == CLIENT else (end.client, end.server)
    yield from end.connection(resumed=False)
    while True:
        yield from (from_peer(publish(1 + identifier % 2, identifier)) for identifier in in_order(size))
        for identifier in in_order(size) if role == CLIENT else order(size):
            yield own(pubrec(identifier) if identifier % 2 else puback(identifier))
        yield from (from_peer(pubrel(identifier)) for identifier in in_order(size) if identifier % 2)
        for identifier in order(size):
            if identifier % 2:
                yield release(identifier)
                yield own(pubcomp(identifier))
        yield record(REST)


def requests(events: int, order: Order) -> Records:
    """Many SUBSCRIBEs and UNSUBSCRIBEs come at once, alternating, with PINGREQs between, and the tested server answers in this order."""
    end, size = End(SERVER), round_size(events, 4)
    yield from end.connection(resumed=False)
    while True:
        for identifier in in_order(size):
            yield end.client(unsubscribe(identifier, "b") if identifier % 2 else subscribe(identifier, ["a"]))
            yield end.client(PINGREQ)
        for identifier in order(size):
            yield end.server(unsuback(identifier) if identifier % 2 else suback(identifier, ["a"]))
            yield end.server(PINGRESP)
        yield record(REST)


def new_identifiers(events: int, role: int) -> Records:
    """One exchange after the other, each under the next Packet Identifier: each kind of exchange in turn, in both directions."""
    end = End(role)
    yield from end.connection(resumed=False)
    yield from end.subscription(IDENTIFIERS, ["a"])
    for n in count():
        # 65,535 is odd, so each kind of exchange gets each identifier in the end.
        identifier = n % IDENTIFIERS + 1
        yield from (subscribing, unsubscribing, publishing, completing)[n % 4](end, identifier)
        yield from (acknowledged, received_exactly_once)[n % 2](end, identifier)


def subscribing(end: End, identifier: int) -> Records:
    yield from end.subscription(identifier, ["a"])


def unsubscribing(end: End, identifier: int) -> Records:
    yield end.client(unsubscribe(identifier, "b"))
    yield end.server(unsuback(identifier))


def publishing(end: End, identifier: int) -> Records:
    """A client's message of QoS 1."""
    yield end.client(publish(1, identifier))
    yield end.server(puback(identifier))


def completing(end: End, identifier: int) -> Records:
    """A client's message of QoS 2."""
    yield from exactly_once(identifier, end.client, end.server, is_receiver_tested=end.role == SERVER)


def acknowledged(end: End, identifier: int) -> Records:
    """A server's message of QoS 1."""
    yield end.server(publish(1, identifier))
    yield end.client(puback(identifier))


def received_exactly_once(end: End, identifier: int) -> Records:
    """A server's message of QoS 2."""
    yield from exactly_once(identifier, end.server, end.client, is_receiver_tested=end.role == CLIENT)


Says = Callable[[bytes], bytes]


def exactly_once(identifier: int, sender: Says, receiver: Says, is_receiver_tested: bool) -> Records:
    yield sender(publish(2, identifier))
    yield receiver(pubrec(identifier))
    yield sender(pubrel(identifier))
    if is_receiver_tested:
        yield release(identifier)
    yield receiver(pubcomp(identifier))


# ---- deliveries of a tested server


def topic_filter(n: int) -> str:
    """The filter number n. Two of five have a wildcard."""
    return f"+/{n}/level" if n % 5 == 0 else f"site/{n}/#" if n % 5 == 2 else f"site/{n}/level"


def topic_name(n: int, word: str) -> str:
    """A Topic Name that the filter number n matches and no other does; the word is in it if the filter has a wildcard."""
    return f"{word}/{n}/level" if n % 5 == 0 else f"site/{n}/{word}" if n % 5 == 2 else f"site/{n}/level"


def deliveries(events: int, filters: int, is_topic_new: bool) -> Records:
    """A client subscribes to so many filters, and messages of QoS 0 and 1 come for them, for one far from the one before.

    Either each filter gets the same topic again and again, or each message has a topic that there has never been, for which there
    must be a wildcard.
    """
    end = End(SERVER)
    yield from end.connection(resumed=False)
    for n, first in enumerate(range(0, filters, FILTERS_IN_A_SUBSCRIBE)):
        last = min(filters, first + FILTERS_IN_A_SUBSCRIBE)
        yield from end.subscription(n + 1, [topic_filter(one) for one in range(first, last)])
    for n in count():
        chosen = n * 6_029 % filters
        if is_topic_new:
            chosen -= chosen % 5 - 2 * (n % 2)
        topic = topic_name(chosen, str(n) if is_topic_new else "hall")
        identifier = n % IDENTIFIERS + 1
        yield end.server(publish(n % 2, identifier, topic))
        if n % 2:
            yield end.client(puback(identifier))


# ---- many connections


def resumed(events: int, role: int) -> Records:
    """Each connection breaks after a message of QoS 1 and the first half of one of QoS 2; the next one completes both.

    The tested end sends the first message, which is sent again with DUP 1, and receives the second.
    """
    end = End(role)
    own, from_peer = (end.client, end.server) if role == CLIENT else (end.server, end.client)
    yield from end.connection(resumed=False)
    yield from end.subscription(1, ["a"])
    for n in count():
        sent, received = n % IDENTIFIERS + 1, n * 7 % IDENTIFIERS + 1
        yield own(publish(1, sent))
        yield from_peer(publish(2, received))
        yield own(pubrec(received))
        yield record(CLOSE)
        yield from end.connection(resumed=True)
        yield own(publish(1, sent, dup=True))
        yield from_peer(puback(sent))
        yield from_peer(pubrel(received))
        yield release(received)
        yield own(pubcomp(received))
        yield record(REST)


def resumed_in_flight(events: int, is_exactly_once: bool) -> Records:
    """A client has many messages in flight, and resumes the session over and over. Each time it sends one small message more.

    It rightly doesn't send those in flight again: they are larger than the Maximum Packet Size of each later connection. The small
    message is of QoS 1, or of QoS 2 and completed on the next connection, where its PUBREL is sent again.
    """
    end, size = End(CLIENT), max(1, min(IDENTIFIERS - 1, events // 3))
    yield from end.connection(resumed=False)
    yield from (end.client(publish(1, identifier, payload=b"x" * 20)) for identifier in in_order(size))
    for n in count():
        yield record(CLOSE)
        yield from end.connection(resumed=True, properties=MAXIMUM_PACKET_SIZE)
        if is_exactly_once and n:
            yield end.client(pubrel(IDENTIFIERS))
            yield end.server(pubcomp(IDENTIFIERS))
        yield end.client(publish(2 if is_exactly_once else 1, IDENTIFIERS))
        if is_exactly_once:
            yield end.server(pubrec(IDENTIFIERS))
            yield end.client(pubrel(IDENTIFIERS))
        else:
            yield end.server(puback(IDENTIFIERS))
        yield record(REST)


def sent_again(events: int) -> Records:
    """A client has many messages in flight when its connection breaks. It sends all of them again on the next one, and rests over and over."""
    end, size = End(CLIENT), max(1, min(IDENTIFIERS, events // 3))
    yield from end.connection(resumed=False)
    yield from (end.client(publish(1, identifier)) for identifier in in_order(size))
    yield record(CLOSE)
    yield from end.connection(resumed=True)
    yield from (end.client(publish(1, identifier, dup=True)) for identifier in in_order(size))
    while True:
        yield record(REST)


def resumed_with_filters(events: int) -> Records:
    """A client subscribes to ever more filters without a wildcard, one a SUBSCRIBE, and then resumes the session over and over.

    On each connection the tested server delivers a message.
    """
    end, size = End(SERVER), max(1, events // 6)
    yield from end.connection(resumed=False)
    for n in range(size):
        yield from end.subscription(n % IDENTIFIERS + 1, [f"site/{n}/level"])
    for n in count():
        yield record(CLOSE)
        yield from end.connection(resumed=True)
        yield end.server(publish(0, 0, f"site/{n * 6_029 % size}/level"))
        yield record(REST)


def resubscribed(events: int) -> Records:
    """On each connection of a session the client subscribes to its filter again, as many clients do.

    In the middle of the log it takes a second filter, and from then on the tested server delivers for that one.
    """
    end = End(SERVER)
    for n in count():
        yield from end.connection(resumed=n > 0)
        if n < events // 12:  # each of these connections has six events
            yield from end.subscription(1, ["b"])
        else:
            yield from end.subscription(1, ["b", "a"])
            yield end.server(publish(0, 0))
        yield record(CLOSE)


def new_sessions(events: int) -> Records:
    """After a long session of a client, with many messages in flight both ways, many short ones, each of them new."""
    end, size = End(CLIENT), max(1, min(IDENTIFIERS, events // 6))
    yield from end.connection(resumed=False)
    for identifier in in_order(size):
        yield end.client(publish(1, identifier))
        yield end.server(publish(2, identifier))
        yield end.client(pubrec(identifier))
    for n in count():
        yield record(CLOSE)
        yield from end.connection(resumed=False)
        yield from publishing(end, n % IDENTIFIERS + 1)


def new_sessions_with_filters(events: int) -> Records:
    """After a long session of a tested server, with many filters, one a SUBSCRIBE, many short ones, each of them new."""
    end, size = End(SERVER), max(1, events // 4)
    yield from end.connection(resumed=False)
    for n in range(size):
        yield from end.subscription(n % IDENTIFIERS + 1, [topic_filter(n)])
    for n in count():
        yield record(CLOSE)
        yield from end.connection(resumed=False)
        yield from end.subscription(1, [topic_filter(n % size)])
        yield end.server(publish(0, 0, topic_name(n % size, "hall")))
        yield record(REST)


# ---- packets before the CONNACK


def early(events: int, role: int) -> Records:
    """On each connection the client sends many messages of QoS 1 before the CONNACK comes, and gets their PUBACKs after it."""
    end, size = End(role), min(MOST_EARLY - 2, round_size(events, 2))
    for n in count():
        yield from end.connection(resumed=n > 0, early=[end.client(publish(1, identifier)) for identifier in in_order(size)])
        yield from (end.server(puback(identifier)) for identifier in in_order(size))
        yield record(REST)
        yield record(CLOSE)


def unanswered(events: int) -> Records:
    """Every other connection closes before its CONNACK, after a PUBLISH of the client, which is sent again on the next one."""
    end = End(CLIENT)
    for n in count():
        identifier = n % IDENTIFIERS + 1
        yield record(OPEN)
        yield end.client(connect(clean_start=False))
        yield end.client(publish(1, identifier))
        yield record(CLOSE)
        yield from end.connection(resumed=n > 0)
        yield end.client(publish(1, identifier, dup=True))
        yield end.server(puback(identifier))
        yield record(REST)
        yield record(CLOSE)


# ---- the kinds


@dataclass(frozen=True)
class Kind:
    role: int
    records: Callable[[int], Records]


ORDERS: dict[str, Order] = {"": in_order, "-reversed": in_reverse, "-scattered": scattered}
NUMBERS_OF_FILTERS = (50, 1_000, 10_000)

KINDS: dict[str, Kind] = {
    **{f"in-flight{name}": Kind(CLIENT, partial(in_flight, order=order)) for name, order in ORDERS.items()},
    **{f"in-flight-qos2{name}": Kind(CLIENT, partial(in_flight_at_qos_2, order=order)) for name, order in ORDERS.items()},
    **{f"client-answers{name}": Kind(CLIENT, partial(answers, role=CLIENT, order=order)) for name, order in ORDERS.items()},
    **{f"server-answers{name}": Kind(SERVER, partial(answers, role=SERVER, order=order)) for name, order in ORDERS.items()},
    **{f"requests{name}": Kind(SERVER, partial(requests, order=order)) for name, order in ORDERS.items()},
    "client-new-identifiers": Kind(CLIENT, partial(new_identifiers, role=CLIENT)),
    "server-new-identifiers": Kind(SERVER, partial(new_identifiers, role=SERVER)),
    **{f"filters-{number}": Kind(SERVER, partial(deliveries, filters=number, is_topic_new=False)) for number in NUMBERS_OF_FILTERS},
    **{f"filters-{number}-new": Kind(SERVER, partial(deliveries, filters=number, is_topic_new=True)) for number in NUMBERS_OF_FILTERS},
    "client-resumed": Kind(CLIENT, partial(resumed, role=CLIENT)),
    "server-resumed": Kind(SERVER, partial(resumed, role=SERVER)),
    "resumed-in-flight": Kind(CLIENT, partial(resumed_in_flight, is_exactly_once=False)),
    "resumed-in-flight-qos2": Kind(CLIENT, partial(resumed_in_flight, is_exactly_once=True)),
    "sent-again": Kind(CLIENT, sent_again),
    "resumed-filters": Kind(SERVER, resumed_with_filters),
    "resubscribed": Kind(SERVER, resubscribed),
    "new-sessions": Kind(CLIENT, new_sessions),
    "new-sessions-filters": Kind(SERVER, new_sessions_with_filters),
    "client-early": Kind(CLIENT, partial(early, role=CLIENT)),
    "server-early": Kind(SERVER, partial(early, role=SERVER)),
    "unanswered": Kind(CLIENT, unanswered),
}


def first_version(kind: str, events: int) -> Iterator[bytes]:
    yield b"MQTR\x01" + bytes([KINDS[kind].role, 1, 0])
    yield from islice(KINDS[kind].records(events), events)


def log(kind: str, events: int, version: int = 1) -> Iterator[bytes]:
    """A log of this kind with exactly so many events. It records releases. In version 2 it has times as moments."""
    return in_version(first_version(kind, events), version)


def main() -> None:
    arguments = argparse.ArgumentParser(description="Writes a log of a session of one kind.")
    arguments.add_argument("kind", choices=KINDS, metavar="KIND", help=", ".join(KINDS))
    arguments.add_argument("events", type=int, metavar="EVENTS", help="how many events it has")
    arguments.add_argument("--log-version", type=int, choices=HEAD_SIZES, default=1, help="of the log's format (default 1)")
    given = arguments.parse_args()
    sys.stdout.buffer.writelines(log(given.kind, given.events, given.log_version))


if __name__ == "__main__":
    main()
