#!/usr/bin/env python3
"""Makes random logs, and writes a session to standard output. The same seed and number always give the same bytes.

In a session both ends do right and wrong. There are few Packet Identifiers, topics and filters, so that exchanges meet, and some
packets are changed in a byte or cut over records. In about half of the sessions packets and RELEASEs come before the CONNACK, on
connections that are then accepted, refused or closed without a CONNACK, or that end with the log. In the others only what belongs
to no session comes before it. On some connections little happens: the client leaves at once, or the tested end comes to rest with
nothing or one thing done, or the connection ends in the middle of a PUBLISH. And some sessions are calm: most are resumed on each
connection after the first one, and what the tested end has in flight is sent again, or not. Clients often have a Will, or name an
Authentication Method, whatever the server can do. `bench/check_random.py` compares the reports on them.

`streams` are for `bench/compare.py`, which looks at what is shown: packets of all kinds, those of packets.txt, in records that are
cut anywhere. `crowded` gives both as many events before a CONNACK as there may be, and one more.

A third of the sessions and of the streams are logs of version 2, with moments as recorders write them or with odd ones.

usage: bench/random_logs.py SEED NUMBER > FILE
"""
import argparse
import random
import sys
from collections.abc import Callable, Iterator
from enum import IntEnum
from pathlib import Path

sys.dont_write_bytecode = True  # the repository stays as it is
import make_log
from make_log import CLOSE, OPEN, RECV, REST, SENT, record, varint
from session_logs import CLIENT, MOST_EARLY, RELEASE, SERVER, End, number, packet, publish, release, text
from versions import in_some_version

PACKETS = Path(__file__).resolve().parent / "packets.txt"
TELLING = bytes.fromhex("0001020405 23262B2F 7F80C3FF 10 82")

# ---- changed bytes


def examples() -> list[bytes]:
    """The packets of packets.txt."""
    lines = PACKETS.read_text().splitlines()
    return [bytes.fromhex(line) for line in lines if not line.startswith("#")]


EXAMPLES = examples()


def change(draw: random.Random, data: bytearray) -> None:
    """Changes, puts in or takes out a byte, or takes out all from one on."""
    at = draw.randrange(len(data) + 1)
    byte = draw.choice(TELLING) if draw.random() < 0.5 else draw.randrange(256)
    match draw.randrange(8):
        case 0:
            del data[at:]
        case 1 | 2:
            data.insert(at, byte)
        case 3:
            del data[at : at + 1]
        case _:
            data[at : at + 1] = [byte]


# ---- sessions


class Type(IntEnum):
    """The type of a packet."""

    CONNECT = 1
    CONNACK = 2
    PUBLISH = 3
    PUBACK = 4
    PUBREC = 5
    PUBREL = 6
    PUBCOMP = 7
    SUBSCRIBE = 8
    SUBACK = 9
    UNSUBSCRIBE = 10
    UNSUBACK = 11
    PINGREQ = 12
    PINGRESP = 13
    DISCONNECT = 14
    AUTH = 15


IDENTIFIERS = (1, 2, 3)
KEEP_ALIVES = (0, 1, 2, 4, 10, 60, 60, 60)  # in seconds
TOPICS = ("a", "a", "a/b", "b", "$x")
FILTERS = ("a", "a", "a/b", "a/#", "+", "#", "b/+")
# Shared ones; the name of some is invalid, or no filter follows it.
SHARED = ("$share/g/a", "$share/g/a", "$share/g/+", "$share/+/a", "$share//a", "$share/g", "$share/g/")
REASONS = {
    Type.PUBACK: (0x00, 0x10, 0x87),
    Type.PUBREC: (0x00, 0x10, 0x87),
    Type.PUBREL: (0x00, 0x92),
    Type.PUBCOMP: (0x00, 0x92),
}
# Properties that may be in a list: the values of each.
Choices = tuple[tuple[bytes, ...], ...]
EXPIRY_60 = b"\x11\0\0\0\x3c"
SESSION_EXPIRY_INTERVAL = (b"\x11\0\0\0\0", EXPIRY_60, EXPIRY_60)
RECEIVE_MAXIMUM = (b"\x21\0\1", b"\x21\0\2")
TOPIC_ALIAS_MAXIMUM = (b"\x22\0\1", b"\x22\0\2")
MAXIMUM_PACKET_SIZE = (b"\x27\0\0\0\x0b",)
EXPLANATIONS = ((b"\x1f\0\1r",), (b"\x26\0\1k\0\1v",))  # Reason String, User Property
OF_CONNECT: Choices = ((b"\x17\0", b"\x17\1"), (b"\x19\0", b"\x19\1"), RECEIVE_MAXIMUM, TOPIC_ALIAS_MAXIMUM, MAXIMUM_PACKET_SIZE)
MAXIMUM_QOS = (b"\x24\0", b"\x24\1")
RETAIN_AVAILABLE = (b"\x25\0", b"\x25\0", b"\x25\1")
SERVER_KEEP_ALIVE = (b"\x13\0\0", b"\x13\0\2", b"\x13\0\4")
OF_CONNACK: Choices = ((b"\x12\0\1c",), (b"\x1a\0\1i",), RECEIVE_MAXIMUM, TOPIC_ALIAS_MAXIMUM)
AUTHENTICATION_METHOD = (b"\x15\0\1m", b"\x15\0\1m", b"\x15\0\1n")
# What a tested client's server hasn't got, besides: Wildcard Subscription, Subscription Identifier and Shared Subscription Available.
LACKS: Choices = ((b"\x28\0", b"\x28\1"), (b"\x29\0", b"\x29\1"), (b"\x2a\0", b"\x2a\1"))
# Subscription Identifiers, which SUBSCRIBEs have; and those that PUBLISHes have, one of which was never given.
SUBSCRIPTION_IDENTIFIER = (b"\x0b\7", b"\x0b\7", b"\x0b\x80\1")
OF_DELIVERIES = (*SUBSCRIPTION_IDENTIFIER, b"\x0b\x08")
LEAVING = (0x00, 0x00, 0x04, 0x80, 0x8C, 0x8E, 0x98, 0x9D)  # Reason Codes of a DISCONNECT; either end may not send all of them
BOUNDS: Choices = (MAXIMUM_QOS, RETAIN_AVAILABLE, RETAIN_AVAILABLE, MAXIMUM_PACKET_SIZE)  # a CONNACK has at most one of them
EXPIRY_OF_MESSAGE, TOPIC_ALIAS = (b"\2\0\0\0\x3c",), (b"\x23\0\1", b"\x23\0\2")
# What all SUBSCRIBEs of a session have, or some of them: Retain Handling 2, others, and Retain As Published.
RETAINING = ((0x00,), (0x00,), (0x20,), (0x00, 0x10, 0x20, 0x08, 0x28))

# What an end says of its own accord, each as often as it is in the list.
SAID_BY_BOTH = [Type.PUBLISH] * 16 + [Type.PUBACK, Type.PUBREC, Type.PUBREL, Type.PUBCOMP] * 2 + [Type.DISCONNECT, Type.AUTH]
SAID_BY = {
    CLIENT: SAID_BY_BOTH + [Type.SUBSCRIBE] * 4 + [Type.UNSUBSCRIBE, Type.PINGREQ] * 2 + [Type.CONNECT],
    SERVER: SAID_BY_BOTH + [Type.SUBACK, Type.UNSUBACK, Type.PINGRESP, Type.CONNACK],
}
OF_NO_SESSION = {CLIENT: (Type.PINGREQ, Type.AUTH), SERVER: (Type.PINGRESP, Type.AUTH)}

# A packet that an end is to send: its type, its Packet Identifier, and of how many filters the SUBSCRIBE or UNSUBSCRIBE was that it
# answers; of a PUBLISH the QoS at which it is sent again.
Owed = tuple[Type, int, int]


class Tape:
    """The records of a log. Now and then a packet is cut, and its rest comes with the next one of its direction."""

    def __init__(self, draw: random.Random, role: int, has_releases: bool):
        self.draw = draw
        self.log = bytearray(b"MQTR\x01" + bytes([role, has_releases, 0]))
        self.left = {SENT: b"", RECV: b""}

    def mark(self, kind: int, body: bytes = b"") -> None:
        self.log += record(kind, body)

    def say(self, way: int, said: bytes) -> None:
        self.left[way] += said
        is_whole = self.draw.random() < 0.9
        self._write(way, len(self.left[way]) if is_whole else self.draw.randrange(len(self.left[way]) + 1))

    def flush(self) -> None:
        for way in (SENT, RECV):
            self._write(way, len(self.left[way]))

    def drop(self) -> None:
        self.left = {SENT: b"", RECV: b""}

    def _write(self, way: int, size: int) -> None:
        body, self.left[way] = self.left[way][:size], self.left[way][size:]
        if body:
            self.mark(way, body)


class Session:
    """One log, as it is being made."""

    def __init__(self, draw: random.Random):
        self.draw = draw
        self.role = draw.randrange(2)
        self.has_releases = self.chance(0.8)
        self.is_early = self.chance(0.5)
        self.is_broken = self.chance(0.3)
        self.takes_all = False  # any packet may come now
        self.is_left = False  # the connection, by the client
        self.has_will = False  # the last CONNECT
        self.bursts = False  # the peer, on this connection
        self.is_fickle = False  # the client, on this connection
        self.shares = self.chance(0.4 if self.role == SERVER else 0.1)
        self.numbers = draw.choice((0.05, 0.05, 0.9))  # how often there are Subscription Identifiers
        self.retaining = draw.choice(RETAINING)
        self.retains = draw.choice((0.1, 0.1, 0.9))  # how often a PUBLISH has RETAIN 1
        self.tape = Tape(draw, self.role, self.has_releases)
        self.owed: dict[int, list[Owed]] = {CLIENT: [], SERVER: []}
        self.in_flight: dict[int, list[Owed]] = {CLIENT: [], SERVER: []}  # PUBLISHes to be sent again
        self.to_release: list[int] = []
        is_calm, count = self.chance(0.2), draw.choice((1, 2, 2, 3, 3, 4))
        for n in range(count + is_calm):
            if is_calm:
                self._calm_connection(is_first=n == 0)
            else:
                self._connection(is_first=n == 0, is_last=n == count - 1)

    def log(self) -> bytes:
        return bytes(self.tape.log)

    def chance(self, likely: float) -> bool:
        return self.draw.random() < likely

    # -- connections

    def _connection(self, is_first: bool, is_last: bool) -> None:
        self.tape.mark(OPEN)
        self.takes_all = self.is_early
        self.bursts = self.chance(0.1)
        self.is_fickle = self.chance(0.5 if self.role == SERVER else 0.05)
        self._begin_again()
        is_clean = self.chance(0.8 if is_first else 0.25)
        if self.chance(0.95):
            self._say(CLIENT, self._connect(is_clean))
        self._before_connack()
        if self.chance(0.8 if self.is_early else 0.9):
            is_likely_resumed = not is_first and not is_clean
            self._say(SERVER, self._connack(self.chance(0.7 if is_likely_resumed else 0.05)))
            if not self.is_early:
                self.tape.flush()
            self.takes_all = True
            self._go_on()
        if not is_last or self.chance(0.5):
            self._close()

    def _begin_again(self) -> None:
        """Of what the connection before left open, the ends forget it, or send the PUBLISHes again, or answer late."""
        for end in (CLIENT, SERVER):
            if self.chance(0.6):
                self.owed[end] = list(self.in_flight[end])
                if self.chance(0.3):
                    self.draw.shuffle(self.owed[end])
            elif self.chance(0.5):
                self.owed[end] = []

    def _before_connack(self) -> None:
        if self.is_early:
            for _ in range(self.draw.randint(1, 8)):
                self._step()
        elif self.chance(0.2):
            end = self.draw.randrange(2)
            self._say(end, self._packet(end, self.draw.choice(OF_NO_SESSION[end])))
        elif self.chance(0.1):
            self.tape.mark(REST)

    def _go_on(self) -> None:
        """After the CONNACK. Little may happen, so that it shows what is left undone."""
        match self.draw.randrange(10):
            case 0:
                self.is_left = True
            case 1 | 2 | 3:
                for _ in range(self.draw.choice((0, 0, 1, 2))):
                    self._say(self.role, self._answer(self.role) if self.owed[self.role] else self._news(self.role))
                self.tape.mark(REST)
            case _ if self.bursts:
                self._burst()
            case 4 | 5 | 6 if self.is_fickle:
                self._subscribe_and_unsubscribe()
            case 7 | 8 if self.role == SERVER:
                self._subscribe_and_publish()
            case _:
                for _ in range(self.draw.randint(0, 12)):
                    self._step()

    def _burst(self) -> None:
        """The peer sends messages of QoS 2 and waits for no answer. Some are answered, and then the tested end is at rest."""
        for identifier in IDENTIFIERS:
            self._say(1 - self.role, self._publish(1 - self.role, identifier, 2, dup=False))
        for _ in range(self.draw.randrange(3)):
            self._say(self.role, self._answer(self.role) if self.owed[self.role] else self._news(self.role))
        self.tape.flush()
        self.tape.mark(REST)

    def _subscribe_and_unsubscribe(self) -> None:
        """The client asks for few filters, and gives them up, again and again. Mostly the server answers at once."""
        self.owed[SERVER] = []
        kind, other = Type.SUBSCRIBE, Type.UNSUBSCRIBE
        for _ in range(self.draw.randint(2, 10)):
            kind, other = (other, kind) if self.chance(0.7) else (kind, other)
            self._say(CLIENT, self._packet(CLIENT, kind, self.draw.choice(IDENTIFIERS), self.draw.randint(1, 2)))
            if self.owed[SERVER] and self.chance(0.9):
                self._say(SERVER, self._answer(SERVER))

    def _subscribe_and_publish(self) -> None:
        """The client subscribes, and the server sends anything, mostly after its answer."""
        self.owed[SERVER] = []
        for _ in range(self.draw.randint(1, 3)):
            self._say(CLIENT, self._packet(CLIENT, Type.SUBSCRIBE, self.draw.choice(IDENTIFIERS), self.draw.randint(1, 2)))
            if self.owed[SERVER] and self.chance(0.8):
                self._say(SERVER, self._answer(SERVER))
            for _ in range(self.draw.randint(0, 3)):
                self._say(SERVER, self._packet(SERVER, Type.PUBLISH, self.draw.choice(IDENTIFIERS)))

    def _close(self) -> None:
        if self.is_left:
            self._leave()
        elif self.chance(0.2):
            self._say(self.draw.randrange(2), self._disconnect())
        if self.chance(0.9):
            self.tape.flush()
        if not self.is_left and self.chance(0.2):
            self._begin_publish()
        self.tape.drop()
        self.tape.mark(CLOSE)
        while self.has_releases and self.chance(0.2):
            self._release()

    def _leave(self) -> None:
        """The client sends at most a DISCONNECT."""
        self.is_left = False
        if self.chance(0.5):
            self._say(CLIENT, packet(0xE0, b""))

    def _begin_publish(self) -> None:
        """A packet of the tested end that the connection's end cuts off, mostly a PUBLISH that is to be sent again."""
        self.tape.flush()
        identifier, qos = self.draw.choice(IDENTIFIERS), self.draw.choice((0, 1, 1, 2, 2))
        said = self._publish(self.role, identifier, qos, dup=self.chance(0.3)) if self.chance(0.8) else self._news(self.role)
        self.tape.mark(SENT, said[: self.draw.randrange(1, len(said))])

    def _calm_connection(self, is_first: bool) -> None:
        self.tape.mark(OPEN)
        self.takes_all = True
        of_client = EXPIRY_60 + (self._chosen(0.4, MAXIMUM_PACKET_SIZE) if self.role == SERVER else b"")
        of_server = self._chosen(0.5, self.draw.choice(BOUNDS)) if self.role == CLIENT else b""
        resumes = not is_first and self.chance(0.7)
        self._say(CLIENT, connect(is_first, of_client))
        for _ in range(self.draw.randrange(3) if self.role == CLIENT and self.chance(0.8) else 0):
            self._calm_step()
        self._say(SERVER, packet(0x20, bytes([resumes, 0, len(of_server)]) + of_server))
        if is_first and self.role == SERVER:
            self._say(CLIENT, packet(0x82, number(9) + b"\0" + text("#") + b"\2"))
            self._say(SERVER, packet(0x90, number(9) + b"\0\2"))
        for _ in range(2):
            if not is_first and self.chance(0.6):
                self.tape.flush()
                self.tape.mark(REST)
            for _ in range(self.draw.randint(1, 2)):
                self._calm_step()
        self._close()

    def _calm_step(self) -> None:
        sent, peer = self.in_flight[self.role], 1 - self.role
        if self.owed[peer] and self.chance(0.4):
            self._say(peer, self._answer(peer))
        elif sent and self.chance(0.4):
            _, identifier, qos = self.draw.choice(sent)
            self._say(self.role, self._publish(self.role, identifier, qos, dup=True))
        else:
            self._say(self.role, self._publish(self.role, self.draw.choice(IDENTIFIERS), self.draw.choice((1, 2)), dup=False))

    # -- what happens on a connection

    def _step(self) -> None:
        if self.chance(0.09):
            self.tape.mark(REST)
        elif self.has_releases and self.chance(0.4 if self.to_release else 0.04):
            self._release()
        else:
            end = self.draw.randrange(2)
            self._say(end, self._answer(end) if self.owed[end] and self.chance(0.6) else self._news(end))

    def _release(self) -> None:
        is_due = bool(self.to_release) and self.chance(0.8)
        self.tape.mark(RELEASE, number(self.to_release.pop(0) if is_due else self.draw.choice(IDENTIFIERS)))

    def _say(self, end: int, said: bytes) -> None:
        data = bytearray(said)
        if self.is_broken and self.takes_all and self.chance(0.06):
            if self.chance(0.5):
                data[:] = self.draw.choice(EXAMPLES)
            change(self.draw, data)
        self.tape.say(SENT if end == self.role else RECV, bytes(data))

    def _answer(self, end: int) -> bytes:
        """A packet that the end owes: mostly the first one, and mostly only once."""
        owed = self.owed[end]
        at = 0 if self.chance(0.8) else self.draw.randrange(len(owed))
        kind, identifier, amount = owed[at] if self.chance(0.1) else owed.pop(at)
        if kind == Type.PUBLISH:
            return self._publish(end, identifier, amount, dup=True)
        return self._packet(end, kind, identifier, amount)

    def _news(self, end: int) -> bytes:
        """A packet of the end's own accord, of a type that it has, or rarely of one that only its peer may send."""
        kind = self.draw.choice(SAID_BY[end if self.chance(0.97) else 1 - end])
        return self._packet(end, kind, self.draw.choice(IDENTIFIERS), self.draw.randint(1, 2))

    def _packet(self, end: int, kind: Type, identifier: int = 0, amount: int = 0) -> bytes:
        match kind:
            case Type.CONNECT:
                return self._connect(self.chance(0.5))
            case Type.CONNACK:
                return self._connack(self.chance(0.5))
            case Type.PUBLISH:
                return self._publish(end, identifier, self.draw.choice((0, 1, 1, 2, 2)), dup=self.chance(0.2))
            case Type.PUBACK | Type.PUBREC | Type.PUBREL | Type.PUBCOMP:
                return self._acknowledgement(end, kind, identifier)
            case Type.SUBSCRIBE | Type.UNSUBSCRIBE:
                return self._request(end, kind, identifier, amount)
            case Type.SUBACK | Type.UNSUBACK:
                return self._reply(kind, identifier, amount)
            case Type.PINGREQ:
                self._owe(1 - end, Type.PINGRESP)
                return make_log.PINGREQ
            case Type.PINGRESP:
                return make_log.PINGRESP
            case Type.DISCONNECT:
                return self._disconnect()
            case Type.AUTH:
                return packet(0xF0, b"" if self.chance(0.5) else b"\x18" + self._properties(0.8, AUTHENTICATION_METHOD))

    def _owe(self, end: int, kind: Type, identifier: int = 0, amount: int = 0) -> None:
        if self.chance(0.9):
            self.owed[end].append((kind, identifier, amount))

    # -- packets

    def _chosen(self, likely: float, *choices: tuple[bytes, ...]) -> bytes:
        """Each of these properties, with that probability."""
        return b"".join(self.draw.choice(values) for values in choices if self.chance(likely))

    def _properties(self, likely: float, *choices: tuple[bytes, ...]) -> bytes:
        """A property list."""
        return listed(self._chosen(likely, *choices))

    def _connect(self, is_clean: bool) -> bytes:
        properties = self._chosen(0.8, SESSION_EXPIRY_INTERVAL) + self._chosen(0.15, *OF_CONNECT, AUTHENTICATION_METHOD)
        self.has_will = self.chance(0.4)
        will = (self.draw.randrange(3), self.chance(0.5)) if self.has_will else None
        return connect(is_clean, properties, "c" if self.chance(0.9) else "", will, self.draw.choice(KEEP_ALIVES))

    def _connack(self, session_present: bool) -> bytes:
        refusals = (0x87, 0x9A, 0x9B) if self.has_will else (0x87,)
        code = self.draw.choice(refusals) if self.chance(0.1) else 0x00
        others = OF_CONNACK[: 2 if self.bursts else None]
        chosen = self._chosen(0.12, SESSION_EXPIRY_INTERVAL, SERVER_KEEP_ALIVE, *others, AUTHENTICATION_METHOD)
        chosen += self.draw.choice(RECEIVE_MAXIMUM) if self.bursts else b""
        if self.has_will and self.role == SERVER:
            chosen += self._chosen(0.5, MAXIMUM_QOS, RETAIN_AVAILABLE)
        else:
            chosen += self._chosen(0.4 if session_present else 0.25, self.draw.choice(BOUNDS))
        chosen += self._chosen(0.1, *LACKS) if self.role == CLIENT else b""
        return packet(0x20, bytes([session_present, code]) + listed(chosen))

    def _publish(self, end: int, identifier: int, qos: int, dup: bool) -> bytes:
        dup = dup and qos > 0
        peer = 1 - end
        if qos > 0:
            self._owe(peer, Type.PUBACK if qos == 1 else Type.PUBREC, identifier)
            self.in_flight[end].append((Type.PUBLISH, identifier, qos))
            if qos == 2 and peer == self.role and not dup:
                self.to_release.append(identifier)
        likely = max(0.12, self.numbers / 2) if end == self.role == SERVER else 0.12
        numbers = self._chosen(likely, OF_DELIVERIES)
        numbers += self._chosen(0.3, OF_DELIVERIES) if numbers else b""
        properties = listed(self._chosen(0.12, EXPIRY_OF_MESSAGE) + numbers + self._chosen(0.12, TOPIC_ALIAS))
        has_alias = properties[-3:-1] == b"\x23\0"  # the Topic Alias is the last property
        topic = "" if has_alias and self.chance(0.5) else self.draw.choice(TOPICS)
        body = text(topic) + (number(identifier) if qos > 0 else b"") + properties + b"x"
        return packet(0x30 | dup << 3 | qos << 1 | self.chance(self.retains), body)

    def _acknowledgement(self, end: int, kind: Type, identifier: int) -> bytes:
        code = 0x00 if self.chance(0.75) else self.draw.choice(REASONS[kind])
        peer = 1 - end
        if kind == Type.PUBREC and code < 0x80:
            self._owe(peer, Type.PUBREL, identifier)
        elif kind == Type.PUBREL:
            self._owe(peer, Type.PUBCOMP, identifier)
        else:  # the exchange is over
            self.in_flight[peer] = [owed for owed in self.in_flight[peer] if owed[1] != identifier]
        properties = self._properties(0.1, *EXPLANATIONS)
        is_short = code == 0 and properties == b"\0" and self.chance(0.8)
        rest = b"" if is_short else bytes([code]) + properties
        return packet(kind << 4 | (2 if kind == Type.PUBREL else 0), number(identifier) + rest)

    def _request(self, end: int, kind: Type, identifier: int, amount: int) -> bytes:
        """A SUBSCRIBE or UNSUBSCRIBE."""
        self._owe(1 - end, Type.SUBACK if kind == Type.SUBSCRIBE else Type.UNSUBACK, identifier, amount)
        filters = [self.draw.choice(SHARED if self.shares and self.chance(0.3) else self._filters()) for _ in range(amount)]
        has_options = kind == Type.SUBSCRIBE
        body = b"".join(text(one) + (bytes([self._options()]) if has_options else b"") for one in filters)
        number_given = self._chosen(self.numbers, SUBSCRIPTION_IDENTIFIER) if has_options else b""
        properties = listed(self._chosen(0.05, EXPLANATIONS[1]) + number_given)
        return packet(kind << 4 | 2, number(identifier) + properties + body)

    def _filters(self) -> tuple[str, ...]:
        return FILTERS[:3] if self.is_fickle else FILTERS

    def _options(self) -> int:
        """Of a SUBSCRIBE: a Maximum QoS, what is said of retained messages, and sometimes No Local."""
        return self.draw.randrange(3) | self.draw.choice(self.retaining) | (4 if self.chance(0.1) else 0)

    def _reply(self, kind: Type, identifier: int, amount: int) -> bytes:
        """A SUBACK or UNSUBACK, mostly with as many Reason Codes as there were filters."""
        count = amount if self.chance(0.9) else amount + 1
        codes = (0x00, 0x01, 0x02, 0x02, 0x87) if kind == Type.SUBACK else (0x00, 0x11)
        return packet(kind << 4, number(identifier) + self._properties(0.1, *EXPLANATIONS) + bytes(self.draw.choices(codes, k=count)))

    def _disconnect(self) -> bytes:
        code = bytes([self.draw.choice(LEAVING)])
        return packet(0xE0, b"" if self.chance(0.4) else code + self._properties(0.5, SESSION_EXPIRY_INTERVAL))


def listed(properties: bytes) -> bytes:
    """A property list of these."""
    return varint(len(properties)) + properties


def connect(is_clean: bool, properties: bytes, name: str = "c", will: tuple[int, bool] | None = None, keep_alive: int = 60) -> bytes:
    """A CONNECT. Of a Will are given its QoS and Will Retain."""
    flags, rest = 2 if is_clean else 0, b""
    if will is not None:
        qos, retain = will
        flags, rest = flags | will_flags(qos, retain), b"\0" + text("w") + text("x")
    return packet(0x10, text("MQTT") + bytes([5, flags]) + number(keep_alive) + listed(properties) + text(name) + rest)


def will_flags(qos: int, retain: bool) -> int:
    """The Connect Flags that a Will has."""
    return 0x04 | qos << 3 | retain << 5


def session(seed: int, which: int) -> bytes:
    """The log of this number among those of the seed."""
    draw = random.Random(f"{seed} {which}")
    return in_some_version(draw, Session(draw).log())


# ---- streams of packets of all kinds


def records(draw: random.Random, sent: bytes, received: bytes) -> bytes:
    """Two streams, in records of a few bytes that alternate, with RESTs and RELEASEs between."""
    out = b""
    while sent or received:
        size = draw.randint(0, 40)
        if draw.random() < 0.5:
            out, sent = out + record(SENT, sent[:size]), sent[size:]
        else:
            out, received = out + record(RECV, received[:size]), received[size:]
        if draw.random() < 0.1:
            out += record(REST) if draw.random() < 0.5 else record(RELEASE, draw.randbytes(2))
    return out


def streams(draw: random.Random, count: int) -> Iterator[bytes]:
    """So many logs. In about half of them packets come before the CONNACK, or without one."""
    for log in first_version_streams(draw, count):
        yield in_some_version(draw, log)


def first_version_streams(draw: random.Random, count: int) -> Iterator[bytes]:
    for _ in range(count):
        log = bytearray(b"MQTR\x01" + bytes([draw.randrange(2), 1, 0]))
        is_early = draw.random() < 0.5
        connack, connect = (RECV, SENT) if log[5] == 0 else (SENT, RECV)
        for _ in range(draw.randint(1, 3)):
            log += record(OPEN) + record(connect, make_log.CONNECT)
            accepted = record(connack, make_log.CONNACK)
            said = [b"".join(draw.choices(EXAMPLES, k=draw.randint(0, 6))) for _ in range(4 if is_early else 2)]
            changed = [bytearray(stream) for stream in said]
            if draw.random() < 0.5:
                change(draw, draw.choice(changed))
            if is_early:
                log += records(draw, bytes(changed[2]), bytes(changed[3]))
                accepted = accepted if draw.random() < 0.8 else b""
            log += accepted + records(draw, bytes(changed[0]), bytes(changed[1])) + record(CLOSE)
        if draw.random() < 0.5:
            change(draw, log)
        yield bytes(log)


# ---- many events before a CONNACK


def crowded() -> Iterator[tuple[str, bytes, bool]]:
    """Logs whose last event is the 4,096th or 4,097th of its connection, and no other one is the CONNACK: a name, the log, and
    whether that event is one too many."""
    for role, tested in ((CLIENT, "client"), (SERVER, "server")):
        end = End(role)
        accepted = end.server(make_log.CONNACK)
        opened = record(OPEN) + end.client(make_log.CONNECT)
        # Neither an earlier connection nor a RELEASE after it counts.
        header = b"MQTR\x01" + bytes([role, 1, 0]) + opened + accepted + record(CLOSE) + release(1)
        own, from_peer = (end.client, end.server) if role == CLIENT else (end.server, end.client)
        ping = make_log.PINGRESP if role == CLIENT else make_log.PINGREQ
        last_events = {
            "a packet that is sent": own(make_log.PINGREQ if role == CLIENT else make_log.PINGRESP),
            "a PUBLISH that is received": from_peer(publish(1, 1)),
            "a packet that breaks a rule": from_peer(b"\xc1\0"),
            "a direction that is lost": own(b"\x30\xff\xff\xff\xff"),
            "a REST": record(REST),
            "a RELEASE": release(1),
            "a CONNACK that breaks a rule": end.server(b"\x20\3\2\0\0"),
            "a CONNACK of the client": end.client(make_log.CONNACK),
        }
        deciding = {
            "a CLOSE": record(CLOSE),
            "a CONNACK that accepts": accepted,
            "a CONNACK that refuses": end.server(b"\x20\3\0\x87\0"),
        }
        for before in (MOST_EARLY - 1, MOST_EARLY):
            crowd = header + opened + from_peer(ping * (before - 2))
            for name, last in {**last_events, **deciding}.items():
                yield f"{tested}, {name} after {before} events", crowd + last, before == MOST_EARLY and name not in deciding


def write_one(what: str, made: Callable[[int, int], bytes]) -> None:
    """Writes the log that a seed and a number make, as the command line gives them, to standard output."""
    arguments = argparse.ArgumentParser(description=f"Writes the log of {what}.")
    arguments.add_argument("seed", type=int, metavar="SEED")
    arguments.add_argument("number", type=int, metavar="NUMBER", help="which of the logs of this seed")
    given = arguments.parse_args()
    sys.stdout.buffer.write(made(given.seed, given.number))


if __name__ == "__main__":
    write_one("a random session", session)
