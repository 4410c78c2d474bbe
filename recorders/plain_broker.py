#!/usr/bin/env python3
"""A small broker of MQTT 5.0 that keeps the rules: what the exerciser's tests are played against.

It keeps its sessions and messages in memory, or also in a file, so that they outlive it, and serves 127.0.0.1 alone. It
answers whatever breaks a rule by closing the connection. `denied/x` is a topic that nobody may use, `wrong` is a wrong
password, and `plain` the one Authentication Method, which needs no AUTH. It does all that a broker may do, so that each
statement is put to the test: it assigns Topic Aliases, sends Response Information and reasons.

usage: recorders/plain_broker.py PORT [FILE]
"""
from __future__ import annotations

import asyncio
import os
import pickle
import sys
from collections import OrderedDict, deque
from dataclasses import dataclass, field
from pathlib import Path

sys.dont_write_bytecode = True  # the repository stays as it is
sys.path.insert(0, str(Path(__file__).resolve().parent))
from exercising.packets import (
    FIXED_FLAGS,
    LARGEST_IDENTIFIER,
    PACKET_IDENTIFIER_FIRST,
    PONG,
    Cutter,
    Packet,
    Properties,
    Prop,
    Reader,
    Type,
    Value,
    acknowledgement,
    codes,
    connack,
    disconnect,
    publish,
)

HOST = "127.0.0.1"
RECEIVE_MAXIMUM, ALIAS_MAXIMUM, SIZE_MAXIMUM = 20, 10, 200_000
DENIED, WRONG_PASSWORD = b"denied/x", b"wrong"
METHOD, AUTHENTICATION_DATA = b"plain", 0x16  # the only Authentication Method, and a property
MALFORMED, PROTOCOL_ERROR, NOT_AUTHORIZED, BAD_PASSWORD = 0x81, 0x82, 0x87, 0x86
BAD_METHOD, TAKEN_OVER, KEEP_ALIVE, BAD_ALIAS, TOO_MANY, TOO_LARGE = 0x8C, 0x8E, 0x8D, 0x94, 0x93, 0x95
NO_MATCH, UNKNOWN_IDENTIFIER, NO_SUBSCRIPTION = 0x10, 0x92, 0x11
PASSED_ON = (0x01, 0x03, 0x08, 0x09, 0x26)  # properties of a PUBLISH that go to the subscribers
OF_PUBLISH = frozenset((0x01, 0x02, 0x03, 0x08, 0x09, 0x23, 0x26))
OF_CONNECT = frozenset((0x11, 0x15, 0x16, 0x17, 0x19, 0x21, 0x22, 0x26, 0x27))
OF_WILL = frozenset((0x01, 0x02, 0x03, 0x08, 0x09, 0x18, 0x26))
OF_OTHERS = {Type.SUBSCRIBE: frozenset((0x0B, 0x26)), Type.UNSUBSCRIBE: frozenset((0x26,)),
             Type.DISCONNECT: frozenset((0x11, 0x1F, 0x26))}
OF_ACKNOWLEDGEMENTS = frozenset((0x1F, 0x26))
IDENTIFIER_AND_CODE = 3  # bytes of an acknowledgement before its properties
BOOLEAN = (0x01, 0x17, 0x19)
TEXTS = (0x03, 0x08, 0x15, 0x1F)
ACK_CODES = frozenset((0, 0x10, 0x80, 0x83, 0x87, 0x90, 0x91, 0x97, 0x99))
RELEASE_CODES = frozenset((0, UNKNOWN_IDENTIFIER))
BYE_CODES = frozenset((0, 4, *range(0x80, 0x84), 0x90, 0x93, 0x94, 0x95, 0x96, 0x97, 0x98, 0x99))


class Wrong(Exception):
    """A packet that breaks a rule, with the Reason Code that says so."""

    def __init__(self, code: int = MALFORMED) -> None:
        super().__init__(hex(code))
        self.code = code


@dataclass
class Message:
    """A message on its way to a subscriber."""

    topic: bytes
    payload: bytes
    qos: int
    retain: bool
    properties: list[tuple[int, Value]]
    is_released: bool = False  # its PUBREL was sent


@dataclass(eq=False)
class Session:
    """What is kept of a Client Identifier."""

    expiry: int = 0
    filters: dict[str, tuple[int, int | None]] = field(default_factory=dict)  # options, Subscription Identifier
    flying: OrderedDict[int, Message] = field(default_factory=OrderedDict)
    again: list[int] = field(default_factory=list)  # of those what is to be sent again, once there is room
    queue: deque[Message] = field(default_factory=deque)
    received: set[int] = field(default_factory=set)  # QoS 2 messages that wait for their PUBREL
    last: int = 0
    link: Link | None = None

    def __getstate__(self) -> dict[str, object]:
        return self.__dict__ | {"link": None}

    def new_identifier(self) -> int:
        while True:
            self.last = self.last % LARGEST_IDENTIFIER + 1
            if self.last not in self.flying:
                return self.last


def check_text(raw: bytes) -> str:
    """A text. It raises Wrong where it is none."""
    try:
        found = raw.decode("utf-8")
    except UnicodeDecodeError:
        raise Wrong from None
    if "\0" in found:
        raise Wrong
    return found


def check_properties(found: list[tuple[int, Value]], allowed: frozenset[int]) -> None:
    seen = [key for key, _ in found if key != Prop.USER_PROPERTY]
    if not {key for key, _ in found} <= allowed or len(set(seen)) < len(seen):
        raise Wrong
    for key, value in found:
        if isinstance(value, tuple):
            check_text(value[0])
            check_text(value[1])
        elif isinstance(value, bytes) and key in TEXTS:
            check_text(value)
        elif key in BOOLEAN and value not in (0, 1):
            raise Wrong(PROTOCOL_ERROR)
        elif key in (Prop.RECEIVE_MAXIMUM, Prop.MAXIMUM_PACKET_SIZE, Prop.SUBSCRIPTION_IDENTIFIER) and not value:
            raise Wrong(PROTOCOL_ERROR)


def matches(name: str, filter_: str) -> bool:
    levels, wanted = name.split("/"), filter_.split("/")
    if name.startswith("$") and wanted[0] in ("+", "#"):
        return False
    for at, one in enumerate(wanted):
        if one == "#":
            return True
        if at >= len(levels) or one not in ("+", levels[at]):
            return False
    return len(levels) == len(wanted)


def check_filter(raw: bytes) -> str:
    found = check_text(raw)
    parts = found.split("/", 2) if found.startswith("$share/") else ["", "", found]
    if len(parts) < 3 or not parts[2] or (parts[0] and (not parts[1] or set("+#") & set(parts[1]))):
        raise Wrong
    levels = parts[2].split("/")
    for at, level in enumerate(levels):
        is_wild = level == "+" or (level == "#" and at == len(levels) - 1)
        if not is_wild and set("+#") & set(level):
            raise Wrong
    return found


class Broker:
    """All sessions, and what is retained."""

    def __init__(self, file: Path | None = None) -> None:
        self.sessions: dict[str, Session] = {}
        self.retained: dict[bytes, Message] = {}
        self.assigned = 0
        self._file = file
        if file is not None and file.exists():
            self.sessions, self.retained, self.assigned = pickle.loads(file.read_bytes())

    def keep(self) -> None:
        """Writes what has to outlive it into its file, as a whole."""
        if self._file is not None:
            new = self._file.with_suffix(".new")
            living = {name: one for name, one in self.sessions.items() if one.expiry}
            new.write_bytes(pickle.dumps((living, self.retained, self.assigned)))
            os.replace(new, self._file)

    def publish(self, message: Message, origin: Session | None) -> bool:
        """Gives a message to whom it concerns. It says whether there is anybody."""
        if message.retain:
            self.retained.pop(message.topic, None)
            if message.payload:
                self.retained[message.topic] = message
        name, found = message.topic.decode(), False
        served: set[str] = set()  # shared filters: the first member has the message
        for session in sorted(self.sessions.values(), key=lambda one: one.link is None):
            matching = []
            for filter_, (options, identifier) in session.filters.items():
                is_shared = filter_.startswith("$share/")
                is_own = bool(options & 4) and session is origin
                if filter_ in served or is_own or not matches(name, filter_.split("/", 2)[2] if is_shared else filter_):
                    continue
                matching.append((options, identifier))
                served |= {filter_} if is_shared else set()
            if matching:
                found = True
                session_deliver(session, message, matching)
        return found


def session_deliver(session: Session, message: Message, matching: list[tuple[int, int | None]]) -> None:
    """Gives a session its copy of a message."""
    qos = min(message.qos, max(options & 3 for options, _ in matching))
    keeps_retain = any(options & 8 for options, _ in matching)
    identifiers: list[tuple[int, Value]] = [(Prop.SUBSCRIPTION_IDENTIFIER, one) for _, one in matching if one]
    properties = message.properties + identifiers
    copy = Message(message.topic, message.payload, qos, message.retain and keeps_retain, properties)
    if qos == 0:
        if session.link is not None:
            session.link.send_message(copy, 0)
        return
    session.queue.append(copy)
    if session.link is not None:
        session.link.pump()


class Link(asyncio.Protocol):
    """A client's connection."""

    def __init__(self, broker: Broker) -> None:
        self.broker, self.cutter = broker, Cutter()
        self.session: Session | None = None
        self.identifier = ""
        self.is_over = False
        self.will: Message | None = None
        self.aliases: dict[int, bytes] = {}
        self.own_aliases: dict[bytes, int] = {}
        self.alias_most = self.size_most = 0
        self.quota = LARGEST_IDENTIFIER
        self.explains = True
        self.timer: asyncio.TimerHandle | None = None
        self.patience = 0.0

    # ---- the connection

    def connection_made(self, transport: asyncio.BaseTransport) -> None:
        assert isinstance(transport, asyncio.Transport)
        self.transport = transport

    def data_received(self, data: bytes) -> None:
        try:
            for packet in self.cutter.feed(data):
                if self.is_over:
                    return
                self.take(packet)
            if self.cutter.is_lost:
                raise Wrong
        except Wrong as wrong:
            self.refuse(wrong.code)
        self.broker.keep()

    def connection_lost(self, error: Exception | None) -> None:
        self.leave(has_will=True)

    def refuse(self, code: int) -> None:
        """Ends the connection for a reason, which is said after the CONNACK."""
        if self.session is not None:
            self.send(disconnect(code))
        self.leave(has_will=True)

    def leave(self, has_will: bool) -> None:
        if self.is_over:
            return
        self.is_over = True
        if self.timer is not None:
            self.timer.cancel()
        self.transport.close()
        session = self.session
        if session is not None and session.link is self:
            session.link = None
            if not session.expiry and self.broker.sessions.get(self.identifier) is session:
                del self.broker.sessions[self.identifier]
        if has_will and self.will is not None:
            self.broker.publish(self.will, session)

    def send(self, data: bytes) -> None:
        if not self.size_most or len(data) <= self.size_most:
            self.transport.write(data)

    def send_whole(self, data: bytes) -> None:
        """Sends an answer that has to be sent; if it is too large for the client, the connection ends."""
        if self.size_most and len(data) > self.size_most:
            raise Wrong(TOO_LARGE)
        self.send(data)

    def watch(self) -> None:
        """Waits for the next packet for one and a half times the Keep Alive."""
        if self.timer is not None:
            self.timer.cancel()
        if self.patience and not self.is_over:
            self.timer = asyncio.get_running_loop().call_later(self.patience, self.refuse, KEEP_ALIVE)

    # ---- packets

    def take(self, packet: Packet) -> None:
        kind = packet.kind
        if self.session is None:
            if kind != Type.CONNECT:
                raise Wrong(PROTOCOL_ERROR)
            self.connect(packet)
            return
        if packet.size > SIZE_MAXIMUM:
            raise Wrong(TOO_LARGE)
        self.watch()
        if kind != Type.PUBLISH and (kind == 0 or packet.first & 15 != FIXED_FLAGS.get(Type(kind), 0)):
            raise Wrong
        if kind in PACKET_IDENTIFIER_FIRST and not packet.identifier:
            raise Wrong
        takers = {Type.PUBLISH: self.publish, Type.PUBACK: self.complete, Type.PUBREC: self.received,
                  Type.PUBREL: self.release, Type.PUBCOMP: self.complete, Type.SUBSCRIBE: self.subscribe,
                  Type.UNSUBSCRIBE: self.unsubscribe, Type.PINGREQ: self.ping, Type.DISCONNECT: self.bye}
        if kind not in takers:
            raise Wrong(PROTOCOL_ERROR)
        if kind in OF_OTHERS:
            check_properties(packet.properties, OF_OTHERS[Type(kind)])
        takers[Type(kind)](packet)

    def connect(self, packet: Packet) -> None:
        fields = Reader(packet.body)
        try:
            name, version, flags, keep_alive = fields.text(), fields.number(1), fields.number(1), fields.number(2)
            properties = fields.properties()
            identifier = check_text(fields.text())
            will = self.read_will(fields, flags) if flags & 4 else None
            user = fields.text() if flags & 0x80 else None
            password = fields.text() if flags & 0x40 else None
        except IndexError:
            raise Wrong from None
        if packet.first & 15 or name != b"MQTT" or version != 5 or flags & 1 or fields.at < len(packet.body):
            raise Wrong
        if (not flags & 4 and flags & 0x38) or flags & 0x18 == 0x18:
            raise Wrong
        check_properties(properties, OF_CONNECT)
        self.read_limits(packet, properties)
        authentication = dict(one for one in properties if one[0] in (Prop.AUTHENTICATION_METHOD, AUTHENTICATION_DATA))
        if authentication and authentication.get(Prop.AUTHENTICATION_METHOD) != METHOD:
            self.turn_away(BAD_METHOD)
        elif password == WRONG_PASSWORD or user == b"nobody":
            self.turn_away(BAD_PASSWORD)
        elif will is not None and will.topic == DENIED:
            self.turn_away(NOT_AUTHORIZED)
        else:
            self.will = will
            self.patience = keep_alive * 1.5
            self.welcome(packet, identifier, bool(flags & 2))

    def read_will(self, fields: Reader, flags: int) -> Message:
        properties = fields.properties()
        check_properties(properties, OF_WILL)
        topic, payload = fields.text(), fields.take(fields.number(2))
        check_topic(topic)
        return Message(topic, payload, flags >> 3 & 3, bool(flags & 32), passed_on(properties))

    def read_limits(self, packet: Packet, properties: Properties) -> None:
        packet.properties = list(properties)
        self.quota = packet.number(Prop.RECEIVE_MAXIMUM, LARGEST_IDENTIFIER)
        self.alias_most = packet.number(Prop.TOPIC_ALIAS_MAXIMUM, 0)
        self.size_most = packet.number(Prop.MAXIMUM_PACKET_SIZE, 0)
        self.explains = bool(packet.number(Prop.REQUEST_PROBLEM_INFORMATION, 1))

    def turn_away(self, code: int) -> None:
        self.send(connack(False, code))
        self.leave(has_will=False)

    def welcome(self, packet: Packet, identifier: str, is_clean: bool) -> None:
        said: list[tuple[int, Value]] = [(Prop.RECEIVE_MAXIMUM, RECEIVE_MAXIMUM)]
        said += [(Prop.TOPIC_ALIAS_MAXIMUM, ALIAS_MAXIMUM), (Prop.MAXIMUM_PACKET_SIZE, SIZE_MAXIMUM)]
        if not identifier:
            self.broker.assigned += 1
            identifier = f"assigned-{self.broker.assigned}"
            said.append((Prop.ASSIGNED_CLIENT_IDENTIFIER, identifier.encode()))
        if packet.has(Prop.AUTHENTICATION_METHOD):
            said.append((Prop.AUTHENTICATION_METHOD, METHOD))
        if packet.number(Prop.REQUEST_RESPONSE_INFORMATION, 0):
            said.append((Prop.RESPONSE_INFORMATION, b"replies/"))
        greeting = connack(False, 0, said)
        if self.size_most and len(greeting) > self.size_most:
            raise Wrong
        self.identifier = identifier
        old = self.broker.sessions.get(identifier)
        if old is not None and old.link is not None:
            old.link.send(disconnect(TAKEN_OVER))
            if is_clean:
                old.expiry = 0
            keeps, old.expiry = old.expiry, old.expiry or 1
            old.link.leave(has_will=True)
            old.expiry = keeps
            if not keeps:
                self.broker.sessions.pop(identifier, None)
                old = None
        is_present = old is not None and not is_clean
        self.session = old if is_present and old is not None else Session()
        self.broker.sessions[identifier] = self.session
        self.session.expiry, self.session.link = packet.number(Prop.SESSION_EXPIRY, 0), self
        self.send(connack(is_present, 0, said))
        self.watch()
        self.session.again = list(self.session.flying)
        self.pump()

    # ---- messages from the client

    def publish(self, packet: Packet) -> None:
        session = self.session
        if packet.topic is None or packet.qos == 3 or (packet.dup and not packet.qos) or packet.identifier == 0:
            raise Wrong
        head = Reader(packet.body)
        try:
            head.text()
            head.take(2 if packet.qos else 0)
            head.properties()
        except IndexError:
            raise Wrong from None
        check_properties(packet.properties, OF_PUBLISH)
        topic = self.topic_of(packet)
        check_topic(topic)
        for key, value in packet.properties:
            if key == 0x08 and isinstance(value, bytes):
                check_topic(value)
        assert session is not None
        is_new = packet.qos < 2 or packet.identifier not in session.received
        if packet.qos == 2 and is_new and len(session.received) >= RECEIVE_MAXIMUM:
            raise Wrong(TOO_MANY)
        code, is_denied = 0, topic == DENIED
        if is_denied:
            code = NOT_AUTHORIZED
        elif is_new:
            message = Message(topic, packet.payload, packet.qos, bool(packet.first & 1), passed_on(packet.properties))
            code = 0 if self.broker.publish(message, session) else NO_MATCH
        if packet.qos and packet.identifier is not None:
            self.answer(Type.PUBACK if packet.qos == 1 else Type.PUBREC, packet.identifier, code)
            if packet.qos == 2 and not is_denied:
                session.received.add(packet.identifier)

    def topic_of(self, packet: Packet) -> bytes:
        """The topic of a PUBLISH, by its Topic Alias if it has none."""
        alias = packet.number(Prop.TOPIC_ALIAS, -1)
        if alias == 0 or alias > ALIAS_MAXIMUM:
            raise Wrong(BAD_ALIAS)
        topic = packet.topic or self.aliases.get(alias)
        if not topic:
            raise Wrong(PROTOCOL_ERROR)
        if alias > 0:
            self.aliases[alias] = topic
        return topic

    def answer(self, kind: Type, identifier: int, code: int) -> None:
        """An acknowledgement, with a reason if the client wants to know."""
        if not code:
            self.send(acknowledgement(kind, identifier))
            return
        data = acknowledgement(kind, identifier, code, [(Prop.REASON_STRING, b"why")] if self.explains else ())
        is_small = not self.size_most or len(data) <= self.size_most
        self.send(data if is_small else acknowledgement(kind, identifier, code))

    def release(self, packet: Packet) -> None:
        assert self.session is not None and packet.identifier is not None
        self.check_acknowledgement(packet, RELEASE_CODES)
        is_known = packet.identifier in self.session.received
        self.session.received.discard(packet.identifier)
        self.answer(Type.PUBCOMP, packet.identifier, 0 if is_known else UNKNOWN_IDENTIFIER)

    # ---- messages to the client

    def complete(self, packet: Packet) -> None:
        """A PUBACK or a PUBCOMP."""
        session = self.session
        assert session is not None and packet.identifier is not None
        is_last = packet.kind == Type.PUBCOMP
        self.check_acknowledgement(packet, RELEASE_CODES if is_last else ACK_CODES)
        message = session.flying.get(packet.identifier)
        if message is not None and (message.qos == 2) == is_last and message.is_released == is_last:
            del session.flying[packet.identifier]
            self.pump()
        elif message is not None:
            raise Wrong(PROTOCOL_ERROR)

    def received(self, packet: Packet) -> None:
        session = self.session
        assert session is not None and packet.identifier is not None
        self.check_acknowledgement(packet, ACK_CODES)
        message = session.flying.get(packet.identifier)
        if message is None:
            self.answer(Type.PUBREL, packet.identifier, UNKNOWN_IDENTIFIER)
        elif message.qos != 2:
            raise Wrong(PROTOCOL_ERROR)
        elif (packet.code or 0) >= 0x80:
            if message.is_released:
                raise Wrong(PROTOCOL_ERROR)
            del session.flying[packet.identifier]
            self.pump()
        else:
            message.is_released = True
            self.answer(Type.PUBREL, packet.identifier, 0)

    @staticmethod
    def check_acknowledgement(packet: Packet, allowed: frozenset[int]) -> None:
        if len(packet.body) < 2 or (packet.code or 0) not in allowed:
            raise Wrong
        check_properties(packet.properties, OF_ACKNOWLEDGEMENTS)
        fields = Reader(packet.body[IDENTIFIER_AND_CODE:])
        if fields.data:
            fields.properties()
            if fields.rest():
                raise Wrong

    def pump(self) -> None:
        """Sends again what is to be, and then what waits, as far as the client's Receive Maximum allows."""
        session = self.session
        if session is None or session.link is not self:
            return
        while session.again and self.room(session) > 0:
            identifier = session.again.pop(0)
            message = session.flying.get(identifier)
            if message is not None and message.is_released:
                self.answer(Type.PUBREL, identifier, 0)
            elif message is not None and not self.send_message(message, identifier, dup=True):
                del session.flying[identifier]
        while session.queue and not session.again and self.room(session) > 0:
            message, identifier = session.queue.popleft(), session.new_identifier()
            session.flying[identifier] = message
            if not self.send_message(message, identifier):
                del session.flying[identifier]

    def room(self, session: Session) -> int:
        """How many more messages may be in flight on this connection."""
        return self.quota - (len(session.flying) - len(session.again))

    def send_message(self, message: Message, identifier: int, dup: bool = False) -> bool:
        """Sends a PUBLISH, with a Topic Alias if there is one. It says whether the client takes one so large."""
        properties, topic = list(message.properties), message.topic
        alias = self.own_aliases.get(topic)
        is_known = alias is not None
        if alias is None and len(self.own_aliases) < self.alias_most:
            alias = len(self.own_aliases) + 1
        if alias is not None:
            properties.append((Prop.TOPIC_ALIAS, alias))
        data = publish(b"" if is_known else topic, message.payload, message.qos, identifier, dup=dup,
                       retain=message.retain, properties=properties)
        if self.size_most and len(data) > self.size_most:
            return False
        if alias is not None:
            self.own_aliases[topic] = alias
        self.transport.write(data)
        return True

    # ---- requests

    def subscribe(self, packet: Packet) -> None:
        session = self.session
        assert session is not None and packet.identifier is not None
        fields, reasons, wanted = Reader(packet.body[2:]), [], []
        try:
            fields.properties()
            while fields.at < len(fields.data):
                wanted.append((check_filter(fields.text()), fields.number(1)))
        except IndexError:
            raise Wrong from None
        if not wanted or any(o & 3 == 3 or o & 0x30 == 0x30 or o & 0xC0 for _, o in wanted):
            raise Wrong
        if any(name.startswith("$share/") and options & 4 for name, options in wanted):
            raise Wrong(PROTOCOL_ERROR)
        number = packet.number(Prop.SUBSCRIPTION_IDENTIFIER, 0) or None
        fresh = []
        for name, options in wanted:
            is_denied = name.encode() == DENIED
            reasons.append(NOT_AUTHORIZED if is_denied else options & 3)
            if not is_denied:
                is_new = name not in session.filters
                session.filters[name] = options, number
                if options >> 4 & 3 == 0 or (options >> 4 & 3 == 1 and is_new):
                    fresh.append((name, options, number))
        self.send_whole(codes(Type.SUBACK, packet.identifier, reasons))
        for name, options, number in fresh:
            self.send_retained(name, options, number)

    def send_retained(self, name: str, options: int, number: int | None) -> None:
        assert self.session is not None
        if name.startswith("$share/"):
            return
        for topic, message in list(self.broker.retained.items()):
            if matches(topic.decode(), name):
                session_deliver(self.session, message, [(options | 8, number)])

    def unsubscribe(self, packet: Packet) -> None:
        session = self.session
        assert session is not None and packet.identifier is not None
        fields, names = Reader(packet.body[2:]), []
        try:
            fields.properties()
            while fields.at < len(fields.data):
                names.append(check_filter(fields.text()))
        except IndexError:
            raise Wrong from None
        if not names:
            raise Wrong
        reasons = [0 if session.filters.pop(name, None) else NO_SUBSCRIPTION for name in names]
        self.send_whole(codes(Type.UNSUBACK, packet.identifier, reasons))

    def ping(self, packet: Packet) -> None:
        if packet.body:
            raise Wrong
        self.send(PONG)

    def bye(self, packet: Packet) -> None:
        assert self.session is not None
        if (packet.code or 0) not in BYE_CODES or (packet.body and len(packet.body) > 1 and not packet.properties
                                                   and packet.body[1]):
            raise Wrong
        wanted = packet.number(Prop.SESSION_EXPIRY, self.session.expiry)
        if wanted and not self.session.expiry:
            raise Wrong(PROTOCOL_ERROR)
        self.session.expiry = wanted
        self.leave(has_will=packet.code == 4)


def check_topic(topic: bytes) -> None:
    name = check_text(topic)
    if not name or set("+#") & set(name):
        raise Wrong


def passed_on(properties: Properties) -> list[tuple[int, Value]]:
    return [one for one in properties if one[0] in PASSED_ON]


async def serve(port: int, file: Path | None) -> None:
    broker = Broker(file)
    server = await asyncio.get_running_loop().create_server(lambda: Link(broker), HOST, port, backlog=200)
    async with server:
        await server.serve_forever()


if __name__ == "__main__":
    try:
        asyncio.run(serve(int(sys.argv[1]), Path(sys.argv[2]) if len(sys.argv) > 2 else None))
    except KeyboardInterrupt:
        pass
