"""Makes sessions in which a server does right by subscriptions: the further statements must not blame it. A careless one goes wrong
now and then.

Clients publish what they like, retained or not. What that brings is chosen by the subscriptions of that moment, and waits in a queue
while the send quota is used up, also over connections; so it may come when they have been replaced or are gone. A request takes effect
when it is received, or when it is answered. Subscriptions overlap, are shared, have Subscription Identifiers and all options. The
server comes to rest when it has answered all, and sent what it may.
"""
import random
from dataclasses import dataclass, field, replace

from further_grants import is_about
from further_table import is_shared
from make_log import CLOSE, OPEN, RECV, REST, SENT, record, varint
from session_logs import number, packet, text

TOPICS = (b"a", b"b", b"a/b", b"$share/g/a")
FILTERS = (b"a", b"b", b"a/#", b"+", b"#", b"$share/g/a", b"$share/g/#", b"$share/h/+", b"$share/h/a/b", b"c")


@dataclass(frozen=True)
class Subscription:
    qos: int
    options: int
    identifier: int | None


@dataclass(frozen=True)
class Message:
    topic: bytes
    qos: int
    retain: bool
    identifiers: tuple[int, ...]

    def said(self, number_taken: int, dup: bool = False) -> bytes:
        properties = b"".join(b"\x0b" + varint(one) for one in self.identifiers)
        head = len(self.topic).to_bytes(2, "big") + self.topic + (number(number_taken) if self.qos else b"")
        return packet(0x30 | dup << 3 | self.qos << 1 | self.retain, head + varint(len(properties)) + properties + b"x")


@dataclass
class Request:
    """A SUBSCRIBE or an UNSUBSCRIBE, and what is to be answered: known once it has taken effect."""

    number: int
    subscribes: bool
    filters: list[tuple[bytes, int]]
    identifier: int | None
    codes: list[int] = field(default_factory=list)


class Server:
    """One log, as it is being made."""

    def __init__(self, draw: random.Random, carelessness: float = 0):
        self.draw, self.carelessness = draw, carelessness
        self.events: list[tuple[int, bytes]] = []
        self.subscriptions: dict[bytes, Subscription] = {}
        self.retained: dict[bytes, int] = {}  # topics that have a retained message, with its QoS
        self.queue: list[Message] = []
        self.in_flight: dict[int, tuple[Message, bool]] = {}  # by identifiers, and whether a PUBREC came
        self.waiting: list[Request] = []
        self.has_identifiers = draw.random() < 0.9
        self.filters = draw.sample(FILTERS, draw.choice((2, 3, 10)))
        for which in range(draw.randint(1, 3)):
            self.connection(which > 0)

    def log(self) -> bytes:
        return b"MQTR\x01\x01\0\0" + b"".join(record(kind, body) for kind, body in self.events)

    def say(self, said: bytes) -> None:
        self.events.append((SENT, said))

    def hear(self, said: bytes) -> None:
        self.events.append((RECV, said))

    def connection(self, resumes: bool) -> None:
        self.quota = max(self.draw.choice((1, 1, 2, 3)), len(self.in_flight))
        self.events.append((OPEN, b""))
        properties = b"\x11\0\0\0\x3c\x21" + number(self.quota)
        self.hear(packet(0x10, text("MQTT") + bytes([5, 0 if resumes else 2]) + number(60) + varint(len(properties)) + properties + text("c")))
        self.say(packet(0x20, bytes([resumes, 0]) + (b"\0" if self.has_identifiers else b"\2\x29\0")))
        again = list(self.in_flight.items())
        steps = [self.publish] * 4 + [self.send] * 4 + [self.acknowledge] * 3 + [self.subscribe] * 3 + [self.unsubscribe, self.answer, self.answer]
        for _ in range(self.draw.randint(3, 25)):
            if again:
                self.send_again(*again.pop(0))
            else:
                self.draw.choice([*steps, self.rest, self.rest])()
        for one in again:
            self.send_again(*one)
        # What isn't answered by now never is. It may take effect all the same.
        for request in self.waiting:
            if not request.codes and self.draw.random() < 0.5:
                self.take_in(request)
        self.waiting.clear()
        self.events.append((CLOSE, b""))

    def send_again(self, identifier: int, what: tuple[Message, bool]) -> None:
        message, is_received = what
        self.say(packet(0x62, number(identifier)) if is_received else message.said(identifier, dup=True))

    # -- messages

    def publish(self) -> None:
        topic, qos, retain = self.draw.choice(TOPICS), self.draw.randrange(3), self.draw.random() < 0.4
        if retain:
            self.retained[topic] = qos
        plain = [one for filter, one in self.subscriptions.items() if is_about(filter, topic) and not is_shared(filter)]
        shared = [one for filter, one in self.subscriptions.items() if is_about(filter, topic) and is_shared(filter)]
        if plain and self.draw.random() < 0.5:
            self.put(topic, qos, retain, plain)
        else:
            shared += plain
        for one in shared:
            self.put(topic, qos, retain, [one])

    def put(self, topic: bytes, qos: int, retain: bool, found: list[Subscription]) -> None:
        """One copy for these subscriptions."""
        identifiers = tuple(one.identifier for one in found if one.identifier is not None)
        keeps = retain and any(one.options & 8 for one in found)
        self.queue.append(Message(topic, min(qos, max(one.qos for one in found)), keeps, identifiers if self.has_identifiers else ()))

    def may_send(self) -> bool:
        """The queue keeps its order. All that is in flight was sent on this connection, or again on it before anything else."""
        return bool(self.queue) and (self.queue[0].qos == 0 or len(self.in_flight) < self.quota)

    def send(self) -> None:
        if not self.may_send():
            return
        message = self.queue.pop(0)
        if self.is_careless():
            message = self.altered(message)
        identifier = next(one for one in range(1, 99) if one not in self.in_flight)
        self.say(message.said(identifier))
        if message.qos:
            self.in_flight[identifier] = message, False

    def is_careless(self) -> bool:
        return self.draw.random() < self.carelessness

    def altered(self, message: Message) -> Message:
        """It goes to another topic, or has another QoS, RETAIN or identifiers."""
        others = {
            "topic": self.draw.choice(TOPICS),
            "qos": self.draw.randrange(3) if len(self.in_flight) < self.quota else 0,
            "retain": True,
            "identifiers": self.draw.choice(((), (1,), (2,), (1, 3))),
        }
        name = self.draw.choice(list(others))
        return replace(message, **{name: others[name]})

    def acknowledge(self) -> None:
        if not self.in_flight:
            return
        identifier = self.draw.choice(list(self.in_flight))
        message, is_received = self.in_flight[identifier]
        if message.qos == 2 and not is_received:
            self.hear(packet(0x50, number(identifier)))
            self.say(packet(0x62, number(identifier)))
            self.in_flight[identifier] = message, True
            return
        self.hear(packet(0x70 if message.qos == 2 else 0x40, number(identifier)))
        del self.in_flight[identifier]

    # -- requests

    def ask(self, subscribes: bool) -> None:
        filters = [(one, self.draw.randrange(3) | self.draw.choice((0, 0, 8)) | self.draw.choice((0, 16, 32, 32)))
                   for one in self.draw.sample(self.filters, self.draw.randint(1, 2))]
        identifier = self.draw.randint(1, 3) if self.has_identifiers and self.draw.random() < 0.7 else None
        request = Request(self.draw.randint(100, 60_000), subscribes, filters, identifier if subscribes else None)
        properties = b"\x0b" + varint(identifier) if subscribes and identifier else b""
        body = b"".join(len(one).to_bytes(2, "big") + one + (bytes([options]) if subscribes else b"") for one, options in filters)
        self.hear(packet(0x82 if subscribes else 0xA2, number(request.number) + varint(len(properties)) + properties + body))
        self.waiting.append(request)
        if len(self.waiting) == 1 and self.draw.random() < 0.5:
            self.take_in(request)

    def subscribe(self) -> None:
        self.ask(True)

    def unsubscribe(self) -> None:
        self.ask(False)

    def take_in(self, request: Request) -> None:
        for filter, options in request.filters:
            is_new = filter not in self.subscriptions
            if not request.subscribes:
                request.codes.append(0x11 if is_new else 0)
                if not self.is_careless():
                    self.subscriptions.pop(filter, None)
            elif self.draw.random() < 0.1:
                request.codes.append(0x87)
            else:
                request.codes.append(self.draw.randint(0, options & 3))
                if is_new or not self.is_careless():
                    self.subscriptions[filter] = Subscription(request.codes[-1], options, request.identifier)
                self.queue += self.retained_for(filter, self.subscriptions[filter], is_new)

    def retained_for(self, filter: bytes, one: Subscription, is_new: bool) -> list[Message]:
        handling = one.options >> 4 & 3
        if is_shared(filter) or handling == 2 or (handling == 1 and not is_new):
            return []
        numbers = (one.identifier,) if one.identifier and self.has_identifiers else ()
        return [Message(topic, min(qos, one.qos), True, numbers) for topic, qos in self.retained.items() if is_about(filter, topic)]

    def answer(self) -> None:
        if not self.waiting:
            return
        request = self.waiting.pop(0)
        if not request.codes:
            self.take_in(request)
        if self.is_careless():
            request.codes[0] = self.draw.choice((0, 1, 2, 0x87) if request.subscribes else (0, 0x11, 0x87))
        self.say(packet(0x90 if request.subscribes else 0xB0, number(request.number) + b"\0" + bytes(request.codes)))

    def rest(self) -> None:
        while self.waiting:
            self.answer()
        while self.may_send():
            self.send()
        self.events.append((REST, b""))


def session(seed: int, which: int, carelessness: float = 0) -> bytes:
    """The log of this number among those of the seed."""
    return Server(random.Random(f"server {seed} {which}"), carelessness).log()
