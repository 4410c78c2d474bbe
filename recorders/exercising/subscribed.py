"""What a client has subscribed to in a session, so far as a server's answers say it: what B06 to B09, P01, P02, R01 and R02 look at."""
from __future__ import annotations

from collections.abc import Iterable
from dataclasses import dataclass, field

from exercising.evidence import RECV, SENT, Event
from exercising.packets import RESERVED, Packet, Prop, Type

DELETED, NONE_EXISTED = 0x00, 0x11  # Reason Codes of an UNSUBACK
SHARED = b"$share/"
AS_PUBLISHED, NEVER = 0x08, 2  # a bit of Subscription Options, and a Retain Handling


@dataclass(eq=False)
class Subscription:
    """A filter of a SUBSCRIBE, for the rest of the session."""

    name: bytes
    options: int
    has_number: bool  # a Subscription Identifier
    most: int  # the QoS that is granted, or until that is said the one that is asked for
    is_refused: bool = False

    @property
    def is_shared(self) -> bool:
        return self.name.startswith(SHARED)

    @property
    def wants_retained(self) -> bool:
        return self.options >> 4 & 3 != NEVER

    def is_about(self, topic: bytes) -> bool:
        after = self.name.removeprefix(SHARED).partition(b"/")[2]
        return matches(self.name, topic) or (self.is_shared and matches(after, topic))


@dataclass
class Last:
    """The last SUBSCRIBE or UNSUBSCRIBE with a filter."""

    position: int
    is_granted: bool = False


@dataclass
class Waiting:
    """A SUBSCRIBE or an UNSUBSCRIBE, the first under its identifier that has no answer."""

    position: int
    filters: list[bytes]
    stood: list[bool] = field(default_factory=list)  # of an UNSUBSCRIBE: whether each filter was subscribed
    asked: list[Subscription] = field(default_factory=list)  # of a SUBSCRIBE


def is_unclear(event: Event) -> bool:
    """Bytes that may be a SUBSCRIBE or an UNSUBSCRIBE: what was taken in of them nobody can tell."""
    is_request = event.packet is not None and event.packet.kind in (Type.SUBSCRIBE, Type.UNSUBSCRIBE)
    return event.kind == RECV and (event.is_lost or (event.is_bad and is_request))


class Subscribed:
    """Takes in the events of a session."""

    def __init__(self) -> None:
        self.last: dict[bytes, Last] = {}
        self.heard: set[bytes] = set()  # filters of SUBSCRIBEs that nothing refuses any more
        self.subscribes: dict[int, Waiting] = {}  # on the connection that is open
        self.unsubscribes: dict[int, Waiting] = {}
        self.asked: list[Subscription] = []
        self.is_untold = False
        self.aliases: dict[int, bytes] = {}  # of the server, on the connection that is open
        self.takes_numbers: bool | None = None  # whether its CONNACK says so there, if it came

    def leave(self) -> None:
        """The connection ends: what waits is never answered."""
        for one in self.subscribes.values():
            self.heard.update(one.filters)
        self.subscribes.clear()
        self.unsubscribes.clear()
        self.aliases.clear()
        self.takes_numbers = None

    def pass_over(self, events: Iterable[Event]) -> None:
        """Events of a connection that wasn't accepted."""
        self.is_untold = self.is_untold or any(map(is_unclear, events))

    def take(self, event: Event) -> dict[str, set[str]]:
        """The statements that an event puts to the test, each with what is so there."""
        packet = event.packet
        self.pass_over([event])
        if packet is None or event.is_bad:
            return {}
        if event.kind == SENT and packet.kind == Type.CONNACK and self.takes_numbers is None:
            self.takes_numbers = bool(packet.number(Prop.SUBSCRIPTION_IDENTIFIER_AVAILABLE, 1))
        if event.kind == SENT and packet.kind == Type.PUBLISH:
            return self._deliver(packet)
        if packet.identifier is None:
            return {}
        if event.kind == RECV and packet.kind == Type.SUBSCRIBE:
            self._subscribe(event.position, packet.identifier, packet)
        elif event.kind == RECV and packet.kind == Type.UNSUBSCRIBE:
            self._unsubscribe(event.position, packet.identifier, packet)
        elif event.kind == SENT and packet.kind == Type.SUBACK:
            self._grant(packet.identifier, packet)
        elif event.kind == SENT and packet.kind == Type.UNSUBACK:
            return self._delete(packet.identifier, packet)
        return {}

    def _subscribe(self, position: int, identifier: int, packet: Packet) -> None:
        names = [name for name, _ in packet.filters]
        self.last.update((name, Last(position)) for name in names)
        has_number = packet.has(Prop.SUBSCRIPTION_IDENTIFIER)
        asked = [Subscription(name, options, has_number, options & 3) for name, options in packet.filters]
        self.asked += asked
        if identifier in self.subscribes:
            self.heard.update(names)
        else:
            self.subscribes[identifier] = Waiting(position, names, asked=asked)

    def _grant(self, identifier: int, packet: Packet) -> None:
        asked = self.subscribes.pop(identifier, None)
        if asked is None:
            return
        self.heard.update(asked.filters[len(packet.codes):])
        for name, code in zip(asked.filters, packet.codes):
            if code < RESERVED:
                self.heard.add(name)
            if self.last[name].position == asked.position:
                self.last[name].is_granted = code < RESERVED
        for one, code in zip(asked.asked, packet.codes):
            one.is_refused = code >= RESERVED
            one.most = code

    def _unsubscribe(self, position: int, identifier: int, packet: Packet) -> None:
        asked = Waiting(position, [name for name, _ in packet.filters])
        for name in asked.filters:
            asked.stood.append(name in self.last and self.last[name].is_granted)
            self.last[name] = Last(position)
        self.unsubscribes.setdefault(identifier, asked)

    def _delete(self, identifier: int, packet: Packet) -> dict[str, set[str]]:
        asked = self.unsubscribes.pop(identifier, None)
        if asked is None or self.is_untold:
            return {}
        heard = self.heard.union(*(one.filters for one in self.subscribes.values()))
        tested: dict[str, set[str]] = {}
        for name, stood, code in zip(asked.filters, asked.stood, packet.codes):
            if stood and self.last[name].position == asked.position and code in (DELETED, NONE_EXISTED):
                tested.setdefault("B06", set())
            if code == DELETED or (code == NONE_EXISTED and name not in heard):
                tested.setdefault("B07", set()).update(() if name in heard else ("never-subscribed",))
        return tested

    # ---- what is delivered

    def _deliver(self, packet: Packet) -> dict[str, set[str]]:
        """B08, B09, P01, P02, R01 and R02: a message is sent for the first time."""
        alias = packet.number(Prop.TOPIC_ALIAS, 0)
        topic = packet.topic or self.aliases.get(alias)
        if packet.topic and alias:
            self.aliases[alias] = packet.topic
        if packet.dup or topic is None or self.is_untold:
            return {}
        matching = [one for one in self.asked if not one.is_refused and one.is_about(topic)]
        tested: dict[str, set[str]] = {}
        if any(one.is_shared for one in self.asked):
            tested["B08"] = filter_tags(one.name for one in self.asked if not one.is_refused)
            tested |= {"B09": {f"granted-{max((one.most for one in matching), default=0)}"}} if packet.qos else {}
        if matching and packet.has(Prop.SUBSCRIPTION_IDENTIFIER):
            tested["P01"] = set()
        if matching and all(one.has_number for one in matching) and self.takes_numbers is not False:
            tested["P02"] = set()
        if matching and not any(one.options & AS_PUBLISHED or (one.wants_retained and not one.is_shared) for one in matching):
            tested["R02" if any(one.wants_retained for one in matching) else "R01"] = set()
        of_matching = filter_tags(one.name for one in matching)
        return {code: tags if code == "B08" else tags | of_matching for code, tags in tested.items()}


# ---- filters


def filter_tags(filters: Iterable[bytes]) -> set[str]:
    """What some filters are like."""
    names = set(filters)
    tags = {word for word, sign in (("plus", b"+"), ("hash", b"#")) if any(sign in name for name in names)}
    tags |= {"plain-filter"} if any(not set(name) & set(b"+#") for name in names) else set()
    return tags | ({"several-filters"} if len(names) > 1 else set())


def matches(name: bytes, topic: bytes) -> bool:
    """Whether a Topic Filter matches a Topic Name."""
    if name[:1] in (b"#", b"+") and topic[:1] == b"$":
        return False
    levels, own = name.split(b"/"), topic.split(b"/")
    for at, level in enumerate(levels):
        if level == b"#":
            return True
        if at >= len(own) or level not in (b"+", own[at]):
            return False
    return len(levels) == len(own)
