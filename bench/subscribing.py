"""What a client asks for in a session, and what its server may send by that: for honest_logs.py."""
import random
from collections import Counter
from dataclasses import dataclass, field, replace

# Filters, each with names that it matches.
FILTERS = {"a": ("a",), "a/#": ("a", "a/b", "a/b/c"), "+": ("a", "b"), "#": ("a", "a/b", "x/y/z"), "a/+": ("a/b", "a/")}
FILTERS |= {"$x/#": ("$x/y",)}
SHARE = "$share/g/"
NO_LOCAL, AS_PUBLISHED, AT_FIRST, IF_NEW, NEVER = 0x04, 0x08, 0x00, 0x10, 0x20  # bits of Subscription Options; the last three of Retain Handling
# What clients ask for besides a QoS: each is content with some of these.
MANNERS = ((AT_FIRST,), (NEVER,), (AT_FIRST, IF_NEW, NEVER, NEVER | AS_PUBLISHED, AS_PUBLISHED))


@dataclass(frozen=True)
class Subscription:
    """To a filter, which may be shared: the greatest QoS of what is sent for it, its Subscription Options and its Subscription
    Identifier."""

    filter: str
    qos: int = 0
    options: int = 0
    number: int | None = None
    is_granted: bool = False

    @property
    def is_shared(self) -> bool:
        return self.filter.startswith(SHARE)

    def topics(self) -> tuple[str, ...]:
        return FILTERS[self.filter.removeprefix(SHARE)]

    def may_retain(self) -> bool:
        """RETAIN may be 1: it is kept, or the message was retained when the client subscribed."""
        return bool(self.options & AS_PUBLISHED) or not (self.is_shared or self.options & NEVER)


@dataclass
class Manner:
    """How a client subscribes: how often by shared filters and with Subscription Identifiers, and what else it asks for."""

    shares: float
    numbers: float
    options: tuple[int, ...]


def some_manner(draw: random.Random) -> Manner:
    return Manner(draw.choice((0, 0, 0.5, 0.9)), draw.choice((0, 0.5, 1)), draw.choice(MANNERS))


def asked(draw: random.Random, name: str, manner: Manner, number: int | None, may_exclude: bool) -> Subscription:
    """One filter of a SUBSCRIBE. It may exclude what the client publishes itself, unless it is shared."""
    text, qos = SHARE + name if draw.random() < manner.shares else name, draw.randrange(3)
    options = qos | draw.choice(manner.options)
    if may_exclude and not text.startswith(SHARE) and draw.random() < 0.1:
        options |= NO_LOCAL
    return Subscription(text, qos, options, number)


@dataclass
class Subscribed:
    """What the server takes to be subscribed, in a session: before a SUBACK, too."""

    standing: dict[str, Subscription] = field(default_factory=dict)
    past: list[Subscription] = field(default_factory=list)  # that were granted, and ended since the server was last at rest
    heard: Counter[str] = field(default_factory=Counter)  # how many SUBSCRIBEs with a filter weren't refused
    wanted: dict[str, list[Subscription]] = field(default_factory=dict)  # the last of them, if no UNSUBSCRIBE came later

    def copy(self) -> "Subscribed":
        return Subscribed(dict(self.standing), list(self.past), Counter(self.heard), dict(self.wanted))

    def subscribe(self, request: list[Subscription]) -> None:
        self._end([one.filter for one in request])
        self.standing |= {one.filter: one for one in request}
        self.heard.update(one.filter for one in request)
        self.wanted |= {one.filter: request for one in request}

    def unsubscribe(self, request: list[Subscription]) -> None:
        self._end([one.filter for one in request])
        for one in request:
            self.wanted.pop(one.filter, None)

    def _end(self, filters: list[str]) -> None:
        ended = [self.standing.pop(one) for one in dict.fromkeys(filters) if one in self.standing]
        self.past += [one for one in ended if one.is_granted]

    def answer(self, request: list[Subscription], one: Subscription, code: int) -> None:
        """What the SUBACK of a SUBSCRIBE says of a filter. After a refusal nothing is sent for it, whatever stood before."""
        if code >= 0x80:
            self.standing.pop(one.filter, None)
            self.heard[one.filter] -= 1
        elif self.wanted.get(one.filter) is request:
            self.standing[one.filter] = replace(one, qos=code, is_granted=True)

    def numbers(self, draw: random.Random, one: Subscription, topic: str) -> tuple[int, ...]:
        """The Subscription Identifiers of a message on a topic, which is sent for a subscription: its own, and mostly those of the
        others that match too."""
        others = [other for other in self.standing.values() if topic in other.topics()] if draw.random() < 0.8 else []
        found = {each.number for each in (one, *others)} - {None}
        return tuple(draw.sample(sorted(found), len(found)))

    def some(self, draw: random.Random) -> Subscription | None:
        """One for which there is a message: at times one that has ended, for what was on its way by then."""
        found = self.past if self.past and draw.random() < 0.15 else list(self.standing.values())
        return draw.choice(found) if found else None
