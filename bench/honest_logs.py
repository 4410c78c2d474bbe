#!/usr/bin/env python3
"""Makes sessions in which the tested end does right, and writes one to standard output. The same seed and number always give the
same bytes.

A log has one to six connections of a client or of a server. They are accepted, with a new session or the one before, or refused,
or closed without a CONNACK, which may have begun a session all the same. There are messages of all QoS in both directions, PUBLISHes
and PUBRELs that are sent again, at once or one after the other, PUBLISHes that a connection's end cuts off, or that a bound of the
peer forbids, subscriptions, also shared ones, with all Subscription Options and with Subscription Identifiers, messages for one that
has ended, Topic Aliases, what the peer announces, Reason Codes that the end may send, Wills, which a server doesn't take if it can't,
enhanced authentication, if the CONNECT names a method, packets before the CONNACK, also where that then says of the session what the
client didn't expect, RELEASEs and RESTs; and packets are split over records anywhere. A third of the logs are of version 2, at whose
moments no client is silent for longer than it may be, or the server closes. A judge must pass each log, by all statements:
`bench/fuzz.py` looks at that, and at what it says of these logs when changed.

usage: bench/honest_logs.py SEED NUMBER > FILE
"""
import random
import sys
from dataclasses import dataclass, field, replace
from itertools import accumulate

sys.dont_write_bytecode = True  # the repository stays as it is
from make_log import CLOSE, OPEN, PINGREQ, PINGRESP, RECV, REST, SENT, record, varint
from pacing import in_time
from random_logs import EXPLANATIONS, Type, listed, will_flags, write_one
from session_logs import CLIENT, RELEASE, SERVER, number, packet, text
from subscribing import FILTERS, Subscribed, Subscription, asked, some_manner
from versions import OFTEN_SECOND

IDENTIFIERS = range(1, 6)
TOPICS = ("a", "b", "a/b", "a/b/c", "$x/y")
LONGEST = 64  # no PUBLISH or SUBSCRIBE with a payload of one byte is larger: the smallest Maximum Packet Size
PAYLOADS = (0, 1, 1, 1, 1, 1, 1, 300)
EXPIRY_0, EXPIRY_60 = b"\x11\0\0\0\0", b"\x11\0\0\0\x3c"  # Session Expiry Interval, in seconds
AUTHENTICATION_METHOD = b"\x15\0\1m"
KEEP_ALIVES = (0, 2, 4, 10, 60, 60)  # in seconds
LEAVING = ((0x00, 0x00, 0x00, 0x04, 0x80, 0x98), (0x00, 0x00, 0x00, 0x8B, 0x8E, 0x98))  # of a client's DISCONNECT, and of a server's
ANSWERS = {1: Type.PUBACK, 2: Type.PUBREC}
Answer = tuple[Type, int]


@dataclass
class Message:
    """A PUBLISH of QoS above 0 that is in flight. `is_received`: a PUBREC came for it."""

    identifier: int
    qos: int
    topic: str
    retain: bool = False
    size: int = 0  # of the first PUBLISH, in bytes
    is_received: bool = False
    numbers: tuple[int, ...] = ()  # the Subscription Identifiers


@dataclass
class State:
    """What both ends keep of a session."""

    own: list[Message] = field(default_factory=list)  # the tested end's messages, in the order in which it sent them
    of_peer: list[Message] = field(default_factory=list)
    to_complete: dict[int, bool] = field(default_factory=dict)  # received messages of QoS 2, and whether they were released
    subscribed: Subscribed = field(default_factory=Subscribed)
    # Identifiers that were released before the session began: L2 would take the next release of each for the second one.
    released_before: set[int] = field(default_factory=set)
    # Those of discarded messages of the tested end: S05 would take the next message under each for the one before, were it no event.
    discarded: set[int] = field(default_factory=set)

    def copy(self) -> "State":
        messages = [replace(one) for one in self.own], [replace(one) for one in self.of_peer]
        return State(*messages, dict(self.to_complete), self.subscribed.copy(), set(self.released_before), set(self.discarded))

    def to_release(self) -> list[int]:
        return [one for one, is_released in self.to_complete.items() if not is_released]


@dataclass
class Limits:
    """What the peer announces, which the tested end has to respect."""

    in_flight: int = 65_535
    aliases: int = 0
    qos: int = 2
    size: int = 0  # 0: any
    retains: bool = True
    wildcards: bool = True
    identifiers: bool = True
    shares: bool = True

    def forbid(self, message: Message) -> bool:
        """Whether the message may be passed over, and even discarded."""
        return message.qos > self.qos or 0 < self.size < message.size

    def properties(self) -> bytes:
        found = b"\x21" + number(self.in_flight) if self.in_flight < 65_535 else b""
        found += b"\x22" + number(self.aliases) if self.aliases else b""
        found += bytes([0x24, self.qos]) if self.qos < 2 else b""
        lacks = ((0x25, self.retains), (0x28, self.wildcards), (0x29, self.identifiers), (0x2A, self.shares))
        found += b"".join(bytes([kind, 0]) for kind, is_available in lacks if not is_available)
        return found + (b"\x27\0\0" + number(self.size) if self.size else b"")


@dataclass
class Line:
    """A connection that is open."""

    limits: Limits = field(default_factory=Limits)
    is_early: bool = True  # before the CONNACK
    is_accepted: bool = True
    may_explain: bool = True  # in Reason Strings and User Properties
    takes: int = 2  # the Maximum QoS that a tested server announced
    takes_numbers: bool = True  # it has Subscription Identifiers
    will: tuple[int, bool] | None = None  # the QoS and Will Retain of the client's Will, if it has one
    method: bytes = b""  # the property of the CONNECT that names one
    used: int = 0  # of the send quota
    pings: int = 0
    again: list[Message] = field(default_factory=list)  # what the tested end has to send again
    owed: list[Answer] = field(default_factory=list)  # by the tested end
    to_come: list[Answer] = field(default_factory=list)  # from the peer
    asked: set[int] = field(default_factory=set)  # SUBSCRIBEs and UNSUBSCRIBEs without an answer
    requests: dict[int, list[Subscription]] = field(default_factory=dict)  # the filters in each of them
    unwanted: dict[int, set[str]] = field(default_factory=dict)  # those of an UNSUBSCRIBE that no SUBSCRIBE since the last one has
    topics: dict[int, str] = field(default_factory=dict)  # of the tested end's Topic Aliases
    unanswered: set[int] = field(default_factory=set)  # PUBLISHes and PUBRELs that the tested end sent
    is_filled: bool = False  # the peer sent what changes a session
    resent: list[Message] = field(default_factory=list)  # by the tested end
    released: set[int] = field(default_factory=set)  # before the CONNACK


class Honest:
    """One log, as it is being made: its events, in the tested end's order."""

    def __init__(self, draw: random.Random):
        self.draw = draw
        self.role = draw.randrange(2)
        self.has_releases = self.chance(0.8)
        self.is_named = self.chance(0.8)
        self.is_hurried = self.chance(0.4)  # connections are short, and leave much open
        self.is_patient = self.chance(0.4)  # sends again one after the other
        self.is_fickle = self.chance(0.3)  # a client that subscribes and unsubscribes often
        self.bounds = self.draw.choice(((), (), (), ("size",), ("qos",), ("retain",)))  # that the peer announces often
        self.manner = some_manner(draw)  # of a client that subscribes
        self.lacks_numbers = draw.choice((0, 0, 0.3, 1))  # how often a tested server has no Subscription Identifiers
        self.is_kept = False  # there is a session that may be resumed
        self.is_alive = False  # as far as the log tells
        self.has_accepted = False  # a connection was accepted
        self.is_misled = False  # a client to which a session that it doesn't have was resumed
        self.has_left = False  # a client that went no further when it was told that a new session begins
        self.state, self.line = State(), Line()
        self.left: list[int] = []  # to be released, of a session that is over
        self.events: list[tuple[int, bytes]] = []
        count = draw.choice((3, 4, 5, 6) if self.is_hurried else (1, 1, 2, 2, 3, 4))
        for n in range(count):
            self._connection(is_last=n == count - 1)

    def log(self) -> bytes:
        return b"MQTR\x01" + bytes([self.role, self.has_releases, 0]) + written(self.draw, self.events)

    def chance(self, likely: float) -> bool:
        return self.draw.random() < likely

    # -- what is said, and by whom

    def _mark(self, kind: int, body: bytes = b"") -> None:
        self.events.append((kind, body))

    def _own(self, said: bytes) -> None:
        self.events.append((SENT, said))

    def _peer(self, said: bytes) -> None:
        self.events.append((RECV, said))

    def _say(self, end: int, said: bytes) -> None:
        self.events.append((SENT if end == self.role else RECV, said))

    # -- connections

    def _connection(self, is_last: bool) -> None:
        fate = self.draw.choices(("accepted", "refused", "closed"), (0.8, 0.05, 0.15))[0]
        wants_session, keeps = self.chance(0.6 if fate == "closed" else 0.85) and not self.is_misled, self.chance(0.8)
        resumes = self.is_kept and wants_session and (fate == "closed" or self.chance(0.7))
        is_surprised = self.is_kept and wants_session and not resumes and self.role == CLIENT
        before = self.state.copy(), self.is_kept
        self.left = []
        if not (resumes or is_surprised):
            self.left, self.state = self.state.to_release(), State()
        self.line = Line(is_accepted=fate == "accepted", again=list(self.state.own), takes_numbers=not self.chance(self.lacks_numbers))
        for one in self.state.of_peer:
            kind = Type.PUBREL if one.is_received and self.chance(0.8) else Type.PUBLISH
            self.line.to_come.append((kind, one.identifier))
        limits = self._limits()
        self._mark(OPEN)
        wants_information = self._connect(not wants_session, keeps, limits)
        misleads = fate == "accepted" and self._may_be_misled(wants_session, is_surprised) and self.chance(0.3)
        self._before_connack(misleads, has_much=misleads or is_surprised or fate == "closed")
        if fate == "accepted":
            self._accept(resumes or misleads, keeps, limits, wants_information)
            may_change = self._go_on(resumes, is_surprised, misleads) and keeps
        else:
            may_change = False
            self._be_turned_away(fate, wants_session, keeps, *before)
        if not is_last or self.chance(0.7):
            self._close(may_change)

    def _may_be_misled(self, wants_session: bool, has_state: bool) -> bool:
        """Whether the client has no session, as the log tells too."""
        return self.role == CLIENT and not has_state and (not wants_session or not self.is_alive)

    def _go_on(self, resumes: bool, is_surprised: bool, is_misled: bool) -> bool:
        """What happens after the CONNACK that accepts. It returns whether the client goes on."""
        self.is_alive = self.is_kept
        self.has_accepted, self.is_misled, self.has_left = True, is_misled, False
        if is_misled:
            self.state = State()
            return False
        if is_surprised and self.chance(0.3):
            self.has_left = True
            return False
        if is_surprised:
            self._begin_anew()
        if resumes:
            self._pass_over()
        most = 2 if is_surprised and self.chance(0.6) else 6 if self.is_hurried else 20
        for _ in range(self.draw.randint(0, most)):
            self._hurry() if self.is_hurried and self.chance(0.6) else self._step()
        if self.chance(0.5):
            self._come_to_rest()
        return True

    def _begin_anew(self) -> None:
        """The client discards its session. What it sent before the CONNACK is in the new one; what it had sent again it may forget."""
        line, old = self.line, self.state
        forgotten = [one for one in line.resent if one.is_received or self.chance(0.3)]
        kept = [one for one in old.own if one.identifier in line.unanswered and one not in forgotten]
        self.state = State(own=kept, released_before=line.released)
        line.again, numbers = [], {one.identifier for one in kept}
        others = (Type.SUBACK, Type.UNSUBACK, Type.PINGRESP)
        of_kept = [one for one in line.to_come if one[0] in ANSWERS.values() and one[1] in numbers]
        line.to_come = [one for one in line.to_come if one[0] in others] + of_kept

    def _pass_over(self) -> None:
        """What the peer's bounds forbid isn't sent again on this connection; or it is discarded, as a server has to."""
        limits = self.line.limits
        for one in [one for one in self.line.again if not one.is_received]:
            if limits.forbid(one) or (one.retain and not limits.retains):
                self.line.again.remove(one)
                if limits.forbid(one) and (self.role == SERVER or self.chance(0.5)):
                    self.state.own.remove(one)
                    self.state.discarded.add(one.identifier)

    def _be_turned_away(self, fate: str, wants_session: bool, keeps: bool, before: State, was_kept: bool) -> None:
        """The connection isn't accepted. What the ends make of what was sent on it the log can't tell."""
        self.is_kept = was_kept
        if fate == "refused":
            codes = (0x80, 0x87, 0x9A, 0x9B) if self.line.will else (0x80, 0x87, 0x97)
            self._say(SERVER, packet(0x20, bytes([0, self.draw.choice(codes), 0])))
            takes_in = self.role == CLIENT and wants_session
        else:
            may_begin = not wants_session or (self.role == SERVER and self.line.is_filled)
            self.is_alive = True
            self.is_kept = was_kept or (keeps and may_begin)
            takes_in = self.role == CLIENT and (wants_session or self.chance(0.7))
            if self.role == SERVER and self.has_accepted:
                takes_in = may_begin and (not was_kept or self.chance(0.6))
        if not takes_in:
            self.state = before

    def _limits(self) -> Limits:
        limits = Limits()
        if self.chance(0.25):
            limits.in_flight = self.draw.randint(1, 3)
        if self.chance(0.4):
            limits.aliases = self.draw.randint(1, 3)
        if self.role == CLIENT and self._is_bounded("qos"):
            limits.qos = self.draw.randrange(2)
        if self.role == CLIENT and self._is_bounded("retain"):
            limits.retains = False
        if self.role == CLIENT:
            limits.wildcards, limits.identifiers, limits.shares = (not self.chance(0.15) for _ in range(3))
        if self._is_bounded("size"):
            limits.size = self.draw.randint(LONGEST, 300)
        return limits

    def _is_bounded(self, bound: str) -> bool:
        return self.chance(0.5 if bound in self.bounds else 0.08)

    def _connect(self, is_clean: bool, keeps: bool, limits: Limits) -> bool:
        """The CONNECT. It returns whether the client wants Response Information."""
        wants_information, is_terse = self.chance(0.2), self.chance(0.2)
        properties = EXPIRY_60 if keeps else EXPIRY_0 if self.chance(0.3) else b""
        if self.role == SERVER:
            properties += limits.properties()
            self.line.limits, self.line.may_explain = limits, not is_terse
        properties += (b"\x17\0" if is_terse else b"") + (b"\x19\1" if wants_information else b"")
        self.line.method = AUTHENTICATION_METHOD if self.chance(0.2) else b""
        properties += self.line.method
        flags, rest = 2 * is_clean, b""
        if self.chance(0.3):
            qos, retain = self.line.will = self.draw.randrange(3), self.chance(0.4)
            flags, rest = flags | will_flags(qos, retain), b"\0" + text("will") + text("gone")
        if self.chance(0.1):
            flags, rest = flags | 0xC0, rest + text("user") + text("word")
        name, keep_alive = text("me" if self.is_named else ""), number(self.draw.choice(KEEP_ALIVES))
        self._say(CLIENT, packet(0x10, text("MQTT") + bytes([5, flags]) + keep_alive + listed(properties) + name + rest))
        self.is_kept = False
        return wants_information

    def _before_connack(self, is_misled: bool, has_much: bool) -> None:
        steps = [self._publish, self._request, self._ping, self._send_again, self._send_again, self._auth, self._answer_before]
        if self.role == SERVER:
            steps = [self._peer_publish, self._request, self._ping, self._auth]
        elif self.line.method:
            steps = [self._auth]  # nothing else may come before the CONNACK
        steps += [] if is_misled else [self._release, self._release_left]
        for _ in range(self.draw.randint(1, 6) if has_much or self.chance(0.4) else 0):
            self.draw.choice(steps)()

    def _answer_before(self) -> None:
        """The client answers a message of the connection before, though it doesn't come again."""
        waiting = [one for one in self.state.of_peer if not one.is_received]
        if waiting and self.line.is_accepted:
            one = self.draw.choice(waiting)
            self._answer_message(ANSWERS[one.qos], one.identifier)

    def _release_left(self) -> None:
        """A message of the session before is passed on."""
        left = [one for one in self.left if one not in self.state.to_complete]
        if left and self.has_releases and self.line.is_accepted:
            self.left.remove(left[0])
            self._mark(RELEASE, number(left[0]))
            self.state.released_before.add(left[0])

    def _accept(self, resumes: bool, keeps: bool, limits: Limits, wants_information: bool) -> None:
        """The CONNACK of a connection that is accepted."""
        properties = b"" if self.is_named else b"\x12" + text("me")
        self.is_named, self.is_kept = True, keeps
        if self.chance(0.1):
            self.is_kept = self.chance(0.5)
            properties += EXPIRY_60 if self.is_kept else EXPIRY_0
        if self.role == CLIENT:
            properties += limits.properties()
            self.line.limits = limits
        else:
            properties += self._announced()
        properties += self.line.method
        properties += b"\x13" + number(self.draw.choice(KEEP_ALIVES)) if self.chance(0.15) else b""
        properties += b"\x1a" + text("i") if wants_information and self.chance(0.5) else b""
        self._say(SERVER, packet(0x20, bytes([resumes, 0]) + listed(properties)))
        self.line.is_early = False

    def _announced(self) -> bytes:
        """What the tested server says that it hasn't got. It has accepted the Will."""
        qos, retain = self.line.will or (0, False)
        if qos < 2 and self.chance(0.3):
            self.line.takes = self.draw.randrange(qos, 2)
        found = bytes([0x24, self.line.takes]) if self.line.takes < 2 else b""
        found += b"" if self.line.takes_numbers else b"\x29\0"
        return found + (b"\x25\0" if not retain and self.chance(0.3) else b"")

    def _close(self, may_change: bool) -> None:
        """The connection ends. A client whose CONNECT kept the session may change that in its DISCONNECT."""
        goes_on = not (self.is_misled or self.has_left)
        if self.line.is_accepted and self.chance(0.35):
            end = self.draw.randrange(2)
            change = self.draw.choice((EXPIRY_0, EXPIRY_60)) if end == CLIENT and may_change and self.chance(0.3) else b""
            self.is_kept = self.is_alive = change == EXPIRY_60 if change else self.is_kept
            code = self.draw.choice(LEAVING[end])
            self._say(end, packet(0xE0, bytes([code]) + listed(change) if change else bytes([code]) if code else b""))
        elif self.line.is_accepted and self.chance(0.15):
            self._peer(b"\x30\x05\x00")  # a packet that the connection's end cuts off
        elif (self.line.is_accepted or self.role == CLIENT) and goes_on and self.chance(0.25):
            self._begin_publish()
        self._mark(CLOSE)
        while self.line.is_accepted and goes_on and self.chance(0.3):
            self._release()

    def _begin_publish(self) -> None:
        """A PUBLISH that the connection's end cuts off."""
        message = self._next_message(is_whole=False)
        if message is None:
            return
        said = self._publish_packet(message, message.topic)
        self._own(said[: self.draw.randrange(1, len(said))])
        if message.qos > 0:
            message.size = len(said)
            self.state.own.append(message)

    # -- what happens on a connection

    def _step(self) -> None:
        if self.is_fickle and self.chance(0.4):
            self._request()
        self.draw.choices(STEPS, cum_weights=SUMS)[0](self)

    def _hurry(self) -> None:
        """The tested end sends messages, to be answered later; to a server the client has to subscribe before."""
        self._publish() if self.role == CLIENT or self.state.subscribed.standing else self._request()

    def _come_to_rest(self) -> None:
        """The tested end does all that it owes."""
        for _ in range(60):
            if self._is_at_rest():
                break
            self._answer()
            self._send_again()
            if self.line.again and (self._waits() or not self._has_quota()):
                self._peer_answer()
        if self.chance(0.5):
            self._be_answered()
        self._rest()

    def _be_answered(self) -> None:
        """The peer does what it has to, and the tested end answers."""
        for _ in range(60):
            self._peer_answer()
            self._answer()

    def _is_at_rest(self) -> bool:
        waits_for_quota = not self._has_quota() and not any(one.is_received for one in self.line.again)
        return not self.line.owed and (not self.line.again or waits_for_quota or self._waits())

    def _waits(self) -> bool:
        """For an answer, before it sends the next message again."""
        return self.is_patient and bool(self.line.unanswered)

    def _rest(self) -> None:
        if self._is_at_rest() and not self.line.is_early:
            self.state.subscribed.past.clear()
            self._mark(REST)

    def _auth(self) -> None:
        """Without a method in the CONNECT there is none."""
        if self.line.method:
            self._own(packet(0xF0, b"\x18" + listed(self.line.method) if self.chance(0.7) else b""))

    def _ping(self) -> None:
        self._say(CLIENT, PINGREQ)
        self.line.pings += 1
        self._expect(SERVER, Type.PINGRESP, self.line.pings)

    def _expect(self, end: int, kind: Type, identifier: int) -> None:
        """The end has to answer, once for all that it is asked under this identifier."""
        answers = self.line.owed if end == self.role else self.line.to_come
        if (kind, identifier) not in answers:
            answers.append((kind, identifier))

    # -- the tested end's messages

    def _has_quota(self) -> bool:
        """A client isn't bound before its CONNACK."""
        return (self.line.is_early and self.role == CLIENT) or self.line.used < self.line.limits.in_flight

    def _free_identifier(self, is_whole: bool) -> int | None:
        taken = {one.identifier for one in self.state.own} | (self.line.asked if self.role == CLIENT else set())
        taken |= set() if is_whole and self.line.is_accepted else self.state.discarded
        return self.draw.choice([one for one in IDENTIFIERS if one not in taken] or [None])

    def _next_message(self, is_whole: bool = True) -> Message | None:
        """What the tested end may publish now, a server for a subscription. At QoS 0 it has the identifier 0."""
        limits, identifier = self.line.limits, self._free_identifier(is_whole)
        one = self.state.subscribed.some(self.draw) if self.role == SERVER else None
        if self.role == SERVER and one is None:
            return None
        qos = min(self.draw.choice((0, 1, 1, 2, 2)), one.qos if one else limits.qos)
        if qos > 0 and (identifier is None or not self._has_quota()):
            return None
        retain = (one.may_retain() if one else limits.retains) and self.chance(0.4)
        topic = self.draw.choice(one.topics() if one else TOPICS)
        numbers = self.state.subscribed.numbers(self.draw, one, topic) if one else ()
        return Message(identifier if qos > 0 else 0, qos, topic, retain, numbers=numbers)

    def _publish(self) -> None:
        message = self._next_message()
        if message is None:
            return
        said = self._publish_packet(message, *self._aliased(message.topic))
        if message.qos > 0:
            message.size = len(said)
            self.state.own.append(message)
            self.state.discarded.discard(message.identifier)
            self._sent(message)
        self._own(said)

    def _aliased(self, topic: str) -> tuple[str, bytes]:
        """What stands for the topic, and the property of its Topic Alias."""
        line = self.line
        if not line.limits.aliases or self.chance(0.5):
            return topic, b""
        alias = self.draw.randint(1, line.limits.aliases)
        is_known = line.topics.get(alias) == topic
        line.topics[alias] = topic
        return "" if is_known else topic, b"\x23" + number(alias)

    def _publish_packet(self, message: Message, topic: str, alias: bytes = b"", dup: bool = False) -> bytes:
        properties = alias + (b"\1\1" if self.chance(0.1) else b"") + (b"\2\0\0\0\x3c" if self.chance(0.1) else b"")
        properties += b"".join(b"\x0b" + varint(one) for one in message.numbers if self.line.takes_numbers)
        length = 1 if self.line.limits.size else 300 if "size" in self.bounds and self.chance(0.6) else self.draw.choice(PAYLOADS)
        identifier = number(message.identifier) if message.qos else b""
        return packet(0x30 | dup << 3 | message.qos << 1 | message.retain, text(topic) + identifier + listed(properties) + b"x" * length)

    def _sent(self, message: Message) -> None:
        if not (self.line.is_early and self.role == CLIENT):
            self.line.used += 1
        self.line.unanswered.add(message.identifier)
        self._expect(1 - self.role, ANSWERS[message.qos], message.identifier)

    def _send_again(self) -> None:
        line = self.line
        if not line.again or (self._waits() and self.chance(0.8)):
            return
        message = line.again[0 if self.role == CLIENT else self.draw.randrange(len(line.again))]
        if message.is_received:
            self._send_pubrel(message.identifier)
        elif self._has_quota():
            self._own(self._publish_packet(message, message.topic, dup=True))
            self._sent(message)
        else:
            return
        line.again.remove(message)
        line.resent.append(message)

    def _send_pubrel(self, identifier: int) -> None:
        self._acknowledge(self._own, Type.PUBREL, identifier)
        self.line.unanswered.add(identifier)
        self._expect(1 - self.role, Type.PUBCOMP, identifier)

    def _peer_answer(self) -> None:
        """What the peer sends of what it has to."""
        if not self.line.to_come or self.line.is_early:
            return
        kind, identifier = self.line.to_come.pop(self.draw.randrange(len(self.line.to_come)))
        match kind:
            case Type.PUBLISH:
                message = next(one for one in self.state.of_peer if one.identifier == identifier)
                if message.qos <= self.line.takes:
                    self._peer_message(message, dup=True)
            case Type.PUBREL:
                self._acknowledge(self._peer, kind, identifier)
                self._expect(self.role, Type.PUBCOMP, identifier)
            case Type.PUBACK | Type.PUBREC | Type.PUBCOMP:
                self._acknowledged(kind, identifier)
            case Type.SUBACK | Type.UNSUBACK:
                self._reply(self._peer, kind, identifier)
            case _:
                self._peer(PINGRESP)

    def _acknowledged(self, kind: Type, identifier: int) -> None:
        message = next(one for one in self.state.own if one.identifier == identifier)
        refuses = kind == Type.PUBREC and self.chance(0.1)
        self._acknowledge(self._peer, kind, identifier, 0x87 if refuses else 0)
        if kind == Type.PUBREC and not refuses:
            message.is_received = True
            self._expect(self.role, Type.PUBREL, identifier)
        else:
            self.state.own.remove(message)
            self.line.unanswered.discard(identifier)
            self.line.used = max(0, self.line.used - 1)

    # -- the peer's messages

    def _peer_publish(self) -> None:
        taken = {one.identifier for one in self.state.of_peer} | (self.line.asked if self.role == SERVER else set())
        taken |= self.state.released_before
        identifier = self.draw.choice([one for one in IDENTIFIERS if one not in taken] or [0])
        qos = min(self.draw.choice((0, 1, 1, 2, 2)), self.line.takes) if identifier else 0
        message = Message(identifier, qos, self.draw.choice(TOPICS))
        if qos > 0:
            self.state.of_peer.append(message)
        self._peer_message(message)

    def _peer_message(self, message: Message, dup: bool = False) -> None:
        self._peer(self._publish_packet(message, message.topic, dup=dup))
        self.line.is_filled |= message.qos > 0
        if message.qos > 0:
            self._expect(self.role, ANSWERS[message.qos], message.identifier)
        if message.qos == 2:
            self.state.to_complete.setdefault(message.identifier, False)

    def _release(self) -> None:
        waiting = self.state.to_release()
        if waiting and self.has_releases and self.line.is_accepted:
            self._release_one(self.draw.choice(waiting))

    def _release_one(self, identifier: int) -> None:
        self._mark(RELEASE, number(identifier))
        self.state.to_complete[identifier] = True
        if self.line.is_early:
            self.line.released.add(identifier)

    def _answer(self) -> None:
        """What the tested end sends of what it owes: a client the first, since it answers in order."""
        if not self.line.owed:
            return
        at = 0 if self.role == CLIENT else self.draw.randrange(len(self.line.owed))
        kind, identifier = self.line.owed.pop(at)
        match kind:
            case Type.PUBACK | Type.PUBREC:
                self._answer_message(kind, identifier)
            case Type.PUBREL:
                self._send_pubrel(identifier)
            case Type.PUBCOMP:
                self._complete(identifier)
            case Type.SUBACK | Type.UNSUBACK:
                self._reply(self._own, kind, identifier)
            case _:
                self._own(PINGRESP)

    def _answer_message(self, kind: Type, identifier: int) -> None:
        message = next((one for one in self.state.of_peer if one.identifier == identifier), None)
        refuses = kind == Type.PUBREC and not self.state.to_complete.get(identifier) and self.chance(0.1)
        code = self.draw.choice((0, 0, 0, 0x10)) if kind == Type.PUBACK and self.role == SERVER else 0x87 if refuses else 0
        self._acknowledge(self._own, kind, identifier, code)
        if kind == Type.PUBREC and not refuses:
            if message:
                message.is_received = True
                self._expect(1 - self.role, Type.PUBREL, identifier)
            return
        if kind == Type.PUBREC:
            self.state.to_complete.pop(identifier, None)
        self._forget(identifier)

    def _complete(self, identifier: int) -> None:
        is_known = identifier in self.state.to_complete
        if is_known and self.has_releases and not self.state.to_complete[identifier]:
            self._release_one(identifier)
        self._acknowledge(self._own, Type.PUBCOMP, identifier, 0 if is_known else 0x92)
        self.state.to_complete.pop(identifier, None)
        self._forget(identifier)

    def _forget(self, identifier: int) -> None:
        """The peer's message under this identifier is over."""
        self.state.of_peer = [one for one in self.state.of_peer if one.identifier != identifier]
        self.line.to_come = [one for one in self.line.to_come if one not in ((Type.PUBLISH, identifier), (Type.PUBREL, identifier))]

    def _acknowledge(self, say, kind: Type, identifier: int, code: int = 0) -> None:
        properties = self.draw.choice(self.draw.choice(EXPLANATIONS)) if self.line.may_explain and self.chance(0.1) else b""
        is_short = code == 0 and not properties and self.chance(0.8)
        rest = b"" if is_short else bytes([code]) + listed(properties)
        say(packet(kind << 4 | (2 if kind == Type.PUBREL else 0), number(identifier) + rest))

    # -- requests

    def _request(self) -> None:
        """The client subscribes or unsubscribes."""
        taken = {one.identifier for one in (self.state.own if self.role == CLIENT else self.state.of_peer)} | self.line.asked
        free = [one for one in IDENTIFIERS if one not in taken]
        if not free:
            return
        identifier, subscribes = self.draw.choice(free), self.chance(0.5 if self.is_fickle else 0.75)
        request = self._filters(subscribes)
        self.line.asked.add(identifier)
        self.line.is_filled = True
        self.line.requests[identifier] = request
        body = b"".join(text(one.filter) + (bytes([one.options]) if subscribes else b"") for one in request)
        properties = b"" if request[0].number is None else b"\x0b" + varint(request[0].number)
        self._say(CLIENT, packet(0x82 if subscribes else 0xA2, number(identifier) + listed(properties) + body))
        subscribed = self.state.subscribed
        self.line.unwanted[identifier] = {one.filter for one in request} - set(subscribed.wanted)
        subscribed.subscribe(request) if subscribes else subscribed.unsubscribe(request)
        self._expect(SERVER, Type.SUBACK if subscribes else Type.UNSUBACK, identifier)

    def _filters(self, subscribes: bool) -> list[Subscription]:
        """Those of a request; one may come twice."""
        known, limits = [one for one in FILTERS if self.line.limits.wildcards or not {"+", "#"} & set(one)], self.line.limits
        standing = list(self.state.subscribed.standing)
        if not subscribes and standing and self.chance(0.8 if self.is_fickle else 0.6):
            known = standing
        names = self.draw.sample(known, min(len(known), self.draw.randint(1, 2)))
        names *= 2 if len(names) == 1 and self.chance(0.15) else 1
        if not subscribes:
            return [Subscription(one) for one in names]
        manner = self.manner if limits.shares else replace(self.manner, shares=0)
        is_numbered = limits.identifiers and (self.role == CLIENT or self.line.takes_numbers) and self.chance(manner.numbers)
        identifier = self.draw.choice((7, 7, 8, 9, 300)) if is_numbered else None
        return [asked(self.draw, one, manner, identifier, may_exclude=self.role == CLIENT) for one in names]

    def _reply(self, say, kind: Type, identifier: int) -> None:
        self.line.asked.discard(identifier)
        code_for = self._granted if kind == Type.SUBACK else self._unsubscribed
        codes = bytes(code_for(identifier, one) for one in self.line.requests[identifier])
        say(packet(kind << 4, number(identifier) + b"\0" + codes))

    def _granted(self, identifier: int, one: Subscription) -> int:
        """What a SUBACK says of a filter. It may grant less than was asked for."""
        code = self.draw.choice((one.qos, one.qos, one.qos, self.draw.randint(0, one.qos), 0x87))
        self.state.subscribed.answer(self.line.requests[identifier], one, code)
        return code

    def _unsubscribed(self, identifier: int, one: Subscription) -> int:
        """What an UNSUBACK says of one: that it is deleted, that it never was or is no more, or that it isn't given up. If it comes twice it is
        given up at its first place."""
        if self.chance(0.05):
            return 0x87
        unwanted = self.line.unwanted[identifier]
        is_lacking = self.state.subscribed.heard[one.filter] <= 0 or (one.filter in unwanted and self.chance(0.5))
        unwanted.add(one.filter)
        return 0x11 if is_lacking else 0


# What happens on a connection, and how often.
OFTEN = {Honest._publish: 6, Honest._answer: 8, Honest._peer_answer: 9, Honest._peer_publish: 5, Honest._send_again: 4}
OFTEN |= {Honest._request: 3, Honest._ping: 1, Honest._release: 2, Honest._rest: 2, Honest._auth: 0.3}
STEPS, SUMS = list(OFTEN), list(accumulate(OFTEN.values()))


# ---- records


def written(draw: random.Random, events: list[tuple[int, bytes]]) -> bytes:
    """The records of these events. A record may have several packets, a packet several records, and its beginning may come before
    what the other end says; its last byte stays in its place."""
    parts: list[tuple[int, bytes]] = []
    ahead = {SENT: 0, RECV: 0}
    for n, (kind, body) in enumerate(events):
        if kind in ahead:
            body, ahead[kind] = body[ahead[kind] :], 0
            if draw.random() < 0.1:
                beginning = next_packet(events, n)
                ahead[kind] = draw.randrange(len(beginning)) if beginning else 0
                body += beginning[: ahead[kind]]
            if parts and parts[-1][0] == kind and draw.random() < 0.3:
                body = parts.pop()[1] + body
        parts.append((kind, body))
    return b"".join(split(draw, kind, body) for kind, body in parts)


def next_packet(events: list[tuple[int, bytes]], n: int) -> bytes:
    """The next packet of the same direction on this connection, if there is one."""
    for kind, body in events[n + 1 :]:
        if kind == CLOSE:
            break
        if kind == events[n][0]:
            return body
    return b""


def split(draw: random.Random, kind: int, body: bytes) -> bytes:
    """The body in one record, or now and then in several."""
    out = b""
    while kind in (SENT, RECV) and len(body) > 1 and draw.random() < 0.1:
        size = draw.randrange(len(body))
        out, body = out + record(kind, body[:size]), body[size:]
    return out + record(kind, body)


def session(seed: int, which: int) -> bytes:
    """The log of this number among those of the seed."""
    draw = random.Random(f"honest {seed} {which}")
    log = Honest(draw).log()
    return in_time(draw, log) if draw.random() < OFTEN_SECOND else log


if __name__ == "__main__":
    write_one("a session in which the tested end does right", session)
