"""Reads a log's events in turn, and says at which of them each statement is put to the test, and what was so there."""
from __future__ import annotations

from collections import Counter
from collections.abc import Iterable, Mapping
from dataclasses import dataclass, field

from exercising.evidence import CLOSE, OPEN, RECV, REST, SENT, Event, Place, of_bytes, tags_of
from exercising.errors import MOST_QOS, is_error, sets_alias
from exercising.packets import RESERVED, Packet, Prop, Type
from exercising.subscribed import Subscribed, filter_tags, matches

CAUSES = {Type.PUBREL: "E4", Type.SUBSCRIBE: "E5", Type.UNSUBSCRIBE: "E6"}  # the other three depend on more
ANSWERS = {Type.PUBACK: "E1", Type.PUBREC: "E2", Type.PUBREL: "E3", Type.PUBCOMP: "E4", Type.SUBACK: "E5",
           Type.UNSUBACK: "E6"}
ORDERED = ("E1", "E2", "E3")
OF_SESSIONS = "SEBPR"  # the letters of the statements that are judged on accepted connections alone
MANY = 4
SMALL = 10  # a Receive Maximum
LARGE = 8192  # bytes
WRAP = 60_000  # identifiers that were taken
PINGS = 3
KEPT_MOST = 1_000  # places with the same tags: a flood has a million of them
FEW_LEFT = 2  # bytes up to a Maximum Packet Size
DEFAULT_MAXIMUM = 65_535
RETAIN_NOT_SUPPORTED, QOS_NOT_SUPPORTED = 0x9A, 0x9B
SMALLEST_CONNACK, FIXED_HEADER = 5, 2  # bytes
# The rules of which D01 says that who breaks one sends what can't be read.
MALFORMED = frozenset("W01 W02 W04 W05 W06 W07 W10 W11 W12 W16 W17 W18 W19 W21".split())
MISSING = {"F02": Prop.WILDCARD_AVAILABLE, "F03": Prop.SUBSCRIPTION_IDENTIFIER_AVAILABLE, "F04": Prop.SHARED_AVAILABLE}


@dataclass
class Message:
    """A message of the tested end with QoS above 0 that isn't acknowledged yet."""

    position: int
    connection: int
    qos: int
    is_queued: bool  # it was sent first when the session was resumed
    is_received: bool = False  # a PUBREC came
    is_released: bool = False  # a PUBREL was sent
    is_passed_over: bool = False  # by an earlier connection on which it may have been too large
    resent: int = 0

    @property
    def tags(self) -> set[str]:
        state = "released" if self.is_released else "received" if self.is_received else "unanswered"
        return {f"q{self.qos}", state, "again" if self.resent else "first", *(["queued"] if self.is_queued else [])}


@dataclass
class Connection:
    """What came before on a connection."""

    number: int = 0
    connect: Packet | None = None  # the first one, as those that follow
    connack: Packet | None = None
    disconnect: Packet | None = None  # of the tested end
    client_disconnect: Packet | None = None
    is_bad: bool = False  # a packet broke a rule, so that no REST binds
    is_left: bool = False  # there was a DISCONNECT of either end
    is_unknown: bool = False  # which session this is
    brought: bool = False  # the tested end received what changes a session
    sent: int = 0
    pings: int = 0
    owed: dict[tuple[str, int], int] = field(default_factory=dict)  # answers, by exchange and Packet Identifier
    filters: dict[int, int] = field(default_factory=dict)  # how many the first SUBSCRIBE has that waits, by its identifier
    asked: list[Place] = field(default_factory=list)  # what a REST would test
    pending: list[Place] = field(default_factory=list)  # places on a session, before the CONNACK
    in_flight: set[int] = field(default_factory=set)  # what was sent here and not closed
    sent_here: set[int] = field(default_factory=set)
    left: list[Message] = field(default_factory=list)  # open when the session was resumed
    left_identifiers: set[int] = field(default_factory=set)
    requests: set[int] = field(default_factory=set)  # a client's SUBSCRIBE and UNSUBSCRIBE without an answer
    resent: int = 0
    used: int = 0  # of the send quota
    closers: set[str] = field(default_factory=set)  # tags of what closed messages
    has_connack: bool = False  # the tested end sent one, whatever its bytes are
    has_heard_connack: bool = False  # it received one, whatever its bytes are, or bytes that can't be read
    connects: int = 0  # that it received, whatever their bytes are
    has_malformed: bool = False  # it received what can't be read
    has_error: bool = False  # it received a Protocol Error
    client_aliases: set[int] = field(default_factory=set)  # that a client set
    has_broken_publish: bool = False  # it received a PUBLISH whose bytes break a rule, which may have set any
    unfinished: set[int] = field(default_factory=set)  # identifiers of messages of QoS 2 that it received
    has_excess: bool = False  # it received more of these than its Receive Maximum
    has_refused: bool = False  # it sent a PUBREC of 0x80 or more
    has_ended: bool = False  # either end said that it closes the connection
    owes_close: list[Place] = field(default_factory=list)  # errors, of which nothing shows yet what a server did about them
    owes_connack: Place | None = None  # the first CONNECT, of which nothing shows yet whether a server answers it
    is_settled: bool = False  # it is answered, or may have been the last that the server looked at
    awaits_auth: bool = False  # the server sent an AUTH, and received none after it
    aliases: dict[int, bytes] = field(default_factory=dict)
    held: list[Event] = field(default_factory=list)  # before the CONNACK: in which session they are isn't known yet

    @property
    def is_accepted(self) -> bool:
        return self.connack is not None and self.connack.code == 0

    @property
    def is_resumed(self) -> bool:
        return self.is_accepted and bool(self.connack and self.connack.session_present)


class Reading:
    """Takes in the events of a log, and keeps the places."""

    def __init__(self, is_server: bool, bad: Mapping[int, str]) -> None:
        self.is_server, self.bad = is_server, bad
        self.places: list[Place] = []
        self.kinds: Counter[tuple[str, frozenset[str], bool]] = Counter()  # how many places are alike
        self.here = Connection()
        self.at = 0
        self.flying: dict[int, Message] = {}
        self.taken = 0  # identifiers, in the session
        self.completed: set[tuple[str, int]] = set()  # exchanges of the peer's messages, in the session
        self.filters: list[tuple[bytes, int]] = []  # with what was granted
        self.waiting_filters: dict[int, list[int]] = {}  # places in the list, of SUBSCRIBEs without a SUBACK
        self.history: set[str] = set()  # tags of what happened in the session
        self.is_shared = False
        self.subscribed = Subscribed()
        self.is_alive = False  # a session is
        self.is_disturbed = False
        self.maximum_before = self.last_maximum = DEFAULT_MAXIMUM  # Receive Maximum of the session's connections
        self.ending = ""  # of the accepted connection before
        self.lacks_session = False  # the client has none that could be resumed
        self.left_tags: dict[int, set[str]] = {}  # of what was open when the session was resumed, by their positions

    # ---- places

    def place(self, code: str, *tags: str, more: Iterable[str] = (), at: int = 0, is_judged: bool = True) -> None:
        """A place, here or at an earlier event."""
        self._keep(Place(code, at or self.at, frozenset((*tags, *more, *self._context())), is_judged))

    def _keep(self, place: Place) -> None:
        code, kind = place.code, (place.code, place.tags, place.is_judged)
        self.kinds[kind] += 1
        if self.kinds[kind] > KEPT_MOST:
            return
        if code[0] not in OF_SESSIONS:
            self.places.append(place)
        elif not self.here.is_accepted:
            self.here.pending.append(place)
        elif not self.here.is_unknown:
            self.places.append(place)

    def _context(self) -> list[str]:
        here = self.here
        start = "greeting" if here.connack is None else "resumed" if here.is_resumed else "new"
        return [start, *(["later"] if here.number > 1 else [])]

    # ---- events

    def take(self, event: Event) -> None:
        self.at = event.position
        if event.kind == OPEN:
            self.here = Connection(self.here.number + 1)
        elif event.kind == CLOSE:
            self._close()
        elif event.kind == REST:
            self._rest()
        elif event.is_lost or event.packet is None:
            self.here.is_bad = self.here.is_bad or event.is_lost
            if event.is_lost and event.kind == SENT:
                self.place("W03")
        elif event.kind == SENT:
            self._sent(event.packet, event.is_bad)
        elif event.is_bad:
            self.here.is_bad = True
        else:
            self._got(event.packet)
        if event.kind == RECV and (event.packet is None or event.packet.kind == Type.CONNACK):
            self.here.has_heard_connack = True
        if self.is_server:
            self._after_connect(event)
            self._after_error(event)
            self._on_subscriptions(event)

    def _on_subscriptions(self, event: Event) -> None:
        """B06 and B07: what a server says of the filters that are unsubscribed. B08, B09, P01, P02, R01 and R02: what it sends by those
        that were subscribed."""
        here = self.here
        here.held.append(event)
        if here.connack is None and event.kind != CLOSE:
            return
        held, here.held = here.held, []
        if not here.is_accepted:
            self.subscribed.pass_over(held)
            return
        for one in held:
            for code, tags in self.subscribed.take(one).items():
                own = tags_of(one.packet) if one.packet is not None else set()
                self.place(code, more=tags | own | self.history, at=one.position)
        if event.kind == CLOSE:
            self.subscribed.leave()

    def _after_connect(self, event: Event) -> None:
        """C24: a server answers the first CONNECT by a CONNACK, or is at rest."""
        here, packet = self.here, event.packet if not event.is_bad else None
        is_connack = event.kind == SENT and packet is not None and packet.kind == Type.CONNACK
        is_left = event.kind == REST and not here.is_settled and not here.awaits_auth
        if here.owes_connack is not None and (is_connack or is_left):
            self._keep(here.owes_connack)
            here.owes_connack = None
        if event.kind == RECV and packet is not None and packet.kind == Type.CONNECT and not here.connects:
            if packet.number(Prop.MAXIMUM_PACKET_SIZE, SMALLEST_CONNACK) >= SMALLEST_CONNACK:
                here.owes_connack = Place("C24", self.at, frozenset(self._context()))
        is_leaving = packet is not None and packet.kind == Type.DISCONNECT
        here.is_settled = here.is_settled or is_connack or is_leaving or event.is_bad or event.is_lost
        if packet is not None and packet.kind == Type.AUTH:
            here.awaits_auth = event.kind == SENT

    def _after_error(self, event: Event) -> None:
        """D01 to D03, and D05: after what can't be read, after a second CONNECT, after another Protocol Error, and after more
        QoS 2 PUBLISHes than its Receive Maximum a server says that it closes the connection, closes it, or is at rest. Of
        D05 that says nothing where it refused a message."""
        here, packet = self.here, event.packet
        is_goodbye = event.kind == SENT and packet is not None and not event.is_bad and (
            packet.kind == Type.DISCONNECT or (packet.kind == Type.CONNACK and (packet.code or 0) >= RESERVED))
        if is_goodbye or event.kind in (CLOSE, REST):
            for place in here.owes_close:
                if place.code != "D05" or not here.has_refused:
                    self._keep(place)
            here.owes_close.clear()
        if event.kind == RECV and (event.is_lost or (event.is_bad and self.bad[self.at] in MALFORMED)):
            self._owe_close("D01", is_first=not here.has_malformed)
            here.has_malformed = True
        if event.kind == RECV and packet is not None:
            self._after_packet(packet, event.is_bad)
        if packet is not None and not event.is_bad:
            self._count_unfinished(packet, is_received=event.kind == RECV)
        if event.kind == RECV and packet is not None and packet.kind == Type.CONNECT:
            here.connects += 1
            self._owe_close("D02", is_first=here.connects == 2)
        here.has_ended = here.has_ended or is_goodbye or (
            event.kind == RECV and packet is not None and not event.is_bad and packet.kind == Type.DISCONNECT)

    def _after_packet(self, packet: Packet, is_bad: bool) -> None:
        """D03, and the Topic Aliases that a client sets."""
        here = self.here
        if is_bad:
            here.has_broken_publish = here.has_broken_publish or packet.kind == Type.PUBLISH
            return
        if is_error(packet, here):
            self._owe_close("D03", is_first=not here.has_error)
            here.has_error = True
        if (alias := sets_alias(packet)) is not None:
            here.client_aliases.add(alias)

    def _count_unfinished(self, packet: Packet, is_received: bool) -> None:
        """D05: a PUBLISH of QoS 2 after the CONNACK, with which more messages aren't finished than the Receive Maximum."""
        here = self.here
        refuses = not is_received and packet.kind == Type.PUBREC and (packet.code or 0) >= RESERVED
        here.has_refused = here.has_refused or refuses
        if packet.identifier is None:
            return
        if refuses or packet.kind == (Type.PUBREL if is_received else Type.PUBCOMP):
            here.unfinished.discard(packet.identifier)
        if not is_received or packet.kind != Type.PUBLISH or packet.qos != MOST_QOS:
            return
        here.unfinished.add(packet.identifier)
        if here.connack is not None and len(here.unfinished) > here.connack.number(Prop.RECEIVE_MAXIMUM, DEFAULT_MAXIMUM):
            self._owe_close("D05", is_first=not here.has_excess)
            here.has_excess = True

    def _owe_close(self, code: str, is_first: bool) -> None:
        """The first error of its kind, if neither end had said that it closes the connection."""
        if is_first and not self.here.has_ended:
            self.here.owes_close.append(Place(code, self.at, frozenset(self._context())))

    def _close(self) -> None:
        self._after_end(CLOSE)
        here = self.here
        if not self.is_server and here.is_resumed and self.lacks_session:
            self.place("C13")
        if here.connect is not None and here.connack is None:
            self.is_alive = True  # it may be
            self.is_disturbed = self.is_disturbed or bool(here.connect.clean) or (self.is_server and here.brought)
        if here.is_accepted:
            self.is_alive = self._expiry() != 0
            self.ending = "bye" if here.client_disconnect is not None else "closed" if here.is_left else "drop"
            for identifier, message in self.flying.items():
                message.is_passed_over = message.is_passed_over or self._passes_over(identifier)

    def _expiry(self) -> int:
        """The Session Expiry Interval of this connection."""
        for packet in (self.here.client_disconnect, self.here.connack, self.here.connect):
            if packet is not None and (found := packet.number(Prop.SESSION_EXPIRY, -1)) >= 0:
                return found
        return 0

    def _rest(self) -> None:
        self._after_end(REST)
        here = self.here
        if not here.is_accepted or here.is_bad or here.is_left:
            return
        for place in here.asked:
            self.place(place.code, more=place.tags, at=place.position)
        here.asked.clear()
        if here.pings and self.is_server:
            self.place("E7R", "many" if here.pings >= PINGS else "one")
        self._rest_of_debts()
        if any(message.connection == here.number for message in self.flying.values()) and here.pings >= PINGS:
            self.place("S03", "pinged", is_judged=False)

    def _rest_of_debts(self) -> None:
        """S06: what was open when the session was resumed has been sent again by now. Who waits for an answer to that
        isn't judged; but who hadn't sent it wouldn't wait, and would be."""
        here = self.here
        if here.in_flight - here.left_identifiers:
            return
        many = "many" if len(here.left) >= MANY else "one"
        small = ["small"] if self._peer_number(Prop.RECEIVE_MAXIMUM, DEFAULT_MAXIMUM) <= SMALL else []
        for message in here.left:
            self.place("S06", many, self.ending, *small, more=self.left_tags[message.position], at=message.position,
                       is_judged=not here.in_flight)

    # ---- what comes

    def _got(self, packet: Packet) -> None:
        """A packet that the tested end received."""
        kind, identifier, here = packet.kind, packet.identifier, self.here
        if kind == Type.CONNECT and here.connect is None:
            here.connect = packet
        elif kind == Type.CONNACK and here.connack is None:
            here.connack = packet
            self._begin_session(packet)
        elif kind == Type.PINGREQ:
            here.pings += 1
        elif kind == Type.DISCONNECT:
            here.is_left = True
            here.client_disconnect = here.client_disconnect or (packet if self.is_server else None)
        elif identifier is not None:
            self._got_identified(packet, identifier)

    def _got_identified(self, packet: Packet, identifier: int) -> None:
        kind, here = packet.kind, self.here
        is_refusal = kind == Type.PUBREC and (packet.code or 0) >= RESERVED
        if kind == Type.SUBSCRIBE:
            self._subscribes(packet, identifier)
        if kind in (Type.SUBACK, Type.UNSUBACK):
            here.requests.discard(identifier)
        here.brought = here.brought or kind in (Type.PUBLISH, Type.SUBSCRIBE, Type.UNSUBSCRIBE, Type.PUBREL)
        exchange = CAUSES.get(Type(kind), "")
        if kind == Type.PUBLISH:
            exchange = "E1" if packet.qos == 1 else "E2"
        elif kind == Type.PUBREC and not is_refusal:
            exchange = "E3"
            if identifier in self.flying:
                self.flying[identifier].is_received = True
        if exchange:
            self._owe(exchange, packet, identifier)
        if kind in (Type.PUBACK, Type.PUBCOMP) or is_refusal:
            self.flying.pop(identifier, None)
            here.in_flight.discard(identifier)
            here.used = max(0, here.used - 1)
            here.closers |= {"refilled", *(["refused"] if (packet.code or 0) >= RESERVED else [])}

    def _owe(self, exchange: str, packet: Packet, identifier: int) -> None:
        """What a packet asks of the tested end. Only the first one under an identifier does."""
        here = self.here
        if (exchange, identifier) not in here.owed:
            others = sum(name == exchange for name, _ in here.owed)
            tags = {"many" if others >= MANY - 1 else "one", *(["dup"] if packet.dup else []),
                    *(["large"] if packet.size > LARGE else []),
                    *(["many-filters"] if len(packet.filters) >= 50 else []), *self._context()}
            here.asked.append(Place(f"{exchange}R", self.at, frozenset(tags)))
            if exchange == "E5":
                here.filters[identifier] = len(packet.filters)
        here.owed[exchange, identifier] = here.owed.get((exchange, identifier), 0) + 1

    def _subscribes(self, packet: Packet, identifier: int) -> None:
        self.is_shared = self.is_shared or any(name.startswith(b"$share/") for name, _ in packet.filters)
        known = {name for name, _ in self.filters}
        if any(name in known for name, _ in packet.filters):
            self.history.add("subscribed-again")
        first = len(self.filters)
        self.filters += [(name, options & 3) for name, options in packet.filters]
        self.waiting_filters.setdefault(identifier, []).append(first)

    # ---- what is sent

    def _sent(self, packet: Packet, is_bad: bool) -> None:
        """A packet of the tested end, or bytes that break a rule."""
        here, kind = self.here, packet.kind
        tags = tags_of(packet)
        if is_bad:
            self.place(self.bad[self.at], more=tags)
            here.is_bad = True
        whole = frozenset((*tags, *self._context()))
        for code in of_bytes(packet) if not is_bad else {"C01"} if kind else ():
            self._keep(Place(code, self.at, whole))
        self._after_end(SENT, tags)
        self._on_types(packet, tags)
        here.sent += 1
        if is_bad:
            return
        self._on_connection(packet, tags)
        self._on_request(packet, tags)
        if kind == Type.CONNACK:
            self._sent_connack(packet, tags)
        elif kind == Type.CONNECT:
            here.connect = here.connect or packet
        elif kind == Type.PUBLISH:
            self._sent_publish(packet, tags)
        elif kind == Type.DISCONNECT:
            self._sent_disconnect(packet, tags)
        elif kind in ANSWERS and packet.identifier is not None:
            self._sent_answer(packet, packet.identifier, tags)
        elif kind in (Type.SUBSCRIBE, Type.UNSUBSCRIBE) and packet.identifier is not None and not self.is_server:
            if self.flying or here.requests:
                self.place("S01", more=tags)
            here.requests.add(packet.identifier)

    def _after_end(self, kind: int, tags: Iterable[str] = ()) -> None:
        """C11, C12 and C23: something happens after the tested end's last packet."""
        here = self.here
        for code, last in (("C11", here.disconnect), ("C12", here.connack if self.is_server else None)):
            if last is None or (code == "C12" and (last.code or 0) < RESERVED):
                continue
            why = f"code-{last.code or 0:02x}"
            word = "disconnect" if code == "C11" else "refusal"
            if kind != REST:
                self.place(code, why, word, "close" if kind == CLOSE else "packet", more=tags)
            if kind != SENT:
                self.place("C23", why, word, "close" if kind == CLOSE else "rest")

    def _on_types(self, packet: Packet, tags: set[str]) -> None:
        """What is said of each packet by its type, whatever its bytes are."""
        here, kind = self.here, packet.kind
        if not self.is_server:
            if not here.sent:
                self.place("C02")
            if kind == Type.CONNECT:
                self.place("C03")
            elif here.connect is not None and here.connect.has(Prop.AUTHENTICATION_METHOD) and not here.has_heard_connack:
                self.place("A01", more=tags)
            return
        asked = ["clean" if here.connect is None or here.connect.clean else "asks-to-resume"]
        asked += ["pipelined"] if here.owed or here.pings else []
        if kind == Type.CONNACK:
            self.place("C04", *asked, more=tags)
            self.place("C06", *asked, more=tags)
        if kind not in (0, Type.AUTH) and not here.has_connack:
            self.place("C05", *asked, more=tags)
        here.has_connack = here.has_connack or kind == Type.CONNACK

    def _on_connection(self, packet: Packet, tags: set[str]) -> None:
        """What is said of each right packet on a connection."""
        peer = self._peer()
        most = peer.number(Prop.MAXIMUM_PACKET_SIZE, 0) if peer is not None else 0
        if most:
            near = ["near"] if 0 <= most - packet.size <= FEW_LEFT or packet.size > most else []
            self.place("C14", *near, more=tags)
        is_explaining = packet.kind in (Type.PUBLISH, Type.CONNACK, Type.DISCONNECT)
        if peer is not None and not is_explaining and not peer.number(Prop.REQUEST_PROBLEM_INFORMATION, 1):
            self.place("C21", more=tags)
        if not self.is_server and self.here.is_resumed and self.lacks_session:
            self.place("C13")

    def _has_to_name_a_method(self, packet: Packet) -> bool:
        """An AUTH with more than its fixed header, or from a server a CONNACK that accepts."""
        if packet.kind == Type.AUTH:
            return packet.size > FIXED_HEADER
        return self.is_server and packet.kind == Type.CONNACK and packet.code == 0

    def _on_request(self, packet: Packet, tags: set[str]) -> None:
        """The further statements: what the server hasn't got, Reason Codes of the other end, and AUTH."""
        kind, connect = packet.kind, self.here.connect
        if kind in (Type.DISCONNECT, *(() if self.is_server else (Type.PUBACK, Type.PUBREC))):
            self.place("V06", more=tags)
        lacks_method = connect is not None and not connect.has(Prop.AUTHENTICATION_METHOD)
        if (kind == Type.AUTH and connect is not None) or (self.is_server and kind == Type.CONNACK and lacks_method):
            self.place("A02", more=tags)
        if connect is not None and not lacks_method and self._has_to_name_a_method(packet):
            self.place("A03", more=tags)
        if self.is_server and kind == Type.CONNACK and connect is not None and connect.has_will:
            if packet.has(Prop.MAXIMUM_QOS) or packet.code == QOS_NOT_SUPPORTED:
                self.place("F05", more=tags)
            if not packet.number(Prop.RETAIN_AVAILABLE, 1) or packet.code == RETAIN_NOT_SUPPORTED:
                self.place("F06", more=tags)
        elif not self.is_server:
            self._asks_of_server(packet, tags)

    def _asks_of_server(self, packet: Packet, tags: set[str]) -> None:
        """What a client asks for that the server may not have."""
        said = self.here.connack
        if packet.kind == Type.PUBLISH and not packet.dup and said and not said.number(Prop.RETAIN_AVAILABLE, 1):
            self.place("F01", more=tags)
        if packet.kind != Type.SUBSCRIBE:
            return
        for code, key in MISSING.items():
            if said is not None and not said.number(key, 1):
                self.place(code, more=tags)
        if any(name.startswith(b"$share/") for name, _ in packet.filters):
            self.place("V03", more=tags)
            self.place("V04", more=tags)

    def _sent_connack(self, packet: Packet, tags: set[str]) -> None:
        here = self.here
        connect, is_accepting = here.connect, packet.code == 0
        known = "known" if self.is_alive else "ended" if here.number > 1 else "first"
        is_first = here.connack is None
        if connect is not None and connect.clean:
            self.place("C07", known, more=tags)
        is_asked = connect is not None and not connect.clean
        if is_accepting and (packet.session_present or (is_asked and not self.is_alive)):
            self.place("C08", known, self.ending, more=tags)
        if not is_accepting:
            self.place("C09", f"code-{packet.code:02x}", known, more=tags)
        if is_accepting and connect is not None and connect.client == b"":
            self.place("C10", "asks-to-resume" if is_asked else "clean", more=tags)
        if any(key == Prop.RESPONSE_INFORMATION for key, _ in packet.properties):
            self.place("C22")
        if is_first:
            here.connack = packet
            self._begin_session(packet)

    def _begin_session(self, connack: Packet) -> None:
        """An accepting CONNACK resumes the session, or begins a new one."""
        here = self.here
        if connack.code != 0:
            return
        self.lacks_session = bool(here.connect is not None and here.connect.clean) or not self.is_alive
        if connack.session_present:
            here.left = [] if self.is_disturbed else list(self.flying.values())
            here.left_identifiers = set(self.flying)
            here.is_unknown = self.is_disturbed
        else:
            self.flying.clear()
            self.completed.clear()
            self.filters.clear()
            self.waiting_filters.clear()
            self.history.clear()
            self.subscribed = Subscribed()
            self.taken, self.is_shared, self.is_disturbed = 0, False, False
        self.left_tags = {message.position: message.tags for message in here.left}
        self.maximum_before = self.last_maximum
        self.last_maximum = self._peer_number(Prop.RECEIVE_MAXIMUM, DEFAULT_MAXIMUM)
        pending, here.pending = here.pending, []
        if not here.is_unknown:
            self.places += pending

    # ---- messages

    def _peer(self) -> Packet | None:
        """What the peer announced its limits in; a client knows them once the CONNACK came."""
        return self.here.connect if self.is_server else self.here.connack

    def _peer_number(self, key: Prop, absent: int) -> int:
        peer = self._peer()
        return peer.number(key, absent) if peer is not None else absent

    def _sent_publish(self, packet: Packet, tags: set[str]) -> None:
        peer = self._peer()
        is_bound = self.is_server or self.here.connack is not None
        alias = packet.number(Prop.TOPIC_ALIAS, 0)
        if any(key == Prop.TOPIC_ALIAS for key, _ in packet.properties) and is_bound:
            self.place("C15", more=tags)
        if packet.topic == b"":
            self.place("C16", more=tags)
        elif alias:
            self.here.aliases[alias] = packet.topic or b""
        self.place("C18", more=tags)
        if peer is not None and peer.number(Prop.MAXIMUM_QOS, -1) >= 0:
            self.place("C17", more=tags)
        topic = packet.topic or self.here.aliases.get(alias)
        if not packet.dup and not self.is_shared and topic is not None and self.is_server:
            self._delivers(packet, topic, tags)
        if packet.qos and packet.identifier is not None:
            self._sent_message(packet, packet.identifier, tags)

    def _delivers(self, packet: Packet, topic: bytes, tags: set[str]) -> None:
        """What is asked for, and what of it matches."""
        granted = [(name, most) for name, most in self.filters if most < RESERVED]
        self.place("B01", more=filter_tags(name for name, _ in granted) | self.history | tags)
        if packet.qos:
            matching = [(name, most) for name, most in granted if matches(name, topic)]
            ceiling = max((most for _, most in matching), default=0)
            self.place("B02", f"granted-{ceiling}", more=filter_tags(name for name, _ in matching) | self.history | tags)

    def _sent_message(self, packet: Packet, identifier: int, tags: set[str]) -> None:
        """A PUBLISH with a Packet Identifier."""
        here = self.here
        many = "many" if len(self.flying) >= MANY else "one"
        message = self.flying.get(identifier)
        if packet.dup:
            own = message.tags if message is not None else {f"q{packet.qos}", "closed"}
            same = ["pinged"] if here.pings >= PINGS else []
            same += ["same"] if identifier in here.in_flight else []
            many = "many" if len(here.left) >= MANY else "one"
            self.place("S02", many, self.ending, more=own)
            self.place("S03", many, self.ending, *same, more=own)
            if message is not None:
                self._resends(message, own | {many, self.ending})
        else:
            self._opens(packet, identifier, tags | {many})
        here.in_flight.add(identifier)
        here.sent_here.add(identifier)
        here.used += 1
        most = self._peer_number(Prop.RECEIVE_MAXIMUM, DEFAULT_MAXIMUM)
        if here.used >= most and (self.is_server or here.connack is not None):
            shrunk = ["shrunk"] if most < self.maximum_before and here.is_resumed else []
            states = {word for one in self.flying.values() for word in one.tags & {"received", "released"}}
            self.place("S07", f"maximum-{most}", f"q{packet.qos}", *shrunk, *here.closers, *states)

    def _resends(self, message: Message, tags: set[str]) -> None:
        """What is open is sent again."""
        if message.qos == 2 and message.is_released:
            self.place("S04", "publish", more=tags)
        if self.here.resent:
            self.place("S05", more=tags)
        self.here.resent += 1
        message.resent += 1

    def _opens(self, packet: Packet, identifier: int, tags: set[str]) -> None:
        """A message is sent for the first time: its identifier is taken."""
        busy = [one for key, one in self.flying.items() if not one.is_passed_over and not self._passes_over(key)]
        if busy or self.here.requests:
            states = {f"beside-{word}" for one in busy for word in one.tags & {"unanswered", "received", "released"}}
            own = {f"beside-q{one.qos}" for one in busy} | ({"wrapped"} if self.taken >= WRAP else set())
            self.place("S01", more=tags | states | own | self._left_beside(busy))
        self.taken += 1
        self.flying[identifier] = Message(self.at, self.here.number, packet.qos, self.here.is_resumed)

    def _left_beside(self, busy: list[Message]) -> set[str]:
        """Whether some of what is open is of an earlier connection."""
        return {"beside-earlier"} if any(one.connection < self.here.number for one in busy) else set()

    def _passes_over(self, identifier: int) -> bool:
        """This connection may be one that is too small for a message, and nothing of it was sent yet."""
        here, message = self.here, self.flying[identifier]
        is_bounded = self._peer_number(Prop.MAXIMUM_PACKET_SIZE, 0) > 0 or self._peer_number(Prop.MAXIMUM_QOS, -1) >= 0
        is_earlier = message.connection < here.number and not message.is_received
        return here.is_resumed and is_bounded and is_earlier and identifier not in here.sent_here

    # ---- answers, and the end

    def _sent_answer(self, packet: Packet, identifier: int, tags: set[str]) -> None:
        kind, here = Type(packet.kind), self.here
        exchange = ANSWERS[kind]
        others = [key for key in here.owed if key[0] == exchange and key[1] != identifier]
        is_owed = (exchange, identifier) in here.owed
        own = tags | {"many" if len(others) >= MANY - 1 else "one"}
        own |= {"used-again"} if (exchange, identifier) in self.completed else set()
        self.place(f"{exchange}A", more=own)
        if is_owed:
            del here.owed[exchange, identifier]
            if others and exchange in ORDERED:
                self.place(f"{exchange}O", more=own)
            if exchange in ("E5", "E6") and self.is_server:
                self.place("B03" if exchange == "E5" else "B04", more=own)
            if exchange == "E5" and any(code < RESERVED for code in packet.codes[: here.filters[identifier]]):
                self.place("B05", more=own)
        self.completed.add((exchange, identifier))
        if kind == Type.PUBREL:
            self._sent_pubrel(identifier)
        elif kind == Type.SUBACK:
            for first in self.waiting_filters.pop(identifier, []):
                for at, code in enumerate(packet.codes[: len(self.filters) - first], first):
                    self.filters[at] = (self.filters[at][0], code)
        elif kind == Type.UNSUBACK:
            self.history.add("unsubscribed")

    def _sent_pubrel(self, identifier: int) -> None:
        message = self.flying.get(identifier)
        if message is not None and message.qos == 2:
            if message.is_released:
                many = "many" if len(self.here.left) >= MANY else "one"
                self.place("S04", "pubrel", many, self.ending)
            message.is_released = True
        self.here.in_flight.add(identifier)
        self.here.sent_here.add(identifier)

    def _sent_disconnect(self, packet: Packet, tags: set[str]) -> None:
        self.place("C19", f"code-{packet.code or 0:02x}", more=tags)
        if packet.number(Prop.SESSION_EXPIRY, 0):
            self.place("C20", more=tags)
        self.here.disconnect = self.here.disconnect or packet
        self.here.is_left = True
        if not self.is_server:
            self.here.client_disconnect = self.here.client_disconnect or packet
