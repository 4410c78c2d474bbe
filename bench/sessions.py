"""The connections and sessions of a log (MQTT 5.0, sections 3.1.2.4, 3.2 and 4.1).

It is a part of the second opinion that reference.py gives, and no part of the program. What comes before an event is looked up in
the whole log, so it doesn't matter where a CONNACK is.
"""
from bisect import bisect_left
from functools import cached_property

from reading import (
    Bad, CLOSE, CONNACK, CONNECT, DISCONNECT, Event, Lost, OPEN, PUBLISH, PUBREL, Packet, RECV, RELEASE, REST, SENT, SUBSCRIBE,
    UNSUBSCRIBE,
)

VOID, NEW, RESUMED = "void", "new", "resumed"
RECEIVE_MAXIMUM, TOPIC_ALIAS_MAXIMUM, MAXIMUM_QOS, RETAIN_AVAILABLE, MAXIMUM_PACKET_SIZE = 0x21, 0x22, 0x24, 0x25, 0x27
DEFAULTS = {0x21: 65_535, 0x22: 0, 0x24: 2, 0x25: 1, 0x27: None, 0x17: 1, 0x19: 0}


class Log:
    """A list of events, whose positions count from 1, and the bytes of the packets that it leaves unfinished, sent and received."""

    def __init__(self, events: list[Event], role: str, releases: bool, left: tuple[bytes, bytes] = (b"", b"")):
        self.events, self.role, self.releases, self.left = events, role, releases, left
        self.last = len(events)
        # What is at each position, from 1 on.
        self.items_sent = [None, *[e.item if e.kind == SENT else None for e in events]]
        self.items_received = [None, *[e.item if e.kind == RECV else None for e in events]]
        self.packets_sent = [item if isinstance(item, Packet) else None for item in self.items_sent]
        self.packets_received = [item if isinstance(item, Packet) else None for item in self.items_received]
        self.numbers = [0]  # the number of the latest connection at each position
        self.spans: list[list[int]] = [[]]
        for k, e in enumerate(events, 1):
            if e.kind == OPEN:
                self.spans.append([])
            self.numbers.append(len(self.spans) - 1)
            self.spans[-1].append(k)

    # -- what is at a position

    def event(self, k: int) -> Event:
        return self.events[k - 1]

    def sent(self, k: int) -> Packet | Bad | Lost | None:
        return self.items_sent[k]

    def received(self, k: int) -> Packet | Bad | Lost | None:
        return self.items_received[k]

    def sent_packet(self, k: int, *types: int) -> Packet | None:
        p = self.packets_sent[k]
        return p if p is not None and (not types or p.type in types) else None

    def received_packet(self, k: int, *types: int) -> Packet | None:
        p = self.packets_received[k]
        return p if p is not None and (not types or p.type in types) else None

    def sends(self, k: int, type: int, i: int) -> bool:
        p = self.sent_packet(k, type)
        return p is not None and p.identifier == i

    def receives(self, k: int, type: int, i: int) -> bool:
        p = self.received_packet(k, type)
        return p is not None and p.identifier == i

    def from_client(self, k: int, type: int) -> Packet | None:
        return self.sent_packet(k, type) if self.role == "client" else self.received_packet(k, type)

    def from_server(self, k: int, type: int) -> Packet | None:
        return self.received_packet(k, type) if self.role == "client" else self.sent_packet(k, type)

    def is_rest(self, k: int) -> bool:
        return self.event(k).kind == REST

    # -- connections

    def on(self, c: int) -> list[int]:
        """The positions of a connection: from its OPEN to its CLOSE, or to the end. RELEASEs may follow the CLOSE; they aren't on it."""
        out = []
        for k in self.spans[c]:
            out.append(k)
            if self.event(k).kind == CLOSE:
                break
        return out if c > 0 else []

    @cached_property
    def connection_positions(self) -> list[list[int]]:
        return [self.on(c) for c in range(len(self.spans))]

    @cached_property
    def places(self) -> list[int]:
        """For each position the number of the connection that it is on, 0 for a RELEASE between connections."""
        out = [0] * (self.last + 1)
        for c, positions in enumerate(self.connection_positions):
            for k in positions:
                out[k] = c
        return out

    def before_on(self, k: int) -> list[int]:
        """The positions before k on its connection."""
        positions = self.connection_positions[self.places[k]]
        return positions[: bisect_left(positions, k)]

    def first_connect(self, c: int) -> int | None:
        return next((k for k in self.connection_positions[c] if self.from_client(k, CONNECT)), None)

    @cached_property
    def first_connacks(self) -> list[int | None]:
        return [next((k for k in ks if self.from_server(k, CONNACK)), None) for ks in self.connection_positions]

    @cached_property
    def first_sent_disconnects(self) -> list[int | None]:
        return [next((k for k in ks if self.sent_packet(k, DISCONNECT)), None) for ks in self.connection_positions]

    def connack_code(self, k: int) -> Packet:
        p = self.from_server(k, CONNACK)
        assert p is not None
        return p

    @cached_property
    def fates(self) -> list[str | None]:
        return [self.fate(c) for c in range(len(self.spans))]

    def fate(self, c: int) -> str | None:
        k = self.first_connacks[c]
        if k is not None:
            connack = self.connack_code(k)
            return VOID if connack.code != 0 else RESUMED if connack.session_present else NEW
        return VOID if self.is_closed(c) else None

    def is_closed(self, c: int) -> bool:
        return any(self.event(k).kind == CLOSE for k in self.connection_positions[c])

    def begun(self, c: int) -> int | None:
        """The first byte of the packet that the tested end had begun and not ended when the connection closed."""
        return next((e.begun for e in map(self.event, self.connection_positions[c]) if e.kind == CLOSE), None)

    def is_accepted(self, c: int) -> bool:
        return self.fates[c] in (NEW, RESUMED)

    def latest_accepted(self, before: int) -> int | None:
        """The latest accepted connection whose number is below this."""
        return next((c for c in range(before - 1, 0, -1) if self.is_accepted(c)), None)

    def expiry(self, c: int) -> int:
        """The Session Expiry Interval of a connection."""
        disconnect = next((p for k in self.connection_positions[c] if (p := self.from_client(k, DISCONNECT))), None)
        connack, connect = self.first_connacks[c], self.first_connect(c)
        values = [disconnect and disconnect.get(0x11)]
        values.append(None if connack is None else self.connack_code(connack).get(0x11))
        values.append(None if connect is None else self.from_client(connect, CONNECT).get(0x11))
        return next((v for v in values if v is not None), 0)

    def alive_before(self, c: int) -> bool:
        last = self.latest_accepted(c)
        if last is not None and self.expiry(last) != 0:
            return True
        return any(
            self.first_connect(d) is not None and self.first_connacks[d] is None and self.is_closed(d) for d in range((last or 0) + 1, c)
        )

    # -- sessions

    @cached_property
    def are_disturbing(self) -> list[bool]:
        return [self.disturbs(c) for c in range(len(self.spans))]

    def disturbs(self, c: int) -> bool:
        """Whether the session after this connection can't be known: it closed without a CONNACK, and the server may have begun a new
        session on it, or taken in packets of one."""
        connect, connack = self.first_connect(c), self.first_connacks[c]
        if connect is None or connack is not None or not self.is_closed(c):
            return False
        may_take_in = self.role == "server" and any(self.brings(k) for k in self.connection_positions[c])
        return self.from_client(connect, CONNECT).clean_start or may_take_in

    def brings(self, k: int) -> bool:
        """A packet is received that changes a session."""
        p = self.received_packet(k, SUBSCRIBE, UNSUBSCRIBE, PUBREL, PUBLISH)
        return p is not None and (p.type != PUBLISH or p.qos > 0)

    @cached_property
    def are_unknown(self) -> list[bool]:
        """For each connection whether it is accepted and its session unknown."""
        out: list[bool] = []
        for c in range(len(self.spans)):
            latest = self.latest_accepted(c) if self.fates[c] == RESUMED else None
            is_disturbed = latest is not None and (self.leaves_at_once(latest) or any(self.are_disturbing[latest + 1 : c]))
            out.append(is_disturbed or (latest is not None and out[latest]))
        return out

    def leaves_at_once(self, c: int) -> bool:
        """Whether a client that asked for its session was told that a new one begins, and went no further: it may have kept what it
        had."""
        connack = self.first_connacks[c]
        if self.role == "server" or self.fates[c] != NEW:
            return False
        connect = self.connect_before(connack)
        said = [self.sent_packet(k, DISCONNECT) for k in self.connection_positions[c] if k > connack and self.event(k).kind == SENT]
        return connect is not None and not connect.clean_start and all(said)

    def is_loose_in_unknown(self, k: int) -> bool:
        """Whether the session of a RELEASE between connections or on a void one can't be known."""
        latest = self.latest_accepted(self.numbers[k] + 1) or 0
        return self.are_unknown[latest] or any(self.are_disturbing[latest + 1 : self.numbers[k] + 1])

    @cached_property
    def sessions_of_connections(self) -> list[int | None]:
        """For each accepted connection whose session is known, the number of the first connection of that session."""
        out: list[int | None] = []
        first = None
        for c in range(len(self.spans)):
            if self.is_accepted(c) and not self.are_unknown[c]:
                if self.fates[c] == NEW or first is None:
                    first = c
                out.append(first)
            else:
                out.append(None)
        return out

    @cached_property
    def sessions(self) -> list[int | None]:
        """The session of each position, by the first connection of the session."""
        return [None] + [self.session_of(k) for k in range(1, self.last + 1)]

    def session_of(self, k: int) -> int | None:
        c = self.places[k]
        if self.is_accepted(c):
            return self.sessions_of_connections[c]
        if self.event(k).kind != RELEASE or (c > 0 and self.fates[c] is None):
            return None
        # Between connections, before the first one, or on a void one.
        latest = self.latest_accepted(self.numbers[k] + 1)
        return None if latest is None else self.sessions_of_connections[latest]

    @cached_property
    def session_positions(self) -> dict[int, list[int]]:
        out: dict[int, list[int]] = {}
        for k in range(1, self.last + 1):
            session = self.sessions[k]
            if session is not None:
                out.setdefault(session, []).append(k)
        return out

    def before_in(self, k: int) -> list[int]:
        """The positions before k in its session."""
        session = self.sessions[k]
        positions = [] if session is None else self.session_positions[session]
        return positions[: bisect_left(positions, k)]

    # -- parameters

    def parameter(self, identifier: int, k: int) -> int | None:
        """What the tested end's peer has asked for on k's connection before k, else the default."""
        c = self.places[k]
        at = self.first_connacks[c] if self.role == "client" else self.first_connect(c)
        if at is None or at >= k:
            return DEFAULTS[identifier]
        value = (self.from_server(at, CONNACK) or self.from_client(at, CONNECT)).get(identifier)
        return DEFAULTS[identifier] if value is None else value

    def announced(self, identifier: int, c: int, t: int) -> bool:
        """Whether the tested end's peer has asked for anything of this kind on connection c before t."""
        at = self.first_connacks[c] if self.role == "client" else self.first_connect(c)
        return at is not None and at < t and (self.from_server(at, CONNACK) or self.from_client(at, CONNECT)).get(identifier) is not None

    def is_after_connack(self, k: int) -> bool:
        at = self.first_connacks[self.places[k]]
        return at is not None and at < k

    def connect_before(self, k: int) -> Packet | None:
        """The CONNECT of k's connection, if it comes before k."""
        at = self.first_connect(self.places[k])
        return self.from_client(at, CONNECT) if at is not None and at < k else None

    # -- REST

    def is_binding(self, t: int) -> bool:
        c = self.places[t]
        if not self.is_rest(t) or not self.is_accepted(c) or not self.is_after_connack(t):
            return False
        return not any(isinstance(self.event(j).item, (Bad, Lost)) or self.sent_packet(j, DISCONNECT) or self.received_packet(j, DISCONNECT)
                       for j in self.before_on(t))
