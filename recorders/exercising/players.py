"""A player: a client of its own Client Identifier, which does right, or what a scenario says, on one link at a time."""
from __future__ import annotations

import time
from collections.abc import Mapping

from exercising.actors import Actor
from exercising.links import Link
from exercising.packets import (
    LARGEST_IDENTIFIER,
    PING,
    RESERVED,
    Packet,
    Prop,
    Properties,
    Type,
    Will,
    acknowledgement,
    connect,
    disconnect,
    publish,
    reply,
    subscribe,
    unsubscribe,
)
from exercising.stage import Stage, Unfit

CLOSE_SECONDS = 1.0  # for a broker that has to close
DUP = 8  # in the first byte of a PUBLISH
OVERSIZE_MOST = 10_000_000  # bytes
IDLE_SECONDS = 0.2  # after which there is nothing more to answer


class Player(Actor):
    """A client. Its connections make one log, or several where sessions begin anew."""

    def __init__(self, stage: Stage, name: str, friends: Mapping[str, Actor]) -> None:
        super().__init__(stage, name, friends)
        self.limits = Packet(Type.CONNACK << 4, b"")  # the CONNACK of the link
        self.begun: dict[int, bytes] = {}  # PUBLISHes whose exchange wasn't gone on with, by their identifiers
        self._last_identifier = 0

    # ---- connections

    def open(self) -> Link:
        self.links.append(self.stage.open())
        return self.link

    def connect(self, clean: bool, properties: Properties = (), *, identifier: str | None = None, keep_alive: int = 60,
                will: Will | None = None, user: str | None = None, password: str | None = None) -> None:
        """Opens a connection, and sends a CONNECT on it, without waiting for the CONNACK."""
        target = self.stage.target
        chosen = self.identifier if identifier is None else identifier
        data = connect(chosen, clean, properties, keep_alive=keep_alive, will=will,
                       user=target.user if user is None else user,
                       password=target.password if password is None else password)
        if chosen and any(key == Prop.SESSION_EXPIRY and value for key, value in properties):
            self.stage.sessions.add(chosen)
        self.open().send(data)

    def welcomed(self) -> Packet | None:
        """Waits for the CONNACK, and keeps it. If none comes, the log says so by a REST."""
        got = self.expect(Type.CONNACK)
        if got is not None:
            self.limits = got
        else:
            self.rest_unasked()
        return got

    def bye(self, code: int | None = None, properties: Properties = ()) -> None:
        """Leaves by a DISCONNECT, after which the broker closes."""
        if not self.is_over:
            self.link.send(disconnect(code, properties))
            if not self.link.closes(CLOSE_SECONDS):
                self.stage.observe(f"open {CLOSE_SECONDS:.0f} s after a DISCONNECT")
        self.link.close()

    # ---- exchanges

    def new_identifier(self) -> int:
        """A Packet Identifier, one after the other."""
        self._last_identifier = self._last_identifier % LARGEST_IDENTIFIER + 1
        return self._last_identifier

    def expect(self, kind: int, identifier: int | None = None) -> Packet | None:
        """An answer that has to come, or None if it takes too long."""
        got = self.link.expect(kind, self.stage.target.patience, identifier)
        if got is not None:
            self.stage.silence.learn(self.link.waited)
        return got

    def send(self, data: bytes) -> None:
        """Sends a packet, unless the broker has announced that it is too large."""
        most = self.limits.number(Prop.MAXIMUM_PACKET_SIZE, 0)
        if most and len(data) > most and not self.stage.scenario.breaks_rules:
            raise Unfit(f"the broker announces Maximum Packet Size {most}")
        self.link.send(data)

    def ping(self) -> bool:
        """Whether a ping is answered."""
        if self.is_over:
            return False
        self.link.send(PING)
        return self.expect(Type.PINGRESP) is not None

    def rest(self) -> None:
        """Waits until the broker has read everything, and has answered it."""
        if not self.is_over:
            self.rest_after(has_read=self.ping())

    def publish(self, topic: str, payload: bytes, qos: int, *, retain: bool = False, properties: Properties = ()
                ) -> None:
        """Publishes a message, with the whole exchange."""
        self.check_publish(qos, retain)
        identifier = self.new_identifier() if qos else 0
        if retain and payload:
            self.stage.retained.add(topic)
        self.send(publish(topic, payload, qos, identifier, retain=retain, properties=properties))
        if qos == 1:
            self.expect(Type.PUBACK, identifier)
        elif qos == 2 and self._is_received(identifier):
            self.link.send(acknowledgement(Type.PUBREL, identifier))
            self.expect(Type.PUBCOMP, identifier)

    def oversize(self, topic: str) -> None:
        """Publishes a message that is a byte too large for the broker, if it announces a limit that isn't huge."""
        most = self.limits.number(Prop.MAXIMUM_PACKET_SIZE, 0)
        if not 0 < most <= OVERSIZE_MOST:
            raise Unfit(f"the broker announces {f'Maximum Packet Size {most}' if most else 'no Maximum Packet Size'}")
        beside = len(publish(topic, b"x" * most, 1, 1)) - most
        self.link.send(publish(topic, b"x" * (most + 1 - beside), 1, self.new_identifier()))

    def begin(self, topic: str, payload: bytes, qos: int) -> None:
        """Publishes a message, and leaves its exchange to be gone on with."""
        self.check_publish(qos, False)
        identifier = self.new_identifier()
        self.begun[identifier] = publish(topic, payload, qos, identifier)
        self.send(self.begun[identifier])

    def again(self) -> None:
        """Goes on with what was begun, after the session was resumed: what wasn't answered is sent again."""
        seen = [got for link in self.links for got in link.seen]
        for identifier, data in self.begun.items():
            own = [got for got in seen if got.identifier == identifier]
            kinds = {got.kind for got in own}
            is_refused = any(got.kind == Type.PUBREC and (got.code or 0) >= RESERVED for got in own)
            if is_refused or kinds & {Type.PUBACK, Type.PUBCOMP}:
                continue
            is_resumed = bool(self.limits.session_present)
            if Type.PUBREC in kinds and is_resumed:
                self.link.send(acknowledgement(Type.PUBREL, identifier))
            elif Type.PUBREC not in kinds:
                self.link.send(bytes((data[0] | (DUP if is_resumed else 0),)) + data[1:])

    def _is_received(self, identifier: int) -> bool:
        got = self.expect(Type.PUBREC, identifier)
        return got is not None and (got.code or 0) < RESERVED

    def subscribe(self, filters: list[tuple[str, int]], properties: Properties = ()) -> None:
        self._check_filters(filters, bool(properties))
        identifier = self.new_identifier()
        self.send(subscribe(identifier, filters, properties))
        self.expect(Type.SUBACK, identifier)

    def unsubscribe(self, filters: list[str]) -> None:
        identifier = self.new_identifier()
        self.send(unsubscribe(identifier, filters))
        self.expect(Type.UNSUBACK, identifier)

    def serve(self, idle: float = IDLE_SECONDS, most: float = 30.0) -> None:
        """Answers what comes, as a right client does, until nothing comes for a time."""
        until = time.monotonic() + most
        while not self.is_over and time.monotonic() < until:
            got = self.link.expect(seconds=idle)
            if got is None:
                return
            if (data := reply(got)) is not None:
                self.link.send(data)

    def waiting(self) -> list[Packet]:
        """What came and is to be answered, oldest first."""
        return [got for got in self.link.inbox if reply(got) is not None]

    # ---- what the broker announced

    def _limit(self, what: str, key: Prop, absent: int, wanted: int) -> None:
        if (found := self.limits.number(key, absent)) < wanted and not self.stage.scenario.breaks_rules:
            raise Unfit(f"the broker announces {what} {found}")

    def check_publish(self, qos: int, retain: bool) -> None:
        self._limit("Maximum QoS", Prop.MAXIMUM_QOS, 2, qos)
        if retain:
            self._limit("Retain Available", Prop.RETAIN_AVAILABLE, 1, 1)

    def _check_filters(self, filters: list[tuple[str, int]], has_identifier: bool) -> None:
        names = [name for name, _ in filters]
        if any(name.startswith("$share/") for name in names):
            self._limit("Shared Subscription Available", Prop.SHARED_AVAILABLE, 1, 1)
        if any("+" in name or "#" in name for name in names):
            self._limit("Wildcard Subscription Available", Prop.WILDCARD_AVAILABLE, 1, 1)
        if has_identifier:
            self._limit("Subscription Identifiers Available", Prop.SUBSCRIPTION_IDENTIFIER_AVAILABLE, 1, 1)
