"""Moments at which the tested end does right by the Keep Alive, for a log that honest_logs.py makes.

A client is never silent for longer than it may be, and a server closes the connection of one that is: so no event comes later after
the client's last item than the end's limit. Waits go up to the limit, and often just to it. No wait has an end where none has to: on
a connection that isn't accepted, before the CONNACK, after a DISCONNECT, and without a Keep Alive.
"""
import random
from collections import defaultdict
from collections.abc import Iterator

from reading import CLOSE, CONNACK, CONNECT, DISCONNECT, Event, OPEN, Packet, RECV, Recording, SENT
from versions import SECOND, SOME_TIME, in_version_2, records

SERVER_KEEP_ALIVE = 0x13


def longest_wait(role: str, keep_alive: int) -> int:
    """After the client's last item, in microseconds, by the Keep Alive in seconds."""
    if role == "client":
        return keep_alive * SECOND * 5 // 4 + SECOND
    return keep_alive * SECOND * 3 // 2 + max(keep_alive * SECOND // 2, 5 * SECOND)


class Pace:
    """What is known of the open connection: its Keep Alive, when the client was last heard, and until when an event has to come."""

    def __init__(self, role: str):
        self.role, self.of_client = role, SENT if role == "client" else RECV
        self.keep_alive, self.limit, self.last = 0, 0, 0

    def until(self) -> int | None:
        return self.last + self.limit if self.limit else None

    def take(self, event: Event, now: int) -> None:
        if event.kind in (OPEN, CLOSE):
            self.keep_alive = self.limit = 0
        elif isinstance(event.item, Packet):
            self.take_packet(event.kind, event.item)
        if event.kind == self.of_client or (isinstance(event.item, Packet) and event.item.type == CONNACK):
            self.last = now

    def take_packet(self, way: int, packet: Packet) -> None:
        if packet.type == CONNECT:
            self.keep_alive = packet.keep_alive
        elif packet.type == CONNACK and packet.code == 0:
            said = packet.get(SERVER_KEEP_ALIVE)
            keep_alive = self.keep_alive if said is None else said
            self.limit = longest_wait(self.role, keep_alive) if keep_alive else 0
        elif packet.type == DISCONNECT:
            self.limit = 0


def moments(draw: random.Random, log: bytes) -> Iterator[int]:
    """Of the records of a log of version 1."""
    recording, now = Recording(log), SOME_TIME
    pace, events = Pace(recording.role), defaultdict(list)
    for event in recording.events:
        events[event.record].append(event)
    for number, _ in enumerate(records(log), 1):
        until = pace.until()
        wait = draw.choice((0, 0, 0, 1, draw.randrange(SECOND), draw.randrange(20 * SECOND), 200 * SECOND))
        now = now + wait if until is None else min(now + wait, until)
        for event in events[number]:
            pace.take(event, now)
        yield now


def in_time(draw: random.Random, log: bytes) -> bytes:
    """A log of version 1 in version 2, with such moments."""
    return in_version_2(log, moments(draw, log))
