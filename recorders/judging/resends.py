"""Which PUBLISHes under an identifier in use (S01) look like an earlier one that is sent again, but with DUP 0."""
from __future__ import annotations

import re
from hashlib import sha256
from pathlib import Path
from typing import NamedTuple

from judging.events import Event, Text, read_event
from judging.story import ALIAS
from judging.texts import packets_at

TAKEN = "S01"  # a new packet takes a Packet Identifier that is in use
MOST = 1_000  # faults of a log that are looked at, and Topic Aliases of a connection that are known
LINE = re.compile(
    r"(\d++) record \d++(?: moment \d++)? (OPEN|SENT|RECV)(?: (\S++)(?: size \d++(?: qos \d dup \d)?(?: id (\d++))?)?)?"
)
RECEIVED = {("RECV", "PUBREC"), ("SENT", "PUBREL")}  # from here on the PUBLISH isn't sent again


def looks_like(event: str, subject: str = "This") -> str:
    """What is said of such a PUBLISH, with the words for the event that it repeats, and for its own."""
    return (f"{subject} looks like the PUBLISH of {event} sent again: then its Packet Identifier is right, and DUP has"
            " to be 1 (section 3.3.1.1).")


class Sending(NamedTuple):
    """A PUBLISH with DUP 0 that the tested end sent, as far as it is compared with another."""

    position: int
    connection: int  # counted from 1
    qos: str | None
    topic: str  # empty where it isn't known
    payload: str | None  # its size

    def repeats(self, before: Sending) -> bool:
        """Whether it looks like one of an earlier connection."""
        is_same = (self.qos, self.topic, self.payload) == (before.qos, before.topic, before.payload)
        return bool(self.topic) and is_same and before.connection < self.connection


class Resends:
    """Takes in the lines of `show --long`, and finds the PUBLISHes that look like one of an earlier connection.

    Which event holds the identifier the program says. The lines have only the size of a payload, so those that are
    found are compared once more, as they are in the log.
    """

    def __init__(self, holders: dict[int, int]) -> None:
        """Holders are the events that hold the identifiers of events at fault, by the positions of these."""
        self.found: dict[int, int] = {}  # the event that each of them repeats, by their positions
        self._sizes: dict[int, int] = {}  # of the payloads of both
        self._holders = dict(sorted(holders.items())[:MOST])
        self._held = set(self._holders.values())
        self._wanted = self._holders.keys() | self._held
        self._last = max(self._holders, default=0)
        self._sendings: dict[int, Sending] = {}  # those that hold an identifier, by their positions
        self._open: dict[str, int] = {}  # the last of them under each identifier, until it isn't sent again
        self._topics: dict[str, str] = {}  # of the connection's Topic Aliases
        self._connection = 0
        self.is_done = not holders  # no other line is needed

    def confirmed(self, log: Path) -> dict[int, int]:
        """Those that were found and have the same payload; of a log's later events that can't be said."""
        def payload(position: int, packet: bytes) -> bytes:
            return sha256(packet[len(packet) - self._sizes[position] :]).digest()

        try:
            payloads = packets_at(log, set(self._sizes), payload) if self.found else {}
        except OSError:
            return {}
        return {position: first for position, first in self.found.items()
                if position in payloads and payloads[position] == payloads.get(first)}

    def take(self, line: str) -> None:
        found = LINE.match(line)
        if not found:
            return
        position, kind, name, number = int(found[1]), found[2], found[3], found[4]
        if kind == "OPEN":
            self._connection += 1
            self._topics.clear()
        elif (kind, name) == ("SENT", "PUBLISH") and (position in self._wanted or ALIAS in line):
            self._send(line)
        elif (kind, name) in RECEIVED:
            self._open.pop(number, None)
        self.is_done = position >= self._last

    def _send(self, line: str) -> None:
        """Takes in a PUBLISH, and compares one at fault with what holds its identifier."""
        event = read_event(line)
        if event is None:
            return
        topic, position, number = self._topic(event), event.position, str(event.identifier)
        if position not in self._wanted or event.field("dup") != "0":
            return
        sending = Sending(position, self._connection, event.field("qos"), topic, event.field("payload"))
        before = self._sendings.get(self._holders.get(position, 0))
        if before and self._open.get(number) == before.position and sending.repeats(before):
            self.found[position] = before.position
            self._sizes |= dict.fromkeys((position, before.position), int(sending.payload or 0))
        if position in self._held:
            self._sendings[position], self._open[number] = sending, position

    def _topic(self, event: Event) -> str:
        """The Topic Name of a PUBLISH, or what its Topic Alias stands for; empty where it is unknown, or very long."""
        topic, alias = event.field("topic"), event.field("topic-alias") or ""
        if event.is_cut:  # it may have an alias that isn't kept
            self._topics.clear()
            return ""
        if not topic:
            return self._topics.get(alias, "")
        kept = "" if isinstance(topic, Text) and topic.size else topic
        if alias and (alias in self._topics or len(self._topics) < MOST):
            self._topics[alias] = kept
        return kept
