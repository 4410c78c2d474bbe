"""Reads the lines of `mqjudge show --long`: an event each, with the fields of its packet."""
from __future__ import annotations

import re
from dataclasses import dataclass
from datetime import datetime
from functools import cached_property

from log_format import time_of

LINE = re.compile(r"(\d+) record (\d+)(?: moment (\d+))? (OPEN|CLOSE|REST|RELEASE|SENT|RECV)(?: (.*))?", re.DOTALL)
IDENTIFIER = re.compile(r"\S+ size \d+(?: qos \d dup \d)? id (\d+)")
FIELD = re.compile(r'([a-z][a-z-]*)((?: (?:"(?:[^"\\]++|\\.)*+"|[^a-z" ]\S*))*)', re.DOTALL)
VALUE = re.compile(r'"(?:[^"\\]++|\\.)*+"|\S+', re.DOTALL)
QUOTED = re.compile(r'"(?:[^"\\]++|\\.)*+"', re.DOTALL)
BEGINNING = re.compile(r'"(?:[^"\\]|\\x..|\\.){0,200}', re.DOTALL)  # of a text that is long
LONG_TEXT, LONG_EVENT = 1_000, 20_000  # characters: what is longer is cut, since a log may hold any amount
CUT = "\0"  # where something was cut, with the size that it had in bytes: the program prints no such character
BROKEN = re.compile(
    r"BAD (?P<code>\S+) offset (?P<offset>\d+)(?: type (?P<type>\S+))?(?: at (?P<at>\d+))?(?: bytes (?P<bytes>.*))?"
)
ESCAPE = re.compile(r'\\(?:x([0-9A-F]{2})|(["\\]))')
OWN = {"PUBLISH", "PUBREL", "SUBSCRIBE", "UNSUBSCRIBE"}  # carry an identifier that their sender chose


class Text(str):
    """A value that was between quotes."""

    size: int | None = None  # of all of it in bytes, where this is only its beginning


@dataclass
class Bytes:
    """The bytes of a packet that they break a statement of, as far as they are printed."""

    digits: list[str]  # two hexadecimal digits each
    marked: range | None  # which of them are marked; None where the packet ends there
    first: int  # the offset of the first one
    is_cut: bool  # others come after them


@dataclass
class Event:
    """An event of a log, as `show --long` prints it."""

    position: int
    record: int
    moment: int | None
    kind: str  # OPEN, SENT, RECV, CLOSE, REST or RELEASE
    rest: str  # what comes after the kind

    @cached_property
    def broken(self) -> re.Match[str] | None:
        """Of a packet whose bytes break a statement: its code, the offset, the type, and the bytes.

        Where a byte of a text is marked, and not the text's length at the offset, that place comes too (`at`).
        """
        return BROKEN.fullmatch(self.rest) if self.is_packet else None

    def say(self, rest: str) -> None:
        """Puts other words in place of those after the kind."""
        self.rest = rest
        self.__dict__.pop("broken", None)

    @property
    def is_packet(self) -> bool:
        return self.kind in ("SENT", "RECV")

    @cached_property
    def name(self) -> str:
        """The type of its packet, or LOST; empty for another event."""
        if not self.is_packet:
            return ""
        return (self.broken["type"] or "packet") if self.broken else self.rest.partition(" ")[0]

    @cached_property
    def identifier(self) -> int | None:
        return identifier_in(self.kind, self.rest)

    @property
    def is_own(self) -> bool:
        """Whether its Packet Identifier is one that the tested end chose."""
        return self.is_packet and (self.kind == "SENT") == (self.name in OWN)

    @property
    def is_cut(self) -> bool:
        """Whether it has more fields than are kept."""
        return self.rest.endswith(CUT)

    @cached_property
    def fields(self) -> list[tuple[str, list[str]]]:
        """The names and values, texts as they were before they were quoted. A name may come more than once."""
        if not self.is_packet or self.broken:
            return []
        pairs = FIELD.finditer(self.rest.partition(" ")[2])
        return [(pair[1], [unquoted(value) for value in VALUE.findall(pair[2])]) for pair in pairs]

    def field(self, name: str) -> str | None:
        return next((values[0] for key, values in self.fields if key == name and values), None)

    @property
    def bytes(self) -> Bytes | None:
        found = self.broken
        return bytes_of(found["bytes"], int(found["at"] or found["offset"])) if found and found["bytes"] else None

    @property
    def time(self) -> datetime | None:
        """Its moment in UTC, if it can be a time."""
        return time_of(self.moment)


def read_event(line: str) -> Event | None:
    """The event of a line; None for a line that has none."""
    found = LINE.fullmatch(line)
    if not found:
        return None
    moment = int(found[3]) if found[3] else None
    return Event(int(found[1]), int(found[2]), moment, found[4], shortened(found[5] or ""))


def shortened(rest: str) -> str:
    """What an event's line says, without the ends of long texts, and without the end of a very long line."""
    if len(rest) <= LONG_TEXT:
        return rest
    rest = QUOTED.sub(lambda found: cut(found[0]), rest)
    return rest if len(rest) <= LONG_EVENT else rest[:LONG_EVENT] + CUT


def cut(word: str) -> str:
    """A text between quotes, of which only the beginning and the size are kept if it is long."""
    beginning = BEGINNING.match(word)
    if len(word) <= LONG_TEXT or not beginning:
        return word
    return f'{beginning[0]}{CUT}{len(unquoted(word).encode("utf-8", "surrogatepass"))}"'


def identifier_in(kind: str, rest: str) -> int | None:
    """The Packet Identifier of an event, if it has one."""
    if kind == "RELEASE":
        return int(rest) if rest.isdecimal() else None
    found = IDENTIFIER.match(rest) if kind in ("SENT", "RECV") else None
    return int(found[1]) if found else None


def unquoted(word: str) -> str:
    """A value as it was before it was put between quotes."""
    if not word.startswith('"'):
        return word
    words, _, size = word[1:-1].partition(CUT)
    text = Text(ESCAPE.sub(lambda found: chr(int(found[1], 16)) if found[1] else found[2], words))
    text.size = int(size) if size else None
    return text


def bytes_of(text: str, offset: int) -> Bytes:
    """The bytes that are printed: `..` stands for those that aren't, and those from `offset` on are in brackets."""
    words = text.split()
    is_cut = len(words) > 1 and words[-1] == ".."
    words = [word for word in words if word != ".."]
    begin = next((index for index, word in enumerate(words) if word.startswith("[")), None)
    if begin is None:
        return Bytes(words, None, 0, is_cut)
    end = next((index for index, word in enumerate(words) if word.endswith("]")), begin) + 1
    digits = [word.strip("[]") for word in words]
    marked = range(begin, end) if digits[begin] else None
    return Bytes([word for word in digits if word], marked, offset - begin, is_cut)
