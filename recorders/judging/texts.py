"""Marks what is wrong in a text, for those who look at a packet's bytes.

For a text that breaks a statement (W04, W05, W14, W15) the program's offset is that of the text's length, and its mark
is on the first byte that is wrong in the text. Of what isn't UTF-8 all bytes are marked here that belong together, by
the packet in the log.
"""
from __future__ import annotations

from collections.abc import Callable, Iterator
from pathlib import Path

from judging.events import Bytes, Event, read_event
from judging.story import Story
from log_format import HEADER_SIZE, body_size, version_of

WORDS = {  # what is marked, by the statement
    "W04": "what isn't UTF-8",
    "W05": "U+0000",
    "W14": "the wildcard",
    "W15": "the misplaced wildcard",
}
BAD = " BAD "  # in a line of a packet that its bytes break a statement of
OPEN, SENT, RECV = 1, 2, 3  # kinds of records
LENGTH = 2  # bytes before a text that say how long it is
LONGEST_SIZE = 4  # bytes of a Remaining Length
SHOWN, BEFORE = 64, 32  # bytes of a packet that are printed, and how many of them before the one that is marked
MOST_EVENTS = 2_000_000  # of a log that are looked through: further on the mark stays where the program put it


class Stream:
    """What goes in one direction of a connection, cut into packets."""

    def __init__(self) -> None:
        self._rest = bytearray()
        self._is_lost = False

    def take(self, body: bytes) -> Iterator[bytes]:
        """The packet of each event at these bytes; an empty one where an invalid Remaining Length ends them all."""
        if self._is_lost:
            return
        rest, at = self._rest, 0
        rest += body
        while size := self._size(at):
            yield bytes(rest[at : at + size])
            at += size
        del rest[:at]
        if self._is_lost:
            yield b""

    def _size(self, at: int) -> int:
        """How long the packet is that begins there; 0 if it isn't whole."""
        length = 0
        for place in range(LONGEST_SIZE):
            if at + place + 1 >= len(self._rest):
                return 0
            byte = self._rest[at + place + 1]
            length |= (byte & 127) << 7 * place
            if byte < 128:
                self._is_lost = not byte and place > 0
                size = place + 2 + length
                return size if at + size <= len(self._rest) and not self._is_lost else 0
        self._is_lost = True
        return 0


def packets_at(
    log: Path, wanted: set[int], keep: Callable[[int, bytes], bytes] = lambda _, packet: packet
) -> dict[int, bytes]:
    """The packets of some events, by the events' positions, or what is to be kept of each."""
    found: dict[int, bytes] = {}
    last = max(wanted)
    with log.open("rb") as file:
        version = version_of(file.read(HEADER_SIZE))
        streams: dict[int, Stream] = {}
        position = 0
        while version and position < min(last, MOST_EVENTS) and (head := file.read(version.head_size)):
            body = file.read(body_size(head))
            if head[0] == OPEN:
                streams = {SENT: Stream(), RECV: Stream()}
            for one in streams[head[0]].take(body) if head[0] in streams else (b"",):
                position += 1
                if position in wanted:
                    found[position] = keep(position, one)
    return found


def wrong_in(code: str, text: bytes) -> range | None:
    """Which bytes of a text break a statement; None where none of them does, as in an empty filter."""
    if code == "W04":
        try:
            text.decode()
        except UnicodeDecodeError as error:
            return range(error.start, error.end)
    if code == "W05":
        at = text.find(0)
        return range(at, at + 1) if at >= 0 else None
    if code == "W14":
        return next((range(at, at + 1) for at, byte in enumerate(text) if byte in b"+#"), None)
    return misplaced_in(text) if code == "W15" else None


def misplaced_in(topic_filter: bytes) -> range | None:
    """The first wildcard of the first level that isn't valid: one with # that isn't # alone at the end, or + that isn't
    alone."""
    at = 0
    levels = topic_filter.split(b"/")
    for number, level in enumerate(levels, 1):
        is_wrong = b"#" in level and (level != b"#" or number < len(levels))
        if is_wrong or (b"+" in level and level != b"+"):
            at += next(place for place, byte in enumerate(level) if byte in b"+#")
            return range(at, at + 1)
        at += len(level) + 1
    return None


def wrong_at(code: str, offset: int, packet: bytes) -> range | None:
    """The same in a packet, by the offset of the text's length, or of a User Property, which has two texts."""
    for _ in range(2 if code in ("W04", "W05") else 1):
        begin = offset + LENGTH
        offset = begin + int.from_bytes(packet[begin - LENGTH : begin], "big")
        if found := wrong_in(code, packet[begin:offset]):
            return range(begin + found.start, begin + found.stop)
    return None


def printed(packet: bytes, marked: range) -> str:
    """The bytes around those that are marked, as the program prints them."""
    first = max(0, marked.start - BEFORE) if marked.start >= SHOWN else 0
    last = min(len(packet), first + SHOWN)
    words = [f"{byte:02X}" for byte in packet[first:last]]
    words[marked.start - first] = f"[{words[marked.start - first]}"
    words[min(marked.stop, last) - 1 - first] += "]"
    return " ".join([*([".."] if first else []), *words, *([".."] if last < len(packet) else [])])


def is_packet_of(shown: Bytes, packet: bytes) -> bool:
    """Whether a packet has the bytes that the program printed of it."""
    piece = bytes.fromhex("".join(shown.digits))
    return packet[shown.first : shown.first + len(piece)] == piece


def remarked(event: Event, packet: bytes) -> str:
    """What is said of an event, with the mark on what is wrong in a text of its packet."""
    broken, shown = event.broken, event.bytes
    if not broken or not shown or not is_packet_of(shown, packet):
        return event.rest
    code, offset = broken["code"], int(broken["offset"])
    marked = wrong_at(code, offset, packet)
    if not marked:
        return event.rest
    kind = f" type {broken['type']}" if broken["type"] else ""
    return f"BAD {code} offset {offset}{kind} at {marked.start} bytes {printed(packet, marked)}"


def is_about_text(event: Event | None) -> bool:
    """Whether what an event's bytes break is a statement on a text."""
    return bool(event and event.broken and event.broken["code"] in WORDS)


def mark_texts(excerpts: dict[str, list[str]], story: Story | None, log: Path) -> None:
    """Puts the marks of printed lines, and of a story's events, on what is wrong in their texts."""
    printed_lines = {line for kept in excerpts.values() for line in kept if BAD in line}
    lines = {line: event for line in printed_lines if (event := read_event(line))}
    events = [*lines.values(), *(scene.event for scene in (story.scenes.values() if story else ()))]
    wrong = [event for event in events if is_about_text(event)]
    if not wrong:
        return
    try:
        packets = packets_at(log, {event.position for event in wrong})
    except OSError:
        return
    for event in wrong:
        event.say(remarked(event, packets.get(event.position, b"")))
    for kept in excerpts.values():
        kept[:] = [f"{line.partition(BAD)[0]} {lines[line].rest}" if line in lines else line for line in kept]
