"""Makes a log that shows something as short as it can be: by its records, then by its packets, then by its bytes.
"""
from collections.abc import Callable, Iterator, Sequence
from typing import TypeVar

from make_log import CLOSE, OPEN, RECV, SENT, record
from versions import HEAD_SIZES, HEADER_SIZE, LENGTH_END, body_size, head_size, in_version_1, in_version_2, records, version_of

KINDS = ("", "OPEN", "SENT", "RECV", "CLOSE", "REST", "RELEASE")
MOST_TRIES = 1_500
Part = TypeVar("Part")
Shows = Callable[[bytes], bool]


# ---- taking apart


def words(log: bytes) -> str:
    """The log as words: its records, in version 2 with their moments, and their bodies in hexadecimal digits. What isn't the log of an
    end is digits alone."""
    parts, head = list(records(log)), head_size(log)
    if log[:5] not in (b"MQTR\x01", b"MQTR\x02") or len(log) < HEADER_SIZE or any(not is_whole(part, head) for part in parts):
        return log.hex()
    end = ("client", "server")[log[5] & 1] + ("" if log[6] else ", releases not recorded")
    return " ".join([end, *(f"{KINDS[part[0]]}{moment_text(part, head)} {part[head:].hex()}".rstrip() for part in parts)])


def moment_text(part: bytes, head: int) -> str:
    return f"@{int.from_bytes(part[LENGTH_END:head], 'big')}" if head > LENGTH_END else ""


def is_whole(part: bytes, head: int) -> bool:
    """Whether a record is whole, where heads have so many bytes."""
    return len(part) >= head and 0 < part[0] < len(KINDS) and len(part) - head == body_size(part)


def with_body(part: bytes, head: int, body: bytes) -> bytes:
    """A record with another body."""
    return part[:1] + len(body).to_bytes(4, "big") + part[LENGTH_END:head] + body


def first_packet(stream: bytes) -> int:
    """How many bytes the first packet has: all, if it isn't whole or its Remaining Length is none."""
    length = 0
    for n, byte in enumerate(stream[1:5]):
        length |= (byte & 0x7F) << 7 * n
        if byte < 0x80:
            return min(len(stream), n + 2 + length)
    return len(stream)


def in_packets(stream: bytes) -> list[bytes]:
    found = []
    while stream:
        size = first_packet(stream)
        found, stream = [*found, stream[:size]], stream[size:]
    return found


def packets(log: bytes) -> list[bytes]:
    """The packets of a log that begin and end with a record."""
    head = head_size(log)
    return [one for part in records(log) if part[0] in (SENT, RECV) for one in in_packets(part[head:])]


# ---- making shorter


class Tries:
    """Asks whether a log still shows it, a limited number of times."""

    def __init__(self, shows: Shows, most: int = MOST_TRIES):
        self.shows, self.left = shows, most

    def ask(self, log: bytes) -> bool:
        self.left -= 1
        return self.left >= 0 and self.shows(log)


def fewest(parts: Sequence[Part], shows: Callable[[list[Part]], bool]) -> list[Part]:
    """Parts without any one of which it isn't shown any more. Large chunks are left out first: delta debugging."""
    kept, size = list(parts), max(1, len(parts) // 2)
    while kept:
        at, before = len(kept), len(kept)
        while at > 0:
            at = max(0, at - size)
            fewer = kept[:at] + kept[at + size :]
            if len(fewer) < len(kept) and shows(fewer):
                kept = fewer
        if size == 1 and len(kept) == before:
            break
        size = max(1, size // 2) if len(kept) == before else min(size, max(1, len(kept) // 2))
    return kept


def by_packets(parts: list[bytes], head: int) -> list[bytes]:
    """The same streams with a packet in each record, which is where the packet's last byte was."""
    out: list[bytes] = []
    left = {SENT: b"", RECV: b""}

    def put_left(moment: bytes) -> None:
        out.extend(with_body(bytes([way, 0, 0, 0, 0]) + moment, head, rest) for way, rest in left.items() if rest)
        left.update({SENT: b"", RECV: b""})

    for part in parts:
        kind = part[0] if is_whole(part, head) else 0
        if kind not in left:
            if kind in (OPEN, CLOSE):
                put_left(part[LENGTH_END:head])
            out.append(part)
            continue
        found = in_packets(left[kind] + part[head:])
        is_ended = bool(found) and is_complete(found[-1])
        left[kind] = b"" if is_ended or not found else found.pop()
        out += [with_body(part, head, one) for one in found]
    put_left(bytes(head - LENGTH_END))
    return out


def is_complete(packet: bytes) -> bool:
    """A packet whose size is its own, or whose length is none, so that nothing after it counts."""
    return first_packet(packet + b"\0") == len(packet) or (len(packet) >= 5 and min(packet[1:5]) >= 0x80)


def smaller_bodies(part: bytes, head: int) -> Iterator[bytes]:
    """The record without one byte of its body, with the packet's Remaining Length right if that is one byte; or with a byte that is
    0 or 1; or with the moment 0."""
    body = part[head:]
    if any(part[LENGTH_END:head]):
        yield part[:LENGTH_END] + bytes(head - LENGTH_END) + body
    for at in reversed(range(len(body))):
        fewer = body[:at] + body[at + 1 :]
        if at >= 2 and body[1] == len(body) - 2:
            yield with_body(part, head, fewer[:1] + bytes([len(fewer) - 2]) + fewer[2:])
        else:
            yield with_body(part, head, fewer)
        yield from (with_body(part, head, body[:at] + bytes([byte]) + body[at + 1 :]) for byte in (0, 1) if byte < body[at])


def with_less_in_bodies(header: bytes, parts: list[bytes], head: int, tries: Tries) -> list[bytes]:
    at = 0
    while at < len(parts) and tries.left > 0:
        if not is_whole(parts[at], head):
            at += 1
            continue
        for smaller in smaller_bodies(parts[at], head):
            if smaller != parts[at] and tries.ask(header + b"".join([*parts[:at], smaller, *parts[at + 1 :]])):
                parts = [*parts[:at], smaller, *parts[at + 1 :]]
                break
        else:
            at += 1
    return parts


def shortest(log: bytes, shows: Shows) -> bytes:
    """A log that shows the same: without any one record, packet or byte it doesn't, unless too many had to be tried. It is one of
    version 1, or has the moments 0, if it can be."""
    tries = Tries(shows)
    if version_of(log) == 2 and tries.ask(in_version_1(log)):
        log = in_version_1(log)
    elif version_of(log) == 2 and tries.ask(in_version_2(in_version_1(log))):
        log = in_version_2(in_version_1(log))
    header, parts, head = log[:HEADER_SIZE], list(records(log)), head_size(log)
    if len(header) < HEADER_SIZE:
        return bytes(fewest(log, lambda left: tries.ask(bytes(left))))
    parts = fewest(parts, lambda left: tries.ask(header + b"".join(left)))
    if not all(is_whole(part, head) for part in parts):
        return header + bytes(fewest(b"".join(parts), lambda left: tries.ask(header + bytes(left))))
    if tries.ask(header + b"".join(by_packets(parts, head))):
        parts = fewest(by_packets(parts, head), lambda left: tries.ask(header + b"".join(left)))
    return header + b"".join(with_less_in_bodies(header, parts, head, tries))


def shortest_packet(packet: bytes, shows: Shows) -> bytes:
    """A packet that shows the same, by bytes."""
    head = HEAD_SIZES[1]
    tries = Tries(lambda log: shows(log[head:]))
    return with_less_in_bodies(b"", [record(SENT, packet)], head, tries)[0][head:]
