"""What `mqjudge convert` makes of a log of version 1, and why it refuses one: a second opinion, from docs/LOG_FORMAT.md alone.

Each record is written the same in version 2, with the moment 0 after its length. Packets aren't looked at. Of a log that is refused
all before the byte that is refused is written, unless that is in the header.
"""
from collections.abc import Iterator
from dataclasses import dataclass

from reading import Refusal

MOST_RECORDS = 4_294_967_295
LONGEST_BODY = 1_048_576
OPEN, SENT, RECV, CLOSE, REST, RELEASE = range(1, 7)
NO_MOMENT = bytes(8)


@dataclass(frozen=True)
class Conversion:
    """What is written, and why no more."""

    written: bytes
    refusal: Refusal | None = None


def converted(log: bytes, most: int = MOST_RECORDS) -> Conversion:
    """The log in version 2. It may have so many records at most."""
    refusal = header_refusal(log)
    if refusal is not None:
        return Conversion(b"", refusal)
    out, at, number, is_open = bytearray(b"MQTR\x02" + log[5:8]), 8, 0, False
    while at < len(log):
        kind, number = log[at], number + 1
        reasons = [*kind_reasons(kind, is_open, log[6] == 1), *([14] if number > most else [])]
        if reasons:
            return Conversion(bytes(out), Refusal(reasons[0], at))
        head = log[at : at + 5]
        length = int.from_bytes(head[1:], "big")
        if len(head) < 5:
            return Conversion(bytes(out + head), Refusal(10, len(log)))
        if not may_be(kind, length):
            return Conversion(bytes(out + head[:4]), Refusal(6, at + 4))
        body = log[at + 5 : at + 5 + length]
        out += head + NO_MOMENT + body
        if len(body) < length:
            return Conversion(bytes(out), Refusal(10, len(log)))
        is_open = kind != CLOSE and (is_open or kind == OPEN)
        at += 5 + length
    return Conversion(bytes(out))


def header_refusal(log: bytes) -> Refusal | None:
    """Why a header is refused. Its version has to be 1."""
    taken = [(1, {byte}) for byte in b"MQTR"] + [(2, {1}), (3, {0, 1}), (4, {0, 1}), (4, {0})]
    for at, (number, values) in enumerate(taken):
        if at >= len(log):
            return Refusal(10, len(log))
        if log[at] not in values:
            return Refusal(number, at)
    return None


def kind_reasons(kind: int, is_open: bool, has_releases: bool) -> Iterator[int]:
    """The numbers of the refusals that apply at a record's kind."""
    if kind not in range(1, 7):
        yield 5
    if kind == OPEN and is_open:
        yield 7
    if kind in (SENT, RECV, CLOSE, REST) and not is_open:
        yield 8
    if kind == RELEASE and not has_releases:
        yield 9


def may_be(kind: int, length: int) -> bool:
    """Whether a body of this kind may have this length."""
    if kind in (SENT, RECV):
        return length <= LONGEST_BODY
    return length == (2 if kind == RELEASE else 0)
