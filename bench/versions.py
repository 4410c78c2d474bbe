"""The two versions of the log: how long the head of a record is in each, and a log of version 1 as one of version 2.

reference.py, converting.py and the plain program have their own, as second opinions.
"""
import random
from collections.abc import Iterable, Iterator
from itertools import count, repeat

HEADER_SIZE = 8
VERSION_AT = 4  # in the header
LENGTH_END = 5  # bytes of a record up to the end of its length
MOMENT_SIZE = 8
HEAD_SIZES = {1: LENGTH_END, 2: LENGTH_END + MOMENT_SIZE}  # bytes of a record before its body, by version
LARGEST_MOMENT = (1 << 8 * MOMENT_SIZE) - 1
SECOND = 1_000_000  # in microseconds
SOME_TIME = 1_764_176_601_000_000  # in November 2025, in microseconds since 1970
OFTEN_SECOND = 1 / 3  # how often a log of those that are made by a seed is of version 2


def version_of(log: bytes) -> int:
    """The version that a log's header says; 1 where it says none."""
    said = log[VERSION_AT] if len(log) > VERSION_AT else 1
    return said if said in HEAD_SIZES else 1


def head_size(log: bytes) -> int:
    return HEAD_SIZES[version_of(log)]


def body_size(part: bytes) -> int:
    """How long the body of a record is, by its length."""
    return int.from_bytes(part[1:LENGTH_END], "big")


def records(log: bytes) -> Iterator[bytes]:
    """The records of a log, each whole, but for the last one if the log ends in it."""
    return records_in(log[HEADER_SIZE:], version_of(log))


def records_in(block: bytes, version: int) -> Iterator[bytes]:
    """The same of records without a header."""
    at, head = 0, HEAD_SIZES[version]
    while at < len(block):
        end = at + head + int.from_bytes(block[at + 1 : at + LENGTH_END], "big")
        yield block[at:end]
        at = end


def with_moment(part: bytes, moment: int) -> bytes:
    """A record of version 1 in version 2; as much as there is of it, where it isn't whole."""
    if len(part) < LENGTH_END:
        return part
    return part[:LENGTH_END] + moment.to_bytes(MOMENT_SIZE, "big") + part[LENGTH_END:]


def in_version_2(log: bytes, moments: Iterable[int] = repeat(0)) -> bytes:
    """A log of version 1 in version 2, with these moments, whatever is wrong in it. Another one stays as it is."""
    if log[: VERSION_AT + 1] != b"MQTR\x01":
        return log
    following = iter(moments)
    parts = [with_moment(part, next(following)) for part in records(log)]
    return b"".join([log[:VERSION_AT], b"\x02", log[VERSION_AT + 1 : HEADER_SIZE], *parts])


def in_version_1(log: bytes) -> bytes:
    """A log of version 2 in version 1. Another one stays as it is."""
    if log[: VERSION_AT + 1] != b"MQTR\x02":
        return log
    parts = (part[:LENGTH_END] + part[HEAD_SIZES[2] :] for part in records(log))
    return b"".join([log[:VERSION_AT], b"\x01", log[VERSION_AT + 1 : HEADER_SIZE], *parts])


def in_version(chunks: Iterable[bytes], version: int) -> Iterator[bytes]:
    """A log of version 1, in chunks that are the header and then whole records, in this version, with times as moments.

    The same chunk again gets the same moments again.
    """
    times = count(SOME_TIME, 7)
    before = made = b""
    for chunk in chunks:
        if version == 1:
            yield chunk
        elif chunk.startswith(b"MQTR\x01"):
            yield in_version_2(chunk, times)
        else:
            if chunk is not before:
                before, made = chunk, b"".join(with_moment(part, next(times)) for part in records_in(chunk, 1))
            yield made


# ---- moments by chance


def clock(draw: random.Random) -> Iterator[int]:
    """Moments as recorders write them: times that go on, some of them equal."""
    now = SOME_TIME
    while True:
        now += draw.choice((0, 1, draw.randrange(1_000), draw.randrange(10_000_000)))
        yield now


def waits(draw: random.Random) -> Iterator[int]:
    """Times that go on now and then by what a small Keep Alive allows, or some microseconds more or less."""
    now, seconds = SOME_TIME, draw.choice((1, 2, 4, 10, 60))
    while True:
        if draw.random() < 0.4:
            parts, more = draw.choice(((1, 0), (2, 0), (4, 0), (5, 1), (5, 1), (6, 0), (6, 5), (8, 0), (8, 0)))
            now += seconds * SECOND * parts // 4 * draw.choice((1, 1, 2)) + more * SECOND + draw.choice((0, 0, 1, -1, 1_000))
        yield now


def odd_moments(draw: random.Random) -> Iterator[int]:
    """Moments that no clock gives: equal, the largest, going back, or any."""
    match draw.randrange(5):
        case 0:
            return repeat(0)
        case 1:
            return repeat(LARGEST_MOMENT)
        case 2:
            return iter(lambda: draw.choice((0, 1, 9, 10, (1 << 32) - 1, 1 << 32, 1 << 63, LARGEST_MOMENT)), None)
        case 3:
            return count(draw.choice((LARGEST_MOMENT, SOME_TIME)), -draw.choice((1, 1_000_003)))
    return iter(lambda: draw.getrandbits(draw.randint(1, 8 * MOMENT_SIZE)), None)


def in_some_version(draw: random.Random, log: bytes) -> bytes:
    """A log of version 1, or a third of them in version 2, with moments as recorders write them, or with longer waits, or with odd ones."""
    if draw.random() >= OFTEN_SECOND:
        return log
    return in_version_2(log, draw.choice((clock, waits, odd_moments))(draw))
