"""The format of logs by its versions (docs/LOG_FORMAT.md): the header, and the heads of records.

All that writes or reads logs here has from this file how long a head and a body may be.
"""
from __future__ import annotations

import struct
from collections.abc import Iterator
from dataclasses import dataclass
from datetime import UTC, datetime, timedelta
from typing import BinaryIO, NamedTuple

MARK = b"MQTR"  # the first bytes of each log
HEADER_SIZE = 8
VERSION_AT = 4
LENGTH_SIZE, MOMENT_SIZE = 4, 8
PIECE = 1 << 18  # bytes that are read at once
BEGINNING = struct.Struct(">BI")  # of a record: its kind, and how many bytes its body has
LARGEST_MOMENT = (1 << 8 * MOMENT_SIZE) - 1
EPOCH = datetime(1970, 1, 1, tzinfo=UTC)
MICROSECOND = timedelta(microseconds=1)
TIMES = range((datetime(2000, 1, 1, tzinfo=UTC) - EPOCH) // MICROSECOND,
              (datetime(2100, 1, 1, tzinfo=UTC) - EPOCH) // MICROSECOND)  # moments that are taken for times


@dataclass(frozen=True)
class Version:
    """A version of the format."""

    number: int
    longest_body: int  # bytes
    has_moments: bool

    @property
    def head_size(self) -> int:
        """How many bytes a record has before its body."""
        return 1 + LENGTH_SIZE + (MOMENT_SIZE if self.has_moments else 0)

    def header(self, is_server: bool, has_releases: bool) -> bytes:
        return MARK + bytes((self.number, is_server, has_releases, 0))

    def record(self, kind: int, body: bytes, moment: int) -> bytes:
        """A record as it is written. A moment that eight bytes can't say is the nearest that they can."""
        told = min(max(moment, 0), LARGEST_MOMENT).to_bytes(MOMENT_SIZE, "big") if self.has_moments else b""
        return bytes((kind,)) + len(body).to_bytes(LENGTH_SIZE, "big") + told + body


VERSIONS = {1: Version(1, 1_048_576, False), 2: Version(2, 16_777_216, True)}
NEWEST = max(VERSIONS)


class Record(NamedTuple):
    kind: int
    body: bytes
    moment: int | None  # None where the version has none


def version_of(header: bytes) -> Version | None:
    """The version that a log has by its header; None where there is no such version, or no whole header."""
    is_whole = len(header) >= HEADER_SIZE and header.startswith(MARK)
    return VERSIONS.get(header[VERSION_AT]) if is_whole else None


def body_size(head: bytes) -> int:
    """How many bytes the body has that comes after a record's head."""
    return int.from_bytes(head[1 : 1 + LENGTH_SIZE], "big")


def records(log: bytes) -> Iterator[Record]:
    """The records of a log. It raises a ValueError where the log is of no known version, or ends inside a record."""
    version = version_of(log)
    if version is None:
        raise ValueError(f"no log of a known version: {log[:HEADER_SIZE].hex()}")
    at = HEADER_SIZE
    while at < len(log):
        head, begin = log[at : at + version.head_size], at + version.head_size
        at = begin + body_size(head)
        if len(head) < version.head_size or at > len(log):
            raise ValueError("the log ends inside a record")
        moment = int.from_bytes(head[-MOMENT_SIZE:], "big") if version.has_moments else None
        yield Record(head[0], log[begin:at], moment)


def places(file: BinaryIO) -> Iterator[tuple[int, int, int]]:
    """Of each record of a log its kind, and where its body begins and ends; of what is no log, none.

    A record whose head isn't whole isn't among them. Of long bodies nothing is read. The file may be written meanwhile.
    """
    file.seek(0)
    version = version_of(file.read(HEADER_SIZE))
    size = version.head_size if version else 0
    begin = at = HEADER_SIZE
    piece = b""
    while version:
        if at + size > begin + len(piece):
            file.seek(at)
            begin, piece = at, file.read(PIECE)
            if len(piece) < size:
                return
        kind, length = BEGINNING.unpack_from(piece, at - begin)
        yield kind, at + size, at + size + length
        at += size + length


def time_of(moment: int | None) -> datetime | None:
    """The time in UTC that a moment says, if it can be one of this century in microseconds since 1970."""
    return EPOCH + moment * MICROSECOND if moment is not None and moment in TIMES else None


def time_text(moment: int | None) -> str:
    """The same in words, as `2026-11-26 17:03:21.123456 UTC`; empty where it says no time."""
    time = time_of(moment)
    return f"{time:%Y-%m-%d %H:%M:%S.%f} UTC" if time else ""
