"""Reads the raw files of the preloaded library: one for each connection, with an opening line and then records.

A file may be cut short anywhere, as when the program was killed. It is read up to its last whole record.
"""
from __future__ import annotations

import os
import struct
from array import array
from collections import OrderedDict
from collections.abc import Iterator
from dataclasses import dataclass
from enum import IntEnum
from pathlib import Path

FRAME = struct.Struct("<4sHHIIQQ")  # mark, kind, flags, process, length, stamp, nanoseconds that the call took
MARK = b"MQRW"
RECORD_MOST = 1 << 20
PIECE = 1024  # bytes that are read at once: most records are short
LINE_MOST = 256  # bytes of an opening line
WORDS = {("mqtt-raw", "1"): 6, ("mqtt-raw", "2"): 7}  # in it, by what it begins with
OPEN_MOST = 128  # files that are open at a time
LONG_CALL = 1_000_000  # nanoseconds: the return of a call that took longer is an event of its own
RETURN = 1 << 62  # marks the place of a record whose call's return is meant


class What(IntEnum):
    """What a record says. preload.h has the same numbers, but for RETURNED."""

    RECEIVED = 1
    SENT = 2
    LEFT = 3  # a process closed its last descriptor of the connection
    SHUT = 4  # the program shut down its direction
    ENDED = 5  # reading came to the end, or reading or writing failed
    HELD = 6  # the system didn't take what was to be written
    RESTARTED = 7  # TLS: what comes before isn't MQTT's
    GAP = 8  # what follows isn't known
    WRITING = 9  # a call that writes begins
    RETURNED = 100  # the call of a SENT came back


SHORT, OVERLAPPING = 1, 2  # flags of a SENT: less was taken than was given; another one was done meanwhile
PARTLY = 4  # flag of a HELD: some of the bytes may have been sent


@dataclass(frozen=True)
class Event:
    """A record. Its stamp is in nanoseconds."""

    stamp: int
    what: What
    flags: int = 0
    data: bytes = b""


class Files:
    """Reads at places of many files, and keeps some of them open."""

    def __init__(self) -> None:
        self._open: OrderedDict[Path, int] = OrderedDict()

    def read(self, path: Path, size: int, place: int) -> bytes:
        descriptor = self._open.get(path)
        if descriptor is None:
            descriptor = self._open[path] = os.open(path, os.O_RDONLY | os.O_CLOEXEC)
            if len(self._open) > OPEN_MOST:
                os.close(self._open.popitem(last=False)[1])
        self._open.move_to_end(path)
        return os.pread(descriptor, size, place)

    def close(self, path: Path) -> None:
        descriptor = self._open.pop(path, None)
        if descriptor is not None:
            os.close(descriptor)


@dataclass(frozen=True)
class RawFile:
    """A raw file, by its opening line."""

    path: Path
    is_accepted: bool
    own: str
    peer: str
    opened: int  # the stamp
    start: int  # where the records begin
    time: int | None = None  # of that stamp, in nanoseconds since 1970-01-01 UTC; raw files of version 1 have none

    @classmethod
    def read(cls, path: Path) -> RawFile | None:
        """The raw file of this path; None where it has no whole opening line."""
        with path.open("rb") as file:
            line = file.readline(LINE_MOST)
        words = line.decode("ascii", "replace").split()
        if not line.endswith(b"\n") or len(words) != WORDS.get(tuple(words[:2])):
            return None
        if words[2] not in ("accepted", "connected") or not all(word.isdecimal() for word in words[5:]):
            return None
        opened, *time = map(int, words[5:])
        return cls(path, words[2] == "accepted", words[3], words[4], opened, len(line), *time)


class Index:
    """The stamps and places of a raw file's records."""

    def __init__(self, file: RawFile) -> None:
        self._file = file
        self._stamps, self._places = array("Q"), array("Q")
        self._left: list[tuple[int, int, int]] = []  # stamp, place and process of each LEFT
        self._users: set[int] = set()  # processes that read or wrote
        self._last_data = file.opened
        self.has_clients_bytes = False  # without any it isn't known what is spoken
        self._is_held = self._is_partly = self._is_writing = False

    @classmethod
    def of(cls, file: RawFile) -> Index:
        index = cls(file)
        for place, (what, flags, process, stamp, took) in index._frames():
            index._add(place, what, flags, process, stamp, took)
        index._end()
        return index

    def _frames(self) -> Iterator[tuple[int, tuple[What, int, int, int, int]]]:
        place, size = self._file.start, self._file.path.stat().st_size
        with self._file.path.open("rb") as file:
            while place + FRAME.size <= size:
                file.seek(place)
                mark, kind, flags, process, length, stamp, took = FRAME.unpack(file.read(FRAME.size))
                is_sound = mark == MARK and What.RECEIVED <= kind <= What.WRITING and length <= RECORD_MOST
                if not is_sound or place + FRAME.size + length > size:
                    return
                yield place, (What(kind), flags, process, stamp, took)
                place += FRAME.size + length

    def _add(self, place: int, what: What, flags: int, process: int, stamp: int, took: int) -> None:
        if what is What.LEFT:
            self._left.append((stamp, place, process))
            return
        if what is What.RESTARTED:
            self._restart()
            return
        if what is What.WRITING:
            self._is_writing = True
            return
        self._put(stamp, place)
        if what in (What.RECEIVED, What.SENT):
            self._users.add(process)
            self.has_clients_bytes |= (what is What.RECEIVED) == self._file.is_accepted
            self._last_data = max(self._last_data, stamp)
        if what is What.SENT:
            if took >= LONG_CALL or self._is_held:
                self._put(stamp + took, place | RETURN)
            self._is_held, self._is_partly = bool(flags & SHORT), False
        elif what is What.HELD:
            self._is_held, self._is_partly = True, bool(flags & PARTLY)
        if what in (What.SENT, What.HELD, What.ENDED):
            self._is_writing = False

    def _restart(self) -> None:
        del self._stamps[:], self._places[:], self._left[:]
        self._users.clear()
        self.has_clients_bytes = False
        self._is_held = self._is_partly = self._is_writing = False

    def _put(self, stamp: int, place: int) -> None:
        self._stamps.append(stamp)
        self._places.append(place)

    def _end(self) -> None:
        """The connection ended when a process that used it left it, and no bytes came any more."""
        after = sorted(left for left in self._left if left[0] > self._last_data)
        if after:
            stamp, place, _ = next((left for left in after if left[2] in self._users), after[-1])
            self._put(stamp, place)

    @property
    def is_in_doubt(self) -> bool:
        """At the end something may have been sent that isn't recorded.

        Either the program ended within a call that writes, or a write over TLS of several of TLS's records failed.
        """
        return self._is_partly or self._is_writing

    @property
    def last_stamp(self) -> int:
        return max(self._stamps, default=self._file.opened)

    def events(self, files: Files) -> Iterator[Event]:
        """What happened on the connection, in the order of stamps. Stamps and places are held, and not the bytes."""
        for stamp, place in self.in_order():
            event = self.event_at(files, stamp, place)
            if event.what is What.LEFT and self.is_in_doubt:
                yield Event(stamp, What.GAP)
            yield event
        if self.is_in_doubt:
            yield Event(self.last_stamp, What.GAP)
        files.close(self._file.path)

    def in_order(self) -> Iterator[tuple[int, int]]:
        stamps, places = self._stamps, self._places
        if all(stamps[i] <= stamps[i + 1] for i in range(len(stamps) - 1)):
            return zip(stamps, places)
        return ((stamps[i], places[i]) for i in sorted(range(len(stamps)), key=stamps.__getitem__))

    def event_at(self, files: Files, stamp: int, place: int) -> Event:
        at = place & ~RETURN
        piece = files.read(self._file.path, PIECE, at)
        _, kind, flags, _, length, _, _ = FRAME.unpack_from(piece)
        if place & RETURN:
            return Event(stamp, What.RETURNED, flags)
        data = piece[FRAME.size : FRAME.size + length]
        if len(data) < length:
            data += files.read(self._file.path, length - len(data), at + len(piece))
        return Event(stamp, What(kind), flags, data)
