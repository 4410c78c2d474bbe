"""Judges both ends of a log: what the tested end does after the exerciser's own first fault doesn't count.

The statements on sessions say what an end does as long as its peer keeps the rules too. So a log that has faults is
judged once more from the exerciser's end, with SENT and RECV exchanged. From its first fault on, faults of the tested
end by these statements are there to be looked at, and no more. Those that hold whatever the peer does still count.
"""
from __future__ import annotations

import tempfile
import threading
from collections import Counter
from collections.abc import Iterator
from dataclasses import dataclass, field
from pathlib import Path

from exercising.evidence import RECV, REST, SENT, SERVER_AT, Evidence, is_sturdy, positions_without_rests, read
from judging.program import Judge
from judging.statements import ALL
from judging.story import Fault
from judging.verdict import FAULT, FAULTS, PASSED, Verdict, fault_of
from arguments import counted
from log_format import HEADER_SIZE, MARK, Version, body_size, version_of

LOOK, ONCE = "look", "once"  # why a fault doesn't count: what comes after our own, or was seen once and not again
BY_SILENCE = frozenset(("E1R", "E2R", "E3R", "E4R", "E5R", "E6R", "E7R", "S06", "C23", "C24", "D01", "D02", "D03", "D05"))
EXCHANGED = {SENT: RECV, RECV: SENT}
OF_BYTES = "W"  # the letter of the statements on a packet's bytes
OF_ERRORS = frozenset(("D01", "D03"))  # their scenarios have each another error of the client in them: all are tried again


class Pieces:
    """Cuts a log that grows into its header and its records."""

    def __init__(self) -> None:
        self._version: Version | None = None
        self._left = b""

    def feed(self, data: bytes) -> Iterator[bytes]:
        """What these bytes complete: the header, and each record. Of what is no log there is nothing."""
        self._left += data
        if self._version is None:
            self._version = version_of(self._left[:HEADER_SIZE])
            if self._version is None:
                return
            yield self._take(HEADER_SIZE)
        head_size = self._version.head_size
        while len(self._left) >= head_size:
            size = head_size + body_size(self._left[:head_size])
            if len(self._left) < size:
                return
            yield self._take(size)

    def _take(self, size: int) -> bytes:
        piece, self._left = self._left[:size], self._left[size:]
        return piece


def exchanged(piece: bytes) -> bytes:
    """A log's header or a record as it is for the other end; nothing where that has none."""
    if piece.startswith(MARK):
        return piece[:SERVER_AT] + bytes((piece[SERVER_AT] ^ 1,)) + piece[SERVER_AT + 1 :]
    return b"" if piece[0] == REST else bytes((EXCHANGED.get(piece[0], piece[0]),)) + piece[1:]


def other_end(log: bytes) -> bytes:
    """The log as it is for the other end: without RESTs, since nobody knows when that end is at rest."""
    return b"".join(map(exchanged, Pieces().feed(log)))


@dataclass
class Fairness:
    """Takes out of a verdict what may be the exerciser's own doing."""

    judge: Judge | None = None
    is_of_all: bool = False  # the further statements are judged too
    own: dict[Path, list[Fault]] = field(default_factory=dict)  # the exerciser's faults, at the log's own positions
    looks: dict[Path, list[Fault]] = field(default_factory=dict)
    _lock: threading.Lock = field(default_factory=threading.Lock)

    def weigh(self, verdict: Verdict) -> None:
        if verdict.status != FAULTS:
            return
        first = min((fault.position for fault in self.own_faults(verdict.path)), default=None)
        looks = [fault for fault in verdict.found
                 if first is not None and first <= fault.decided and not is_sturdy(fault.code)]
        with self._lock:
            self.looks[verdict.path] = looks
        take_out(verdict, looks, LOOK)

    @property
    def looked_at(self) -> Counter[str]:
        """How often each code is there only to be looked at."""
        with self._lock:
            return Counter(fault.code for faults in self.looks.values() for fault in faults)

    def own_faults(self, path: Path) -> list[Fault]:
        """What the exerciser breaks itself, but for what shows by silence: whether it was at rest nobody knows."""
        with self._lock:
            if path in self.own:
                return self.own[path]
        found = self._judge_other_end(path)
        self.keep_own(path, found)
        return found

    def keep_own(self, path: Path, faults: list[Fault]) -> None:
        with self._lock:
            self.own[path] = faults

    def _judge_other_end(self, path: Path) -> list[Fault]:
        assert self.judge is not None
        log = path.read_bytes()
        with tempfile.NamedTemporaryFile(suffix=".log") as room:
            room.write(other_end(log))
            room.flush()
            words = ["check", *([ALL] if self.is_of_all else []), room.name]
            lines = [FAULT.fullmatch(line) for line in self.judge.ask(*words).splitlines()]
        faults = [fault for fault in map(fault_of, filter(None, lines)) if fault.code not in BY_SILENCE]
        return in_the_log(log, faults)

    def evidence(self, verdict: Verdict, may_break: bool) -> Evidence:
        """Where a log puts what to the test. What the exerciser broke is looked for only if it may have, or if the log
        has faults."""
        own = self.own_faults(verdict.path) if may_break or verdict.found else []
        bad = {fault.position: fault.code for fault in (*verdict.found, *own) if fault.code[0] == OF_BYTES}
        found = read(verdict.path.read_bytes(), bad, self.is_of_all)
        if own:
            found.keep_before(min(fault.position for fault in own))
        return found


def in_the_log(log: bytes, faults: list[Fault]) -> list[Fault]:
    """The other end's faults at the positions of the log itself, which has RESTs."""
    kept = positions_without_rests(log) if faults else []
    return [fault._replace(position=kept[fault.position - 1]) for fault in faults if fault.position <= len(kept)]


def take_out(verdict: Verdict, faults: list[Fault], why: str) -> None:
    """Takes faults out of what counts of a verdict, and says so in it."""
    for code in sorted({fault.code for fault in faults}):
        gone = [fault for fault in faults if fault.code == code]
        key = next((key for key in verdict.faults if key.split()[0] == code), None)
        if key is None:
            continue
        verdict.ignored.append(f"{code} {counted(len(gone), 'fault')} ({why})")
        verdict.faults[key] -= len(gone)
        if verdict.faults[key] > 0:
            left = [fault for fault in verdict.found if fault.code == code and fault not in gone]
            verdict.found = [fault for fault in verdict.found if fault not in gone]
            verdict.positions[code] = left[0].position
            verdict.first = [line for line in verdict.first if not is_line_of(line, gone)]
        else:
            del verdict.faults[key]
            verdict.positions.pop(code, None)
            verdict.overlooked[code] = why
    if not verdict.faults:
        verdict.status = PASSED


def is_line_of(line: str, faults: list[Fault]) -> bool:
    found = FAULT.fullmatch(line)
    return found is not None and fault_of(found) in faults
