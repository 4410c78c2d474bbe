"""What the program said of a log, and what the policy made of it."""
from __future__ import annotations

import re
import sys
from collections import Counter
from dataclasses import dataclass, field
from pathlib import Path
from typing import Any, NamedTuple

from judging.causes import Evidence, Key, said
from judging.excerpt import sentence_in, told, with_causes
from judging.resends import TAKEN, looks_like
from judging.story import Fault, Story

HERE = Path(__file__).resolve().parent
sys.path.insert(0, str(HERE.parent))
from arguments import counted  # noqa: E402
from log_format import time_text  # noqa: E402

PASSED, FAULTS, REFUSED, FAILED = 0, 1, 2, 4
TOO_SHORT = 5  # no status of the program: a pass of too few events to say anything
WORDS = {PASSED: "pass", FAULTS: "fail", REFUSED: "refused", FAILED: "failed", TOO_SHORT: "too short"}
SHORT = 3  # events that a connection takes to open: OPEN, CONNECT, CONNACK
FAULT = re.compile(r"fault (\d+) (\S+) (\S+) decided (\d+) record (\d+) offset (\d+|-)")
ENDING = re.compile(r"(?:pass|fail \d+ faults) (\d+) events")
TESTED = re.compile(r"tested (\w+ \S+) places (\d+)")
COVERED = re.compile(r"covered \d+ of \d+ statements")
UNJUDGED = re.compile(r"unjudged (.+?) ([a-z-]+)(?: (\w+) bytes (\d+))?(?: event (\d+) record (\d+))?")

NO_REST = "answers no-rest"

REFUSED_LINE = re.compile(r"refused (\d+) (\w+) at (\d+)")


def show(text: object) -> str:
    """A text that can be printed, whatever a file's name holds."""
    return str(text).encode("utf-8", "replace").decode()


def one_line(text: object) -> str:
    """The same without characters that end a line or that a terminal obeys: they are written as escapes, `\\x1b`.

    So are bytes that aren't text: `\\xff`.
    """
    words = str(text)
    if words.isprintable():
        return words
    return "".join(sign if sign.isprintable() else escape_of(sign) for sign in words)


def escape_of(sign: str) -> str:
    """A character's number as Python writes it. A byte that isn't text is one of these surrogates."""
    number = ord(sign)
    return f"\\x{number - 0xDC00:02x}" if 0xDC80 <= number <= 0xDCFF else sign.encode("unicode_escape").decode()


def fault_of(found: re.Match[str]) -> Fault:
    position, code, citation, decided, record, offset = found.groups()
    return Fault(int(position), code, citation, int(decided), int(record), None if offset == "-" else int(offset))


class Gap(NamedTuple):
    """What of a log wasn't judged, why, of which type is a packet that was begun, and how many bytes of it came, and from which event and
    record on, if it is one event."""

    what: str
    why: str
    type: str | None
    bytes: str | None
    event: str | None
    record: str | None

    @property
    def words(self) -> str:
        return f"{self.what} {self.why}"

    @property
    def data(self) -> dict[str, Any]:
        """It as the program says it in JSON."""
        begun = {} if self.type is None else {"bytes": int(self.bytes or 0), "type": self.type}
        place = {} if self.event is None else {"event": int(self.event), "record": int(self.record or 0)}
        return begun | place | {"what": self.what, "why": self.why}


@dataclass
class Verdict:
    """What the program said of a log: its first lines, the last one, and how often each code came."""

    path: Path
    status: int = FAILED
    first: list[str] = field(default_factory=list)
    last: str = "it said nothing"
    count: int = 0  # lines
    faults: Counter[str] = field(default_factory=Counter)  # of each code with its citation
    positions: dict[str, int] = field(default_factory=dict)  # of each code's first fault
    places: dict[str, int] = field(default_factory=dict)  # of each code with its citation, where they are counted
    unjudged: list[Gap] = field(default_factory=list)  # what of it wasn't judged, where the program says it
    whole: int | None = None  # bytes that were judged, where the log ends inside a record
    seconds: float = 0.0
    ignored: list[str] = field(default_factory=list)  # what the policy left out of the status, and why
    notes: list[str] = field(default_factory=list)  # what else there is to say of it
    foreign: str = ""  # what is spoken in its place, where that isn't MQTT; one of the notes
    is_foreign: bool = False  # nothing else is spoken: what breaks a statement there can't be changed by its advice
    has_rest: bool | None = None  # None where it isn't a log
    sentences: dict[str, str] = field(default_factory=dict)  # what each code says
    excerpts: dict[str, list[str]] = field(default_factory=dict)  # what happened around each code's first fault
    moments: dict[int, int] = field(default_factory=dict)  # of the events at fault, where the log has moments
    evidence: dict[Key, Evidence] = field(default_factory=dict)  # what faults conflict with, where the program says it
    causes: dict[int, str] = field(default_factory=dict)  # the lines of what the first fault of each code conflicts with
    resent: dict[int, int] = field(default_factory=dict)  # of PUBLISHes under an identifier in use: which each repeats
    keeps: bool = False  # whether each fault is kept, for a report that names all
    is_of_all: bool = False  # whether it is on the further statements too
    is_of_times: bool = False  # and whether on those on times
    found: list[Fault] = field(default_factory=list)  # all faults, where they are kept
    overlooked: dict[str, str] = field(default_factory=dict)  # the codes that are ignored, and by which option
    end: str = ""  # which end is tested, where that is to be shown
    story: Story | None = None  # what happened, where it is to be shown

    def take(self, line: str, most: int) -> None:
        """Takes in the program's next line. No more than `most` of them are kept, and the last one.

        Those that say how often statements were tested, and what wasn't judged, are no part of the report.
        """
        if tested := TESTED.fullmatch(line):
            self.places[sys.intern(tested[1])] = int(tested[2])
            return
        if COVERED.fullmatch(line):
            return
        if line.startswith("unjudged "):
            if gap := UNJUDGED.fullmatch(line):
                self.unjudged.append(Gap(*gap.groups()))
            return
        words = line.split()
        if words[:1] == ["fault"] and len(words) > 3:
            self.faults[" ".join(words[2:4])] += 1
            if words[1].isdigit():
                self.positions.setdefault(words[2], int(words[1]))
            if self.keeps and (fault := FAULT.fullmatch(line)):
                self.found.append(fault_of(fault))
        if len(self.first) < most:
            self.first.append(line)
        self.last, self.count = line, self.count + 1

    @property
    def gaps(self) -> list[str]:
        """What wasn't judged, and why, each once."""
        return [*dict.fromkeys(gap.words for gap in self.unjudged)]

    @property
    def events(self) -> int | None:
        """How many the log has; None where it wasn't judged."""
        ending = ENDING.fullmatch(self.last)
        return int(ending[1]) if ending else None

    @property
    def why_no_places(self) -> str:
        """Why it doesn't count what the log tests, in a word or two; empty if it does."""
        reasons = {
            "failed": self.status == FAILED,
            "refused": self.events is None,
            "cut": self.whole is not None,
            "not MQTT": self.is_foreign,
            "ignored": bool(self.ignored),
        }
        return next((reason for reason, is_so in reasons.items() if is_so), "")

    @property
    def silence(self) -> str:
        """What it doesn't say since the log has no REST; empty if it has one, or was never judged."""
        is_silent = self.events is not None and self.has_rest is False
        return "no REST: missing answers aren't judged" if is_silent else ""

    @property
    def is_short(self) -> bool:
        """It is a pass of a log in which no connection was opened."""
        return self.status == TOO_SHORT or (self.status == PASSED and self.events is not None and self.events < SHORT)

    @property
    def refusal(self) -> str:
        """Why the log was refused, without the place."""
        return self.last.partition(" at ")[0]

    @property
    def is_plain_pass(self) -> bool:
        """There is nothing to say of it but that it passes."""
        return self.status == PASSED and not self.ignored and not self.is_foreign

    @property
    def headline(self) -> str:
        if self.status == TOO_SHORT:
            return f"too short to say anything: {counted(self.events or 0, 'event')}"
        if self.status != FAULTS:
            return self.last
        codes = ", ".join(sorted({code.split()[0] for code in self.faults}))
        return f"{counted(self.faults.total(), 'fault')}: {codes}"

    @property
    def lines(self) -> list[str]:
        """The lines that explain the verdict."""
        foreign = [self.foreign] if self.foreign else []
        if self.status == FAULTS:
            kept = self._explained()
        elif self.status == TOO_SHORT:
            kept = [self.headline]
        else:
            kept = [self._with_time(line) for line in self.first]
            kept += ([f"and {self.count - len(self.first)} more"] if self.count > len(self.first) else [])
        notes = [*(f"ignored: {text}" for text in self.ignored), *(note for note in self.notes if note != self.foreign)]
        if self.whole is not None:
            notes.append(f"it ends inside a record: judged are its first {self.whole} bytes")
        return foreign + kept + notes

    @property
    def is_worth_a_line(self) -> bool:
        """Whether there is more to say of it than that it passes."""
        return self.status != PASSED or self.whole is not None or bool(self.ignored) or bool(self.foreign)

    @property
    def shown(self) -> set[int]:
        """The positions of the faults that are shown."""
        lines = (FAULT.fullmatch(line) for line in self.first)
        return {int(line[1]) for line in lines if line} | {fault.position for fault in self.found}

    @property
    def explained(self) -> set[Key]:
        """The faults of which it is said what they conflict with: those that are printed, and all that are kept."""
        return self._printed | {(fault.position, fault.code) for fault in self.found}

    @property
    def _printed(self) -> set[Key]:
        """The faults of which it is printed: those that have a line, and the first of each code."""
        lines = (FAULT.fullmatch(line) for line in self.first)
        shown = {(int(line[1]), line[2]) for line in lines if line}
        return shown | {(position, code) for code, position in self.positions.items()}

    @property
    def refused(self) -> tuple[int, str, int] | None:
        """The number of the condition under which it was refused, its name, and the place of its byte."""
        found = REFUSED_LINE.fullmatch(self.last)
        return (int(found[1]), found[2], int(found[3])) if found else None

    def time_at(self, position: int) -> str:
        """When an event at fault happened; empty where that isn't known."""
        return time_text(self.moments.get(position))

    def resend_at(self, fault: Fault, subject: str = "This") -> str:
        """A sentence, after a space, if a fault's PUBLISH looks like an earlier one; else nothing."""
        first = self._repeated(fault.position, fault.code)
        return f" {looks_like(f'event {first}', subject)}" if first else ""

    def cause_of(self, position: int, code: str) -> str:
        """What a fault conflicts with, in words; empty where that isn't known, or is nothing but its packet."""
        return said(code, self.evidence.get((position, code)))

    def _with_time(self, line: str) -> str:
        """A line as the program printed it; that of a fault with the time of its record, if that is known."""
        fault = FAULT.fullmatch(line)
        time = self.time_at(int(fault[1])) if fault else ""
        return f"{line} at {time}" if time else line

    def _explained(self) -> list[str]:
        """The faults by their codes, and what happened around the first of each. Codes of one event share that."""
        groups: dict[object, list[str]] = {}
        for key in sorted(self.faults):
            code = key.split()[0]
            groups.setdefault(self.positions.get(code, code), []).append(key)
        known = {key.split()[0] for key in self.faults} & self.sentences.keys()
        lines = []
        for keys in groups.values():
            for key in keys:
                lines += self._of_code(key)
            lines += [f"    {line}" for line in self._told(self._around([key.split()[0] for key in keys]), known)]
        return lines

    def _told(self, excerpt: list[str], known: set[str]) -> list[str]:
        """An excerpt as it is printed, below the sentences of these codes and what some faults conflict with."""
        explained, position, lines = self._printed & self.evidence.keys(), 0, []
        for line in excerpt:
            number, fault = line.partition(" ")[0], sentence_in(line)
            position = int(number) if number.isdecimal() else position
            lines.append(told(line, known, bool(fault) and (position, fault[0]) in explained))
        return lines

    def _around(self, codes: list[str]) -> list[str]:
        """What happened around the first fault of codes that have it at one event, with what it conflicts with."""
        excerpt, position = self.excerpts.get(codes[0], []), self.positions.get(codes[0], 0)
        if not excerpt:
            return []
        reasons = (self.evidence.get((position, code)) for code in codes)
        places = {reason.because for reason in reasons if reason} & self.causes.keys()
        return with_causes(excerpt, position, {place: self.causes[place] for place in places})

    def _of_code(self, key: str) -> list[str]:
        """A code's faults: how many, what they mean, and the first of them."""
        code, count = key.split()[0], self.faults[key]
        sentence = f": {self.sentences[code]}" if code in self.sentences else ""
        kept = [line for line in self.first if line.startswith("fault ") and line.split()[2] == code]
        places = [int(fault[1]) if (fault := FAULT.fullmatch(line)) else 0 for line in kept]
        again = next((place for place in [*places, self.positions.get(code, 0)] if self._repeated(place, code)), None)
        lines = []
        for line, place in zip(kept, places):
            lines += [f"  {self._with_time(line)}", *self._under(place, code, place == again)]
        lines += [f"  and {count - len(kept)} more"] if count > len(kept) else []
        if (first := self.positions.get(code, 0)) not in places:
            lines += self._under(first, code, first == again)
        return [f"{key} {counted(count, 'fault')}{sentence}", *lines]

    def _under(self, position: int, code: str, is_again: bool) -> list[str]:
        """What a fault conflicts with, and that it looks like an earlier PUBLISH, where that is to be said."""
        words = [self.cause_of(position, code), looks_like(f"event {self.resent[position]}") if is_again else ""]
        return [f"    {word}" for word in words if word]

    def _repeated(self, position: int, code: str) -> int | None:
        """The event that a fault's PUBLISH looks like."""
        return self.resent.get(position) if code == TAKEN else None
