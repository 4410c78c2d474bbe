"""How often the logs put each statement to the test, and whether that is as often as is required.

The program counts the places of a log (`check --coverage`). A log that has no verdict of its own counts none: one that
is refused, that ends inside a record, that has no MQTT, or of which something is ignored.
"""
from __future__ import annotations

import re
from collections import Counter
from collections.abc import Iterable, Sequence
from dataclasses import dataclass, field
from pathlib import Path

from judging.baseline import PolicyError
from judging.statements import ENDS
from judging.verdict import Verdict, counted, one_line

COUNT = re.compile("[0-9]{1,18}")


@dataclass(frozen=True)
class Requirement:
    """A line of the file: the logs of an end are to have so many places of a statement."""

    end: str
    code: str
    places: int
    line: int  # where it stands in the file


@dataclass(frozen=True)
class Demand:
    """What is to be tested."""

    file: Path | None = None
    required: tuple[Requirement, ...] = ()
    least: int = 0  # statements of each end that has logs


@dataclass(frozen=True)
class Shortfall:
    """What isn't tested as it is required."""

    subject: str  # an end, and a statement if it is about one
    amounts: str  # what there is, and what is required
    line: int | None = None  # of the file, if a line of it requires this

    @property
    def text(self) -> str:
        return f"{self.subject}: {self.amounts}"


@dataclass
class OfEnd:
    """What the logs of an end test."""

    end: str
    logs: int = 0  # that count
    places: dict[str, int] = field(default_factory=dict)  # over all logs, by the codes in the order of reports
    unjudged: dict[str, int] = field(default_factory=dict)  # in how many logs, by what isn't judged and why

    @property
    def tested(self) -> list[str]:
        return [code for code, count in self.places.items() if count]

    @property
    def never(self) -> list[str]:
        return [code for code, count in self.places.items() if not count]

    @property
    def amount(self) -> str:
        return f"{len(self.tested)} of {len(self.places)} statements"

    @property
    def line(self) -> str:
        never = f"; never: {' '.join(self.never)}" if self.never else ""
        return f"tested: {self.end} {self.amount}{never}"

    @property
    def gaps(self) -> str:
        """In how many logs what isn't judged; empty if nothing is to be said."""
        if not self.unjudged:
            return ""
        parts = (f"{gap} in {count} of {counted(self.logs, 'log')}" for gap, count in self.unjudged.items())
        return f"not judged: {self.end} {', '.join(parts)}"


class Coverage:
    """What all logs test, and what they don't though it is required."""

    def __init__(self, verdicts: Sequence[Verdict], demand: Demand, sentences: dict[str, str] | None = None) -> None:
        """Sentences are what the statements say, by their codes."""
        self.file, self.sentences = demand.file, sentences or {}
        counting = [verdict for verdict in verdicts if not verdict.why_no_places]
        self.left_out = Counter(verdict.why_no_places for verdict in verdicts if verdict.why_no_places)
        of_ends = {end: [verdict for verdict in counting if verdict.end == end] for end in ENDS}
        self.ends = {end: of_end(end, those) for end, those in of_ends.items() if those}
        named = {verdict.end for verdict in verdicts}
        self.shortfalls = [*self._too_rare(demand.required), *self._too_few(demand.least, named)]

    @property
    def lines(self) -> list[str]:
        """A line for each end that has logs which count, another if something wasn't judged, and one on those that don't count."""
        ends = [line for one in self.ends.values() for line in (one.line, one.gaps) if line]
        return [*ends, *([self.note] if self.note else [])]

    @property
    def note(self) -> str:
        """Which logs don't count."""
        if not self.left_out:
            return ""
        reasons = ", ".join(f"{count} {reason}" for reason, count in sorted(self.left_out.items()))
        return f"no places count of {counted(self.left_out.total(), 'log')}: {reasons}"

    @property
    def untested(self) -> list[str]:
        """A line for each shortfall."""
        return [f"not tested: {short.text}" for short in self.shortfalls]

    def _too_rare(self, required: Iterable[Requirement]) -> list[Shortfall]:
        found = []
        for one in required:
            places = self.ends[one.end].places.get(one.code, 0) if one.end in self.ends else 0
            if places < one.places:
                amounts = f"{counted(places, 'place')}, {one.places} required"
                found.append(Shortfall(f"{one.end} {one.code}", amounts, one.line))
        return found

    def _too_few(self, least: int, ends: set[str]) -> list[Shortfall]:
        found = []
        for end in ENDS:
            tested = len(self.ends[end].tested) if end in self.ends else 0
            if end in ends and tested < least:
                found.append(Shortfall(end, f"{counted(tested, 'statement')}, {least} required"))
        return found


def of_end(end: str, verdicts: list[Verdict]) -> OfEnd:
    """The sums over the logs of an end."""
    logs = [{key.split()[0]: count for key, count in verdict.places.items()} for verdict in verdicts]
    sums: Counter[str] = Counter()
    for places in logs:
        sums.update(places)
    gaps = Counter(gap for verdict in verdicts for gap in verdict.gaps)
    return OfEnd(end, len(logs), {code: sums[code] for code in in_order(logs)}, dict(gaps.most_common()))


def in_order(lists: Iterable[Iterable[str]]) -> list[str]:
    """What any of some lists has, in the order that they share: some leave out what others have."""
    order: list[str] = []
    for codes in dict.fromkeys(map(tuple, lists)):  # each list once
        at = 0
        for code in codes:
            if code not in order[at:]:
                order.insert(at, code)
            at = order.index(code) + 1
    return order


def read_required(path: Path) -> tuple[Requirement, ...]:
    """Reads lines `END CODE PLACES`, in capital or small letters. Empty lines, and those with # first, don't count."""
    required: dict[tuple[str, str], Requirement] = {}
    try:
        text = path.read_text("utf-8")
    except (OSError, UnicodeDecodeError) as error:
        raise PolicyError(f"--require-coverage: {one_line(path)} can't be read:"
                          f" {getattr(error, 'strerror', None) or error}") from None
    for number, line in enumerate(text.splitlines(), 1):
        words = line.split()
        if not words or line.startswith("#"):
            continue
        if len(words) != 3 or words[0].lower() not in ENDS or not COUNT.fullmatch(words[2]):
            raise PolicyError(f"--require-coverage: {one_line(path)}, line {number} isn't END CODE PLACES")
        one = Requirement(words[0].lower(), words[1].upper(), int(words[2]), number)
        known = required.setdefault((one.end, one.code), one)
        if known.places < one.places:
            required[one.end, one.code] = one
    return tuple(required.values())


def written(coverage: Coverage) -> str:
    """The sums in the form that `read_required` reads."""
    lines = []
    for one in coverage.ends.values():
        lines.append(f"# {counted(one.logs, 'log')} of a {one.end}: END CODE PLACES")
        lines += [f"{one.end} {code} {count}" for code, count in one.places.items()]
    return "".join(f"{line}\n" for line in lines)
