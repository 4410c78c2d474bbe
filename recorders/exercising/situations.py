"""Situations: in which circumstances a statement is put to the test, as lines of the files `*.situations`.

A line has a statement's code, and tags after it, as `S06 q2 {one many} drop`; braces give variants. The situation has
come about where a log has a place at which the statement is put to the test and all of these tags hold (`reading.py`).
In a reference run of each table it was kept which scenario brought each situation about, in the order in which the most
new ones come soonest (`*.reference`, which `make_reference.py` writes): those scenarios are played first.

How the exerciser ended a connection the log doesn't say, so that one of these tags is the scenario's: `takeover`,
`reset`, `kill`, `term`, and `plain` where it does none of these.
"""
from __future__ import annotations

import itertools
import re
from collections.abc import Iterable
from dataclasses import dataclass
from functools import cache
from pathlib import Path

from exercising.evidence import Evidence, Place
from exercising.table import CODE, COMMENT, Scenario, TableError

ALTERNATIVES = re.compile(r"\{([^{}]*)\}")
ENDINGS = ("takeover", "reset")  # verbs that are tags
PLAIN = "plain"
HERE = Path(__file__).resolve().parent
END_NAMES = {True: "broker", False: "client"}


@dataclass(frozen=True, order=True)
class Situation:
    """A statement, and what is so where it is put to the test."""

    code: str
    words: tuple[str, ...]

    @property
    def text(self) -> str:
        return " ".join(self.words)

    def is_at(self, place: Place, ending: frozenset[str]) -> bool:
        return place.code == self.code and (place.tags | ending).issuperset(self.words)


def parse(source: str, file: str) -> list[Situation]:
    """The situations in a text. It raises a TableError."""
    found: dict[Situation, str] = {}
    for number, line in enumerate(source.splitlines(), 1):
        text = line.partition(COMMENT)[0].strip()
        if not text:
            continue
        parts = [part.split() if at % 2 else [part] for at, part in enumerate(ALTERNATIVES.split(text))]
        if not all(parts):
            raise TableError(f"{file}:{number}: nothing is in the braces")
        for choice in itertools.product(*parts):
            code, *words = "".join(choice).split()
            situation = Situation(code, tuple(words))
            if not CODE.fullmatch(code):
                raise TableError(f"{file}:{number}: {code!r} is no code of a statement, such as S06")
            if situation in found:
                raise TableError(f"{file}:{number}: {code} {situation.text} is also at {found[situation]}")
            found[situation] = f"{file}:{number}"
    return list(found)


@cache
def situations(is_server: bool) -> tuple[Situation, ...]:
    """Those of brokers, or of clients."""
    path = HERE / f"{END_NAMES[is_server]}.situations"
    return tuple(parse(path.read_text("utf-8"), path.name))


@cache
def reference(is_server: bool) -> dict[Situation, str]:
    """The scenario that brings a situation about, of those that did in a reference run; the most useful one first."""
    path = HERE / f"{END_NAMES[is_server]}.reference"
    lines = [line.split() for line in path.read_text("utf-8").splitlines() if not line.startswith(COMMENT)]
    return {Situation(code, tuple(words)): name for name, code, *words in lines}


@cache
def by_code(is_server: bool) -> dict[str, list[Situation]]:
    groups: dict[str, list[Situation]] = {}
    for situation in situations(is_server):
        groups.setdefault(situation.code, []).append(situation)
    return groups


def ending_of(scenario: Scenario) -> frozenset[str]:
    """The tags of a scenario: how it ends connections, where a log doesn't say so."""
    steps = [step for line in scenario.lines for step in line.steps]
    tags = {step.verb for step in steps if step.verb in ENDINGS}
    tags |= {step.words[0] for step in steps if step.verb == "kill"}
    return frozenset(tags or {PLAIN})


def met_by(evidence: Evidence, ending: frozenset[str]) -> frozenset[Situation]:
    """The situations that came about in a log."""
    known = by_code(evidence.is_server)
    kinds = {(place.code, place.tags): place for place in evidence.places}
    return frozenset(one for place in kinds.values() for one in known.get(place.code, ()) if one.is_at(place, ending))


def met_at(evidence: Evidence, ending: frozenset[str], places: Iterable[tuple[str, int]]
           ) -> dict[tuple[str, int], frozenset[Situation]]:
    """The situations at some places, which are codes with positions."""
    known = by_code(evidence.is_server)
    return {(code, position): frozenset(one for place in evidence.at(code, position) for one in known.get(code, ())
                                        if one.is_at(place, ending))
            for code, position in set(places)}
