#!/usr/bin/env python3
"""Writes the reference of a table: which scenario brings each situation about, by the logs of runs of the exerciser.

First comes the scenario that brought about most, then the one that adds most to it, and so on; a scenario that takes
longer counts for less. Several folders with logs are those of one run after the other: of different brokers, for
example.

usage: recorders/exercising/make_reference.py broker|client LOGS ..
"""
from __future__ import annotations

import sys
from collections import defaultdict
from pathlib import Path

sys.dont_write_bytecode = True  # the repository stays as it is
HERE = Path(__file__).resolve().parent
sys.path.insert(0, str(HERE.parent))
from exercising import client_verbs, verbs
from exercising.evidence import read
from exercising.situations import Situation, ending_of, met_by, situations
from exercising.table import Scenario, read_scenarios
from log_format import records

TABLES = {"broker": (verbs.CLIENTS.shapes, verbs.NEEDS), "client": (client_verbs.HOSTS.shapes, client_verbs.NEEDS)}
LEAST_SECONDS = 0.2  # that a scenario counts for
MICROSECONDS = 1e6
LATE = frozenset(("start", "slow", "alone"))  # needs of scenarios that are played after the others


def seconds_of(log: bytes) -> float:
    """How long a log took."""
    moments = [one.moment for one in records(log) if one.moment is not None]
    return (max(moments) - min(moments)) / MICROSECONDS if moments else 0.0


def gather(folders: list[Path], known: dict[str, Scenario]) -> tuple[dict[str, set[Situation]], dict[str, float]]:
    """What each scenario brought about, and how long it took."""
    met: dict[str, set[Situation]] = defaultdict(set)
    taken: dict[str, float] = defaultdict(lambda: LEAST_SECONDS)
    for path in (path for folder in folders for path in sorted(folder.glob("*/*.log"))):
        name = path.parent.name
        if name in known:
            log = path.read_bytes()
            found = read(log)
            if known[name].breaks_rules:
                found.keep_before(0)
            met[name] |= met_by(found, ending_of(known[name]))
            taken[name] = max(taken[name], seconds_of(log))
    return met, taken


def in_order(met: dict[str, set[Situation]], taken: dict[str, float], known: dict[str, Scenario]
             ) -> list[tuple[str, Situation]]:
    """Each situation with the scenario that brings it about, the most useful scenario first."""
    order: list[tuple[str, Situation]] = []
    seen: set[Situation] = set()
    left = {name: set(found) for name, found in met.items()}
    while True:
        def gain(name: str) -> tuple[bool, float, str]:
            new = len(left[name] - seen)
            return (not known[name].needs & LATE and new > 0, new / taken[name], name)

        best = max(left, key=gain, default=None)
        if best is None or not (new := left.pop(best) - seen):
            if best is None or not any(found - seen for found in left.values()):
                return order
            continue
        order += [(best, one) for one in sorted(new)]
        seen |= new


def main() -> int:
    if len(sys.argv) < 3 or sys.argv[1] not in TABLES:
        sys.exit((__doc__ or "").rpartition("\n\n")[2].strip())
    kind = sys.argv[1]
    known = {one.name: one for one in read_scenarios(HERE / f"{kind}.scenarios", *TABLES[kind])}
    order = in_order(*gather([Path(word) for word in sys.argv[2:]], known), known)
    lines = [f"{name} {one.code} {one.text}".rstrip() for name, one in order]
    head = "# By make_reference.py: a scenario that brings a situation about, those first that bring about most.\n"
    (HERE / f"{kind}.reference").write_text(head + "".join(f"{line}\n" for line in lines))
    missing = set(situations(kind == "broker")) - {one for _, one in order}
    print(f"{len(lines)} situations, {len({name for name, _ in order})} scenarios")
    print("\n".join(f"not brought about: {one.code} {one.text}" for one in sorted(missing)))
    return 0


if __name__ == "__main__":
    sys.exit(main())
