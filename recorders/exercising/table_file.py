"""The last table of a run as JSON: what each statement came to, and what else was seen."""
from __future__ import annotations

import json
from collections import Counter
from pathlib import Path
from typing import Any

from arguments import writing
from exercising.both_ends import LOOK, Fairness
from exercising.evidence import FOREIGN
from exercising.outcome import Outcome
from exercising.running import Fate, Result
from exercising.situations import by_code
from judging.verdict import Verdict

FORM = 1  # the number of this form
KEPT, BROKEN, UNTESTED = "kept", "broken", "not tested"


def write_table(outcome: Outcome, fairness: Fairness, file: Path) -> None:
    """Writes what a run came to."""
    text = json.dumps(table_of(outcome, fairness), indent=1) + "\n"
    with writing(file):
        file.write_text(text, "utf-8", "replace")


def table_of(outcome: Outcome, fairness: Fairness) -> dict[str, Any]:
    """What a run came to. Logs are named by their paths in its folder."""
    played = [result for result in outcome.results if result.fate is not Fate.LEFT_OUT]
    return {
        "form": FORM,
        "all": outcome.is_of_all,
        "end": "server" if outcome.is_server else "client",
        "title": outcome.title,
        "seconds": round(outcome.seconds, 1),
        "scenarios": {"played": len(played), "completed": len(outcome.completed)},
        "logs": sum(len(result.verdicts) for result in outcome.results),
        "inside": len(outcome.inside),
        "statements": statements_of(outcome, fairness),
        "out of reach": sorted(FOREIGN[outcome.is_server]),
        LOOK: dict(sorted(fairness.looked_at.items())),
        "not seen again": dict(sorted(outcome.once.items())),
        "not completed": outcome.incomplete,
        "seen": outcome.seen,
    }


def statements_of(outcome: Outcome, fairness: Fairness) -> dict[str, dict[str, Any]]:
    """What each statement came to that such an end could break."""
    places: Counter[str] = Counter()
    for result in outcome.completed:
        places.update(result.counts)
    found = {}
    for code in outcome.reachable:
        fate = BROKEN if code in outcome.broken else KEPT if code in outcome.tested else UNTESTED
        said: dict[str, Any] = {"fate": fate, "places": 0 if fate == UNTESTED else places[code]}
        every = by_code(outcome.is_server).get(code, [])
        said["situations"] = {"met": sum(one.code == code for one in outcome.met), "of": len(every)}
        if fate == BROKEN:
            said |= of_broken(outcome, fairness, code)
        elif fate == UNTESTED:
            said["why"] = outcome.why_untested(code)
        found[code] = said
    return found


def of_broken(outcome: Outcome, fairness: Fairness, code: str) -> dict[str, Any]:
    """Where a statement is broken: how often, in which scenarios and situations, and in which logs, small ones first.

    Apart from the others are scenarios in which the exerciser breaks rules, or has broken one by a mistake before.
    """
    by_path = {verdict.path: result for result in outcome.results for verdict in result.verdicts}
    here = [verdict for verdict in outcome.verdicts if faults_of(verdict, code)]
    loose = {one.path for one in here if one.path in by_path and is_provoked(by_path[one.path], one, fairness, code)}
    inside = {verdict.path for verdict in outcome.inside}
    here.sort(key=lambda one: (one.path in inside, one.path in loose, one.events or 0, one.path))
    strict = {by_path[one.path].scenario.name for one in here if one.path in by_path and one.path not in loose}
    every = {result.scenario.name for result in outcome.results if code in result.broken}
    return {
        "faults": sum(faults_of(one, code) for one in here if one.path not in inside),
        "faults inside": sum(faults_of(one, code) for one in here if one.path in inside),
        "scenarios": sorted(strict),
        "scenarios that break rules": sorted(every - strict),
        "broken in": sorted(one.text for one in outcome.broken_in if one.code == code and one.words),
        "seen again": sorted(name for name, result in outcome.again.items() if code in result.broken),
        "logs": [{"log": str(one.path.relative_to(outcome.out)), "events": one.events,
                  "faults": faults_of(one, code), "first": one.positions.get(code)} for one in here],
    }


def is_provoked(result: Result, verdict: Verdict, fairness: Fairness, code: str) -> bool:
    """Whether the exerciser breaks rules in a log's scenario, or had broken one before each fault of a statement."""
    own = [fault.position for fault in fairness.own_faults(verdict.path)]
    faults = [fault.decided for fault in verdict.found if fault.code == code]
    return result.scenario.breaks_rules or bool(own and faults and min(own) <= min(faults))


def faults_of(verdict: Verdict, code: str) -> int:
    """How many faults of a code count in a log."""
    return sum(count for key, count in verdict.faults.items() if key.split()[0] == code)
