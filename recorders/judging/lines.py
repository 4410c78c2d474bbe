"""The verdicts for other programs: a line of JSON for each log."""
from __future__ import annotations

import json
from typing import Any

from judging.story import Fault
from judging.verdict import WORDS, Verdict, one_line


def json_line(verdict: Verdict) -> str:
    """What is known of a log, in one line. What isn't known, or isn't there, is left out."""
    found: dict[str, Any] = {
        "log": one_line(verdict.path),
        "verdict": WORDS[verdict.status],
        "end": verdict.end,
        "events": verdict.events,
        "all": True if verdict.is_of_all else None,
        "times": True if verdict.is_of_times else None,
        "has-rest": verdict.has_rest,
        "judged-bytes": verdict.whole,
    }
    if verdict.refused:
        found |= dict(zip(("refused", "name", "at"), verdict.refused))
    elif verdict.events is None:
        found["failed"] = "\n".join(verdict.first)
    else:
        found["faults"] = [of_fault(verdict, fault) for fault in verdict.found]
    if verdict.places and not verdict.why_no_places:
        found["coverage"] = [of_places(key, count) for key, count in verdict.places.items()]
        found["unjudged"] = [gap.data for gap in verdict.unjudged]
    found |= {"ignored": verdict.ignored, "notes": verdict.notes}
    kept = {name: value for name, value in found.items() if name == "faults" or value not in (None, "", [])}
    return json.dumps(kept, ensure_ascii=False)


def of_places(key: str, count: int) -> dict[str, Any]:
    """How often a statement was tested, as `check --coverage --json` has it. The key is its code and citation."""
    code, citation = key.split()
    return {"citation": citation, "code": code, "places": count}


def of_fault(verdict: Verdict, fault: Fault) -> dict[str, Any]:
    """A fault, as `mqjudge check --why --json` has it, with its time, and the option by which it is ignored."""
    evidence = verdict.evidence.get((fault.position, fault.code))
    why = {"because": evidence.because, "numbers": [*evidence.numbers]} if evidence else {}
    more = {"time": verdict.time_at(fault.position), "ignored": verdict.overlooked.get(fault.code, "")}
    return fault._asdict() | why | {name: value for name, value in more.items() if value}
