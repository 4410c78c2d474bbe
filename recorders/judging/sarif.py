"""The verdicts as SARIF 2.1.0: a result for each fault, and a rule with its help for each code."""
from __future__ import annotations

import os
from pathlib import Path
from typing import Any
from urllib.parse import quote

from judging.coverage import Coverage, Shortfall
from judging.explain import Explanation
from judging.story import Fault
from judging.verdict import FAILED, PASSED, REFUSED, TOO_SHORT, Verdict, show

SCHEMA = "https://json.schemastore.org/sarif-2.1.0.json"
LEVELS = {REFUSED: "error", FAILED: "error", TOO_SHORT: "warning"}
Json = dict[str, Any]
NOT_TESTED: Json = {
    "id": "coverage",
    "shortDescription": {"text": "The logs test each statement as often as it is required."},
    "fullDescription": {"text": "A pass says nothing of a statement that was never put to the test."},
    "help": {"text": "Record a session in which the tested end has to keep the statement: mqjudge explain CODE says"
                     " where it is judged."},
    "defaultConfiguration": {"level": "error"},
    "properties": {"tags": ["MQTT 5.0"]},
}


def sarif(
    verdicts: list[Verdict], explanations: dict[str, Explanation], version: str, coverage: Coverage | None = None,
    asked: str = "",
) -> Json:
    """One run. What is ignored is a result that is suppressed; what isn't judged is a notification of the tool.

    What isn't tested as a line of a file requires is a result at that line, and other coverage a notification. So is
    what is said of further statements that were asked for.
    """
    codes = sorted(explanations)
    numbers = {code: number for number, code in enumerate(codes)}
    rules = [rule(explanations[code]) for code in codes]
    shortfalls = coverage.shortfalls if coverage else []
    required = [short for short in shortfalls if short.line is not None]
    driver: Json = {"name": "mqjudge", "rules": [*rules, *([NOT_TESTED] if required else [])]}
    if version:
        driver["version"] = version
    notices = [notice(verdict) for verdict in verdicts if verdict.status in LEVELS]
    remarks = [*([asked] if asked else []), *(coverage.lines if coverage else [])]
    notices += [{"level": "note", "message": {"text": line}} for line in remarks]
    notices += [{"level": "error", "message": {"text": f"not tested: {short.text}"}}
                for short in shortfalls if short.line is None]
    invocation: Json = {"executionSuccessful": not any(verdict.status == FAILED for verdict in verdicts)}
    if notices:
        invocation["toolExecutionNotifications"] = notices
    results = [result(verdict, fault, explanations, numbers) for verdict in verdicts for fault in verdict.found]
    if coverage and coverage.file:
        results += [untested(short, coverage.file, len(codes)) for short in required]
    run: Json = {"tool": {"driver": driver}, "invocations": [invocation], "columnKind": "unicodeCodePoints"}
    return {"$schema": SCHEMA, "version": "2.1.0", "runs": [run | {"results": results}]}


def rule(explanation: Explanation) -> Json:
    """A rule with what usually breaks it, and what to change."""
    sentence = explanation.sentence or explanation.code
    text = explanation.text or explanation.code
    markdown = "\n\n".join([f"**{plain(sentence)}**",
                            *(f"**{name}:** {plain(words)}" for name, words in explanation.parts.items())])
    return {
        "id": explanation.code,
        "shortDescription": {"text": sentence},
        "fullDescription": {"text": f"{sentence} {explanation.parts.get('Why', '')}".strip()},
        "help": {"text": text, "markdown": markdown},
        "defaultConfiguration": {"level": "error"},
        "properties": {"tags": ["MQTT 5.0", *([explanation.citation] if explanation.citation else [])]},
    }


def plain(text: str) -> str:
    """A text in Markdown in which no sign has a meaning."""
    return "".join(f"\\{sign}" if sign in r"\`*_[]<>#|" else sign for sign in text)


def result(verdict: Verdict, fault: Fault, explanations: dict[str, Explanation], numbers: dict[str, int]) -> Json:
    """A fault. Code hosts want a line: a log has none, so it is 1, and the message says the event."""
    sentence = verdict.foreign if verdict.is_foreign else explanations[fault.code].sentence
    time = verdict.time_at(fault.position)
    place = f"event {fault.position}, record {fault.record}"
    place += f", offset {fault.offset}" if fault.offset is not None else ""
    place += f", {time}" if time else ""
    place += f", decided at event {fault.decided}" if fault.decided != fault.position else ""
    cause = verdict.cause_of(fault.position, fault.code)
    because = f" {cause[:1].upper()}{cause[1:]}." if cause else ""
    found: Json = {
        "ruleId": fault.code,
        "ruleIndex": numbers[fault.code],
        "level": "error",
        "message": {"text": f"{fault.code} {fault.citation} at {place}: {sentence}{because}{verdict.resend_at(fault)}"},
        "locations": [location(verdict, fault.position)],
        "partialFingerprints": {"event/v1": f"{fault.code}:{fault.position}"},
        "properties": {"position": fault.position, "decided": fault.decided, "record": fault.record,
                       "offset": fault.offset},
    }
    evidence = verdict.evidence.get((fault.position, fault.code))
    if evidence is not None:
        found["properties"] |= {"because": evidence.because, "numbers": [*evidence.numbers]}
    if evidence is not None and evidence.because is not None:
        found["relatedLocations"] = [{"id": 1, "message": {"text": cause}, **location(verdict, evidence.because)}]
    if way := verdict.overlooked.get(fault.code):
        found["suppressions"] = [{"kind": "external", "justification": f"ignored by {way}"}]
    return found


def location(verdict: Verdict, position: int) -> Json:
    """Where an event of a log is."""
    return {
        "physicalLocation": {"artifactLocation": artifact(verdict.path), "region": {"startLine": 1}},
        "logicalLocations": [{"fullyQualifiedName": f"event {position}", "kind": "event"}],
    }


def untested(short: Shortfall, file: Path, number: int) -> Json:
    """What isn't tested as a line of a file requires. It has the rule of this number."""
    place = {"artifactLocation": artifact(file), "region": {"startLine": short.line}}
    return {
        "ruleId": NOT_TESTED["id"],
        "ruleIndex": number,
        "level": "error",
        "message": {"text": f"not tested: {short.text}"},
        "locations": [{"physicalLocation": place}],
        "partialFingerprints": {"requirement/v1": short.subject},
    }


def artifact(path: Path) -> Json:
    """Where a log is: under the folder that the call was made in, or anywhere."""
    inside = os.path.relpath(path)
    if not inside.startswith(os.pardir):
        return {"uri": quote(os.fsencode(inside.replace(os.sep, "/"))), "uriBaseId": "%SRCROOT%"}
    return {"uri": "file://" + quote(os.fsencode(os.path.abspath(path)))}


def notice(verdict: Verdict) -> Json:
    """A log that isn't judged, or that is too short to say anything."""
    return {
        "level": LEVELS[verdict.status],
        "message": {"text": f"{show(verdict.path)}: {verdict.headline}"},
        "locations": [{"physicalLocation": {"artifactLocation": artifact(verdict.path)}}],
    }
