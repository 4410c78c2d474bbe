"""Checks a report against the part of the schema of SARIF 2.1.0 (OASIS, sarif-schema-2.1.0.json) that it uses.

The schema itself isn't in this repository. Of each object that may come, here stand the properties that it may have, as
the schema has them, with the kinds of their values, and those that it must have. An object with any other property has
a problem, as it has by the schema, and so has one with a property of the schema that these reports never use.
"""
from __future__ import annotations

import re
from typing import Any

TEXT, NUMBER, YES_OR_NO, BAG = "a text", "a number", "true or false", "any object"
LEVEL = ("none", "note", "warning", "error")
OBJECTS: dict[str, tuple[set[str], dict[str, Any]]] = {  # what it must have, and what it may have
    "sarifLog": ({"version", "runs"}, {"$schema": TEXT, "version": ("2.1.0",), "runs": ["run"], "properties": BAG}),
    "run": ({"tool"}, {"tool": "tool", "invocations": ["invocation"], "results": ["result"],
                       "columnKind": ("utf16CodeUnits", "unicodeCodePoints"), "properties": BAG}),
    "tool": ({"driver"}, {"driver": "toolComponent", "properties": BAG}),
    "toolComponent": ({"name"}, {"name": TEXT, "version": TEXT, "rules": ["reportingDescriptor"], "properties": BAG}),
    "reportingDescriptor": ({"id"}, {"id": TEXT, "shortDescription": "multiformatMessageString",
                                     "fullDescription": "multiformatMessageString", "help": "multiformatMessageString",
                                     "defaultConfiguration": "reportingConfiguration", "properties": BAG}),
    "reportingConfiguration": (set(), {"level": LEVEL, "properties": BAG}),
    "multiformatMessageString": ({"text"}, {"text": TEXT, "markdown": TEXT, "properties": BAG}),
    "invocation": ({"executionSuccessful"}, {"executionSuccessful": YES_OR_NO,
                                             "toolExecutionNotifications": ["notification"], "properties": BAG}),
    "notification": ({"message"}, {"level": LEVEL, "message": "message", "locations": ["location"], "properties": BAG}),
    "result": ({"message"}, {"ruleId": TEXT, "ruleIndex": NUMBER, "level": LEVEL, "message": "message",
                             "locations": ["location"], "relatedLocations": ["location"], "partialFingerprints": BAG,
                             "suppressions": ["suppression"], "properties": BAG}),
    "message": ({"text"}, {"text": TEXT, "markdown": TEXT, "properties": BAG}),  # or an id, which isn't used
    "location": (set(), {"id": NUMBER, "physicalLocation": "physicalLocation", "logicalLocations": ["logicalLocation"],
                         "message": "message", "properties": BAG}),
    "physicalLocation": ({"artifactLocation"}, {"artifactLocation": "artifactLocation", "region": "region",
                                                "properties": BAG}),  # or an address, which isn't used
    "artifactLocation": (set(), {"uri": TEXT, "uriBaseId": TEXT, "properties": BAG}),
    "region": (set(), {"startLine": NUMBER, "properties": BAG}),
    "logicalLocation": (set(), {"fullyQualifiedName": TEXT, "kind": TEXT, "properties": BAG}),
    "suppression": ({"kind"}, {"kind": ("inSource", "external"), "justification": TEXT, "properties": BAG}),
}
URI = re.compile(r"(?:[A-Za-z0-9._~:/?#@!$&'()*+,;=-]|%[0-9A-Fa-f]{2})*")  # a reference, as its letters go


def problems(report: object) -> list[str]:
    """What is wrong with a report. Empty if nothing is."""
    return [*of_value(report, "sarifLog", "report"), *of_results(report)]


def of_value(value: object, kind: Any, place: str) -> list[str]:
    """What is wrong with a value that has to be of a kind."""
    if isinstance(kind, list):
        if not isinstance(value, list):
            return [f"{place} is no list"]
        return [wrong for number, part in enumerate(value) for wrong in of_value(part, kind[0], f"{place}[{number}]")]
    if isinstance(kind, tuple):
        return [] if value in kind else [f"{place} is none of {kind}"]
    plain = {TEXT: str, NUMBER: int, YES_OR_NO: bool, BAG: dict}
    if kind in plain:
        return [] if isinstance(value, plain[kind]) else [f"{place} isn't {kind}"]
    if not isinstance(value, dict):
        return [f"{place} is no object"]
    needed, allowed = OBJECTS[kind]
    wrong = [f"{place} has no {name}" for name in sorted(needed - value.keys())]
    wrong += [f"{place} may not have {name}" for name in sorted(value.keys() - allowed.keys())]
    for name in value.keys() & allowed.keys():
        wrong += of_value(value[name], allowed[name], f"{place}.{name}")
    return wrong + of_object(value, kind, place)


def of_object(value: dict[str, Any], kind: str, place: str) -> list[str]:
    """What the schema asks for beside names and kinds."""
    if kind == "region" and value.get("startLine", 1) < 1:
        return [f"{place}.startLine is below 1"]
    if kind == "artifactLocation" and not URI.fullmatch(value.get("uri", "")):
        return [f"{place}.uri is no reference"]
    if kind == "location" and value.get("id", 0) < -1:
        return [f"{place}.id is below -1"]
    if kind == "result" and value.get("ruleIndex", 0) < -1:
        return [f"{place}.ruleIndex is below -1"]
    return []


def of_results(report: object) -> list[str]:
    """A result's rule is the one at its index (section 3.27.6)."""
    wrong = []
    for run in report.get("runs", []) if isinstance(report, dict) else []:
        rules = run.get("tool", {}).get("driver", {}).get("rules", []) if isinstance(run, dict) else []
        for result in run.get("results", []):
            index = result.get("ruleIndex", -1)
            if index >= len(rules) or (index >= 0 and rules[index].get("id") != result.get("ruleId")):
                wrong.append(f"{result.get('ruleId')} isn't the rule at {index}")
    return wrong
