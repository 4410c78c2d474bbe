"""The verdicts as commands of GitHub's workflows, which shows them beside a change."""
from __future__ import annotations

from collections import Counter

from judging.coverage import Coverage
from judging.explain import Explanation
from judging.refusals import refusal_of
from judging.verdict import FAULTS, PASSED, REFUSED, TOO_SHORT, Verdict, counted, show

DATA = {"%": "%25", "\r": "%0D", "\n": "%0A"}
PROPERTY = DATA | {":": "%3A", ",": "%2C"}


def annotations(verdicts: list[Verdict], explanations: dict[str, Explanation]) -> list[str]:
    """A line for each log and code, since GitHub shows only the first ten of a kind: errors, and then warnings."""
    lines = [line for verdict in verdicts for line in of_log(verdict, explanations)]
    return sorted(lines, key=lambda line: not line.startswith("::error"))


def general(text: str) -> str:
    """An error that is about no log."""
    return f"::error title=mqjudge::{within(text, DATA)}"


def of_coverage(coverage: Coverage) -> list[str]:
    """An error for what isn't tested as it is required: at the line that requires it."""
    lines = []
    for short in coverage.shortfalls:
        place = f"file={within(coverage.file, PROPERTY)},line={short.line}," if short.line is not None else ""
        lines.append(f"::error {place}title=not tested::{within(short.text, DATA)}")
    return lines


def of_log(verdict: Verdict, explanations: dict[str, Explanation]) -> list[str]:
    if verdict.is_foreign:  # no advice on a statement would help
        return [command("warning" if verdict.status == PASSED else "error", verdict, "not MQTT", verdict.foreign)]
    lines = []
    counts = Counter(fault.code for fault in verdict.found)
    for code in sorted(counts):
        first = next(fault for fault in verdict.found if fault.code == code)
        way = verdict.overlooked.get(code)
        time = verdict.time_at(first.position)
        place = f"event {first.position}, {time}" if time else f"event {first.position}"
        text = f"{counted(counts[code], 'fault')}, the first at {place}: {explanations[code].sentence}"
        if cause := verdict.cause_of(first.position, code):
            text += f" {cause[:1].upper()}{cause[1:]}."
        again = next((fault for fault in verdict.found if fault.code == code and verdict.resend_at(fault)), first)
        text += verdict.resend_at(again, "This" if again is first else f"Event {again.position}")
        advice = explanations[code].advice(verdict.end)
        text += f"\n{advice}" if advice else ""
        lines.append(command("warning" if way else "error", verdict, f"{code} {first.citation}",
                             f"ignored by {way}: {text}" if way else text))
    if verdict.status in (PASSED, FAULTS):
        return lines
    meaning = refusal_of(verdict.last) if verdict.status == REFUSED else None
    text = f"{verdict.headline}\n{meaning.meaning} {meaning.advice}" if meaning else verdict.headline
    kind = "warning" if verdict.status == TOO_SHORT else "error"
    titles = {REFUSED: "the log is refused", TOO_SHORT: "the log is too short"}
    return [*lines, command(kind, verdict, titles.get(verdict.status, "there is no verdict"), text)]


def command(kind: str, verdict: Verdict, title: str, text: str) -> str:
    return f"::{kind} file={within(verdict.path, PROPERTY)},title={within(title, PROPERTY)}::{within(text, DATA)}"


def within(text: object, signs: dict[str, str]) -> str:
    """A text without the signs that would end it."""
    return "".join(signs.get(sign, sign) for sign in show(text))
