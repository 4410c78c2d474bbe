"""What is printed of verdicts, and JUnit XML of them."""
from __future__ import annotations

import re
import sys
from collections import Counter
from collections.abc import Sequence
from pathlib import Path
from xml.etree import ElementTree

from judging.colours import Paint
from judging.coverage import Coverage
from judging.verdict import FAILED, FAULTS, PASSED, REFUSED, TOO_SHORT, WORDS, Verdict, counted, one_line, show

NOT_IN_XML = re.compile("[^\t\n\r\x20-\ud7ff\ue000-\ufffd\U00010000-\U0010ffff]")
FAILURES = (FAULTS, TOO_SHORT)
ERRORS = (REFUSED, FAILED)


def print_verdict(verdict: Verdict, paint: Paint | None = None) -> None:
    """Prints a verdict's line, and what there is to say of it below, in the colours that standard output has."""
    paint = paint or Paint(sys.stdout)
    print(f"{paint.status(WORDS[verdict.status], verdict.status)} {one_line(verdict.path)}")
    for line in verdict.lines:
        print(f"  {paint.line(one_line(line))}")


def print_table(verdicts: list[Verdict], program: str) -> None:
    """Each code with the number of its faults, and of the logs that have it, and what says more; and refusals."""
    faults: Counter[str] = sum((verdict.faults for verdict in verdicts), Counter())
    logs = Counter(code for verdict in verdicts for code in verdict.faults)
    if faults:
        print(f"\n{'code':4} {'faults':>8} {'logs':>6}  citation")
    for code in sorted(faults):
        name, citation = code.split()
        print(f"{name:4} {faults[code]:8} {logs[code]:6}  {citation}")
    refusals = Counter(verdict.refusal for verdict in verdicts if verdict.status == REFUSED)
    for refusal in sorted(refusals):
        print(f"{refusal}: {counted(refusals[refusal], 'log')}")
    explained = {key for verdict in verdicts if not verdict.is_foreign for key in verdict.faults}
    if explained:
        code = min(explained).split()[0]
        others = ", and so for each code" if len(explained) > 1 else ""
        print(f"what breaks {code}, and what to change: {program} explain {code}{others}")


def rest_line(verdicts: list[Verdict]) -> list[str]:
    """A line if there are logs without a REST: they may be passes though answers are missing."""
    judged = [verdict for verdict in verdicts if verdict.events is not None and verdict.has_rest is not None]
    without = sum(not verdict.has_rest for verdict in judged)
    if not without:
        return []
    return [f"no REST in {without} of {counted(len(judged), 'log')}: missing answers aren't judged there"]


def last_line(verdicts: list[Verdict], has_least: bool) -> str:
    """What all logs came to. What was ignored, and which logs are too short, is in it whatever the status is."""
    counts = Counter(verdict.status for verdict in verdicts)
    parts = [f"{counts[status]} {WORDS[status]}" for status in (PASSED, FAULTS, REFUSED, FAILED)]
    short = sum(verdict.is_short for verdict in verdicts)
    if has_least:
        parts.append(f"{counts[TOO_SHORT]} too short")
    elif short:
        parts[0] += f" ({short} of them too short to say anything)"
    line = f"{counted(len(verdicts), 'log')}: {', '.join(parts)}"
    ignored = Counter(text.rpartition(" (")[2].rstrip(")") for verdict in verdicts for text in verdict.ignored)
    amounts = ignored_amounts(verdicts)
    if ignored:
        line += f"; ignored: {', '.join(f'{amounts[way]} by {way}' for way in sorted(ignored))}"
    return line


def ignored_amounts(verdicts: list[Verdict]) -> dict[str, str]:
    """How much each option left out of the status."""
    faults: Counter[str] = Counter()
    refusals = 0
    for text in (text for verdict in verdicts for text in verdict.ignored):
        words = text.split()
        if words[0] == "refused":
            refusals += 1
        else:
            faults[words[-1].strip("()")] += int(words[1])
    amounts = {way: counted(count, "fault") for way, count in faults.items()}
    return amounts | ({"--allow-refused": counted(refusals, "refused log")} if refusals else {})


def in_xml(text: object) -> str:
    return NOT_IN_XML.sub("?", show(text))


def junit(
    verdicts: list[Verdict], empty: Sequence[Path], missing: Sequence[str], remarks: list[str],
    coverage: Coverage | None = None,
) -> ElementTree.ElementTree:
    """The verdicts as JUnit XML: a log is a test case.

    Faults are a failure, what isn't judged is an error, and what is ignored altogether is skipped. A folder without
    logs is an error too, and so is a line on what is missing. What isn't tested as it is required is a test that
    failed. Remarks are what is said of all of them.
    """
    shortfalls = coverage.shortfalls if coverage else []
    failures = sum(verdict.status in FAILURES for verdict in verdicts) + len(shortfalls)
    errors = sum(verdict.status in ERRORS for verdict in verdicts) + len(empty) + len(missing)
    skipped = sum(verdict.status == PASSED and bool(verdict.ignored) for verdict in verdicts)
    seconds = f"{sum(verdict.seconds for verdict in verdicts):.3f}"
    tests = str(len(verdicts) + len(empty) + len(missing) + len(shortfalls))
    counts = {"tests": tests, "failures": str(failures), "errors": str(errors), "time": seconds}
    suites = ElementTree.Element("testsuites", counts)
    suite = ElementTree.SubElement(suites, "testsuite", {"name": "mqjudge", "skipped": str(skipped), **counts})
    for verdict in verdicts:
        add_case(suite, verdict)
    for place, name, message in [
        *((in_xml(folder), "(no logs)", "the folder has no logs") for folder in empty),
        *(("mqjudge", "(too few logs)", line) for line in missing),
    ]:
        case = ElementTree.SubElement(suite, "testcase", {"classname": place, "name": name, "time": "0.000"})
        ElementTree.SubElement(case, "error", {"type": WORDS[FAILED], "message": message})
    for short in shortfalls:
        words = {"classname": "coverage", "name": short.subject, "time": "0.000"}
        case = ElementTree.SubElement(suite, "testcase", words)
        ElementTree.SubElement(case, "failure", {"type": "not tested", "message": short.amounts})
    if said := [*(coverage.lines if coverage else []), *remarks]:
        ElementTree.SubElement(suite, "system-out").text = in_xml("\n".join(said))
    ElementTree.indent(suites)
    return ElementTree.ElementTree(suites)


def add_case(suite: ElementTree.Element, verdict: Verdict) -> None:
    words = {"classname": in_xml(verdict.path.parent), "name": in_xml(verdict.path.name)}
    case = ElementTree.SubElement(suite, "testcase", {**words, "time": f"{verdict.seconds:.3f}"})
    text = in_xml("\n".join(verdict.lines))
    if verdict.status != PASSED:
        kind = "failure" if verdict.status in FAILURES else "error"
        words = {"type": WORDS[verdict.status], "message": in_xml(verdict.headline)}
        ElementTree.SubElement(case, kind, words).text = text
    elif verdict.ignored:
        ElementTree.SubElement(case, "skipped", {"message": in_xml("; ".join(verdict.ignored))}).text = text
    said = [text] if verdict.status == PASSED and not verdict.ignored and verdict.is_worth_a_line else []
    if said := [*said, *([verdict.silence] if verdict.silence else [])]:
        ElementTree.SubElement(case, "system-out").text = "\n".join(said)
