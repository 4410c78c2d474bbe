"""Writes what else is wanted of verdicts: a page, JUnit XML, and a report for code hosts."""
from __future__ import annotations

import json
from collections.abc import Sequence
from dataclasses import dataclass
from pathlib import Path

from arguments import writing
from judging.coverage import Coverage, written
from judging.explain import Explanation, read_explanation
from judging.page import Page
from judging.program import Judge
from judging.report import junit
from judging.sarif import sarif
from judging.verdict import Verdict, one_line


@dataclass(frozen=True)
class Places:
    """Where each report is written, if it is wanted."""

    html: Path | None = None
    junit: Path | None = None
    sarif: Path | None = None
    coverage: Path | None = None

    def refused(self) -> str:
        """Which of them can't be written, and why; empty if all can be."""
        named = {"junit": self.junit, "html": self.html, "sarif": self.sarif, "write-coverage": self.coverage}
        return next(filter(None, (refused_place(name, place) for name, place in named.items())), "")


def refused_place(name: str, place: Path | None) -> str:
    """Why a report that an option names can't be written; empty if it can be, or isn't wanted.

    One that wasn't there isn't there afterwards: what is interrupted before it has a report leaves none.
    """
    if place is None:
        return ""
    try:
        was_there = place.exists()
        place.open("ab").close()
        if not was_there:
            place.unlink()
    except OSError as error:
        return f"--{name}: {one_line(place)} can't be written: {error.strerror}"
    return ""


def explain_all(judge: Judge, verdicts: list[Verdict]) -> dict[str, Explanation]:
    """What the program says of each code that came."""
    codes = sorted({fault.code for verdict in verdicts for fault in verdict.found})
    return {code: read_explanation(code, judge.ask("explain", code)) for code in codes}


def write_reports(
    judge: Judge,
    places: Places,
    verdicts: list[Verdict],
    remarks: list[str],
    empty: Sequence[Path] = (),
    missing: Sequence[str] = (),
    coverage: Coverage | None = None,
    asked: str = "",
) -> None:
    """Writes the reports. The last remark is the summary; what is said of further statements, if they are asked for, is
    one of the others.

    Folders without logs, and lines on what else is missing, are errors in JUnit XML. What the logs test is in all of
    them, where it is known.
    """
    if places.coverage and coverage:
        with writing(places.coverage):
            places.coverage.write_text(written(coverage), "utf-8")
    if places.junit:
        tests = junit(verdicts, empty, missing, remarks, coverage)
        with writing(places.junit):
            tests.write(places.junit, "utf-8", xml_declaration=True)
    if not places.html and not places.sarif:
        return
    explanations = explain_all(judge, verdicts)
    version = (judge.ask("--version").splitlines() or [""])[0]
    if places.html:
        untested = set(coverage.untested if coverage else ())  # the page has them where it says what is tested
        notes = [remark for remark in remarks[:-1] if remark not in untested]
        page = Page(version, remarks[-1], notes, explanations, coverage).write(verdicts)
        with writing(places.html):
            places.html.write_text(page, "utf-8", "replace")
    if places.sarif:
        number = version.split()[1] if len(version.split()) > 1 else ""
        text = json.dumps(sarif(verdicts, explanations, number, coverage, asked), indent=1) + "\n"
        with writing(places.sarif):
            places.sarif.write_text(text, "utf-8")
