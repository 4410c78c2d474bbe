"""The page of a survey: its front, and a chart of a log for each kind of fault."""
from __future__ import annotations

from collections.abc import Mapping
from pathlib import Path

from arguments import counted, writing
from exercising.both_ends import Fairness, take_out
from judging.page import Front, Page, entries_of
from judging.program import Judge
from judging.reports import explain_all
from judging.verdict import Verdict
from surveying.findings import Kind, Surveyed, of_its_own
from surveying.front import front

OTHER = "other"  # why a fault doesn't count: the run took no notice of it


class Weigher:
    """Takes out of verdicts what the runs didn't count either."""

    def __init__(self, kinds: list[Kind]) -> None:
        self._broken = {run.folder: run.broken for kind in kinds for run in kind.runs}
        self.is_of_all = any(run.is_of_all for kind in kinds for run in kind.runs)
        self.fairness = Fairness(is_of_all=self.is_of_all)

    def weigh(self, verdict: Verdict) -> None:
        self.fairness.weigh(verdict)
        broken = next((codes for folder, codes in self._broken.items() if folder in verdict.path.parents), set())
        take_out(verdict, [fault for fault in verdict.found if fault.code not in broken], OTHER)


def write_page(file: Path, program: str, surveyed: list[Surveyed], kinds: list[Kind], sentences: dict[str, str],
               about: Mapping[str, object]) -> None:
    """Writes the page."""
    weigher = Weigher(kinds)
    judge = Judge(program, 0, weigher.weigh, keeps=True, tells=True, is_of_all=weigher.is_of_all)
    weigher.fairness.judge = judge
    verdicts = [judge.judge(log) for log in dict.fromkeys(kind.log for kind in kinds)]
    numbers = {entry.verdict.path: entry.number for entry in entries_of(verdicts)}
    places = {kind.name: numbers[kind.log] for kind in kinds}
    tested = [one for one in surveyed if one.runs]
    title = f"{counted(len(tested), 'program')} surveyed, {counted(len(of_its_own(kinds)), 'kind')} of faults"
    summary = f"On {about['system']}, {about['date']}: {', '.join(one.title for one in tested)}."
    page = Page(str(about["judged by"]), summary, [], explain_all(judge, verdicts),
                front=Front(title, front(surveyed, kinds, sentences, places)))
    text = page.write(verdicts)
    with writing(file):
        file.write_text(text, "utf-8", "replace")
