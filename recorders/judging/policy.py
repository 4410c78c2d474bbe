"""What of the verdicts counts for the status: what is known or ignored doesn't, and a log that is too short does."""
from __future__ import annotations

from collections import Counter, defaultdict
from collections.abc import Callable, Mapping, Sequence
from dataclasses import dataclass, field
from pathlib import Path

from judging.baseline import Baseline, PolicyError, names_of, read_expected
from judging.verdict import FAULTS, PASSED, REFUSED, TOO_SHORT, Verdict, counted

__all__ = ["Policy", "PolicyError", "Weighing", "read_expected"]
Names = frozenset[str]


def own_names(log: Path) -> Names:
    """The names of a log that was named itself."""
    return names_of(log, log.parent)


@dataclass
class Policy:
    """It weighs verdicts. Nothing that it ignores is ignored unseen: it stays in the verdict's lines and is counted."""

    ignore: frozenset[str] = frozenset()  # codes
    allow_refused: frozenset[str] = frozenset()  # numbers of refusals
    expected: Baseline | None = None  # known faults
    min_events: int = 0

    def weigh(self, verdict: Verdict, names: Names) -> None:
        """Takes out of a verdict what is ignored, and says so in it. Names are those of the log."""
        if verdict.status == FAULTS:
            self._weigh_faults(verdict, names)
        elif verdict.status == REFUSED and verdict.last.split()[1:2] and verdict.last.split()[1] in self.allow_refused:
            verdict.ignored.append(f"{verdict.refusal} (--allow-refused)")
            verdict.status = PASSED
        if verdict.status == PASSED and verdict.events is not None and not verdict.ignored:
            if verdict.events < self.min_events:
                verdict.status = TOO_SHORT

    def _weigh_faults(self, verdict: Verdict, names: Names) -> None:
        for key in sorted(verdict.faults):
            code, count = key.split()[0], verdict.faults[key]
            known = self.expected.count(names, code) if self.expected else 0
            if code in self.ignore:
                verdict.ignored.append(f"{code} {counted(count, 'fault')} (--ignore)")
                verdict.overlooked[code] = "--ignore"
            elif count <= known:
                verdict.ignored.append(f"{code} {counted(count, 'fault')} (--expect)")
                verdict.overlooked[code] = "--expect"
            else:
                if known:
                    verdict.notes.append(f"{code}: {count} faults, {known} of them expected")
                continue
            del verdict.faults[key]
            verdict.positions.pop(code, None)
        if not verdict.faults:
            verdict.status = PASSED

    def gone(
        self,
        verdicts: Sequence[Verdict],
        found: Mapping[Path, Counter[str]],
        names_of: Callable[[Path], Names] = own_names,
    ) -> list[str]:
        """Lines on known faults that no log has any more. Of a log that wasn't judged nothing is known.

        `found` has the faults of logs by their codes, before they were weighed.
        """
        if not self.expected:
            return []
        names = {verdict.path: names_of(verdict.path) for verdict in verdicts}
        logs: dict[str, list[Verdict]] = defaultdict(list)
        for verdict in verdicts:
            for name in names[verdict.path]:
                logs[name].append(verdict)
        said = []
        for known in self.expected.lines:
            fitting = logs.get(known.name, [])
            if known.is_pattern:
                fitting = [verdict for verdict in verdicts if known.fits(names[verdict.path])]
            now = max((found.get(verdict.path, Counter())[known.code] for verdict in fitting), default=0)
            if now < known.count and all(verdict.events is not None for verdict in fitting):
                said.append(f"gone: {known.name} {known.code}: {counted(known.count, 'fault')} expected, {now} found")
        return said


@dataclass
class Weighing:
    """A policy at work: it remembers what there was before it took something out."""

    policy: Policy
    names_of: Callable[[Path], Names] = own_names
    found: dict[Path, Counter[str]] = field(default_factory=dict)  # of each log the faults by their codes

    def weigh(self, verdict: Verdict) -> None:
        counts = Counter({key.split()[0]: count for key, count in verdict.faults.items()})
        if counts:
            self.found[verdict.path] = counts
        self.policy.weigh(verdict, self.names_of(verdict.path))
