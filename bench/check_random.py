#!/usr/bin/env python3
"""Compares what `mqjudge check` reports with what reference.py does: on random sessions, about half of which have packets before
the CONNACK, and on logs with the most events that may come before a CONNACK, and one more. A third of the sessions are logs of
version 2. On the sessions what `check --coverage` says is compared with occasions.py.

A session on which they differ is made as short as it can be, and printed with both reports. Where there is no program reference.py
alone judges the logs. The last line says how many of the faults were decided by a later event than their own.

usage: bench/check_random.py [--mqjudge PATH] [--logs 2000] [--seed 1]
"""
import argparse
import sys
from pathlib import Path

sys.dont_write_bytecode = True  # the repository stays as it is
import occasions
import random_logs
import reference
from judges import BUILT, Judge, judge_by
from shortening import shortest, words
from versions import in_version_2

SHORT = 5_000  # bytes of a log that is made shorter, and of one of which it is compared what was tested
# The second opinions, and for which words of `check` each is one.
OPINIONS: dict[str, tuple[Judge, list[str]]] = {
    "reference.py": (reference.report, []), "occasions.py": (occasions.report, ["--coverage"])
}


class Comparison:
    def __init__(self, program: Path | None):
        self.program = program
        self.logs = self.wrong = self.faults = self.late = 0

    def wrongly(self, name: str, *lines: str) -> None:
        self.wrong += 1
        print(f"{name}:", *lines, sep="\n  ")

    def compare(self, name: str, log: bytes) -> str:
        """What reference.py reports."""
        self.logs += 1
        report = reference.report(log)
        faults = [line.split() for line in report.splitlines() if line.startswith("fault ")]
        self.faults += len(faults)
        self.late += sum(position != decided for _, position, _, _, _, decided, *_ in faults)
        for by in OPINIONS:
            if self.program is not None and (by == "reference.py" or len(log) < SHORT):
                self.compare_by(by, self.program, name, log)
        return report

    def compare_by(self, by: str, program: Path, name: str, log: bytes) -> None:
        opinion, given = OPINIONS[by]
        judge = judge_by(program, *given)
        if judge(log) != opinion(log):
            least = shortest(log, lambda one: judge(one) != opinion(one)) if len(log) < SHORT else log
            both = {" ".join(["mqjudge check", *given]): judge(least), by: opinion(least)}
            said = [f"{who}: {'; '.join(text.splitlines())}" for who, text in both.items()]
            self.wrongly(name, f"{words(least):.1000}", *(f"{line:.4000}" for line in said))


def main() -> int:
    arguments = argparse.ArgumentParser(description="Compares mqjudge with reference.py on random logs.")
    arguments.add_argument("--mqjudge", type=Path, default=BUILT)
    arguments.add_argument("--logs", type=int, default=2_000, help="how many sessions")
    arguments.add_argument("--seed", type=int, default=1)
    given = arguments.parse_args()
    is_there = given.mqjudge.is_file()
    if not is_there:
        print(f"no program at {given.mqjudge}: reference.py alone judges")
    comparison = Comparison(given.mqjudge if is_there else None)
    for which in range(given.logs):
        comparison.compare(f"bench/random_logs.py {given.seed} {which}", random_logs.session(given.seed, which))
    for name, first, is_refused in random_logs.crowded():
        for version, log in ((1, first), (2, in_version_2(first))):
            report = comparison.compare(f"{name}, version {version}", log)
            # The byte that completes the last event is the log's last one.
            if is_refused != (report == f"refused 13 TooManyEarly at {len(log) - 1}\n"):
                comparison.wrongly(f"{name}, version {version}, by reference.py", report)
    print(f"{comparison.logs} logs, {comparison.faults} faults, {comparison.late} decided later, {comparison.wrong} wrong")
    return 1 if comparison.wrong else 0


if __name__ == "__main__":
    sys.exit(main())
