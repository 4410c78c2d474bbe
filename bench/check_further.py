#!/usr/bin/env python3
"""Compares the program with the worked logs of the further statements (further_rows.txt), of which it judges some on request.

For each log, by `check --all` and by `check --times`, the program has to say the faults that the row has, those of statements that it
judges then, and no others of these; with `--coverage` the places; and with `--why` what the faults conflict with. Each is said beside
what reference.py says of the 74 statements, and without these options the program says nothing else. With no program only the rows are
looked at: that each statement that the program judges has logs that break and keep it.

usage: bench/check_further.py [--mqjudge PATH]
"""
import argparse
import sys
from collections.abc import Iterator
from pathlib import Path

sys.dont_write_bytecode = True  # the repository stays as it is
import because
import further
import further_worked
import on_request
import reference
from further_table import ALL, ASKED, CITATIONS, JUDGED, TIMES
from further_worked import Row
from judges import judge_on

Wanted = tuple[tuple[str, ...], str]  # words after `check`, and the report


def with_faults(row: Row, asked: str) -> str:
    """The report of `check` by this option, by the faults that are written in the row."""
    of_judged = [fault for fault in row.faults if fault[1] in ASKED[asked]]
    return on_request.merged(reference.reported(row.recording), [further.fault_line(row.log, fault) for fault in of_judged])


def wanted(row: Row) -> Iterator[Wanted]:
    """What the program is to say of the log."""
    yield (), reference.reported(row.recording)
    for asked in (ALL, TIMES):
        report = with_faults(row, asked)
        yield (asked,), report
        yield (asked, "--coverage"), on_request.covering(row.recording, asked)
        yield ("--why", asked), "".join(f"{line}\n" for line in because.lines(row.recording, asked=asked))
        assert report == on_request.reported(row.recording, asked), f"{row.line}: other faults are found"
    if row.code in JUDGED:
        tested = f"tested {row.code} {CITATIONS[row.code][row.log.role]} places {len(row.places)}"
        assert tested in on_request.tested(row.recording, TIMES), f"{row.line}: other places are counted"


def unwritten(rows: list[Row]) -> Iterator[str]:
    """The statements that have no log of a kind for an end that they bind."""
    seen = {(row.code, row.log.role, row.which) for row in rows}
    needed = {(code, role, which) for code in JUDGED for role in CITATIONS[code] for which in further_worked.WHICH}
    yield from (f"there is no worked log: {' '.join(one)}" for one in sorted(needed - seen))


def main() -> int:
    arguments = argparse.ArgumentParser(description="Compares the program with the worked logs of the further statements.")
    arguments.add_argument("--mqjudge", type=Path, help="the program that has to give these reports")
    given = arguments.parse_args()
    rows, count = list(further_worked.rows()), 0
    wrong = list(unwritten(rows))
    for row in rows:
        for words, report in wanted(row):
            if given.mqjudge is None:
                continue
            count += 1
            answer = judge_on(given.mqjudge, row.bytes, *words)
            if answer != report:
                wrong.append(f"{row.line:.500}\n  {' '.join(words)}\n  wanted {report!r:.500}\n  got    {answer!r:.500}")
    for line in wrong:
        print(line)
    print(f"{len(rows)} worked logs, {count} reports, {len(wrong)} wrong")
    return 1 if wrong else 0


if __name__ == "__main__":
    sys.exit(main())
