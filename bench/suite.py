#!/usr/bin/env python3
"""Makes and checks the conformance suite, `examples/suite/`: for each statement, for one end that it binds, a log that breaks it
and one that keeps it, each with its exact report as text and as JSON.

The logs and their reports are the rows of `tests/statements/suite.rt` of mq_worked, whose tests judge them too: what the row shows, the
log in words, and the report, with a semicolon between its lines. Those of the further statements that the program judges on request
are the rows of further_suite.txt: their reports are those of `check --all`, or of `check --times` if they are on times. The reports were
written from the statements' words before any program judged the logs. The two logs of a statement differ in one record, which is changed,
added or missing; on times in its moment.

What each log tests is written by occasions.py, and of a further statement by further.py: each has to test its own statement, also if
it keeps it.

With --check (or without options) it compares the files with the rows, byte by byte, and the reports with reference.py's. With
--program that program has to give the same reports for the files, as text, as JSON and with what was tested, with the right status. The
logs are of version 1; each must get the same report converted to version 2 by converting.py. Those on times are of version 2; as they are
without moments, in version 1, they must pass. --write makes the files.

usage: bench/suite.py [--check] [--program PATH]
       bench/suite.py --write
"""
import argparse
import subprocess
import sys
import tempfile
from collections.abc import Iterator
from dataclasses import dataclass
from pathlib import Path

sys.dont_write_bytecode = True  # the repository stays as it is
import check_rows
import further_table
import further_worked
import occasions
import on_request
import reading
import statements
from check_forms import as_json
from converting import converted
from further_table import ALL, ALWAYS, JUDGED, TIMED, TIMES
from judges import STATUSES
from shortening import KINDS
from versions import HEAD_SIZES, HEADER_SIZE, LENGTH_END, in_version_1, records, version_of

HERE = Path(__file__).resolve().parent
ROWS, FURTHER_ROWS = check_rows.FOLDER / "suite.rt", HERE / "further_suite.txt"
CITATIONS = statements.CITATIONS | {code: further_table.CITATIONS[code] for code in JUDGED}
FOLDER = HERE.parent / "examples/suite"
BROKEN, KEPT = "broken", "kept"
# Words, and which file has the report.
FORMS: tuple[tuple[list[str], str], ...] = (([], "report"), (["--json"], "json"), (["--coverage"], "places"))

ABOUT = """\
# The conformance suite

Logs for those who make a checker of MQTT 5.0 sessions, or a recorder: for each statement that
`mqjudge` checks, a log in which the tested end breaks it and one in which it keeps it. Both put it
to the test, and they differ in one record. Each log has its exact report beside it:

| File | What it is |
|---|---|
| `CODE-broken.log`, `CODE-kept.log` | the logs, for example `S01-broken.log` |
| `CODE-broken.report`, `CODE-kept.report` | the report as text: what `mqjudge check FILE` prints |
| `CODE-broken.json`, `CODE-kept.json` | the same as one line of JSON: what `mqjudge check --json FILE` prints |
| `CODE-broken.places`, `CODE-kept.places` | the report with what was tested: what `mqjudge check --coverage FILE` prints |

B05 to B09, P01, P02, R01, R02, F01 to F06, V03, V04, V06, C24, D01 to D03, D05, A01 to A03, K01 and
K02 are further statements, which are judged only on request: each of these commands has `--all`
too, and the reports of these logs are what it prints then. K01 and K02 are on times: there it has
`--times`.

Each broken log has one fault, that of its statement, and each kept log passes. All packets are
valid, except for the one that breaks a statement on a packet's bytes (W01 to W21), and the one that
the server receives in the logs of D01. The reports were written from the statements' words, not by
a program; what was tested was counted by `bench/occasions.py` and `bench/further.py`, a second
opinion in Python. [docs/STATEMENTS.md](../../docs/STATEMENTS.md) has all statements, with their
citations.

## A log

It has what one end of a session, the tested end, sent and received, in that end's order. First a
header of 8 bytes: `4D 51 54 52` (`MQTR`), the version `01`, `00` if the tested end is a client and
`01` if it is a server, `01` since releases are recorded, `00`. Then records: a kind (one byte), the
length of the body (four bytes, the most significant first), and the body.

| Kind | Name | Body |
|---|---|---|
| `01` | OPEN | none: a network connection begins |
| `02` | SENT | bytes that the tested end sent; here always one packet |
| `03` | RECV | bytes that it received |
| `04` | CLOSE | none: the connection ended |
| `05` | REST | none: the tested end has come to rest, and what it hasn't sent by now it never sends |
| `06` | RELEASE | a Packet Identifier: the tested end passed on the QoS 2 message that it received under it |

The logs of K01 and K02 have the version `02`: there each record has its moment before the body, in
eight bytes, the most significant first. Here it is in microseconds since the log's first record.

[docs/LOG_FORMAT.md](../../docs/LOG_FORMAT.md) has all of it.

## A report

A line for each fault, and a last line: `pass <n> events`, or `fail <m> faults <n> events`. A fault
is `fault <position> <code> <citation> decided <position> record <number> offset <n>`: the event
that breaks the statement (here each record is one event), the statement, where MQTT 5.0 says it,
the event that shows the fault, the record of the first, and for W01 to W21 the offset in the
packet, else `-`. In JSON the same has these names, and `-` is `null`.

With what was tested, the last line comes after a line `tested <code> <citation> places <n>` for
each statement on the tested end, in the order of reports: at so many events it was put to the test,
kept or broken. W15 to W19 are about packets that only a client sends, and W20 about those of a
server: for the other end they are listed only if they have a place. Then comes
`covered <m> of <n> statements`: so many of the listed ones have a place. A line for each thing that
wasn't judged follows, `unjudged <what> <why>`, with `event <position> record <number>` if it begins
with one event; the command's page has [what they mean](../../docs/COMMANDS.md#what-wasnt-judged).

## The logs

Records count from 1. One that is changed is shown as it is in both logs, with its moment if it has
one; one that is added is only in the broken log; one that is missing is only in the kept log, under
this number. "It" is the tested end, or what was named before.

| Code | Tested end | Record that differs | In the broken log; in the kept log |
|---|---|---|---|
"""


@dataclass(frozen=True)
class Row:
    code: str
    which: str  # BROKEN or KEPT
    role: str
    what: str
    log: bytes
    report: str

    @property
    def asked(self) -> str:
        """How its reports are asked for."""
        return TIMES if self.code in TIMED else ALL if self.code in JUDGED else ALWAYS

    def files(self) -> dict[str, bytes]:
        """What is in its files, by their names."""
        tested = occasions.with_lines(self.report, on_request.tested(reading.Recording(self.log), self.asked))
        texts = {"report": self.report, "json": as_json(self.report), "places": tested}
        name = f"{self.code}-{self.which}"
        return {f"{name}.log": self.log} | {f"{name}.{kind}": text.encode() for kind, text in texts.items()}


def rows() -> Iterator[Row]:
    names = further_worked.packets()
    lines = "\n".join(check_rows.TABLE.findall(ROWS.read_text())).split("\n")
    for line in [*lines, *FURTHER_ROWS.read_text().splitlines()]:
        head, words, report = (part.strip() for part in line.split("|"))
        first, _, what = head.partition(": ")
        code, which, role = first.replace(",", "").split()
        made = further_worked.timed_log if code in TIMED else check_rows.log_of
        yield Row(code, which, role, what, made(words, names), check_rows.report_of(report))


def pairs() -> list[tuple[Row, Row]]:
    found = list(rows())
    return list(zip(found[::2], found[1::2], strict=True))


# ---- the record that differs


def difference(broken: bytes, kept: bytes) -> tuple[int, str] | None:
    """The number of the one record that differs, and how. None if more does, or nothing."""
    ours, theirs = list(records(broken)), list(records(kept))
    if broken[:HEADER_SIZE] != kept[:HEADER_SIZE]:
        return None
    if len(ours) == len(theirs):
        changed = [n for n, (one, other) in enumerate(zip(ours, theirs), 1) if one != other]
        return (changed[0], "changed") if len(changed) == 1 else None
    longer, shorter, how = (ours, theirs, "added") if len(ours) > len(theirs) else (theirs, ours, "missing")
    places = [n for n in range(len(longer), 0, -1) if longer[: n - 1] + longer[n:] == shorter]
    return (places[0], how) if places else None


def record_text(record: bytes, version: int) -> str:
    moment, body = record[LENGTH_END : HEAD_SIZES[version]], record[HEAD_SIZES[version] :]
    at = f" at {int.from_bytes(moment, 'big')}" if moment else ""
    return f"`{KINDS[record[0]]} {body.hex(' ').upper()}".rstrip() + f"`{at}"


def difference_text(broken: bytes, kept: bytes) -> str:
    number, how = difference(broken, kept) or (0, "")
    ours, theirs = ([record_text(record, version_of(log)) for record in records(log)] for log in (broken, kept))
    match how:
        case "changed":
            return f"{number}: {ours[number - 1]}, kept {theirs[number - 1]}"
        case "added":
            return f"{number} is added: {ours[number - 1]}"
    return f"{number} is missing: {theirs[number - 1]}"


# ---- the files


def index() -> str:
    lines = []
    for broken, kept in pairs():
        what = f"{broken.what[0].upper()}{broken.what[1:]}; kept: {kept.what}"
        lines.append(f"| {broken.code} | {broken.role} | {difference_text(broken.log, kept.log)} | {what} |\n")
    return ABOUT + "".join(lines)


def files() -> dict[str, bytes]:
    """What the folder has, by the names of the files."""
    found = {"README.md": index().encode()}
    for row in rows():
        found |= row.files()
    return found


def write() -> None:
    FOLDER.mkdir(exist_ok=True)
    for path in FOLDER.iterdir():
        path.unlink()
    for name, data in files().items():
        (FOLDER / name).write_bytes(data)


# ---- the checks: each gives what is wrong


def wrong_pairs() -> Iterator[str]:
    """All statements in order, each for an end that it binds. Its fault is the only one in the broken log; the kept log passes."""
    wanted = [(code, which) for code in CITATIONS for which in (BROKEN, KEPT)]
    if [(row.code, row.which) for row in rows()] != wanted:
        yield "the rows aren't those of all statements, in their order, broken and kept"
    for broken, kept in pairs():
        if broken.role != kept.role or broken.role not in CITATIONS[broken.code]:
            yield f"{broken.code}: {broken.role} and {kept.role} aren't one end that it binds"
        if difference(broken.log, kept.log) is None:
            yield f"{broken.code}: the logs don't differ in one record"
        if f" {broken.code} " not in broken.report or "\nfail 1 faults" not in broken.report or not kept.report.startswith("pass"):
            yield f"{broken.code}: its fault isn't the only one in the broken log, or the kept one doesn't pass"


def wrong_reports() -> Iterator[str]:
    for row in rows():
        recording, (other, wanted) = reading.Recording(row.log), in_other_version(row)
        if (said := on_request.reported(recording, row.asked)) != row.report:
            yield f"{row.code} {row.which}: wanted {row.report!r}, on_request.py says {said!r}"
        if (said := on_request.reported(reading.Recording(other), row.asked)) != wanted:
            yield f"{row.code} {row.which}, in the other version: wanted {wanted!r}, on_request.py says {said!r}"
        for less in {TIMES: (ALWAYS, ALL), ALL: (ALWAYS,)}.get(row.asked, ()):
            if not (said := on_request.reported(recording, less)).startswith("pass "):
                yield f"{row.code} {row.which}: without {row.asked} it has to pass, on_request.py says {said!r}"
        if not on_request.places(occasions.log_of(recording), row.code):
            yield f"{row.code} {row.which}: it doesn't test its statement"
        may_break = row.code[0] == "W" and row.which == BROKEN
        for event in recording.events:
            is_about = row.code == "D01" and event.kind == reading.RECV
            if isinstance(event.item, (reading.Bad, reading.Lost)) and not (may_break or is_about):
                yield f"{row.code} {row.which}: record {event.record} has no valid packet"


def wrong_files() -> Iterator[str]:
    wanted = files()
    there = {path.name: path.read_bytes() for path in FOLDER.iterdir()} if FOLDER.is_dir() else {}
    yield from (f"examples/suite/{name} is missing" for name in wanted.keys() - there.keys())
    yield from (f"examples/suite/{name} isn't in the suite" for name in there.keys() - wanted.keys())
    both = wanted.keys() & there.keys()
    yield from (f"examples/suite/{name} isn't what the rows say" for name in both if wanted[name] != there[name])


def in_other_version(row: Row) -> tuple[bytes, str]:
    """The log of a row in version 2, or if that is its own in version 1, and the report on that: without moments nothing is late."""
    if version_of(row.log) == 2:
        return in_version_1(row.log), f"pass {row.report.split()[-2]} events\n"
    made = converted(row.log)
    assert made.refusal is None and made.written[:5] == b"MQTR\x02"
    return made.written, row.report


def wrong_answers(program: Path) -> Iterator[str]:
    """The program has to give the reports in the files: for the logs that are there, and for the same in version 2. Those that are of
    version 2 themselves pass in version 1."""
    with tempfile.TemporaryDirectory(prefix="mqjudge-suite-") as folder:
        other = Path(folder) / "other.log"
        for row in rows():
            path = FOLDER / f"{row.code}-{row.which}.log"
            data, report = in_other_version(row)
            other.write_bytes(data)
            texts = [(path, words, path.with_suffix(f".{kind}").read_text(), row.report) for words, kind in FORMS]
            others = [(other, words, said, report) for _, words, said, _ in texts] if row.asked != TIMES else [(other, [], report, report)]
            for log, words, said, its_report in texts + others:
                command = [program, "check", *([row.asked] if row.asked else []), *words, log]
                ran = subprocess.run(command, stdin=subprocess.DEVNULL, capture_output=True, check=False)
                wanted = (STATUSES[its_report.splitlines()[-1].split()[0]], said.encode(), b"")
                if (ran.returncode, ran.stdout, ran.stderr) != wanted:
                    name = path.name if log is path else f"{path.name} in the other version"
                    yield f"{name}, {words}: wanted {wanted}, {program} says {(ran.returncode, ran.stdout, ran.stderr)}"


def main() -> int:
    arguments = argparse.ArgumentParser(description="Makes and checks the conformance suite.")
    arguments.add_argument("--check", action="store_true", help="check the files, which is done anyway")
    arguments.add_argument("--write", action="store_true", help="make the files first")
    arguments.add_argument("--program", type=Path, help="a program that has to give these reports too")
    given = arguments.parse_args()
    if given.write:
        write()
    wrong = [*wrong_pairs(), *wrong_reports(), *wrong_files()]
    if given.program and not wrong:
        wrong += wrong_answers(given.program.absolute())
    for line in wrong:
        print(f"{line:.1000}")
    print(f"suite: {len(list(rows()))} logs, {len(wrong)} wrong")
    return 1 if wrong else 0


if __name__ == "__main__":
    sys.exit(main())
