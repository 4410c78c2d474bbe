#!/usr/bin/env python3
"""Compares what `mqjudge convert` writes and answers with converting.py: on the worked logs, the conformance suite, the examples, each
beginning of a log, logs that are refused, and logs of hostile_logs.py by a seed.

converting.py itself is compared with reference.py: what it doesn't refuse must get the same report as before, and what it refuses
reference.py must refuse too, at that byte or before it. Where there is no program, that is all. With a program it also looks at
files that can't be opened or made, and at what `check` says of the examples before and after.

usage: bench/check_convert.py [--mqjudge PATH] [--logs 1000] [--seed 1]
"""
import argparse
import subprocess
import sys
import tempfile
from collections.abc import Iterator
from pathlib import Path

sys.dont_write_bytecode = True  # the repository stays as it is
import check_rows
import hostile_logs
import make_log
import reading
import reference
from converting import LONGEST_BODY, Conversion, converted
from honest_logs import session
from judges import BUILT
from make_log import CLOSE, OPEN, RECV, REST, SENT, record
from program import SECONDS
from program_runs import CAPTURE_HINT, GZIP_HINT, WRITE_FAILED, directory, missing, there
from session_logs import RELEASE, number
from shortening import words
from versions import in_version_1

TOP = Path(__file__).resolve().parent.parent
HEADER = make_log.HEADER
# A log with a record of each kind.
EACH_KIND = HEADER + b"".join([
    record(OPEN), record(SENT, make_log.CONNECT), record(RECV, make_log.CONNACK), record(SENT), record(REST),
    record(RELEASE, number(1)), record(CLOSE),
])
SECOND_VERSION = 2, "refused 2 Version at 4\n"  # the status and the line for a log that is one of version 2 already
OF_PACKETS = (11, 12, 13)  # refusals that converting doesn't know
Answer = tuple[int, str, str]  # status, output and errors


def examples() -> Iterator[tuple[str, bytes]]:
    for path in sorted((TOP / "examples").rglob("*.log")):
        yield str(path.relative_to(TOP)), path.read_bytes()


def written_logs() -> Iterator[tuple[str, bytes]]:
    """Logs that are written down, each with a name."""
    yield from examples()
    yield from ((row.name, row.log) for row in check_rows.rows() if not row.name.startswith("examples/"))
    yield from ((f"a record of each kind, {size} bytes", EACH_KIND[:size]) for size in range(len(EACH_KIND) + 1))
    silent = HEADER[:6] + b"\0\0"
    refused = {
        "no kind": HEADER + b"\0", "a kind above 6": EACH_KIND + b"\7", "two opened": HEADER + record(OPEN) * 2,
        "bytes on none": HEADER + record(SENT), "a REST on none": EACH_KIND + record(REST), "a CLOSE on none": HEADER + record(CLOSE),
        "a RELEASE unrecorded": silent + record(RELEASE, number(1)), "a flag": HEADER[:6] + b"\2\0", "byte 7": HEADER[:7] + b"\1",
        "a role": HEADER[:5] + b"\2\1\0", "version 0": HEADER[:4] + b"\0\0\1\0", "version 2": HEADER[:4] + b"\2\0\1\0",
        "version 3": HEADER[:4] + b"\3", "no mark": b"MQTS\1\0\1\0",
    }
    yield from refused.items()
    for kind in (OPEN, SENT, RECV, CLOSE, REST, RELEASE):
        for length in (1, 2, 3, LONGEST_BODY, LONGEST_BODY + 1, 16_777_216, 0xFFFFFFFF):
            opened = b"" if kind == OPEN else record(OPEN)
            log = HEADER + opened + bytes([kind]) + length.to_bytes(4, "big")
            yield f"kind {kind} of length {length}", log
            yield f"kind {kind} of length {length}, with a body", log + bytes(min(length, 2 * LONGEST_BODY))


def logs(seed: int, count: int) -> Iterator[tuple[str, bytes]]:
    yield from written_logs()
    yield "small packets", b"".join(make_log.log("small", 30_000))
    yield "long payloads", b"".join(make_log.log("large", 4))
    yield from ((f"bench/honest_logs.py {seed} {which}", in_version_1(session(seed, which))) for which in range(count // 10))
    yield from ((f"hostile log {which} of seed {seed}", hostile_logs.made(seed, which).log) for which in range(count))


class Comparison:
    def __init__(self, program: Path | None, folder: Path):
        self.program, self.folder = program, folder
        self.count = self.wrong = 0

    def compare(self, name: str, found: object, wanted: object, log: bytes = b"") -> None:
        self.count += 1
        if found != wanted:
            self.wrong += 1
            print(f"{name}:", *([f"{words(log):.500}"] if log else []), f"wanted {wanted!r:.500}", f"got    {found!r:.500}", sep="\n  ")

    # -- converting.py against reference.py

    def compare_meaning(self, name: str, log: bytes, made: Conversion) -> None:
        """Compares a conversion with what reference.py says of the log before and after it."""
        before = reference.report(log)
        if made.refusal is None:
            after = reference.report(made.written)
            self.compare(f"{name}, converted, by reference.py", without_place(after), without_place(before), log)
        elif made.refusal.number != 2:
            number, at = refusal_in(before)
            if number not in OF_PACKETS or at > made.refusal.at:
                self.compare(f"{name}, refused, by reference.py", (number, at), (made.refusal.number, made.refusal.at), log)

    # -- the program

    def run(self, *words: str) -> Answer:
        assert self.program is not None
        ran = subprocess.run([self.program, *words], stdin=subprocess.DEVNULL, capture_output=True, timeout=SECONDS, cwd=self.folder,
                             env={}, check=False)
        return ran.returncode, ran.stdout.decode(errors="replace"), ran.stderr.decode(errors="replace")

    def convert(self, log: bytes) -> tuple[int, str, str, bytes]:
        """What the program answers, and what it has written. A hint on what the file is, if it isn't a log, may be added."""
        (self.folder / "in.log").write_bytes(log)
        (self.folder / "out.log").unlink(missing_ok=True)
        status, output, errors = self.run("convert", "in.log", "out.log")
        written = (self.folder / "out.log").read_bytes() if (self.folder / "out.log").exists() else b""
        return status, output, "" if errors in (CAPTURE_HINT, GZIP_HINT) else errors, written

    def compare_program(self, name: str, log: bytes, made: Conversion) -> None:
        refused = (2, f"{made.refusal.text()}\n") if made.refusal else (0, "")
        self.compare(name, self.convert(log), (*refused, "", made.written), log)

    def compare_reports(self) -> None:
        """The examples get the same report converted, and aren't converted twice."""
        for name, log in examples():
            (self.folder / "one.log").write_bytes(log)
            if log[4] == 2:
                self.compare(f"{name}, of version 2", self.run("convert", "one.log", "three.log")[:2], SECOND_VERSION)
                continue
            self.run("convert", "--force", "one.log", "two.log")
            for form in ((), ("--json",), ("--summary",), ("--coverage",)):
                found, wanted = (self.run("check", *form, path) for path in ("two.log", "one.log"))
                self.compare(f"{name}, converted, {' '.join(form) or 'as text'}", found, wanted)
            self.compare(f"{name}, converted twice", self.run("convert", "two.log", "three.log")[:2], SECOND_VERSION)

    def compare_files(self) -> None:
        """Files that can't be opened, read or made."""
        (self.folder / "good.log").write_bytes(EACH_KIND)
        (self.folder / "folder").mkdir()
        (self.folder / "nested.log").write_bytes(HEADER + record(OPEN) * 2)
        wanted = {
            ("missing.log", "out"): (4, "", missing("missing.log")),
            ("folder", "out"): (4, "", directory("folder")),
            ("good.log", "none/out"): (4, "", WRITE_FAILED),
            ("good.log", "folder"): (3, "", there("folder")),
            ("--force", "good.log", "folder"): (4, "", WRITE_FAILED),
            ("--force", "good.log", "/dev/full"): (4, "", WRITE_FAILED),
            ("good.log", "out"): (0, "", ""),
            ("nested.log", "out"): (3, "", there("out")),
            ("--force", "nested.log", "/dev/null"): (2, "refused 7 Nested at 13\n", ""),
        }
        for names, answer in wanted.items():
            self.compare(f"convert {' '.join(names)}", self.run("convert", *names), answer)
        self.compare("what it wrote", (self.folder / "out").read_bytes(), converted(EACH_KIND).written)
        self.compare("what it read", (self.folder / "good.log").read_bytes(), EACH_KIND)
        self.compare("convert with no file", self.run("convert")[0], 3)
        self.compare("convert with one file", self.run("convert", "good.log")[0], 3)


def without_place(report: str) -> str:
    """A report; of a refusal without its byte, which moments before it move."""
    return report.partition(" at ")[0] if report.startswith("refused ") else report


def refusal_in(report: str) -> tuple[int, int]:
    """The number and the byte of a refusal, or zeros."""
    found = report.split()
    return (int(found[1]), int(found[4])) if found[0] == "refused" else (0, 0)


def self_test(comparison: Comparison) -> None:
    """What docs/LOG_FORMAT.md says of a record, byte by byte."""
    head, opened, closed = "4d515452{:02x}000100", "0100000000{}", "0400000000{}"
    sent, released = "02 00000003{} 010203", "06 00000002{} 0102"
    shape = f"{head} {opened} {sent} {released} {closed}"
    one, two = (bytes.fromhex(shape.format(version, *[moment] * 4)) for version, moment in ((1, ""), (2, "00" * 8)))
    comparison.compare("a log, by converting.py", converted(one), Conversion(two))
    comparison.compare("back again", in_version_1(two), one)
    comparison.compare("too many records", converted(one, 2), Conversion(two[:37], reading.Refusal(14, 21)))
    comparison.compare("its line", reading.Refusal(14, 21).text(), "refused 14 TooLong at 21")
    # The length of the second record is the last byte of its head, and isn't there, or its moment follows.
    for size, count in ((13, 21), (14, 22), (17, 25), (18, 34), (19, 35), (21, 37)):
        refusal = None if size in (13, 21) else reading.Refusal(10, size)
        comparison.compare(f"{size} bytes", converted(one[:size]), Conversion(two[:count], refusal))


def main() -> int:
    arguments = argparse.ArgumentParser(description="Compares mqjudge convert with converting.py.")
    arguments.add_argument("--mqjudge", type=Path, default=BUILT)
    arguments.add_argument("--logs", type=int, default=1_000, help="how many logs by the seed (default 1000)")
    arguments.add_argument("--seed", type=int, default=1)
    given = arguments.parse_args()
    program = given.mqjudge.absolute() if given.mqjudge.is_file() else None
    if program is None:
        print(f"no program at {given.mqjudge}: converting.py alone is tried")
    with tempfile.TemporaryDirectory(prefix="mqjudge-convert-") as folder:
        comparison = Comparison(program, Path(folder))
        self_test(comparison)
        for name, log in logs(given.seed, given.logs):
            made = converted(log)
            if len(log) < 200_000:  # reference.py takes time by the square of it
                comparison.compare_meaning(name, log, made)
            if program is not None:
                comparison.compare_program(name, log, made)
        if program is not None:
            comparison.compare_reports()
            comparison.compare_files()
    print(f"{comparison.count} comparisons, {comparison.wrong} wrong")
    return 1 if comparison.wrong else 0


if __name__ == "__main__":
    sys.exit(main())
