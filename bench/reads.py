#!/usr/bin/env python3
"""Tries the built program with reads that are short, are interrupted, or fail, and counts its reads and writes.

No proof reaches these: no contract says when a read may be given up, nor how much is read or written at once.

- a short read isn't the end: reads of 1 byte, of 3 and of 7 change nothing.
- an interrupted read is tried again: nothing changes where each single read is interrupted once, all of them are, or all are many
  times. With reads of 1 byte a log of 200,000 bytes takes twice as many turns, so this also sees who stops after 100,000 turns.
- a failed read is reported with its reason: wherever it fails, with status 4, the name of the log and the system's reason on standard
  error, no part of a report, and a beginning of what is shown or converted; no file is made if it fails in the header.
- reads and writes are large: a log of 10 MB takes at most one read for 8,192 bytes, and one write for 4,096, and a few more.

The reads are changed and counted by a library that is loaded before the program (reads.c), so this needs Linux and a C compiler.
Without them it says so, and the status is 0.

usage: bench/reads.py [--program PROGRAM]      (the program that `rt ci` has built if it is missing)
"""
import argparse
import errno
import os
import shutil
import subprocess
import sys
import tempfile
from collections.abc import Iterator
from dataclasses import dataclass
from pathlib import Path

sys.dont_write_bytecode = True  # the repository stays as it is
import kinds
from judges import BUILT
from program import CHECKS, Tally
from program_runs import FAULTY, GOOD, HEADER, MANY, MANY_2, NESTED, TIMED, unread

HERE = Path(__file__).resolve().parent
COMPILER = "cc"
SECONDS = 60
MANY_TIMES = 50
MEGABYTES = 10
LEAST_READ, LEAST_WRITE, FEW_MORE = 8_192, 4_096, 20
LOG, MADE = "a.log", "made.log"

SHOWS = [["show"], ["show", "--long"]]
AGAIN = [["check", "--why"], ["show", "--faults", "--around", "0"]]  # they read the log more than once, so they need a file
CONVERTS = [["convert"]]
LOGS = {"a pass": GOOD, "a fault": FAULTY, "refused": NESTED, "cut": GOOD[:-1], "moments": TIMED, "a header": HEADER, "nothing": b""}
LONG_LOGS = {"many pings": MANY, "many pings in version 2": MANY_2}

SHORT = {f"reads of {count}": {"AT_MOST": count} for count in (1, 3, 7)}
INTERRUPTED = {
    "all reads interrupted": {"BEFORE_EACH": 1},
    f"all reads interrupted {MANY_TIMES} times": {"BEFORE_EACH": MANY_TIMES},
    "reads of 3, all interrupted": {"AT_MOST": 3, "BEFORE_EACH": 1},
}
LONG_WAYS = {"reads of 1": {"AT_MOST": 1}, "reads of 1, all interrupted": {"AT_MOST": 1, "BEFORE_EACH": 1}}
FAILURES = {
    errno.EIO: "the system can't read it",
    errno.EACCES: "permission to read it is denied",
    errno.EISDIR: "it is a directory",
}


@dataclass(frozen=True)
class Case:
    """A command on a log, by a file's name or on standard input."""

    words: list[str]
    name: str
    log: bytes
    is_named: bool

    def title(self) -> str:
        return f"{' '.join(self.words)} of {self.name}, {self.place()}"

    def place(self) -> str:
        return LOG if self.is_named else "standard input"

    def is_conversion(self) -> bool:
        return self.words[0] == "convert"


@dataclass(frozen=True)
class Run:
    """What a run did: of a file that was made the bytes, and how often it read and wrote."""

    status: int
    output: bytes
    errors: bytes
    made: bytes | None
    reads: int
    writes: int

    def effects(self) -> tuple[int, bytes, bytes, bytes | None]:
        return self.status, self.output, self.errors, self.made


def cases(logs: dict[str, bytes]) -> Iterator[Case]:
    for name, log in logs.items():
        for words in [*CHECKS, *SHOWS, *CONVERTS]:
            yield from (Case(words, name, log, is_named) for is_named in (True, False))
        yield from (Case(words, name, log, True) for words in AGAIN)


class Changer:
    """Runs the program with its reads changed, in a folder of its own."""

    def __init__(self, program: Path, folder: Path) -> None:
        self.program, self.folder, self.library = program, folder, folder / "reads.so"
        words = [COMPILER, "-std=c11", "-O2", "-Wall", "-Wextra", "-shared", "-fPIC", HERE / "reads.c", "-o", self.library]
        subprocess.run(words, check=True)

    def run(self, case: Case, **changes: int) -> Run:
        (self.folder / LOG).write_bytes(case.log)
        return self.run_on_file(case, **changes)

    def run_on_file(self, case: Case, **changes: int) -> Run:
        """The same where the log is there."""
        made, reading, writing = self.folder / MADE, *os.pipe()
        made.unlink(missing_ok=True)
        words: list[str | Path] = [self.program, *case.words]
        if case.is_named or case.is_conversion():
            words.append(LOG if case.is_named else "-")
        if case.is_conversion():
            words.append(MADE)
        # `env` loads the library into the program alone.
        numbers = [f"{name}={number}" for name, number in (changes | {"COUNTS": writing}).items()]
        try:
            with open(os.devnull if case.is_named else self.folder / LOG, "rb") as given:
                ran = subprocess.run(["env", f"LD_PRELOAD={self.library}", *numbers, *words], stdin=given, capture_output=True,
                                     pass_fds=[writing], cwd=self.folder, timeout=SECONDS, check=False)
        except subprocess.TimeoutExpired:
            ran = subprocess.CompletedProcess(words, -1, b"", b"it took more than %d seconds" % SECONDS)
        finally:
            os.close(writing)
        with os.fdopen(reading, "rb") as pipe:
            reads, writes = (int(word) for word in pipe.read().split() or (0, 0))
        return Run(ran.returncode, ran.stdout, ran.stderr, made.read_bytes() if made.exists() else None, reads, writes)


def try_ways(changer: Changer, tally: Tally, logs: dict[str, bytes], ways: dict[str, dict[str, int]]) -> None:
    """What a command does stays the same, however its reads go."""
    for case in cases(logs):
        wanted = changer.run(case).effects()
        for way, changes in ways.items():
            found = changer.run(case, **changes)
            tally.compare(f"{case.title()}: {way}", found.effects(), wanted)
            if found.status != 2:  # what is refused isn't read to its end
                turns = found.reads > len(case.log) // changes.get("AT_MOST", LEAST_READ)
                tally.compare(f"{case.title()}: {way}: are the reads so many?", (turns,), (True,))


def try_each_interrupted(changer: Changer, tally: Tally) -> None:
    """What a command does stays the same if one read is interrupted, whichever it is: the first one, one in the header, a later one."""
    for case in cases({"a fault": FAULTY}):
        usual = changer.run(case, AT_MOST=16)
        for number in range(1, usual.reads + 1):
            found = changer.run(case, AT_MOST=16, INTERRUPTED_AT=number)
            tally.compare(f"{case.title()}: read {number} interrupted", found.effects(), usual.effects())
            tally.compare(f"{case.title()}: read {number} interrupted: how many reads", (found.reads,), (usual.reads + 1,))


def try_failures(changer: Changer, tally: Tally) -> None:
    """A failed read is reported with its reason, wherever it is."""
    for case in cases({"a fault": FAULTY}):
        usual = changer.run(case, AT_MOST=16)
        for number in range(1, usual.reads + 1):
            for error, reason in FAILURES.items():
                found = changer.run(case, AT_MOST=16, FAILED_AT=number, ERROR=error)
                title = f"{case.title()}: read {number} fails with {errno.errorcode[error]}"
                tally.compare(title, (found.status, "", found.errors.decode()), (4, "", unread(case.place(), reason)))
                tally.compare(f"{title}: what is written", (is_beginning(case, found, usual, number),), (True,))


def is_beginning(case: Case, found: Run, usual: Run, number: int) -> bool:
    """Whether no more was written than may be if this read failed."""
    if case.words[0] == "check":
        return found.output == b""
    if not case.is_conversion():
        return usual.output.startswith(found.output)
    if number <= len(HEADER):  # which is read byte by byte
        return (found.output, found.made) == (b"", None)
    return found.output == b"" and found.made is not None and usual.made.startswith(found.made)


def try_counts(changer: Changer, tally: Tally) -> None:
    """A large log takes few reads and writes."""
    kinds.write(changer.folder / LOG, "small", kinds.amount_for_bytes("small", MEGABYTES * 1_000_000))
    size = (changer.folder / LOG).stat().st_size
    for case in cases({f"{MEGABYTES} MB": b""}):
        found = changer.run_on_file(case)
        readings = 2 if case.words in AGAIN else 1
        most = readings * size // LEAST_READ + FEW_MORE, (len(found.output) + len(found.made or b"")) // LEAST_WRITE + FEW_MORE
        fits = found.reads <= most[0] and found.writes <= most[1]
        said = f"{found.reads} reads, at most {most[0]}; {found.writes} writes, at most {most[1]}"
        tally.compare(f"{case.title()}: {said}", (found.status, str(fits)), (0, "True"))
        tally.compare(f"{case.title()}: are they counted?", (found.reads > size // 1_000_000,), (True,))


def main() -> int:
    arguments = argparse.ArgumentParser(description="Tries reads that are short, are interrupted, or fail, and counts reads and writes.")
    arguments.add_argument("--program", type=Path, default=BUILT, help="the program")
    given = arguments.parse_args()
    if not sys.platform.startswith("linux") or not shutil.which(COMPILER):
        print(f"bench/reads.py isn't run: it needs Linux and {COMPILER}")
        return 0
    tally = Tally()
    with tempfile.TemporaryDirectory(prefix="mqjudge-reads-") as name:
        changer = Changer(given.program.resolve(), Path(name))
        try_ways(changer, tally, LOGS, SHORT | INTERRUPTED)
        try_each_interrupted(changer, tally)
        try_failures(changer, tally)
        try_ways(changer, tally, LONG_LOGS, LONG_WAYS)
        try_counts(changer, tally)
    print(f"reads: {tally.passed} passed, {tally.failed} failed")
    return 1 if tally.failed else 0


if __name__ == "__main__":
    sys.exit(main())
