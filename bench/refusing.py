#!/usr/bin/env python3
"""Refuses each allocation in turn: of the built program on several logs, in each of its commands and forms, and of the tests that are
made for it.

A program may do what it does without a refusal, or end with 4 and say that memory ran out. Of what it would have printed it may then
have printed a part: nothing of a report, and of a log that is shown some of the lines. A test has to pass.

An allocation is refused by a library that is loaded before the program (refusing.c), so this needs Linux and a C compiler. --missing
only says what isn't installed.

usage: bench/refusing.py [--program PROGRAM] [--tests PROGRAM]...
       (the program and the tests that `rt ci` or `rt test` has built in crates/*/out, as far as they are there)
       bench/refusing.py --missing
"""
import argparse
import os
import shutil
import subprocess
import sys
import tempfile
from collections.abc import Iterator
from concurrent.futures import ThreadPoolExecutor
from dataclasses import dataclass
from pathlib import Path

sys.dont_write_bytecode = True  # the repository stays as it is
import check_rows

HERE = Path(__file__).resolve().parent
CRATES = HERE.parent / "crates"
PROGRAM = CRATES / "mq_cli/out/mq_cli"
TESTS = [CRATES / "mq_packet_tests/out/mq_packet_tests_tests", CRATES / "mq_worked/out/mq_worked_tests"]
COMPILER = "cc"
SECONDS = 60
NO_MEMORY = (4, b"mqjudge: out of memory\n")

# Logs in the words of the worked logs of mq_worked. Together they take all watchers past what they keep at first.
LOGS = {
    "a message is sent again": "client OPEN >CONNECT-KEPT <CONNACK >PUBLISH1:1 CLOSE OPEN >RECONNECT <CONNACK-RESUMED >RESEND1:1",
    "sent again on its connection": "client OPEN >CONNECT-KEPT <CONNACK >PUBLISH1:1 >RESEND1:1",
    "too large, with an alias": "client OPEN >CONNECT <CONNACK-SIZE-10 >3009000161032300017879",
    "released twice": "client OPEN >CONNECT <CONNACK <PUBLISH2:1 RELEASE:1 <RESEND2:1 RELEASE:1",
    "answered in another order": "client OPEN >CONNECT <CONNACK <PUBLISH1:1 <PUBLISH1:2 >PUBACK:2 >PUBACK:1",
    "a topic that is subscribed to": "server OPEN <CONNECT-NAMED >CONNACK <820700010000016101 >PUBLISH1:1 >900400010001",
    "one that isn't": "server OPEN <CONNECT-NAMED >CONNACK <820700010000016101 >PUBLISH1:1 >900400010001 >PUBLISH0-B",
    "a subscription that is refused": "server OPEN <CONNECT-NAMED >CONNACK <820700010000016101 >PUBLISH1:1 >900400010087 >PUBLISH0",
    "early, in a new session": "client OPEN >CONNECT-KEPT <CONNACK >PUBLISH1:1 CLOSE OPEN >RECONNECT >PUBLISH1:1 <CONNACK",
    "early, in a session that goes on": "client OPEN >CONNECT-KEPT <CONNACK >PUBLISH1:1 CLOSE OPEN >RECONNECT >PUBLISH1:1 <CONNACK-RESUMED",
    "a packet in two records": "client OPEN >CONNECT <CONNACK >32070001 >6100000078",
    "a long topic, and an alias": "server OPEN <CONNECT-ALIASES-5 >CONNACK <820700010000012302 >30350027"
    + "61" * 39
    + "0323000178787878787878 >ALIAS-1 REST CLOSE",
    "two connections at once": "client OPEN OPEN",
}
ON_LOGS = [
    ["check"],
    ["check", "--json"],
    ["check", "--summary"],
    ["check", "--coverage"],
    ["check", "--coverage", "--json"],
    ["check", "--coverage", "--summary"],
    ["check", "--why"],
    ["check", "--why", "--json"],
    ["show"],
    ["show", "--long"],
    ["show", "--faults", "--around", "0"],
    ["convert"],
    ["convert", "--force"],
]
ALONE = [
    ["packet", "40", "02", "00", "01"],
    ["packet", "4002"],
    ["rules"],
    ["rules", "--role", "client"],
    ["explain", "S01"],
    ["explain", "X99"],
    ["check", "--jsno"],
    ["--help"],
]


@dataclass(frozen=True)
class Run:
    """What a run did; `reached` says whether it came to the allocation that is refused."""

    status: int
    output: bytes
    error: bytes
    made: bytes
    reached: bool


@dataclass(frozen=True)
class Case:
    """A command that reads a log, if there is one."""

    name: str
    words: list[str]
    log: bytes | None


def cases() -> Iterator[Case]:
    names = check_rows.packets()
    for name, words in LOGS.items():
        log = check_rows.log_of(words, names)
        yield from (Case(f"{name}: {' '.join(command)}", command, log) for command in ON_LOGS)
    yield from (Case(" ".join(command), command, None) for command in ALONE)


class Refuser:
    """Runs programs with an allocation refused."""

    def __init__(self, folder: Path) -> None:
        self.library = folder / "refusing.so"
        words = [COMPILER, "-std=c11", "-O2", "-Wall", "-Wextra", "-shared", "-fPIC", HERE / "refusing.c", "-o", self.library]
        subprocess.run(words, check=True)

    def run(self, words: list[str | Path], number: int, made: Path | None = None) -> Run:
        reading, writing = os.pipe()
        # `env` loads the library into the program alone.
        loads = ["env", f"LD_PRELOAD={self.library}", f"REFUSED={number}", f"SAYS={writing}"]
        try:
            ran = subprocess.run(
                [*loads, *words], stdin=subprocess.DEVNULL, capture_output=True, pass_fds=[writing], timeout=SECONDS, check=False
            )
        finally:
            os.close(writing)
        with os.fdopen(reading, "rb") as pipe:
            reached = pipe.read() != b""
        held = made.read_bytes() if made and made.exists() else b""
        return Run(ran.returncode, ran.stdout, ran.stderr, held, reached)


def is_right(case: Case, refused: Run, wanted: Run) -> bool:
    """Whether a run with a refusal did the same, or said that memory ran out after it printed a part: none of a report."""
    if (refused.status, refused.output, refused.error, refused.made) == (wanted.status, wanted.output, wanted.error, wanted.made):
        return True
    is_part = wanted.output.startswith(refused.output) and wanted.made.startswith(refused.made)
    if case.words[0] == "check" and refused.output:
        return False
    return (refused.status, refused.error) == NO_MEMORY and is_part


def wrong_runs(refuser: Refuser, program: Path, case: Case, folder: Path) -> tuple[int, list[str]]:
    """How many allocations were refused, and what was wrong."""
    place = Path(tempfile.mkdtemp(dir=folder))
    words: list[str | Path] = [program, *case.words]
    made = None
    if case.log is not None:
        (place / "a.log").write_bytes(case.log)
        words.append(place / "a.log")
        if "convert" in case.words:
            made = place / "b.log"
            words.append(made)
    wanted = refuser.run(words, 0, made)
    wrong = []
    number = 0
    while True:
        number += 1
        if made:
            made.unlink(missing_ok=True)
        refused = refuser.run(words, number, made)
        if not refused.reached:
            return number - 1, wrong
        if not is_right(case, refused, wanted):
            wrong.append(f"{case.name}: allocation {number} is refused: wanted {wanted}, got {refused}")


def tests_of(program: Path) -> list[str]:
    """The tests that are made for refusals: those in a module `memory`."""
    listed = subprocess.run([program, "--list"], capture_output=True, text=True, check=True, timeout=SECONDS).stdout
    names = [line.removesuffix(": test") for line in listed.splitlines() if line.endswith(": test")]
    return [name for name in names if "::memory::" in name]


def wrong_test(refuser: Refuser, program: Path, test: str) -> tuple[int, list[str]]:
    """The same for a test."""
    wrong = []
    number = 0
    while True:
        number += 1
        ran = refuser.run([program, test], number)
        if ran.status != 0:
            wrong.append(f"{test}: allocation {number} is refused: {ran}")
        if not ran.reached:
            return number - 1, wrong


def main() -> int:
    arguments = argparse.ArgumentParser(description="Refuses each allocation in turn.")
    arguments.add_argument("--missing", action="store_true", help="only say what isn't installed")
    arguments.add_argument("--program", type=Path, help="the program")
    arguments.add_argument("--tests", type=Path, action="append", help="a crate's tests, as `rt test` builds them")
    given = arguments.parse_args()
    if given.missing:
        if not shutil.which(COMPILER):
            print(COMPILER)
        return 0
    chosen = given.program is not None or given.tests is not None
    program = given.program if chosen else PROGRAM
    tests = (given.tests or []) if chosen else TESTS
    with tempfile.TemporaryDirectory(prefix="mqjudge-refusing-") as name, ThreadPoolExecutor(os.cpu_count()) as pool:
        folder = Path(name)
        refuser = Refuser(folder)
        runs = []
        if program is not None and (chosen or program.exists()):
            runs += [pool.submit(wrong_runs, refuser, program.resolve(), case, folder) for case in cases()]
        for path in tests:
            if chosen or path.exists():
                runs += [pool.submit(wrong_test, refuser, path.resolve(), test) for test in tests_of(path.resolve())]
        found = [run.result() for run in runs]
    wrong = [line for _, lines in found for line in lines]
    for line in wrong:
        print(f"{line:.1000}")
    print(f"{sum(count for count, _ in found)} allocations refused in {len(found)} runs, {len(wrong)} wrong")
    return 1 if wrong or not found else 0


if __name__ == "__main__":
    sys.exit(main())
