#!/usr/bin/env python3
"""Judges a long log that comes slowly, while standard error is a terminal, and compares what somebody who waits there sees.

No contract says what is shown: it could tell kilobytes as megabytes, no faults where there are some, or only at the end how far it
is; it could leave the line open, so that the report is written behind it; or it could write where nobody waits at a terminal.

- while the log comes: nothing before 50 MB; from then on how many megabytes there were, and the faults so far.
- at its end, also where the log is refused, or the report is JSON: the line ends before the report is written.
- with no terminal, but a pipe or a file in its place: nothing; so also of `show`.

usage: bench/terminal.py [--program PROGRAM]      (the program that `rt ci` has built if it is missing)
"""
import argparse
import os
import select
import subprocess
import sys
import tempfile
import time
import tty
from pathlib import Path

sys.dont_write_bytecode = True  # the repository stays as it is
import make_log
import occasions
from check_forms import as_json, in_short
from judges import BUILT
from make_log import CONNACK, CONNECT, HEADER, OPEN, RECV, SENT, record, varint
from program import Tally

SECONDS = 60
PATIENCE = 20  # seconds for what is wanted
QUIET = 0.3  # seconds in which nothing more is shown
STEP = 50_000_000  # bytes after which a line is due
START = HEADER + record(OPEN) + record(SENT, CONNECT) + record(RECV, CONNACK)
USED = record(SENT, make_log.publish(0))  # a fault, but for the first one
READ = 8_192  # bytes that are judged at once, at most


def line(megabytes: int, faults: int) -> str:
    return f"\rmqjudge: {megabytes} MB judged, {faults} faults so far"


def filling(size: int) -> bytes:
    """A record of so many bytes, 100 to 1,000,000: a PUBLISH at QoS 0."""
    for fields in (3, 2, 1):
        body = size - 5 - 1 - fields
        if len(varint(body)) == fields:
            return record(SENT, b"\x30" + varint(body) + b"\x00\x01a\x00" + bytes(body - 4))
    raise ValueError(size)


def to_size(log: bytes, size: int) -> bytes:
    """The log with PUBLISHes at its end, so that it has this many bytes."""
    parts, missing = [log], size - len(log)
    while missing:
        part = filling(min(missing, 1_000_000 if missing > 1_001_000 else missing // 2 if missing > 1_000_000 else missing))
        parts.append(part)
        missing -= len(part)
    return b"".join(parts)


class Waiting:
    """The program with a log that comes piece by piece, and a terminal for standard error, and for its output too if that is said."""

    def __init__(self, program: Path, words: list[str], is_output_shown: bool) -> None:
        self.ours, terminal = os.openpty()
        tty.setraw(terminal)
        output = terminal if is_output_shown else subprocess.PIPE
        self.process = subprocess.Popen([program, *words], stdin=subprocess.PIPE, stdout=output, stderr=terminal)
        os.close(terminal)

    def give(self, piece: bytes, wanted: str) -> str:
        """What is shown once the piece was given, where this is wanted."""
        self.process.stdin.write(piece)
        self.process.stdin.flush()
        return self.shown(wanted)

    def shown(self, wanted: str) -> str:
        """What is shown: as much as is wanted, and what comes soon after that."""
        text = b""
        while select.select([self.ours], [], [], QUIET if len(text) >= len(wanted) else PATIENCE)[0]:
            try:
                some = os.read(self.ours, 4_096)
            except OSError:  # the other end is closed
                break
            text += some
        return text.decode()

    def end(self, wanted: str) -> tuple[int, str, str]:
        """Its status, what it shows at the end, where this is wanted, and its output where that is a pipe."""
        self.process.stdin.close()
        output = self.process.stdout.read().decode() if self.process.stdout else ""
        status = self.process.wait(SECONDS)
        text = self.shown(wanted)
        os.close(self.ours)
        return status, text, output


def pieces() -> list[bytes]:
    """A log of 120 MB in three pieces, which end before 50 MB, after them, and after 100 MB; with 1, then 2, then 4 faults."""
    first = to_size(START + USED * 2, STEP - 2 * READ)
    second = to_size(first + USED, STEP + 2 * READ)
    third = to_size(second + USED * 2, 2 * STEP + 10 * READ)
    return [first, second[len(first) :], third[len(second) :]]


def report_on(log: list[bytes]) -> str:
    """As text. Each record is an event."""
    whole, at, position, faults, used = b"".join(log), len(HEADER), 0, [], 0
    while at < len(whole):
        size = 5 + int.from_bytes(whole[at + 1 : at + 5], "big")
        position += 1
        if whole[at : at + size] == USED:
            used += 1
            faults += [f"fault {position} S01 MQTT-2.2.1-3 decided {position} record {position} offset -\n"] if used > 1 else []
        at += size
    return f"{''.join(faults)}fail {len(faults)} faults {position} events\n"


def with_coverage(text: str) -> str:
    """The same report with what was tested."""
    *faults, last = text.splitlines()
    used = len(faults) + 1
    return occasions.covering(text, occasions.of_publishes(used, int(last.split()[-2]) - 3 - used))


def try_slowly(program: Path, tally: Tally) -> None:
    """What is shown while a log comes, and that the line ends before the report."""
    given = pieces()
    text = report_on(given)
    reports = (["check"], text), (["check", "--json"], as_json(text)), (["check", "--summary"], in_short(text))
    for words, report in (*reports, (["check", "--coverage"], with_coverage(text))):
        for is_output_shown in (False, True):
            title = f"{' '.join(words)}, {'all on the terminal' if is_output_shown else 'its output in a pipe'}"
            waiting = Waiting(program, words, is_output_shown)
            due = "", line(50, 2), line(100, 4)
            before, fifty, hundred = (waiting.give(piece, wanted) for piece, wanted in zip(given, due))
            tally.compare(f"{title}: nothing before 50 MB", (0, before), (0, due[0]))
            tally.compare(f"{title}: megabytes and faults after 50 MB", (0, fifty), (0, due[1]))
            tally.compare(f"{title}: megabytes and faults after 100 MB", (0, hundred), (0, due[2]))
            end = (1, f"\n{report}", "") if is_output_shown else (1, "\n", report)
            tally.compare(f"{title}: the line ends before the report", waiting.end(end[1]), end)


def try_short(program: Path, tally: Tally) -> None:
    """Of a short log nothing is shown but its report."""
    waiting, end = Waiting(program, ["check"], True), (0, "pass 3 events\n", "")
    tally.compare("a short log: nothing while it comes", (0, waiting.give(START, "")), (0, ""))
    tally.compare("a short log: its report at its end", waiting.end(end[1]), end)


def try_refused(program: Path, tally: Tally) -> None:
    """Where a log is refused the line ends before that is said."""
    log = to_size(START + USED * 2, STEP + READ)
    waiting, due, end = Waiting(program, ["check"], True), line(50, 1), (2, f"\nrefused 5 Kind at {len(log)}\n", "")
    tally.compare("a refused log: megabytes and faults while it comes", (0, waiting.give(log, due)), (0, due))
    waiting.process.stdin.write(b"\xff")
    tally.compare("a refused log: the line ends before the refusal", waiting.end(end[1]), end)


def try_elsewhere(program: Path, tally: Tally) -> None:
    """Nothing is written where standard error is no terminal, nor by `show`, which is told of no progress."""
    log = b"".join(pieces())
    with tempfile.TemporaryFile() as errors:
        subprocess.run([program, "check"], input=log, stdout=subprocess.DEVNULL, stderr=errors, timeout=SECONDS, check=False)
        errors.seek(0)
        tally.compare("standard error is a file: nothing is written", (0, errors.read()), (0, b""))
    ran = subprocess.run([program, "check"], input=log, capture_output=True, timeout=SECONDS, check=False)
    tally.compare("standard error is a pipe: nothing is written", (ran.returncode, "", ran.stderr), (1, "", b""))
    waiting = Waiting(program, ["show"], False)
    tally.compare("show: nothing is written while the log comes", (0, waiting.give(log, "")), (0, ""))
    tally.compare("show: nothing is written at the end", waiting.end("")[:2], (0, ""))


def main() -> int:
    arguments = argparse.ArgumentParser(description="Compares what is shown on a terminal while a long log is judged.")
    arguments.add_argument("--program", type=Path, default=BUILT, help="the program")
    given = arguments.parse_args()
    start = time.monotonic()
    tally = Tally()
    for attempt in (try_slowly, try_short, try_refused, try_elsewhere):
        attempt(given.program.resolve(), tally)
    print(f"terminal: {tally.passed} passed, {tally.failed} failed, in {time.monotonic() - start:.0f} s")
    return 1 if tally.failed else 0


if __name__ == "__main__":
    sys.exit(main())
