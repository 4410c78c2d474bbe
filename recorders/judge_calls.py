"""What the tests of recorders/judge share: calls of it, with a program of a few lines in place of the judge."""
from __future__ import annotations

import subprocess
import sys
from pathlib import Path
from typing import NamedTuple

import log_format
from judging.causes import read_because, said
from testing import PATIENCE, InFolder

JUDGE = Path(__file__).resolve().parent / "judge"
STAND_IN = """#!/bin/sh
# Says what the log's text says after its first line: its lines, and the last one's status. It shows LOG.show, and as a
# whole LOG.long; LOG.why has what its faults conflict with, and without it this is a program that can't say that. Each
# call is noted.
echo "$*" >> "$0.calls"
case "$1" in
check)
    if test "$2" = --why; then
        test -f "$3.why" || exit 3
        cat "$3.why"
        exit 1
    fi
    sed '1d;$d' < "$2"
    exit "$(tail -n 1 "$2")" ;;
show)
    test "$2 $3 $4 $5" = "--long --faults --around 2" && test -f "$6.show" && exec cat "$6.show"
    test "$#" = 3 && test "$2" = --long && test -f "$3.long" && exec cat "$3.long" ;;
explain) printf '%s sec-1\\n\\nIt is so.\\n\\nIn a client: Change it.\\n' "$2"; exit 0 ;;
rules) printf '%s both sec-1 It is so.\n' W01 W09 S01 S02 E1A; exit 0 ;;
esac
exit 3
"""
LOG = "MQTR\n"  # as a log begins
PASS = "pass 3 events\n0\n"
FAIL = """fault 5 S01 MQTT-2.2.1-3 decided 5 record 5 offset -
fault 7 W09 sec-2.2.1 decided 7 record 6 offset 2
fail 2 faults 9 events
1
"""
REFUSED = "refused 7 Nested at 13\n2\n"
BROKEN = "mqjudge: read failed\n4\n"
CLIENT_LOG = "MQTR\x02\0\0\0\n"  # the header of a log of a client in version 2, and the end of the stand-in's first line


class Told(NamedTuple):
    """A fault that the stand-in reports, and what it says that it conflicts with."""

    position: int
    code: str
    because: str  # after `event `: `3 numbers 11 10`
    decided: int = 0  # a later event, if one shows it

    @property
    def line(self) -> str:
        return (f"fault {self.position} {self.code} sec-1 decided {self.decided or self.position}"
                f" record {self.position} offset -")

    @property
    def why(self) -> str:
        return f"because {self.position} {self.code} event {self.because}"

    @property
    def words(self) -> str:
        """The same as it is shown under the event, after what the statement says."""
        found = read_because(self.why)
        words = said(self.code, found[1]) if found else ""
        return f" ({words})" if words else ""


class WithStandIn:
    """Tests with a program of a few lines in place of the judge, and logs of which it says what is made up."""

    folder: Path
    logs: Path

    def put_program(self) -> None:
        self.program = self.folder / "program"
        self.program.write_text(STAND_IN)
        self.program.chmod(0o755)

    def tell(self, events: list[str], faults: list[Told], name: str = "a", is_old: bool = False) -> Path:
        """Puts a log with these events, as they are shown after their positions and records, and with these faults.

        An old program doesn't know what they conflict with.
        """
        path = self.logs / f"{name}.log"
        last = f"fail {len(faults)} faults {len(events)} events"
        path.write_text(CLIENT_LOG + "".join(f"{fault.line}\n" for fault in faults) + f"{last}\n1\n")
        shown = [f"{place} record {place} {event}" for place, event in enumerate(events, 1)]
        path.with_name(f"{name}.log.long").write_text("".join(f"{line}\n" for line in shown))
        for fault in sorted(faults, reverse=True):
            words = "" if is_old else fault.words
            shown.insert(fault.position, f"  fault {fault.code} sec-1 It is so.{words}")
        path.with_name(f"{name}.log.show").write_text("".join(f"{line}\n" for line in shown))
        why = [line for fault in faults for line in (fault.line, fault.why)]
        place = path.with_name(f"{name}.log.why")
        place.write_text("".join(f"{line}\n" for line in [*why, last]))
        if is_old:
            place.unlink()
        return path

    def calls(self) -> list[str]:
        """How the stand-in was called."""
        place = self.program.with_name(f"{self.program.name}.calls")
        return place.read_text().splitlines() if place.exists() else []


class Case(WithStandIn, InFolder):
    def setUp(self) -> None:
        super().setUp()
        self.put_program()
        self.logs.mkdir()

    def put(self, **texts: str) -> None:
        for name, text in texts.items():
            (self.logs / f"{name}.log").write_text(LOG + text)

    def command(self, *words: object, program: object = None) -> list[str]:
        return [sys.executable, str(JUDGE), *map(str, words or [self.logs]), "--program", str(program or self.program)]

    def judged(self, *words: object, program: object = None) -> tuple[int, str, str]:
        """The status, and what is written to standard output and standard error."""
        answer = subprocess.run(self.command(*words, program=program), capture_output=True, text=True, timeout=PATIENCE)
        return answer.returncode, answer.stdout, answer.stderr


def log_of(*records: tuple[int, bytes], is_server: bool = False, version: int = 2) -> bytes:
    """A log of these records, whose moments count from 1."""
    made = log_format.VERSIONS[version]
    body = [made.record(kind, data, moment) for moment, (kind, data) in enumerate(records, 1)]
    return made.header(is_server, False) + b"".join(body)
