#!/usr/bin/env python3
"""Compares worked logs with reference.py: each must get the report that is beside it. With --mqjudge the program must say so too.

They are the worked logs of mq_worked, the logs of examples/, and some that are too long for its tests.

usage: bench/check_rows.py [--mqjudge PATH]
"""
import argparse
import ast
import re
import struct
import sys
from collections.abc import Iterator
from dataclasses import dataclass
from pathlib import Path

sys.dont_write_bytecode = True  # the repository stays as it is
from judges import judges

TOP = Path(__file__).resolve().parent.parent
FOLDER = TOP / "crates/mq_worked/src/tests/statements"
TEXT = r'("(?:[^"\\]|\\.)*")'
TABLE = re.compile(r'pub const \w+: &str = "\\\n(.*?)";', re.DOTALL)
HEADERS = {"client": "000100", "server": "010100", "silent-client": "000000"}
KINDS = {"OPEN": 1, ">": 2, "<": 3, "CLOSE": 4, "REST": 5, "RELEASE": 6}

# What the examples are, by their names.
EXAMPLES = {
    "pass": "pass 7 events",
    "identifier-in-use": "fault 5 S01 MQTT-2.2.1-3 decided 5 record 5 offset -; fail 1 faults 6 events",
    "invalid-topic": "fault 4 W04 MQTT-1.5.4-1 decided 4 record 4 offset 2; fail 1 faults 5 events",
    "before-connack": "fault 8 S01 MQTT-2.2.1-3 decided 9 record 8 offset -; fail 1 faults 9 events",
    "before-connack-new": "pass 9 events",
}

# Of an undecided connection 4,096 events are held, its OPEN included: so after a CONNECT 4,094 PUBLISHes may come, all in one record.
PUBLISH = "30050001610078"
UNDECIDED = f"client OPEN >CONNECT >{PUBLISH * 4_094}"
LONG = f"""\
as many events as may be undecided | {UNDECIDED} | pass 4096 events
which are decided by the next one | {UNDECIDED} <CONNACK | pass 4097 events
which are refused by it | {UNDECIDED} <CONNACK-REFUSED | pass 4097 events
or whose connection ends with it | {UNDECIDED} CLOSE | pass 4097 events
one more | {UNDECIDED}{PUBLISH} | refused 13 TooManyEarly at 28702
one more in a record of its own | {UNDECIDED} >{PUBLISH} | refused 13 TooManyEarly at 28707
one more on the next connection | {UNDECIDED} CLOSE OPEN >CONNECT >{PUBLISH} | pass 4100 events"""


@dataclass(frozen=True)
class Row:
    name: str
    words: str
    log: bytes
    report: str


def packets() -> dict[str, str]:
    text = (FOLDER / "packets.rt").read_text()
    return {ast.literal_eval(name): ast.literal_eval(digits) for name, digits in re.findall(rf"\(\s*{TEXT},\s*{TEXT},?\s*\)", text)}


def record(word: str, names: dict[str, str]) -> bytes:
    if word[0] in "<>":
        kind, body = KINDS[word[0]], bytes.fromhex(names.get(word[1:], word[1:]))
    else:
        name, _, number = word.partition(":")
        kind, body = KINDS[name], struct.pack(">H", int(number)) if number else b""
    return struct.pack(">BI", kind, len(body)) + body


def log_of(text: str, names: dict[str, str]) -> bytes:
    header, *words = text.split()
    return b"MQTR\x01" + bytes.fromhex(HEADERS[header]) + b"".join(record(word, names) for word in words)


def report_of(text: str) -> str:
    return "".join(f"{line.strip()}\n" for line in text.split(";"))


def tables() -> Iterator[tuple[str, str]]:
    """The rows that are written as text, with the name of their file."""
    for path in sorted(FOLDER.glob("*.rt")):
        for table in TABLE.findall(path.read_text()):
            yield path.name, table
    yield "long", LONG


def rows() -> Iterator[Row]:
    names = packets()
    for file, table in tables():
        for row in table.split("\n"):
            name, log, report = (part.strip() for part in row.split("|"))
            yield Row(f"{file}: {name}", log, log_of(log, names), report_of(report))
    for name, report in EXAMPLES.items():
        path = TOP / f"examples/{name}.log"
        yield Row(f"examples/{path.name}", "", path.read_bytes(), report_of(report))


def main() -> int:
    arguments = argparse.ArgumentParser(description="Compares worked logs with reference.py.")
    arguments.add_argument("--mqjudge", type=Path, help="a program that has to give these reports too")
    given = arguments.parse_args()
    count = wrong = 0
    for row in rows():
        for name, judge in judges(given.mqjudge).items():
            count += 1
            answer = judge(row.log)
            if answer != row.report:
                wrong += 1
                print(f"{row.name}, by {name}\n  {row.words:.500}", f"wanted {row.report!r}", f"got    {answer!r:.500}", sep="\n  ")
    print(f"{count} reports, {wrong} wrong")
    return 1 if wrong else 0


if __name__ == "__main__":
    sys.exit(main())
