#!/usr/bin/env python3
"""Checks that the logs that are made for measuring are right: reference.py must pass each kind, in small sizes.

A log must have as many events as it was asked for, and no fault, in both versions. With --mqjudge the program must say so too.

usage: bench/check_logs.py [--mqjudge PATH]
"""
import argparse
import sys
from collections.abc import Iterator
from pathlib import Path

sys.dont_write_bytecode = True  # the repository stays as it is
import make_log
import session_logs
from judges import judges
from versions import HEAD_SIZES, in_version_1, in_version_2

SIZES = (1, 7, 60, 241)
# Of ten thousand filters, so that a message comes after all are subscribed to.
LARGER = {"filters-10000": 430, "filters-10000-new": 430}
MESSAGES = 60


def logs(version: int) -> Iterator[tuple[str, int, bytes]]:
    """A name of each log, how many events it has, and the log."""
    for kind in session_logs.KINDS:
        for events in (*SIZES, LARGER.get(kind, 242)):
            yield f"{kind} of {events} events", events, b"".join(session_logs.log(kind, events, version))
    for kind in make_log.KINDS:
        yield f"{kind} of {MESSAGES} messages", make_log.events_of(kind, MESSAGES), b"".join(make_log.log(kind, MESSAGES, version))


def wrong_pairs() -> Iterator[str]:
    """Where a log of version 2 isn't the same events as that of version 1, with moments of which at least two differ."""
    for (name, _, one), (_, _, two) in zip(logs(1), logs(2), strict=True):
        if in_version_1(two) != one or in_version_2(one) == two:
            yield name


def main() -> int:
    words = argparse.ArgumentParser(description="Checks the logs that are made for measuring.")
    words.add_argument("--mqjudge", type=Path, help="a program that has to pass them too")
    given = words.parse_args()
    count = wrong = 0
    for name in wrong_pairs():
        wrong += 1
        print(f"{name}: it isn't the same in both versions")
    for version in HEAD_SIZES:
        for name, events, log in logs(version):
            for by, judge in judges(given.mqjudge).items():
                count += 1
                report = judge(log)
                if report != f"pass {events} events\n":
                    wrong += 1
                    print(f"{name}, version {version}, by {by}:", *report.splitlines()[:5], sep="\n  ")
    print(f"{count} reports, {wrong} wrong")
    return 1 if wrong else 0


if __name__ == "__main__":
    sys.exit(main())
