#!/usr/bin/env python3
"""Says of logs at how many positions each statement is put to the test, its places, and what isn't judged.

It is a part of the second opinion that reference.py gives, and no part of the program: occasions.py has the statements, and
gaps.py what isn't judged. With --all or --times the further statements that the program judges by that are listed too, as further.py has
them.

For each log it prints a line for each statement that can be judged for its end, how many of these have a place, and a line for
each thing that isn't judged. A statement on packets that only the other end sends is left out if it has none. With --self-test it
checks worked logs and those of the suite, and laws on these and many others.

usage: bench/places.py [--all | --times] LOG..
       bench/places.py --self-test [--made 200]
"""
import argparse
import random
import sys
import time
from collections.abc import Iterator
from pathlib import Path

sys.dont_write_bytecode = True  # the repository stays as it is
import check_rows
import gaps
import hostile_logs
import honest_logs
import on_request
import random_logs
import suite
import worked_places
from further_table import ALL, ALWAYS, ASKED, TIMES
from occasions import all_places, coverage, log_of, places
from reading import Recording
from reference import beginning, faults
from sessions import Log
from statements import CITATIONS

# ---- the self-test

BEGINNINGS = 3  # of each log, with which its places are compared
SHORT = 5_000  # bytes of a worked log on which the laws are checked


def wrong_worked(worked: list[worked_places.Worked]) -> Iterator[str]:
    for one in worked:
        found = on_request.places(one.log, one.rule) if one.rule in ASKED[one.asked] else places(one.log, one.rule)
        if found != one.places:
            yield f"{one.name}: wanted {one.places}, found {found}"


def wrong_gaps() -> Iterator[str]:
    for name, log, wanted in worked_places.worked_gaps():
        found = gaps.lines(log)
        if found != wanted:
            yield f"{name}: wanted {wanted}, found {found}"


def wrong_suite(logs: list[tuple[suite.Row, Log]]) -> Iterator[str]:
    """Each statement has to be tested by its own two logs."""
    yield from (f"{row.code} {row.which}: it doesn't test its statement" for row, log in logs if not on_request.places(log, row.code))


def made(count: int) -> Iterator[tuple[str, bytes]]:
    """Logs with their names: random, honest, and honest ones that are changed."""
    for which in range(count):
        yield f"bench/random_logs.py 1 {which}", random_logs.session(1, which)
        honest = honest_logs.session(1, which)
        yield f"bench/honest_logs.py 1 {which}", honest
        draw = random.Random(f"places {which}")
        yield f"bench/honest_logs.py 1 {which}, changed", hostile_logs.changed(draw, honest)


class Laws:
    """Laws that hold on all logs, and what was seen while they were checked."""

    def __init__(self) -> None:
        self.logs = self.faults = self.places = 0
        self.tested: set[tuple[str, str]] = set()  # ends and statements that had a place

    def wrong(self, bytes: bytes) -> Iterator[str]:
        log = log_of(Recording(bytes))
        found = all_places(log)
        self.logs += 1
        self.places += sum(map(len, found.values()))
        self.tested |= {(log.role, rule) for rule, at in found.items() if at}
        for k, rule in faults(log):
            self.faults += 1
            if k not in found[rule]:
                yield f"{rule} fails at {k}, which is no place of it"
        yield from self.wrong_counts(log, found)
        draw = random.Random(log.last)
        for length in sorted({draw.randrange(log.last + 1) for _ in range(BEGINNINGS)}):
            short = beginning(log, length)
            for rule, at in found.items():
                lost = set(places(short, rule)) - set(at)
                if lost:
                    yield f"places of {rule} in the first {length} events that are none in the log: {sorted(lost)}"

    def wrong_counts(self, log: Log, found: dict[str, list[int]]) -> Iterator[str]:
        *tested, sums = coverage(log, found)
        listed = {line.split()[1]: int(line.split()[4]) for line in tested}
        for rule, at in found.items():
            if listed.get(rule, 0) != len(at) or len(set(at)) > log.last:
                yield f"{rule} has {len(at)} places in {log.last} events, and {listed.get(rule)} are printed"
            is_unbound = log.role not in CITATIONS[rule] or (rule[0] == "L" and not log.releases)
            if is_unbound and (at or rule in listed):
                yield f"{rule} has {len(at)} places, or is printed, and doesn't bind the end"
        covered = sum(count > 0 for count in listed.values())
        if sums != f"covered {covered} of {len(listed)} statements":
            yield f"wrong sums: {sums}"


def self_test(count: int) -> int:
    begun = time.monotonic()
    timed = (one for one in worked_places.proved(worked_places.PROVED_TIMED) if not one.has_faults)
    worked, laws = [*worked_places.proved(), *timed, *worked_places.rows()], Laws()
    logs = [(row, log_of(Recording(row.log))) for row in suite.rows()]
    wrong = [*wrong_worked(worked), *wrong_gaps(), *wrong_suite(logs)]
    short = [(row.name, row.log) for row in check_rows.rows() if len(row.log) < SHORT]
    wrong += [f"{name}: {line}" for name, log in [*short, *made(count)] for line in laws.wrong(log)]
    untested = [f"{role} {rule}" for rule, roles in CITATIONS.items() for role in roles if (role, rule) not in laws.tested]
    wrong += [f"no log tests {one}" for one in untested]
    for line in wrong:
        print(f"{line:.1000}")
    seen = f"{len(worked)} worked logs, {laws.logs} others with {laws.places} places and {laws.faults} faults"
    print(f"places: {seen}, {len(wrong)} wrong, in {time.monotonic() - begun:.0f} s")
    return 1 if wrong else 0


def main() -> int:
    arguments = argparse.ArgumentParser(description="Says of logs at how many positions each statement is put to the test.")
    arguments.add_argument("logs", nargs="*", type=Path, metavar="LOG")
    arguments.add_argument("--all", action="store_true", help="list the further statements too that the program judges")
    arguments.add_argument("--times", action="store_true", help="list those on times too")
    arguments.add_argument("--self-test", action="store_true", help="check worked logs, the suite and laws")
    arguments.add_argument("--made", type=int, default=200, help="how many logs of each kind it makes")
    given = arguments.parse_args()
    if given.self_test == bool(given.logs):
        arguments.error("name logs, or give --self-test")
    if given.self_test:
        return self_test(given.made)
    asked = TIMES if given.times else ALL if given.all else ALWAYS
    for path in given.logs:
        recording = Recording(path.read_bytes())
        if len(given.logs) > 1:
            print(f"{path}:")
        print(*([recording.refusal.text()] if recording.refusal else on_request.tested(recording, asked)), sep="\n")
    return 0


if __name__ == "__main__":
    sys.exit(main())
