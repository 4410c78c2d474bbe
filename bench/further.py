#!/usr/bin/env python3
"""Judges a log of one end of an MQTT 5.0 session by the thirty further statements (further_table.py), and prints their faults in the
form of `mqjudge check`. The program judges those of `JUDGED` too, with `--all` or `--times`; the others nothing else judges.

This is a second opinion, and no part of the program. It was written from the words alone, before anything that is proved. What it
needs of the 74 statements' second opinion (reading.py, sessions.py, and words of statements.py) it takes from there. Where a fault
is decided is said by the statement; that it is so, and that each beginning of a log only gains faults, --self-test checks. Whether
the program says the same is checked by check_further.py, check_forms.py and fuzz.py, over on_request.py.

K01 and K02 need a log of version 2 whose moments are microseconds, and are judged with --times alone. With --judged the log is
judged by those statements alone that the program judges with `--all`, or together with --times by those that it judges then.

usage: bench/further.py [--times] [--judged] LOG..
       bench/further.py --self-test [--made 100]
       bench/further.py --rules [--judged [--times]]
"""
import argparse
import sys
from collections.abc import Container
from pathlib import Path

sys.dont_write_bytecode = True  # the repository stays as it is
import further_duties
import further_grants
import further_manners
import further_times
from further_table import ALL, ASKED, CITATIONS, DECIDED, JUDGED, OCCASIONS, OF_SESSIONS, SENTENCES, TIMED, TIMES, about
from reading import Recording
from sessions import Log

FAMILIES = (further_manners, further_duties, further_grants, further_times)
assert set(DECIDED) == set(OCCASIONS) == set(CITATIONS)
assert JUDGED == tuple(code for code in CITATIONS if code in JUDGED), "they aren't in the order of reports"
EVERY = tuple(CITATIONS)
Fault = tuple[int, str, int]  # the position, the statement, and where it is decided


def chosen(log: Log, times: bool) -> list[str]:
    """The statements that bind this end."""
    return [code for code, roles in CITATIONS.items() if log.role in roles and (times or code not in TIMED)]


def is_judged(log: Log, k: int, code: str) -> bool:
    return code not in OF_SESSIONS or (log.is_accepted(log.places[k]) and log.sessions[k] is not None)


def decided(log: Log, k: int, code: str) -> int | None:
    """Where the fault at k is decided. One in a session isn't before it is known which session that is."""
    at = DECIDED[code](log, k) if is_judged(log, k, code) else None
    return max(at, log.first_connacks[log.places[k]]) if at is not None and code in OF_SESSIONS else at


def faults(log: Log, times: bool = False, codes: Container[str] = EVERY) -> list[Fault]:
    """Those of these statements."""
    tried = [(k, code) for k in range(1, log.last + 1) for code in about(log.event(k).subject(), log.role, times) if code in codes]
    return [(k, code, at) for k, code in tried if (at := decided(log, k, code)) is not None]


def places(log: Log, code: str) -> list[int]:
    """The positions at which a statement is put to the test."""
    if log.role not in CITATIONS[code]:
        return []
    return [k for k in range(1, log.last + 1) if is_judged(log, k, code) and OCCASIONS[code](log, k)]


def log_of(recording: Recording) -> Log:
    """The events of a log, up to where it is refused."""
    return Log(recording.events, recording.role, recording.releases)


def fault_line(log: Log, fault: Fault) -> str:
    k, code, at = fault
    return f"fault {k} {code} {CITATIONS[code][log.role]} decided {at} record {log.event(k).record} offset -"


def report(recording: Recording, times: bool, codes: Container[str] = EVERY) -> list[str]:
    if recording.refusal is not None:
        return [recording.refusal.text()]
    log = log_of(recording)
    found = faults(log, times, codes)
    lines = [fault_line(log, fault) for fault in found]
    return [*lines, f"fail {len(found)} faults {log.last} events" if found else f"pass {log.last} events"]


def main() -> int:
    arguments = argparse.ArgumentParser(description="Judges logs by the further statements.")
    arguments.add_argument("logs", nargs="*", type=Path, metavar="LOG")
    arguments.add_argument("--times", action="store_true", help="judge K01 and K02 too: moments are microseconds")
    arguments.add_argument("--judged", action="store_true", help="judge by those statements alone that the program judges")
    arguments.add_argument("--rules", action="store_true", help="list the statements, or with --judged those")
    arguments.add_argument("--self-test", action="store_true", help="check worked logs, and laws on these and others")
    arguments.add_argument("--made", type=int, default=100, help="how many logs of each kind are made for that")
    given = arguments.parse_args()
    if bool(given.logs) + given.rules + given.self_test != 1:
        arguments.error("name logs, or give --self-test or --rules")
    codes = ASKED[TIMES if given.times else ALL] if given.judged else EVERY
    if given.self_test:
        import further_worked

        return further_worked.self_test(given.made)
    for code in codes if given.rules else ():
        print(code, CITATIONS[code].get("client", "-"), CITATIONS[code].get("server", "-"), SENTENCES[code])
    for path in given.logs:
        if len(given.logs) > 1:
            print(f"{path}:")
        print(*report(Recording(path.read_bytes()), given.times, codes), sep="\n")
    return 0


if __name__ == "__main__":
    sys.exit(main())
