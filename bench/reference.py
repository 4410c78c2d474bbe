#!/usr/bin/env python3
"""Judges a log of one end of an MQTT 5.0 session, and prints what `mqjudge check` is to print.

This is a second opinion, and no part of the program. It was written from the words of the statements alone (statements.py), and
reads logs by the standard and docs/LOG_FORMAT.md (reading.py, sessions.py). It looks at the whole log for each position and each
statement that can be false there: it keeps no state from one position to the next, so it takes time that grows with the square of
the log's length. What it shares with the program is nothing but the standard: where the two differ, one of them is wrong.

Packets before the CONNACK need no words of their own here. Whether their connection is accepted, and which session they are in, is
looked up in the whole log, so it doesn't matter where the CONNACK is; and `decided` is found by trying the log's beginnings.

usage: bench/reference.py check [FILE] [--limit 16777216]
"""
import argparse
import sys
from pathlib import Path

sys.dont_write_bytecode = True  # the repository stays as it is
from reading import Bad, DEFAULT_LIMIT, RELEASE, Recording
from sessions import Log
from statements import CITATIONS, STATEMENTS, about


def is_judged(log: Log, k: int, rule: str) -> bool:
    """Whether a statement that binds this end is judged there."""
    c = log.places[k]
    if rule[0] == "L" and not log.releases:
        return False
    if rule[0] in "WC":
        return True
    if log.is_accepted(c):
        return not log.are_unknown[c]
    is_loose = log.event(k).kind == RELEASE and (c == 0 or log.fates[c] is not None)
    return rule[0] == "L" and is_loose and not log.is_loose_in_unknown(k)


def fails(log: Log, k: int, rule: str) -> bool:
    return is_judged(log, k, rule) and STATEMENTS[rule](log, k)


def decided(log: Log, k: int, rule: str) -> int:
    """The length of the shortest beginning of the log in which the statement fails at k."""
    lengths = range(k, log.last + 1)
    return next(n for n in lengths if fails(beginning(log, n), k, rule))


def beginning(log: Log, length: int) -> Log:
    if length == log.last:
        return log
    kept = log.__dict__.setdefault("beginnings", {})
    if length not in kept:
        kept[length] = Log(log.events[:length], log.role, log.releases)
    return kept[length]


def faults(log: Log) -> list[tuple[int, str]]:
    return [(k, rule) for k in range(1, log.last + 1) for rule in about(log.event(k).subject(), log.role) if fails(log, k, rule)]


def offset(log: Log, k: int, rule: str) -> str:
    item = log.event(k).item
    if rule[0] != "W":
        return "-"
    return str(item.at) if isinstance(item, Bad) else "1"


def report(bytes: bytes, limit: int = DEFAULT_LIMIT) -> str:
    return reported(Recording(bytes, limit))


def reported(recording: Recording) -> str:
    """The report on a log that has been read."""
    if recording.refusal is not None:
        return recording.refusal.text() + "\n"
    log = Log(recording.events, recording.role, recording.releases)
    lines = []
    for k, rule in faults(log):
        e = log.event(k)
        lines.append(f"fault {k} {rule} {CITATIONS[rule][log.role]} decided {decided(log, k, rule)} record {e.record} offset {offset(log, k, rule)}")
    lines.append(f"fail {len(lines)} faults {log.last} events" if lines else f"pass {log.last} events")
    return "\n".join(lines) + "\n"


def main() -> None:
    parser = argparse.ArgumentParser(description=(__doc__ or "").partition("\n")[0])
    parser.add_argument("task", choices=["check"])
    parser.add_argument("file", nargs="?")
    parser.add_argument("--limit", type=int, default=DEFAULT_LIMIT)
    arguments = parser.parse_args()
    log = Path(arguments.file).read_bytes() if arguments.file else sys.stdin.buffer.read()
    text = report(log, arguments.limit)
    sys.stdout.write(text)
    sys.exit({"pass": 0, "fail": 1, "refused": 2}[text.splitlines()[-1].split()[0]])


if __name__ == "__main__":
    main()
