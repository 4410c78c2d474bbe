"""The kinds of logs that are measured, by one measure: messages for those of make_log.py, events for those of session_logs.py."""
from collections.abc import Iterator
from pathlib import Path

import make_log
import session_logs

KINDS = (*make_log.KINDS, *session_logs.KINDS)
SAMPLE = 10_000
ROLE_AT, SERVER = 5, 1  # of a header: where it says which end is tested, and what it says of a server


def log(kind: str, amount: int, version: int = 1) -> Iterator[bytes]:
    return (make_log if kind in make_log.KINDS else session_logs).log(kind, amount, version)


def write(path: Path, kind: str, amount: int, version: int = 1) -> None:
    with open(path, "wb") as file:
        file.writelines(log(kind, amount, version))


def write_faulty(path: Path, kind: str, amount: int, also_last: bool) -> None:
    """Writes the same with two faults: on a connection before all others the tested end sends a packet that it may not send; and if that
    is wanted, it sends one more after all that is in the log."""
    write(path, kind, amount)
    text = path.read_bytes()
    header, rest = text[: len(make_log.HEADER)], text[len(make_log.HEADER) :]
    astray = make_log.record(make_log.SENT, make_log.PINGREQ if header[ROLE_AT] == SERVER else make_log.PINGRESP)
    before = [make_log.record(make_log.OPEN), astray, make_log.record(make_log.CLOSE)]
    after = before if kind in make_log.KINDS else [astray]  # the last connection of any other log is open
    path.write_bytes(b"".join([header, *before, rest, *(after if also_last else [])]))


def events(kind: str, amount: int) -> int:
    """How many events a log has."""
    return make_log.events_of(kind, amount) if kind in make_log.KINDS else amount


def amount_for_events(kind: str, wanted: int) -> int:
    """For a log of about so many events."""
    return max(1, (wanted - 5) // make_log.EVENTS[kind]) if kind in make_log.KINDS else wanted


def amount_for_bytes(kind: str, size: int) -> int:
    """For a log of about `size` bytes."""
    if kind in make_log.KINDS:
        return make_log.messages_for(kind, size)
    return max(1, size * SAMPLE // sum(map(len, session_logs.log(kind, SAMPLE))))
