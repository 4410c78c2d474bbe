"""Checks of further.py: worked logs (further_rows.txt), also those of mq_rules_tests, which are proved, of the statements that the
program judges; and laws that hold on the former and on all other logs.

It is a part of the second opinion that further.py gives, and no part of the program.
"""
import random
import struct
import time
from collections.abc import Iterator
from dataclasses import dataclass
from pathlib import Path

import check_rows
import further_made
import hostile_logs
import honest_logs
import random_logs
import reference
import worked_places
from further import Fault, chosen, decided, faults, log_of, places
from further_table import ASKED, CITATIONS, JUDGED, TIMES
from reading import Recording
from sessions import Log

ROWS = Path(__file__).resolve().parent / "further_rows.txt"
WHICH = ("broken", "kept", "near")
BEGINNINGS = 4  # of each log that isn't worked, with which it is compared
SHORT = 5_000  # bytes of a worked log of the 74 statements on which the laws are checked
LONGEST = 150  # events of a log that is made on which they are
# The beginnings of the names of packets that only one end sends.
OF_CLIENTS = ("CONNECT", "RECONNECT", "BAD-CONNECT", "SUBSCRIBE", "SHARE", "UNSUBSCRIBE", "PINGREQ")
OF_SERVERS = ("CONNACK", "RESUMED", "BAD-CONNACK", "SUBACK", "UNSUBACK", "PINGRESP")


@dataclass(frozen=True)
class Row:
    line: str
    code: str
    which: str
    bytes: bytes
    recording: Recording
    log: Log
    is_timed: bool
    faults: list[Fault]
    places: list[int]

    def words(self) -> list[str]:
        """The log in words, without its moments."""
        return [word for word in self.line.split("|")[1].split() if word[0] != "@"]


def bytes_of(text: str) -> str:
    """The hexadecimal digits of a packet."""
    parts = [part.partition("*") for part in text.split()]
    return "".join(part * int(count or 1) for part, _, count in parts)


def timed_log(text: str, names: dict[str, str]) -> bytes:
    """A log of version 2, with moments in microseconds."""
    header, *words = text.split()
    out, moment = b"MQTR\x02" + bytes.fromhex(check_rows.HEADERS[header]), 0
    for word in words:
        if word[0] == "@":
            moment = round(float(word[1:]) * 1_000_000)
        else:
            record = check_rows.record(word, names)
            out += record[:5] + struct.pack(">Q", moment) + record[5:]
    return out


def fault_of(text: str) -> Fault:
    at, code, *decided = text.split()
    return int(at), code, int(decided[0]) if decided else int(at)


def packets() -> dict[str, str]:
    """Those of the worked logs of the 74 statements, and those of the rows here."""
    names = check_rows.packets()
    for line in ROWS.read_text().splitlines():
        name, _, digits = line.partition(" = ")
        if digits and line[0] != "#":
            assert name not in names, f"{name} is named twice"
            names[name] = bytes_of(digits)
    return names


def rows() -> Iterator[Row]:
    names = packets()
    for line in ROWS.read_text().splitlines():
        if line[:1] in ("", "#") or " | " not in line:
            continue
        head, words, wrong, at = (part.strip() for part in line.split("|"))
        code, which = head.partition(":")[0].split()
        is_timed = "@" in words
        log = (timed_log if is_timed else check_rows.log_of)(words, names)
        recording = Recording(log)
        assert recording.refusal is None, line
        expected = [fault_of(one) for one in wrong.split(";")] if wrong != "-" else []
        tested = [int(one) for one in at.split() if one != "-"]
        yield Row(line, code, which, log, recording, log_of(recording), is_timed, expected, tested)


# ---- what is wrong


def wrong_row(row: Row) -> Iterator[str]:
    found, at = faults(row.log, row.is_timed), places(row.log, row.code)
    if found != row.faults:
        yield f"{row.line}\n  found {found}"
    if at != row.places:
        yield f"{row.line}\n  found places {at}"
    breaks = any(code == row.code for _, code, _ in row.faults)
    if row.which not in WHICH or breaks != (row.which == "broken") or (row.which == "kept" and not row.places):
        yield f"{row.line}\n  it is no {row.which} log"
    others = [one for one in reference.faults(row.log) if one[1][0] != "W"]
    if others and row.which != "near":
        yield f"{row.line}\n  it breaks {others} of the 74 statements too"


def wrong_proved(proved: list[worked_places.Worked]) -> Iterator[str]:
    """The worked logs of mq_rules_tests have just the faults that are proved of them; none where they aren't asked for. Each statement
    has some."""
    for one in proved:
        found = [k for k, code, _ in faults(one.log, one.asked == TIMES, ASKED[one.asked]) if code == one.rule]
        if found != one.places:
            yield f"{one.name}: proved {one.places}, found {found}"
    seen = {(one.rule, one.log.role, bool(one.places)) for one in proved}
    wanted = {(code, role, fails) for code in JUDGED for role in CITATIONS[code] for fails in (True, False)}
    yield from (f"there is no proved log: {one}" for one in sorted(wanted - seen))


def wrong_coverage(all_rows: list[Row]) -> Iterator[str]:
    """Each statement needs one of each kind for each end that it binds."""
    seen = {(row.code, row.log.role, row.which) for row in all_rows}
    wanted = {(code, role, which) for code, roles in CITATIONS.items() for role in roles for which in WHICH}
    yield from (f"{' '.join(one)}: there is no such row" for one in sorted(wanted - seen))
    yield from (f"{' '.join(one)}: the end isn't bound" for one in sorted(seen - wanted))
    for code, role in sorted({(row.code, row.log.role) for row in all_rows}):
        broken, kept = ([row.words() for row in all_rows if (row.code, row.log.role, row.which) == (code, role, one)] for one in WHICH[:2])
        if not any(is_next_to(one, other) for one in broken for other in kept):
            yield f"{code} {role}: no kept log differs from a broken one in one record"


def is_next_to(one: list[str], other: list[str]) -> bool:
    """They differ in one record, which is changed, or in one of them alone; or in moments alone."""
    if len(one) == len(other):
        return sum(word != another for word, another in zip(one, other)) <= 1
    longer, shorter = sorted((one, other), key=len, reverse=True)
    return any(longer[:n] + longer[n + 1 :] == shorter for n in range(len(longer)))


class Laws:
    """Laws that hold on all logs, and how much they were checked."""

    def __init__(self) -> None:
        self.logs = self.faults = self.places = 0

    def wrong(self, log: Log, times: bool, lengths: list[int]) -> Iterator[str]:
        """What fails is put to the test; and each beginning has the faults that are decided in it, and no place that the log hasn't."""
        found, tested = faults(log, times), {code: places(log, code) for code in chosen(log, times)}
        self.logs += 1
        self.faults += len(found)
        self.places += sum(map(len, tested.values()))
        yield from (f"{code} fails at {k}, which is no place of it" for k, code, _ in found if k not in tested[code])
        yield from (f"{code} at {k} is decided at {at}" for k, code, at in found if not k <= at <= log.last)
        everywhere = [(k, code, at) for k in range(1, log.last + 1) for code in tested if (at := decided(log, k, code)) is not None]
        if everywhere != found:
            yield f"it fails where it isn't looked for: {everywhere}, and not {found}"
        for length in lengths:
            short = reference.beginning(log, length)
            if (some := faults(short, times)) != (wanted := [one for one in found if one[2] <= length]):
                yield f"the first {length} events have {some}, and not {wanted}"
            for code, at in tested.items():
                if lost := set(places(short, code)) - set(at):
                    yield f"places of {code} in the first {length} events that are none in the log: {sorted(lost)}"


def told_at_random(seed: int, which: int, names: dict[str, str]) -> bytes:
    """A log of the packets that have names, in any order, with more of those that begin a connection where one begins."""
    draw = random.Random(f"told {seed} {which}")
    role = draw.choice(("client", "server"))
    ways = "><" if role == "client" else "<>"  # what the client sends, and the server
    kept = sorted(set(names) - {"LARGE", "BAD-LARGE", "65537-BYTES"})
    of_client = [name for name in kept if not name.startswith(OF_SERVERS)]
    of_server = [name for name in kept if not name.startswith(OF_CLIENTS)]
    connects = [name for name in kept if "CONNECT" in name and "DIS" not in name]
    connacks = [name for name in kept if name.startswith(("CONNACK", "RESUMED"))]
    words, moment = [role], 0
    for _ in range(draw.randint(1, 3)):
        words += ["OPEN"]
        words += [ways[0] + draw.choice(connects)] if draw.random() < 0.9 else []
        words += [ways[1] + draw.choice(connacks)] if draw.random() < 0.85 else []
        for _ in range(draw.randint(1, 14)):
            moment += draw.choice((0, 0, 0, 1, 7, 14, 21, -5))
            others = [ways[0] + draw.choice(of_client), ways[1] + draw.choice(of_server), draw.choice((ways[0], ways[1])) + draw.choice(kept)]
            words += [f"@{max(moment, 0)}", draw.choices([*others, "REST", "REST"], (5, 5, 0.5, 1, 1))[0]]
        words += ["CLOSE"]
    return timed_log(" ".join(words), names)


def made(count: int) -> Iterator[tuple[str, bytes]]:
    """Logs with their names: random, honest, and honest ones that are changed."""
    names = packets()
    for which in range(count):
        yield f"told at random, 2 {which}", told_at_random(2, which, names)
        yield f"bench/random_logs.py 2 {which}", random_logs.session(2, which)
        honest = honest_logs.session(2, which)
        yield f"bench/honest_logs.py 2 {which}", honest
        yield f"bench/further_made.py 2 {which}", further_made.session(2, which)
        yield f"bench/further_made.py 2 {which}, changed", further_made.session(2, which, carelessness=0.3)
        yield f"bench/honest_logs.py 2 {which}, changed", hostile_logs.changed(random.Random(f"further {which}"), honest)


def wrong_honest(name: str, log: Log) -> Iterator[str]:
    """Honest sessions have no faults."""
    yield from (f"{name}: {code} fails at {k}, decided at {at}" for k, code, at in faults(log, times=True))


def self_test(count: int) -> int:
    begun, all_rows, laws = time.monotonic(), list(rows()), Laws()
    proved = list(worked_places.proved(worked_places.PROVED_FAULTS, JUDGED))
    proved += [one for one in worked_places.proved(worked_places.PROVED_TIMED) if one.has_faults]
    wrong = [*(line for row in all_rows for line in wrong_row(row)), *wrong_coverage(all_rows), *wrong_proved(proved)]
    for row in all_rows:
        wrong += [f"{row.line}\n  {line}" for line in laws.wrong(row.log, row.is_timed, list(range(row.log.last)))]
    others = [(row.name, row.log) for row in check_rows.rows() if len(row.log) < SHORT]
    for name, data in [*others, *made(count)]:
        log = log_of(Recording(data))
        if name.startswith(("bench/honest", "bench/further_made")) and not name.endswith("changed"):
            wrong += wrong_honest(name, log)
        draw = random.Random(name)
        lengths = sorted({draw.randrange(log.last + 1) for _ in range(BEGINNINGS)})
        wrong += [f"{name}: {line}" for line in laws.wrong(log, True, lengths)] if log.last <= LONGEST else []
    for line in wrong:
        print(f"{line:.1000}")
    seen = f"{len(all_rows)} worked logs, {len(proved)} that are proved, {laws.logs} with {laws.places} places and {laws.faults} faults for the laws"
    print(f"further: {seen}, {len(wrong)} wrong, in {time.monotonic() - begun:.0f} s")
    return 1 if wrong else 0
