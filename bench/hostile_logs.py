"""Makes logs of all kinds for `bench/fuzz.py`, by a seed: sessions in which the tested end does right, and others; the same, and
worked logs, changed; and garbage, in records and in place of a header. A third of them are logs of version 2, with moments as
recorders write them, or with longer waits, or with odd ones, and now and then cut or changed in a record's head. Where the tested
end does right, it does so by the moments too, unless these are any. The same seed and number always give the same bytes.
"""
import random
from collections.abc import Callable
from dataclasses import dataclass
from itertools import accumulate

import check_rows
import showing
from honest_logs import Honest
from make_log import CLOSE, CONNACK, CONNECT, OPEN, RECV, REST, SENT, record
from pacing import in_time
from random_logs import EXAMPLES, TELLING, Session, change, crowded, first_version_streams
from session_logs import CLIENT, RELEASE, number, packet
from shortening import packets
from versions import HEAD_SIZES, HEADER_SIZE, LENGTH_END, OFTEN_SECOND, in_some_version, records, version_of

HONEST, AT_ANY_TIME = "honest", "honest, at any time"
# What captures begin with, and what gzip compresses.
MAGICS = (b"\xd4\xc3\xb2\xa1", b"\x4d\x3c\xb2\xa1", b"\x0a\x0d\x0d\x0a", b"\xa1\xb2\xc3\xd4", b"\x1f\x8b\x08")
# (The longest bodies have 100000 bytes in version 1, and 1000000 in version 2, in hexadecimal digits.)
LENGTHS = (b"\0\0\0\0", b"\0\0\0\1", b"\0\0\0\2", b"\0\x0f\xff\xff", b"\0\x10\0\0", b"\0\x10\0\1", b"\xff\xff\xff\xff")
LENGTHS += (b"\0\xff\xff\xff", b"\1\0\0\0", b"\1\0\0\1")
# Remaining Lengths: the greatest, those of a packet as large as the bound and of one byte more, over four bytes, needlessly long.
REMAINING = (b"\xff\xff\xff\x7f", b"\xfb\xff\xff\x07", b"\xfc\xff\xff\x07", b"\xff\xff\xff\xff", b"\x80\0", b"\x85\x80\0")
MARKS = (
    record(REST), record(REST), record(RELEASE, number(1)), record(RELEASE, number(2)), record(OPEN), record(CLOSE), record(SENT),
    record(RECV),
)
WORKED = [row.log for row in check_rows.rows() if len(row.log) < 1_000]
# Packets of all types, and those of the worked logs, which break and keep each statement.
PACKETS = sorted({*EXAMPLES, *(one for log in WORKED for one in packets(log))})
BROKEN = [one for one in PACKETS if showing.packet(one)[1].startswith("BAD")]
PUBLISHES = [one for one in PACKETS if one[0] >> 4 == 3 and len(one) > 1]
DISCONNECTS = [one for one in PACKETS if one[0] == 0xE0]
CROWDED = [log for _, log, _ in crowded()]
Parts = list[bytes]


@dataclass(frozen=True)
class Made:
    """A log, how it was made, and bytes to be taken as a packet."""

    kind: str
    log: bytes
    packet: bytes


# ---- changes. Each takes the header and the records, and changes them.


def one_of(draw: random.Random, parts: Parts) -> int:
    """The place of a record: mostly of one whose loss leaves the log one that can be judged."""
    at = draw.randrange(len(parts))
    return draw.randrange(len(parts)) if parts[at][0] in (OPEN, CLOSE) and draw.random() < 0.9 else at


def drop(draw: random.Random, parts: Parts) -> None:
    del parts[one_of(draw, parts)]


def double(draw: random.Random, parts: Parts) -> None:
    """It comes once more, soon after."""
    at = one_of(draw, parts)
    parts.insert(at + draw.randint(1, 4), parts[at])


def move(draw: random.Random, parts: Parts) -> None:
    at = one_of(draw, parts)
    part = parts.pop(at)
    parts.insert(max(0, at + draw.randint(-4, 4)), part)


def swap(draw: random.Random, parts: Parts) -> None:
    """Two neighbours change places."""
    at = one_of(draw, parts)
    parts[at : at + 2] = reversed(parts[at : at + 2])


def swap_alike(draw: random.Random, parts: Parts) -> None:
    """Two records that begin with packets of one type, and go the same way."""
    at = one_of(draw, parts)
    alike = [n for n, part in enumerate(parts) if n != at and part[0] == parts[at][0] and part[5:6] == parts[at][5:6]]
    if alike:
        other = draw.choice(alike)
        parts[at], parts[other] = parts[other], parts[at]


def put_mark(draw: random.Random, parts: Parts) -> None:
    parts.insert(draw.randrange(len(parts) + 1), draw.choice(MARKS))


def put_packet(draw: random.Random, parts: Parts) -> None:
    said = bytearray(draw.choice(PACKETS if draw.random() < 0.5 else BROKEN))
    if draw.random() < 0.3:
        change(draw, said)
    parts.insert(draw.randrange(len(parts) + 1), record(draw.choice((SENT, RECV)), bytes(said)))


def put_disconnect(draw: random.Random, parts: Parts) -> None:
    """Before a CLOSE, if there is one: perhaps after another DISCONNECT."""
    ends = [n for n, part in enumerate(parts) if part[0] == CLOSE]
    parts.insert(draw.choice(ends or [len(parts)]), record(draw.choice((SENT, RECV)), draw.choice(DISCONNECTS)))


def turn(draw: random.Random, parts: Parts) -> None:
    """What was sent is received, or the other way round."""
    at = draw.randrange(len(parts))
    parts[at] = bytes([{SENT: RECV, RECV: SENT}.get(parts[at][0], parts[at][0])]) + parts[at][1:]


def cut_record(draw: random.Random, parts: Parts) -> None:
    """A SENT or RECV becomes two, with what comes next between them, or not."""
    at = draw.randrange(len(parts))
    kind, body = parts[at][0], parts[at][5:]
    if kind not in (SENT, RECV) or len(body) < 2:
        return
    size = draw.randrange(len(body))
    between = parts[at + 1 : at + 1 + draw.randrange(3)]
    parts[at : at + 1 + len(between)] = [record(kind, body[:size]), *between, record(kind, body[size:])]


def change_body(draw: random.Random, parts: Parts) -> None:
    """A byte of a record's body, whose length is right still."""
    at = draw.randrange(len(parts))
    body = bytearray(parts[at][5:])
    change(draw, body)
    parts[at] = record(parts[at][0], bytes(body))


def change_packet(draw: random.Random, parts: Parts) -> None:
    """A byte of a packet after its fixed header; its Remaining Length is right still, if it is one byte."""
    at = draw.randrange(len(parts))
    body = bytearray(parts[at][5:])
    if len(body) > 2 and body[1] == len(body) - 2:
        rest = body[2:]
        change(draw, rest)
        body = body[:1] + bytes([min(127, len(rest))]) + rest
        parts[at] = record(parts[at][0], bytes(body))


def change_flags(draw: random.Random, parts: Parts) -> None:
    """One of the flags of a packet, or a bit of its type."""
    at = draw.randrange(len(parts))
    if parts[at][0] in (SENT, RECV) and len(parts[at]) > 5:
        flags = parts[at][5] ^ (1 << draw.choice((0, 1, 1, 2, 2, 3, 3, draw.randrange(4, 8))))
        parts[at] = parts[at][:5] + bytes([flags]) + parts[at][6:]


def change_identifier(draw: random.Random, parts: Parts) -> None:
    """A byte that is 1 to 5, as all Packet Identifiers here are, becomes another one of them."""
    at = draw.randrange(len(parts))
    places = [n for n in range(5, len(parts[at])) if 1 <= parts[at][n] <= 5]
    if places:
        one = draw.choice(places)
        parts[at] = parts[at][:one] + bytes([draw.randint(0, 5)]) + parts[at][one + 1 :]


def change_session(draw: random.Random, parts: Parts) -> None:
    """A CONNECT asks otherwise for a new session, or a CONNACK says otherwise whether one is resumed, or it doesn't come."""
    places = [n for n, part in enumerate(parts) if part[5:6] in (b"\x10", b"\x20") and len(part) > 9]
    if not places:
        return
    at = draw.choice(places)
    flag = 14 if parts[at][5] == 0x10 else 7  # after the record's head: the Connect Flags, the Connect Acknowledge Flags
    if flag == 7 and draw.random() < 0.4:
        del parts[at]
    elif flag < len(parts[at]):
        parts[at] = parts[at][:flag] + bytes([parts[at][flag] ^ (2 if flag == 14 else 1)]) + parts[at][flag + 1 :]


def change_will(draw: random.Random, parts: Parts) -> None:
    """The Will of a CONNECT has another QoS or Will Retain, or there is none any more."""
    places = [n for n, part in enumerate(parts) if part[5:6] == b"\x10" and len(part) > 14 and part[14] & 0x04]
    if places:
        at = draw.choice(places)
        parts[at] = parts[at][:14] + bytes([parts[at][14] ^ draw.choice((0x08, 0x10, 0x18, 0x20, 0x20, 0x04))]) + parts[at][15:]


def change_unsuback(draw: random.Random, parts: Parts) -> None:
    """The last Reason Code of an UNSUBACK says otherwise whether there was a subscription."""
    places = [n for n, part in enumerate(parts) if part[5:6] == b"\xb0" and part[-1] in (0x00, 0x11)]
    if places:
        at = draw.choice(places)
        parts[at] = parts[at][:-1] + bytes([parts[at][-1] ^ 0x11])


def change_publishes(draw: random.Random, parts: Parts) -> None:
    """Some PUBLISHes that are sent have RETAIN 1, or no Subscription Identifier any more, or another one, or one more, or QoS 2 in place of
    1, or another topic."""
    places = [n for n, part in enumerate(parts) if part[0] == SENT and len(part) > 9 and part[5] >> 4 == 3 and part[6] < 0x80]
    for at in draw.sample(places, min(len(places), 3)):
        body = bytearray(parts[at][5:])
        match draw.randrange(6):
            case 0:
                body[0] |= 1
            case 1:
                leave_out_number(body)
            case 2 if body[0] & 0x06 == 0x02:
                body[0] ^= 0x06
            case 3 if body[2:4] != b"\0\0":
                body[4:5] = draw.choice((b"b", b"y"))
            case 4:
                leave_out_number(body)
                put_number(draw, body)
            case 5:
                put_number(draw, body)
        parts[at] = record(SENT, bytes(body))


def properties_of(body: bytearray) -> tuple[int, int]:
    """Where the Property Length of a PUBLISH is, and where its properties end; nothing if it hasn't got them all."""
    at = 4 + int.from_bytes(body[2:4], "big") + 2 * bool(body[0] & 0x06)
    end = at + 1 + body[at] if at < len(body) else 0
    return (at, end) if end <= len(body) else (0, 0)


def put_number(draw: random.Random, body: bytearray) -> None:
    """Puts a Subscription Identifier behind the properties of a PUBLISH."""
    at, end = properties_of(body)
    if end and max(body[at], body[1]) + 2 < 0x80:
        body[end:end] = bytes([0x0B, draw.choice((7, 8, 9))])
        body[at] += 2
        body[1] += 2


def leave_out_number(body: bytearray) -> None:
    """Takes a Subscription Identifier of one byte out of a PUBLISH, if that is its last property."""
    at, end = properties_of(body)
    if end and body[end - 2 : end - 1] == b"\x0b" and body[at] >= 2:
        del body[end - 2 : end]
        body[at] -= 2
        body[1] -= 2


def break_off(draw: random.Random, parts: Parts) -> None:
    """A connection ends in the middle of a packet: one that is sent last, or one more."""
    ends = [n for n, part in enumerate(parts) if part[0] == CLOSE]
    if not ends:
        return
    at = draw.choice(ends)
    if parts[at - 1][0] == SENT and len(parts[at - 1]) > 6 and draw.random() < 0.5:
        parts[at - 1] = record(SENT, parts[at - 1][5 : draw.randrange(6, len(parts[at - 1]))])
    else:
        said = draw.choice(PUBLISHES)
        parts.insert(at, record(SENT, said[: draw.randrange(1, len(said))]))


def put_remaining_length(draw: random.Random, parts: Parts) -> None:
    at = draw.randrange(len(parts))
    if parts[at][0] in (SENT, RECV) and len(parts[at]) > 6:
        parts[at] = record(parts[at][0], parts[at][5:6] + draw.choice(REMAINING) + parts[at][7:])


def put_length(draw: random.Random, parts: Parts) -> None:
    """A length that isn't the record's."""
    at = draw.randrange(len(parts))
    parts[at] = parts[at][:1] + draw.choice(LENGTHS) + parts[at][5:]


def cut(draw: random.Random, parts: Parts) -> None:
    """The log ends somewhere."""
    at = draw.randrange(len(parts))
    parts[at:] = [parts[at][: draw.randrange(len(parts[at]) + 1)]]


GENTLE: tuple[Callable[[random.Random, Parts], None], ...] = (
    drop, drop, drop, double, double, move, swap, swap, swap_alike, swap_alike, put_mark, put_packet, put_packet, put_packet,
    put_disconnect, turn, cut_record, change_packet, change_packet, change_identifier, change_identifier, change_flags, change_session,
    change_session, change_will, change_unsuback, change_publishes, change_publishes, break_off,
)
ROUGH = (change_body, put_remaining_length, put_length, cut)


def changed(draw: random.Random, log: bytes) -> bytes:
    """The log after one to four changes, most of which leave it one that isn't refused."""
    header, parts = log[:HEADER_SIZE], list(records(log))
    for _ in range(draw.randint(1, 4)):
        if parts:
            draw.choice(GENTLE if draw.random() < 0.96 else ROUGH)(draw, parts)
            parts = [part for part in parts if part]
    if draw.random() < 0.04 and len(header) == HEADER_SIZE:
        header = header[:5] + bytes([1 - header[5], *header[6:]])
    out = bytearray(header + b"".join(parts))
    if draw.random() < 0.04:
        change(draw, out)
    return bytes(out)


# ---- version 2


def cut_head(draw: random.Random, log: bytes) -> bytes:
    """A log that ends inside a record's head, mostly inside its moment, or from which a part of a moment is missing."""
    parts = list(records(log))
    if not parts:
        return log
    at = draw.randrange(len(parts))
    size = draw.randint(LENGTH_END if draw.random() < 0.9 else 0, HEAD_SIZES[2])
    rest = [parts[at][draw.randint(size, HEAD_SIZES[2]) :], *parts[at + 1 :]] if draw.random() < 0.3 else []
    return log[:HEADER_SIZE] + b"".join([*parts[:at], parts[at][:size], *rest])


def with_version(draw: random.Random, kind: str, log: bytes) -> bytes:
    """The log, or a third of them in version 2. Then one that needn't pass may be cut or changed."""
    if kind == HONEST:
        return in_time(draw, log) if draw.random() < OFTEN_SECOND else log
    log = in_some_version(draw, log)
    if version_of(log) == 1 or kind == AT_ANY_TIME:
        return log
    if draw.random() < 0.1:
        log = cut_head(draw, log)
    if draw.random() < 0.05:
        out = bytearray(log)
        change(draw, out)
        log = bytes(out)
    return log


# ---- garbage


def garbage(draw: random.Random, most: int) -> bytes:
    """Random bytes, or those that MQTT often has."""
    size = draw.randrange(most)
    return draw.randbytes(size) if draw.random() < 0.5 else bytes(draw.choices(TELLING, k=size))


def garbage_in_records(draw: random.Random) -> bytes:
    log = b"MQTR\x01" + bytes([draw.randrange(2), 1, 0]) + record(OPEN)
    if draw.random() < 0.8:
        first = SENT if log[5] == CLIENT else RECV
        log += record(first, CONNECT) + record(SENT + RECV - first, CONNACK)
    for _ in range(draw.randint(1, 10)):
        log += record(draw.choice((SENT, RECV)), garbage(draw, 40)) if draw.random() < 0.9 else draw.choice(MARKS)
    return log


def garbage_header(draw: random.Random) -> bytes:
    """A log whose header is changed, is that of another file, or isn't whole; or no log at all."""
    log = Session(draw).log()
    match draw.randrange(4):
        case 0:
            return garbage(draw, 40)
        case 1:
            return draw.choice(MAGICS) + garbage(draw, 40)
        case 2:
            return log[: draw.randrange(HEADER_SIZE + 1)]
    at = draw.randrange(HEADER_SIZE)
    return log[:at] + bytes([draw.randrange(4) if draw.random() < 0.5 else draw.randrange(256)]) + log[at + 1 :]


def long_packet(draw: random.Random) -> bytes:
    """A PUBLISH that is longer than what is read at once, in records that are cut anywhere, put into a session."""
    log = Honest(draw).log()
    header, parts = log[:HEADER_SIZE], list(records(log))
    length = draw.randint(8_000, 20_000)
    stream = packet(0x30, b"\0\1a" + b"\0" * (draw.random() < 0.9) + draw.randbytes(length))
    way, pieces = draw.choice((SENT, RECV)), []
    while stream:
        count = draw.choice((1, 3, 4_096, 8_187, 8_192, 9_000))
        pieces, stream = [*pieces, record(way, stream[:count])], stream[count:]
    at = draw.randrange(len(parts) + 1)
    return header + b"".join(parts[:at] + pieces + parts[at:])


# ---- all kinds


Maker = Callable[[random.Random], bytes]
# How each kind is made, and how often.
KINDS: dict[str, tuple[Maker, int]] = {
    HONEST: (lambda draw: Honest(draw).log(), 17),
    AT_ANY_TIME: (lambda draw: Honest(draw).log(), 3),
    "honest, changed": (lambda draw: changed(draw, Honest(draw).log()), 30),
    "random session": (lambda draw: Session(draw).log(), 16),
    "random session, changed": (lambda draw: changed(draw, Session(draw).log()), 8),
    "worked log, changed": (lambda draw: changed(draw, draw.choice(WORKED)), 14),
    "packets of all types": (lambda draw: next(first_version_streams(draw, 1)), 4),
    "garbage in records": (garbage_in_records, 4),
    "garbage header": (garbage_header, 3),
    "long packet": (long_packet, 0.2),
    "many events before a CONNACK": (lambda draw: draw.choice(CROWDED), 0.1),
}


NAMES, SUMS = list(KINDS), list(accumulate(often for _, often in KINDS.values()))


def some_packet(draw: random.Random, log: bytes) -> bytes:
    """One of the log's packets, or an example, changed or not."""
    found = packets(log) if draw.random() < 0.6 else []
    some = bytearray(draw.choice(found or PACKETS))
    for _ in range(draw.choice((0, 1, 1, 1, 2))):
        change(draw, some)
    if 2 <= len(some) < 130 and draw.random() < 0.7:  # else most of them would only be too short or too long
        some[1] = len(some) - 2
    return bytes(some[:400])


def made(seed: int, which: int) -> Made:
    """The log of this number among those of the seed."""
    draw = random.Random(f"fuzz {seed} {which}")
    kind = draw.choices(NAMES, cum_weights=SUMS)[0]
    log = with_version(draw, kind, KINDS[kind][0](draw))
    return Made(kind, log, some_packet(draw, log))
