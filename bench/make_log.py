#!/usr/bin/env python3
"""Writes a log of a tested client to standard output.

The same arguments always give the same bytes. The kinds:

small       PUBLISH packets of 9 bytes at QoS 1 and their PUBACKs, each packet in a record of its own
cut         the byte streams of `small`, cut into records of 37 bytes wherever that falls
large       payloads of 200 KB to 2 MB at QoS 1, cut over records of at most 1 MiB
qos0        PUBLISH packets of 55 bytes at QoS 0 with a Topic Name of 20 bytes, each in a record of its own
properties  the same with a Message Expiry Interval, a Content Type and a User Property
pings       PINGREQ packets and their PINGRESPs

With --log-version 2 the same records have moments: microseconds since 1970, which start over now and then.

usage: bench/make_log.py N > FILE
       bench/make_log.py --kind large --megabytes 200 [--log-version 2] > FILE
"""
import argparse
import struct
import sys
from collections.abc import Callable, Iterator

sys.dont_write_bytecode = True  # the repository stays as it is
from versions import HEAD_SIZES, in_version

OPEN, SENT, RECV, CLOSE, REST = 1, 2, 3, 4, 5
HEADER = bytes.fromhex("4d51545201000100")
CONNECT = bytes.fromhex("100d00044d5154540502003c000000")
CONNACK = bytes.fromhex("2003000000")
IDENTIFIERS = 65_535
LARGEST_BODY = 1_048_576
CUT = 37
SMALLEST_PAYLOAD, LARGEST_PAYLOAD = 200_000, 2_000_000
PUBLISH_SIZE, PUBACK_SIZE, RECORD_HEAD = 9, 4, HEAD_SIZES[1]


def record(kind: int, body: bytes = b"") -> bytes:
    return struct.pack(">BI", kind, len(body)) + body


def identifier(message: int) -> bytes:
    return struct.pack(">H", message % IDENTIFIERS + 1)


def publish(message: int) -> bytes:
    return b"\x32\x07\x00\x01a" + identifier(message) + b"\x00x"


def puback(message: int) -> bytes:
    return b"\x40\x02" + identifier(message)


def repeated(block: bytes, length: int) -> Iterator[bytes]:
    """`length` bytes of `block`, over and over."""
    while length >= len(block):
        yield block
        length -= len(block)
    yield block[:length]


def small(messages: int) -> Iterator[bytes]:
    # Identifiers come round after 65,535 messages, and the bytes with them.
    block = b"".join(record(SENT, publish(n)) + record(RECV, puback(n)) for n in range(IDENTIFIERS))
    yield from repeated(block, messages * (PUBLISH_SIZE + PUBACK_SIZE + 2 * RECORD_HEAD))


def pieces(make: Callable[[int], bytes], messages: int) -> Iterator[bytes]:
    """The stream of the packets that `make` gives, in pieces of 37 bytes and a rest."""
    left = b""
    for block in repeated(b"".join(map(make, range(IDENTIFIERS))), messages * len(make(0))):
        stream = left + block
        whole = len(stream) - len(stream) % CUT
        for start in range(0, whole, CUT):
            yield stream[start : start + CUT]
        left = stream[whole:]
    if left:
        yield left


def cut(messages: int) -> Iterator[bytes]:
    pubacks = pieces(puback, messages)
    puback_piece = next(pubacks, None)
    bytes_sent = bytes_received = 0
    for publish_piece in pieces(publish, messages):
        yield record(SENT, publish_piece)
        bytes_sent += len(publish_piece)
        # A PUBACK comes when its PUBLISH was sent to the last byte, so not the piece that would have more of them.
        while puback_piece is not None:
            received = bytes_received + len(puback_piece)
            if -(-received // PUBACK_SIZE) > bytes_sent // PUBLISH_SIZE:
                break
            yield record(RECV, puback_piece)
            bytes_received = received
            puback_piece = next(pubacks, None)


def varint(value: int) -> bytes:
    """A variable byte integer (MQTT 5.0, section 1.5.5)."""
    out = bytearray()
    while value > 127:
        out.append(value & 127 | 128)
        value >>= 7
    out.append(value)
    return bytes(out)


def payload_size(message: int) -> int:
    return SMALLEST_PAYLOAD + message * 777_767 % (LARGEST_PAYLOAD - SMALLEST_PAYLOAD + 1)


def large(messages: int) -> Iterator[bytes]:
    filling = bytes(range(256)) * (LARGEST_PAYLOAD // 256 + 1)
    for n in range(messages):
        body = b"\x00\x01a" + identifier(n) + b"\x00" + filling[: payload_size(n)]
        packet = b"\x32" + varint(len(body)) + body
        for start in range(0, len(packet), LARGEST_BODY):
            yield record(SENT, packet[start : start + LARGEST_BODY])
        yield record(RECV, puback(n))


TOPIC = b"sensors/kitchen/lamp"
# Message Expiry Interval 60, Content Type "text", User Property "unit" with the value "lux".
PROPERTIES = bytes.fromhex("020000003c03000474657874260004756e697400036c7578")
PINGREQ, PINGRESP = b"\xc0\x00", b"\xd0\x00"


def publish_at_qos_0(properties: bytes) -> bytes:
    """A PUBLISH of 55 bytes, and as many more as the properties have."""
    body = struct.pack(">H", len(TOPIC)) + TOPIC + varint(len(properties)) + properties + b"x" * 30
    return b"\x30" + varint(len(body)) + body


def qos0(messages: int) -> Iterator[bytes]:
    block = record(SENT, publish_at_qos_0(b""))
    yield from repeated(block * 1024, messages * len(block))


def properties(messages: int) -> Iterator[bytes]:
    block = record(SENT, publish_at_qos_0(PROPERTIES))
    yield from repeated(block * 1024, messages * len(block))


def pings(messages: int) -> Iterator[bytes]:
    block = record(SENT, PINGREQ) + record(RECV, PINGRESP)
    yield from repeated(block * 1024, messages * len(block))


KINDS = {"small": small, "cut": cut, "large": large, "qos0": qos0, "properties": properties, "pings": pings}

# How many events a message is.
EVENTS = {"small": 2, "cut": 2, "large": 2, "qos0": 1, "properties": 1, "pings": 2}


def messages_for(kind: str, size: int) -> int:
    """How many messages make a log of about `size` bytes."""
    if kind in ("qos0", "properties", "pings"):
        return size // sum(map(len, KINDS[kind](1)))
    if kind == "small":
        return size // (PUBLISH_SIZE + PUBACK_SIZE + 2 * RECORD_HEAD)
    if kind == "cut":
        return size * CUT // ((CUT + RECORD_HEAD) * (PUBLISH_SIZE + PUBACK_SIZE))
    messages = 0
    while size > 0:
        size -= payload_size(messages)
        messages += 1
    return messages


def events_of(kind: str, messages: int) -> int:
    """How many events a log has: OPEN, CONNECT, CONNACK, REST and CLOSE, and those of the messages."""
    return 5 + EVENTS[kind] * messages


def first_version(kind: str, messages: int) -> Iterator[bytes]:
    yield HEADER + record(OPEN) + record(SENT, CONNECT) + record(RECV, CONNACK)
    yield from KINDS[kind](messages)
    yield record(REST) + record(CLOSE)


def log(kind: str, messages: int, version: int = 1) -> Iterator[bytes]:
    return in_version(first_version(kind, messages), version)


def main() -> None:
    arguments = argparse.ArgumentParser(description="Writes a log of a tested client.")
    arguments.add_argument("messages", nargs="?", type=int, metavar="N", help="how many messages")
    arguments.add_argument("--kind", choices=KINDS, default="small")
    arguments.add_argument("--megabytes", type=float, help="about how large, in 1,000,000 bytes, instead of N")
    arguments.add_argument("--log-version", type=int, choices=HEAD_SIZES, default=1, help="of the log's format (default 1)")
    given = arguments.parse_args()
    if (given.messages is None) == (given.megabytes is None):
        arguments.error("one of N and --megabytes is needed")
    messages = given.messages
    if messages is None:
        messages = messages_for(given.kind, int(given.megabytes * 1_000_000))
    sys.stdout.buffer.writelines(log(given.kind, messages, given.log_version))


if __name__ == "__main__":
    main()
