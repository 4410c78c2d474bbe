#!/usr/bin/env python3
"""Runs the built program on logs that are long, or long in one respect, and compares what it answers with what they are made to give.

No contract says that there is memory, or when reading may be given up. So a program that reports want of memory or a failed read,
though nothing failed, keeps every clause: this looks for one that does so after many events, packets, bytes, reads, faults,
connections, or events before a CONNACK. The name of each log says what it has much of.

A log is made in pieces and goes through a pipe. Where a command needs a file, it is one whose zeros take no room on the disk if the
file system leaves them out. The reports are known by how the logs are made: they are of events that are right, and of PUBLISHes that
take a Packet Identifier in use.

usage: bench/enduring.py [--program PROGRAM]      (the program that `rt ci` has built if it is missing)
"""
import argparse
import os
import subprocess
import sys
import tempfile
import threading
import time
from collections.abc import Callable, Iterable, Iterator
from dataclasses import dataclass, field
from itertools import chain
from pathlib import Path

sys.dont_write_bytecode = True  # the repository stays as it is
import make_log
import occasions
import session_logs
from check_forms import as_json, in_short
from judges import BUILT
from make_log import CLOSE, CONNACK, CONNECT, HEADER, IDENTIFIERS, OPEN, PINGREQ, PINGRESP, RECV, REST, SENT, record, repeated, varint
from versions import records_in, with_moment

SECONDS = 60  # after which a run is ended; all take a second or two
CHUNK = 1 << 20
SENTENCE = "A new PUBLISH, SUBSCRIBE or UNSUBSCRIBE takes no Packet Identifier that is in use."
SERVER_HEADER = b"MQTR\x01\x01\x01\x00"
CONNECTED = record(OPEN) + record(SENT, CONNECT) + record(RECV, CONNACK)
USED = record(SENT, make_log.publish(0))  # it takes the Packet Identifier 1; the second time that one is in use
LARGEST_BODY = 1_048_576
LARGEST_PACKET = 16_777_216
EVENTS_OF_A_KIND = 100_100

Task = tuple[str, ...]
CHECKS: list[Task] = [("check",), ("check", "--json"), ("check", "--summary"), ("check", "--coverage")]
WHY: Task = ("check", "--why")
FAULTS: Task = ("show", "--faults")
CONVERT: Task = ("convert",)


@dataclass(frozen=True)
class Log:
    """A log: so many times each of some whole records of version 1; what is known of it, and what is tried with it.

    A fault is that of a PUBLISH that takes a Packet Identifier in use: its position, its record, and the position of the PUBLISH that
    holds the identifier.
    """

    name: str
    parts: list[tuple[bytes, int]]
    events: int
    faults: list[tuple[int, int, int]] = field(default_factory=list)
    header: bytes = HEADER
    lines: Callable[[], Iterable[str]] | None = None  # as `show` prints them
    tested: list[str] = field(default_factory=list)  # as `check --coverage` says it
    by_pipe: list[Task] = field(default_factory=list)
    by_name: list[Task] = field(default_factory=list)

    def chunks(self, version: int = 1) -> Iterator[bytes]:
        yield self.header[:4] + bytes([version]) + self.header[5:]
        for records, times in self.parts:
            yield from many_times(in_version(records, version), times)

    def report(self, is_reasoned: bool = False) -> str:
        """The report as text, with what each fault conflicts with or without it."""
        lines = []
        for at, number, holder in self.faults:
            lines.append(f"fault {at} S01 MQTT-2.2.1-3 decided {at} record {number} offset -\n")
            lines += [f"because {at} S01 event {holder}\n"] * is_reasoned
        verdict = f"fail {len(self.faults)} faults" if self.faults else "pass"
        return f"{''.join(lines)}{verdict} {self.events} events\n"

    def write(self, path: Path) -> None:
        """Writes it to a file, without the zeros at the end of a chunk."""
        with open(path, "wb") as file:
            chunk = b""
            for next_chunk in self.chunks():
                if next_chunk is not chunk:
                    chunk, start = next_chunk, next_chunk.rstrip(b"\0")
                file.write(start)
                file.seek(len(chunk) - len(start), os.SEEK_CUR)
            file.truncate()


def in_version(records: bytes, version: int) -> bytes:
    return records if version == 1 else b"".join(with_moment(part, 0) for part in records_in(records, 1))


def many_times(block: bytes, times: int) -> Iterator[bytes]:
    """A block so many times, in chunks of about a megabyte."""
    factor = max(1, min(times, CHUNK // len(block)))
    return filter(None, repeated(block * factor, len(block) * times))


# ---- the logs


def of_bytes() -> Log:
    """More bytes than 100,000 reads of 8,192 give. Each PUBLISH is a chunk that ends in zeros."""
    body = make_log.publish_at_qos_0(b"")[2:-30] + bytes(1_040_000)
    packet = b"\x30" + varint(len(body)) + body
    count = 900_000_000 // len(packet)
    events = count + 5

    def lines() -> Iterator[str]:
        yield from beginning_of_lines()
        yield line_of_used(4)
        yield from (f"{at} record {at} SENT PUBLISH size {len(packet)} qos 0 dup 0\n" for at in range(5, events))
        yield line_of_used(events)

    return Log("900 MB", [(CONNECTED + USED, 1), (record(SENT, packet), count), (USED, 1)], events, [(events, events, 4)],
               lines=lines, tested=occasions.of_publishes(2, count),
               by_pipe=[*CHECKS, CONVERT], by_name=[*CHECKS, WHY, ("show",), FAULTS, CONVERT])


def of_events() -> Log:
    """Many events in one record, and many records of them."""
    block, count = record(SENT, PINGREQ * (LARGEST_BODY // len(PINGREQ))), 20
    events = count * LARGEST_BODY // len(PINGREQ) + 5
    return Log("10 million pings", [(CONNECTED + USED, 1), (block, count), (USED, 1)], events, [(events, count + 5, 4)],
               tested=occasions.of_publishes(2, pings=events - 5), by_pipe=[*CHECKS[:2], CHECKS[-1]], by_name=CHECKS[:1])


def of_lines() -> Log:
    pairs = 250_000

    def lines() -> Iterator[str]:
        yield from beginning_of_lines()
        for at in range(4, 4 + 2 * pairs, 2):
            yield f"{at} record {at} SENT PINGREQ size 2\n{at + 1} record {at + 1} RECV PINGRESP size 2\n"

    return Log("500,000 lines that are shown", [(CONNECTED, 1), (record(SENT, PINGREQ) + record(RECV, PINGRESP), pairs)],
               3 + 2 * pairs, lines=lines, by_pipe=[("show",), CONVERT], by_name=[FAULTS, ("show",)])


def of_packets() -> Log:
    """Packets that are taken in by their numbers, and then events that aren't."""
    block = b"".join(record(SENT, make_log.publish(n)) + record(RECV, make_log.puback(n)) for n in range(IDENTIFIERS))
    return Log("1 million small packets at QoS 1", [(CONNECTED, 1), (block, 8), (record(REST) + record(CLOSE), 1)],
               5 + 8 * 2 * IDENTIFIERS, by_pipe=[("check",), ("check", "--json"), CONVERT])


def of_properties() -> Log:
    packet = make_log.publish_at_qos_0(make_log.PROPERTIES)
    return Log("300,000 packets with properties", [(CONNECTED, 1), (record(SENT, packet), 300_000), (record(CLOSE), 1)], 300_004,
               by_pipe=CHECKS[:1])


def of_connections() -> Log:
    packets = record(OPEN) + record(SENT, CONNECT) + record(RECV, CONNACK) + record(SENT, b"\xe0\x00") + record(CLOSE)
    return Log("100,100 connections", [(packets, 100_100)], 500_500, by_pipe=CHECKS[:1])


def of_faults() -> Log:
    """On a few connections: with more than 65,535 messages in flight there are other faults too."""
    count, connections = 50_000, 3
    size = count + 5  # events of a connection
    at_fault = [first + at for first in range(0, size * connections, size) for at in range(5, size)]

    def lines() -> Iterator[str]:
        for first in range(1, size * connections, size):
            yield from beginning_of_lines(first)
            yield from map(line_of_used, range(first + 3, first + size - 1))
            yield f"{first + size - 1} record {first + size - 1} CLOSE\n"

    return Log("150,000 faults", [(CONNECTED + USED * (count + 1) + record(CLOSE), connections)], size * connections,
               [(at, at, at - 1) for at in at_fault], lines=lines, tested=occasions.of_publishes(count + 1, connections=connections),
               by_pipe=[*CHECKS, ("show",)], by_name=[*CHECKS, WHY, FAULTS])


def of_early(header: bytes, toward: int, back: int) -> Log:
    """Many events before a CONNACK, on many connections."""
    early = record(toward, make_log.publish_at_qos_0(b"")) * 4_000
    connection = record(OPEN) + record(toward, session_logs.connect(True)) + early + record(back, CONNACK) + record(CLOSE)
    end = "client" if toward == SENT else "server"
    return Log(f"160,000 events before a CONNACK, of a {end}", [(connection, 40)], 40 * 4_004, header=header, by_pipe=CHECKS[:1])


def in_records(kind: int, packet: bytes) -> bytes:
    return b"".join(record(kind, packet[at : at + LARGEST_BODY]) for at in range(0, len(packet), LARGEST_BODY))


def long_properties(size: int) -> bytes:
    """User Properties with their length, of this many bytes or a few less."""
    value = 65_000
    pair = b"\x26\x00\x01a" + value.to_bytes(2, "big") + bytes([ord("x")]) * value
    pairs = pair * (size // len(pair))
    return varint(len(pairs)) + pairs


def packet_of(first: int, body: bytes) -> bytes:
    return bytes([first]) + varint(len(body)) + body


def of_long_packets() -> Log:
    """Packets of 5 MB and more, one of each kind that has properties, and PUBLISHes up to what a packet may have."""
    long = long_properties(5_000_000)
    sizes = 5_000_000, LARGEST_PACKET - 5
    bare = [packet_of(0x30, b"\x00\x01a\x00" + bytes(size - 4)) for size in sizes]
    with_property = [packet_of(0x30, b"\x00\x01a\x02\x01\x00" + bytes(size - 6)) for size in sizes]
    assert len(bare[1]) == len(with_property[1]) == LARGEST_PACKET
    packets = [
        (SENT, packet_of(0x10, CONNECT[2:12] + long + b"\x00\x00")), (RECV, packet_of(0x20, b"\x00\x00" + long)),
        *((kind, packet) for packet in [*bare, *with_property] for kind in (SENT, RECV)),
        (SENT, packet_of(0x82, b"\x00\x01" + long + b"\x00\x01a\x00")), (RECV, packet_of(0x90, b"\x00\x01" + long + b"\x00")),
        (SENT, packet_of(0xA2, b"\x00\x01" + long + b"\x00\x01a")), (RECV, packet_of(0xB0, b"\x00\x01" + long + b"\x00")),
        (SENT, packet_of(0x32, b"\x00\x01a\x00\x01" + long + b"x")), (RECV, packet_of(0x40, b"\x00\x01\x00" + long)),
        (SENT, packet_of(0x34, b"\x00\x01a\x00\x01" + long + b"x")), (RECV, packet_of(0x50, b"\x00\x01\x00" + long)),
        (SENT, packet_of(0x62, b"\x00\x01\x00" + long)), (RECV, packet_of(0x70, b"\x00\x01\x00" + long)),
        (SENT, packet_of(0xE0, b"\x00" + long)),
    ]
    parts = [(record(OPEN), 1), *((in_records(*packet), 1) for packet in packets), (record(CLOSE), 1)]
    return Log("packets of 5 to 17 MB", parts, len(packets) + 2, by_pipe=[("check",), CONVERT], by_name=CHECKS[:1])


def of_kind(kind: str) -> Log:
    header, *records = session_logs.log(kind, EVENTS_OF_A_KIND)
    return Log(f"{EVENTS_OF_A_KIND} events, {kind}", [(b"".join(records), 1)], EVENTS_OF_A_KIND, header=header, by_pipe=CHECKS[:1])


def logs() -> Iterator[Log]:
    yield from (make() for make in (of_bytes, of_events, of_lines, of_packets, of_properties, of_connections, of_faults, of_long_packets))
    yield from (of_early(*one) for one in ((HEADER, SENT, RECV), (SERVER_HEADER, RECV, SENT)))
    # (With 10,000 filters an event takes much longer, and nothing else.)
    yield from (of_kind(kind) for kind in session_logs.KINDS if "10000" not in kind)


def beginning_of_lines(at: int = 1) -> list[str]:
    events = "OPEN", "SENT CONNECT size 15", "RECV CONNACK size 5"
    return [f"{position} record {position} {event}\n" for position, event in enumerate(events, at)]


def line_of_used(at: int) -> str:
    return f"{at} record {at} SENT PUBLISH size 9 qos 1 dup 0 id 1\n"


# ---- running


class Runner:
    """Runs the program on a log, through a pipe or from a file, and compares what it answers."""

    def __init__(self, program: Path, folder: Path) -> None:
        self.program, self.folder = program, folder
        self.count = self.wrong = 0

    def compare(self, title: str, found: object, wanted: object) -> None:
        self.count += 1
        if found != wanted:
            self.wrong += 1
            print(f"{title}:", f"  got    {found!r:.300}", f"  wanted {wanted!r:.300}", sep="\n", flush=True)

    def run(self, log: Log) -> None:
        """Runs all that is tried with a log, until something is wrong."""
        wrong = self.wrong
        path = self.folder / "a.log"
        if log.by_name:
            log.write(path)
        for task, place in chain(((task, None) for task in log.by_pipe), ((task, path) for task in log.by_name)):
            if self.wrong == wrong:
                self.run_task(log, task, place)
        path.unlink(missing_ok=True)

    def run_task(self, log: Log, task: Task, path: Path | None) -> None:
        title = f"{log.name}: {' '.join(task)} {'of a file' if path else 'of a pipe'}"
        if task == CONVERT:
            self.run_convert(title, log, path)
            return
        process = self.start(log, [*task, *([str(path)] if path else [])], path is None, subprocess.PIPE)
        output, errors = finish(process)
        wanted = self.wanted(log, task)
        status = 1 if task[0] == "check" and log.faults else 0
        self.compare(title, (process.returncode, errors.decode(), last_of(output)), (status, "", last_of(wanted)))
        self.compare(f"{title}: all of it", output == wanted, True)

    def start(self, log: Log, words: list[str], is_pipe: bool, output: int) -> subprocess.Popen:
        """Starts the program, and what writes the log to its standard input."""
        reading = None
        if is_pipe:
            reading, writing = os.pipe()
            threading.Thread(target=write_all, args=(writing, log.chunks()), daemon=True).start()
        process = subprocess.Popen([self.program, *words], stdin=reading or subprocess.DEVNULL, stdout=output, stderr=subprocess.PIPE)
        if reading:
            os.close(reading)
        return process

    def run_convert(self, title: str, log: Log, path: Path | None) -> None:
        """What is made goes through a named pipe."""
        made = self.folder / "made.log"
        os.mkfifo(made)
        found: list[tuple[bool, int]] = []
        reader = threading.Thread(target=lambda: found.append(is_same(made, log.chunks(2))), daemon=True)
        reader.start()
        process = self.start(log, ["convert", "--force", str(path or "-"), str(made)], path is None, subprocess.PIPE)
        output, errors = finish(process)
        reader.join(SECONDS if process.returncode >= 0 else 1)
        made.unlink()
        self.compare(title, (process.returncode, output, errors.decode()), (0, b"", ""))
        self.compare(f"{title}: what is made, up to byte {found[0][1] if found else 0}", bool(found) and found[0][0], True)

    @staticmethod
    def wanted(log: Log, task: Task) -> bytes:
        match task:
            case ("check",):
                text = log.report()
            case ("check", "--json"):
                text = as_json(log.report())
            case ("check", "--summary"):
                text = in_short(log.report())
            case ("check", "--coverage"):
                text = occasions.covering(log.report(), log.tested)
            case ("check", "--why"):
                text = log.report(is_reasoned=True)
            case ("show",):
                text = "".join(log.lines())
            case _:
                text = "".join(with_faults(log))
        return text.encode()


def finish(process: subprocess.Popen) -> tuple[bytes, bytes]:
    """What it writes until it ends. A program that takes too long is ended, which is its status then."""
    try:
        return process.communicate(timeout=SECONDS)
    except subprocess.TimeoutExpired:
        process.kill()
        return process.communicate()


def with_faults(log: Log) -> Iterator[str]:
    """The lines of its events, each with its fault under it, and what that conflicts with."""
    holders = {at: holder for at, _, holder in log.faults}
    for line in chain.from_iterable(some.splitlines(keepends=True) for some in log.lines()):
        yield line
        if holder := holders.get(int(line.split(maxsplit=1)[0])):
            yield f"  fault S01 MQTT-2.2.1-3 {SENTENCE} (because of event {holder}: it holds the identifier)\n"


def last_of(text: bytes) -> bytes:
    """The end of a text: where a part of it is missing, that differs."""
    return text[-200:]


def write_all(to: int, chunks: Iterator[bytes]) -> None:
    """Writes chunks until their reader has gone."""
    with os.fdopen(to, "wb", buffering=0) as file:
        try:
            for chunk in chunks:
                left = memoryview(chunk)
                while left:
                    left = left[file.write(left) :]
        except BrokenPipeError:
            pass


def is_same(path: Path, chunks: Iterator[bytes]) -> tuple[bool, int]:
    """Whether a file has these bytes, and up to where. It is read to its end."""
    at, same = 0, True
    with open(path, "rb") as file:
        for chunk in chain(chunks, [b""]):
            read = file.read(len(chunk) or 1)
            same = same and read == chunk
            at += len(read) if same else 0
        while file.read(CHUNK):
            pass
    return same, at


def main() -> int:
    arguments = argparse.ArgumentParser(description="Runs the built program on logs that are long in some respect.")
    arguments.add_argument("--program", type=Path, default=BUILT, help="the program")
    arguments.add_argument("--times", action="store_true", help="also say how long each log takes")
    given = arguments.parse_args()
    start = time.monotonic()
    with tempfile.TemporaryDirectory(prefix="mqjudge-enduring-") as name:
        runner = Runner(given.program.resolve(), Path(name))
        for log in logs():
            began = time.monotonic()
            runner.run(log)
            if given.times:
                print(f"{log.name}: {time.monotonic() - began:.1f} s", flush=True)
    print(f"long logs: {runner.count - runner.wrong} passed, {runner.wrong} failed, in {time.monotonic() - start:.0f} s")
    return 1 if runner.wrong else 0


if __name__ == "__main__":
    sys.exit(main())
