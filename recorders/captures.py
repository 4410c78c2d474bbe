"""Makes logs out of a capture of network packets: what `from-capture` does.

tshark reads the capture and says what each TCP segment carried, and what was inside TLS where it has the keys. The
segments are put in order here, each byte once, and given to a `Recorder` for each tested end.

Each end has an order of its own. What it sent is where the capture first has it. What it received is where the
end itself acknowledged it by TCP: each of its segments says how much it had by then, so this order is the end's
own wherever the packets were captured, and bytes that never reached it aren't in its log.

Where the capture lacks bytes that an end has acknowledged, nothing more is recorded of that connection, and the session
is left out from there on. Where an end's bytes were still under way when its connection broke, it may have sent
more that no packet carried, and the session of that end is left out from there on.
"""
from __future__ import annotations

import argparse
import ipaddress
import os
import socket
import subprocess
import sys
import tempfile
from collections import OrderedDict, deque
from collections.abc import Callable, Iterable, Iterator
from dataclasses import dataclass, field
from pathlib import Path

from arguments import Parser, Rests, counted, why
from framing import CONNECT, Framer, read_connect
from log_format import NEWEST
from recording import End, Recorder, write_to_standard_error

FIN, SYN, RST, ACK = 0x01, 0x02, 0x04, 0x10
HELD_MOST = 16 * 1_048_576  # bytes of a connection's end that wait for others before them, or for their acknowledgement
BLOCKED_MOST = 1_000  # segments of a connection that wait for bytes which they acknowledge
BLOCKED_SECONDS = 1.0
REMEMBERED_WARNINGS = 10_000  # lines that are remembered so that none is printed twice
TLS_RECORD = 0x16  # the first byte of a TLS connection
CLOSE_NOTIFY = "0"  # TLS's alert that no more is sent
FIELDS = (
    "frame.time_epoch",
    "tcp.stream",
    "ip.src",
    "ip.dst",
    "ipv6.src",
    "ipv6.dst",
    "tcp.srcport",
    "tcp.dstport",
    "tcp.flags",
    "tcp.seq_raw",
    "tcp.ack_raw",
    "tcp.window_size_value",
    "tcp.len",
    "tcp.payload",
    "data.data",
    "tls.app_data",
    "tls.alert_message.desc",
)
NEEDED = ("tcp.stream", "tcp.srcport", "tcp.dstport", "tcp.flags", "tcp.seq_raw", "tcp.len")  # of each segment
PEER = {End.CLIENT: End.SERVER, End.SERVER: End.CLIENT}


class CaptureError(Exception):
    """The capture couldn't be read, or not to its end."""


# ---- reading by tshark


@dataclass(frozen=True)
class Server:
    """Where a server listens. Without addresses any host with this port is one."""

    addresses: frozenset[str]
    port: int

    def is_at(self, address: str, port: int) -> bool:
        return port == self.port and (not self.addresses or address in self.addresses)


def parse_server(text: str) -> Server:
    """The server that HOST:PORT means: an address, a name, an IPv6 address in brackets, or no host for any."""
    host, _, port_text = text.rpartition(":")
    if not port_text.isascii() or not port_text.isdigit() or not 0 < int(port_text) < 65_536:
        raise argparse.ArgumentTypeError(f"{text!r} isn't HOST:PORT")
    host = host.removeprefix("[").removesuffix("]")
    if not host:
        return Server(frozenset(), int(port_text))
    try:
        return Server(frozenset({str(ipaddress.ip_address(host))}), int(port_text))
    except ValueError:
        pass
    try:
        found = socket.getaddrinfo(host, None, type=socket.SOCK_STREAM)
    except (OSError, UnicodeError) as error:
        raise argparse.ArgumentTypeError(f"{host!r} has no address: {why(error)}") from None
    return Server(frozenset(str(address[0]) for *_, address in found), int(port_text))


@dataclass(frozen=True)
class Segment:
    """A TCP segment, as the capture has it."""

    stream: int
    time: float  # in seconds since 1970-01-01 UTC
    sender: End
    client: str
    server: str
    flags: int
    sequence: int
    acknowledgement: int
    window: int
    length: int  # bytes that it carried
    payload: bytes  # those of them that the capture holds
    plain: tuple[bytes, ...] = ()  # what was inside the TLS records that end in this segment
    sealed: int = 0  # TLS records with application data that end in it
    is_tls_end: bool = False  # TLS says in it that its sender sends no more

    def has(self, flag: int) -> bool:
        return bool(self.flags & flag)

    @property
    def moment(self) -> int:
        """Its time in whole microseconds."""
        return round(self.time * 1_000_000)

    @property
    def first(self) -> int:
        """The sequence number of the first byte that it carried."""
        return (self.sequence + self.has(SYN)) & 0xFFFFFFFF


def tshark_command(program: str, file: str, servers: Iterable[Server], keylog: Path | None) -> list[str]:
    ports = sorted({server.port for server in servers})
    wanted = " || ".join(f"tcp.port == {port}" for port in ports)
    command = [program, "-n", "-r", file, "-Y", f"({wanted}) && !icmp && !icmpv6", "-T", "fields"]
    command += ["-E", "separator=/t", "-E", "occurrence=a", "-E", "aggregator=,"]
    command += ["-o", "tcp.reassemble_out_of_order:TRUE"]
    for port in ports:
        command += ["-d", f"tcp.port=={port},tls", "-d", f"tls.port=={port},data"]
    if keylog is not None:
        command += ["-o", f"tls.keylog_file:{keylog}"]
    for name in FIELDS:
        command += ["-e", name]
    return command


def parse_line(line: str, servers: Iterable[Server]) -> Segment | None:
    """The segment in a line of tshark's fields; None if it isn't between a client and one of the servers."""
    values = line.rstrip("\n").split("\t")
    if len(values) != len(FIELDS):
        return None
    row = {name: [item for item in value.split(",") if item] for name, value in zip(FIELDS, values)}
    last = {name: items[-1] if items else "" for name, items in row.items()}
    if not all(last[name] for name in NEEDED):
        return None
    source_port, target_port = int(last["tcp.srcport"]), int(last["tcp.dstport"])
    for family in ("ip", "ipv6"):
        source, target = last[f"{family}.src"], last[f"{family}.dst"]
        to_server = any(server.is_at(target, target_port) for server in servers)
        from_server = any(server.is_at(source, source_port) for server in servers)
        if source and (to_server or from_server):
            here, there = end_name(source, source_port), end_name(target, target_port)
            return Segment(
                stream=int(last["tcp.stream"]),
                time=float(last["frame.time_epoch"]),
                sender=End.CLIENT if to_server else End.SERVER,
                client=here if to_server else there,
                server=there if to_server else here,
                flags=int(last["tcp.flags"], 16),
                sequence=int(last["tcp.seq_raw"]),
                acknowledgement=int(last["tcp.ack_raw"] or 0),
                window=int(last["tcp.window_size_value"] or 0),
                length=int(last["tcp.len"]),
                payload=bytes.fromhex(last["tcp.payload"]),
                plain=tuple(bytes.fromhex(item) for item in row["data.data"]),
                sealed=len(row["tls.app_data"]),
                is_tls_end=CLOSE_NOTIFY in row["tls.alert_message.desc"],
            )
    return None


def end_name(address: str, port: int) -> str:
    return f"[{address}]:{port}" if ":" in address else f"{address}:{port}"


def read_segments(command: list[str], servers: list[Server]) -> Iterator[Segment]:
    """The segments between clients and the servers, in the capture's order. Settings of the user don't count."""
    with tempfile.TemporaryDirectory() as settings, tempfile.TemporaryFile("w+") as errors:
        environment = os.environ | {"WIRESHARK_CONFIG_DIR": settings, "LC_ALL": "C"}
        try:
            process = subprocess.Popen(
                command, stdout=subprocess.PIPE, stderr=errors, encoding="ascii", errors="replace", env=environment
            )
        except OSError as error:
            raise CaptureError(f"{command[0]} can't be started: {error.strerror}") from None
        with process:
            assert process.stdout is not None
            try:
                for line in process.stdout:
                    segment = parse_line(line, servers)
                    if segment is not None:
                        yield segment
            except GeneratorExit:
                process.kill()
                raise
        if process.returncode:
            errors.seek(0)
            lines = [line.strip() for line in errors if line.strip() and not line.startswith("Running as user")]
            raise CaptureError(lines[-1] if lines else f"{command[0]} ended with status {process.returncode}")


# ---- one direction of a connection


@dataclass
class Piece:
    """Bytes that were sent and aren't acknowledged yet."""

    at: int  # their place in the stream
    data: bytes
    is_whole: bool  # what was inside TLS: all is received once the first byte from its place on is acknowledged


@dataclass
class Half:
    """What one end of a connection sent, put in order: each byte once, as it first came."""

    start: int | None = None  # the sequence number of its first byte
    size: int = 0  # bytes from the first on of which none is missing
    end: int | None = None  # where the end said that it sends no more
    is_tls_over: bool = False  # it said so inside TLS
    acknowledged: int = 0  # bytes that the peer said that it got
    is_window_shut: bool = False  # the peer takes no more for now
    held: dict[int, bytes] = field(default_factory=dict)  # what came before others that go before it, by its place
    held_bytes: int = 0
    pieces: deque[Piece] = field(default_factory=deque)
    piece_bytes: int = 0

    def place(self, number: int) -> int:
        """The place in the stream that a sequence number means: the nearest one to where the stream is."""
        assert self.start is not None
        distance = (number - self.start - self.size) & 0xFFFFFFFF
        return self.size + distance - (1 << 32 if distance >= 1 << 31 else 0)

    def take(self, number: int, data: bytes) -> bytes:
        """Takes in a segment's bytes, and gives all that the stream has more by them."""
        at = self.place(number)
        if at > self.size:
            if len(data) > len(self.held.get(at, b"")):
                self.held_bytes += len(data) - len(self.held.get(at, b""))
                self.held[at] = data
            return b""
        more = bytearray(data[self.size - at :])
        for place in sorted(self.held):
            if place > self.size + len(more):
                break
            later = self.held.pop(place)
            self.held_bytes -= len(later)
            more += later[self.size + len(more) - place :]
        self.size += len(more)
        return bytes(more)

    def put(self, piece: Piece) -> None:
        self.pieces.append(piece)
        self.piece_bytes += len(piece.data)

    def acknowledge(self, place: int) -> Iterator[bytes]:
        """The bytes that are acknowledged now and weren't before."""
        self.acknowledged = max(self.acknowledged, place)
        while self.pieces and self.pieces[0].at < self.acknowledged:
            piece = self.pieces[0]
            count = len(piece.data) if piece.is_whole else self.acknowledged - piece.at
            data, piece.data, piece.at = piece.data[:count], piece.data[count:], piece.at + count
            self.piece_bytes -= len(data)
            if not piece.data:
                self.pieces.popleft()
            yield data

    @property
    def has_ended(self) -> bool:
        """The end said that it sends no more, and all of it is here."""
        return self.end == self.size

    @property
    def is_ended_and_acknowledged(self) -> bool:
        return self.has_ended and self.acknowledged > self.size

    @property
    def may_have_more(self) -> bool:
        """The end may have sent more than was captured: what is under way holds back what comes after it."""
        is_under_way = self.acknowledged < self.size or self.is_window_shut
        return bool(self.held) or (is_under_way and not self.has_ended and not self.is_tls_over)


# ---- one connection


class Stream:
    """A TCP connection, recorded for each tested end in that end's order."""

    def __init__(
        self,
        first: Segment,
        recorders: dict[End, Recorder],
        warn: Callable[[str], None],
        named: Callable[[Stream, bytes], None],
        passed: Callable[[Segment], None],
    ) -> None:
        """`named` is called with the Client Identifier of the CONNECT, before that packet is recorded.

        `passed` is called with each segment before what it says is recorded.
        """
        self.key = first.stream
        self.is_over = False
        self.is_lost = False
        self._names = f"{first.client} to {first.server}"
        self._recorders, self._warn, self._named, self._passed = recorders, warn, named, passed
        self._halves = {end: Half() for end in End}
        self._blocked: dict[End, deque[Segment]] = {end: deque() for end in End}
        self._blocked_since: float | None = None
        self._is_tls: bool | None = None
        self._is_opened = False
        self._closed: set[End] = set()
        self._connect: Framer | None = Framer(CONNECT)  # until the first packet was seen

    @property
    def is_busy(self) -> bool:
        """Something goes on that shows no bytes: silence doesn't mean that an end is at rest."""
        halves = self._halves.values()
        is_open = all(half.end is None and not half.is_window_shut and not half.held for half in halves)
        return not is_open or self.is_blocked or any(half.acknowledged < half.size for half in halves)

    @property
    def is_blocked_unnamed(self) -> bool:
        """It may be of any Client Identifier, and bytes of it are likely to be missing."""
        return self.is_blocked and self._connect is not None

    @property
    def is_blocked(self) -> bool:
        """A segment acknowledges bytes that haven't come: they come late, or the capture lacks them."""
        return any(self._blocked.values())

    def take(self, segment: Segment) -> None:
        """Takes in the next segment."""
        if self.is_over or not self._has_begun(segment):
            return
        sender = segment.sender
        if self._blocked[sender] or self._is_ahead(segment):
            self._blocked[sender].append(segment)
            self._blocked_since = segment.time if self._blocked_since is None else self._blocked_since
        else:
            self._pass(segment)
            self._unblock()
        self.check(segment.time)

    def check(self, time: float) -> None:
        """Gives the connection up where too much waits, or for too long."""
        if self._blocked_since is not None:
            count = sum(map(len, self._blocked.values()))
            if count > BLOCKED_MOST or time - self._blocked_since > BLOCKED_SECONDS:
                self.lose_missing()
        if any(half.held_bytes + half.piece_bytes > HELD_MOST for half in self._halves.values()):
            self.lose_missing()

    def lose_missing(self) -> None:
        """Gives the connection up for the bytes that the capture lacks."""
        ends = [end for end in End if self._lacks(end)]
        lacking = [f"bytes of the {end.value} after its first {self._halves[end].size}" for end in ends]
        self.lose(f"the capture lacks {' and '.join(lacking) or 'acknowledgements'}")

    def lose(self, why: str) -> None:
        """Records nothing more of this connection, and ends its session's logs."""
        if self.is_over:
            return
        self.is_over = self.is_lost = True
        self._warn(f"{self._names}: {why}")
        self._open()
        for recorder in self._recorders.values():
            recorder.missing(self.key)
        self._forget()

    def break_off(self) -> None:
        """The connection broke: by a reset, or since another one of its Client Identifier begins."""
        if self.is_over:
            return
        if self.is_blocked or any(half.held for half in self._halves.values()):
            self.lose_missing()
            return
        for end, recorder in self._recorders.items():
            if self._halves[end].may_have_more and self._is_opened and end not in self._closed:
                self._warn(f"{self._names}: broke while bytes of the {end.value} were under way")
                recorder.missing(self.key)
                self.is_lost = True

    def finish(self) -> None:
        """The capture ends here."""
        if self.is_blocked:
            self.lose_missing()

    # -- segments

    def _has_begun(self, segment: Segment) -> bool:
        """Where both halves begin is known, or becomes known by this segment."""
        mine, peers = self._halves[segment.sender], self._halves[PEER[segment.sender]]
        is_first = segment.has(SYN) or (mine.start is None and peers.start is None and begins_a_connection(segment))
        if mine.start is None and is_first:
            mine.start = segment.first
        if peers.start is None and mine.start == segment.first and segment.has(ACK):
            peers.start = segment.acknowledgement
        if mine.start is not None and (peers.start is not None or not segment.has(ACK)):
            return True
        if segment.has(RST):
            self.is_over = True
        elif segment.payload:
            if mine.start is None and peers.start is None:
                self._warn(f"{self._names}: its beginning isn't in the capture")
                self.is_over = self.is_lost = True
            else:
                self.lose("the capture lacks its beginning")
        return False

    def _is_ahead(self, segment: Segment) -> bool:
        return self._acknowledged(segment) > self._halves[PEER[segment.sender]].size + 1

    def _acknowledged(self, segment: Segment) -> int:
        """The place up to which the sender has its peer's bytes; the peer's FIN counts as one."""
        half = self._halves[PEER[segment.sender]]
        if not segment.has(ACK) or segment.has(RST) or half.start is None:
            return 0
        place = half.place(segment.acknowledgement)
        # a FIN is acknowledged only where it was seen: else a byte is missing
        return place + 1 if place == half.size + 1 and not half.has_ended else place

    def _lacks(self, end: End) -> bool:
        """The peer acknowledges bytes of this end that the capture doesn't have, not even among what waits."""
        half = self._halves[end]
        reach = half.size
        for segment in self._blocked[end]:
            at = half.place(segment.first)
            if at <= reach:
                reach = max(reach, at + len(segment.payload))
        return bool(half.held) or any(self._acknowledged(segment) > reach + 1 for segment in self._blocked[PEER[end]])

    def _unblock(self) -> None:
        """Passes on what waited for bytes that are there now."""
        waiting = [end for end in End if self._blocked[end]]
        while waiting and not self.is_over:
            end = waiting.pop()
            while self._blocked[end] and not self.is_over and not self._is_ahead(self._blocked[end][0]):
                self._pass(self._blocked[end].popleft())
                waiting = [other for other in End if self._blocked[other]]
        if not self.is_blocked:
            self._blocked_since = None

    def _pass(self, segment: Segment) -> None:
        """Records what a segment says: first how much its sender had received, then what it sent."""
        self._passed(segment)
        sender = segment.sender
        mine, peers = self._halves[sender], self._halves[PEER[sender]]
        for data in peers.acknowledge(self._acknowledged(segment)):
            self._record_bytes(sender, PEER[sender], data)
        if segment.has(RST):
            self._reset()
            return
        peers.is_window_shut = segment.window == 0 and not segment.has(SYN)
        if segment.has(FIN):
            mine.end = mine.place(segment.first) + segment.length
        if segment.length or segment.plain:
            self._take_bytes(segment)
        for end in End:
            if self._halves[end].has_ended and self._halves[PEER[end]].is_ended_and_acknowledged:
                self._close(end)

    def _take_bytes(self, segment: Segment) -> None:
        half, before = self._halves[segment.sender], self._halves[segment.sender].size
        data = half.take(segment.first, segment.payload)
        if self._is_tls is None and data and segment.sender is End.CLIENT:
            self._is_tls = data[0] == TLS_RECORD
        if not self._is_tls:
            if data:
                self._send(segment.sender, Piece(before, data, False))
        elif segment.sealed > len(segment.plain):
            self.lose("its TLS can't be read without the keys of its connection")
        else:
            half.is_tls_over |= segment.is_tls_end
            for plain in segment.plain:
                self._send(segment.sender, Piece(min(before, half.size - 1), plain, True))

    def _send(self, sender: End, piece: Piece) -> None:
        if sender is End.CLIENT:
            self._look_for_connect(piece.data)
        self._record_bytes(sender, sender, piece.data)
        self._halves[sender].put(piece)

    def _look_for_connect(self, data: bytes) -> None:
        for _, body in self._connect.feed(data) if self._connect is not None else ():
            connect = read_connect(body or b"")
            if self._connect is not None and connect is not None and connect.identifier:
                self._named(self, connect.identifier)
            self._connect = None

    def _reset(self) -> None:
        self.break_off()
        for end in End:
            self._close(end)
        self.is_over = True
        self._forget()

    # -- recording

    def _open(self) -> None:
        if not self._is_opened:
            self._is_opened = True
            for recorder in self._recorders.values():
                recorder.opened(self.key)

    def _record_bytes(self, end: End, sender: End, data: bytes) -> None:
        """Gives bytes that the sender sent to the recorder of an end."""
        self._open()
        recorder = self._recorders.get(end)
        if recorder is None or end in self._closed:
            return
        if sender is End.CLIENT:
            recorder.from_client(self.key, data)
        else:
            recorder.from_server(self.key, data)

    def _close(self, end: End) -> None:
        if end not in self._closed:
            self._closed.add(end)
            if self._is_opened and end in self._recorders:
                self._recorders[end].closed(self.key)
        if len(self._closed) == len(End):
            self.is_over = True
            self._forget()

    def _forget(self) -> None:
        for end in End:
            self._halves[end], self._blocked[end] = Half(), deque()
        self._blocked_since = None


def begins_a_connection(segment: Segment) -> bool:
    """The client's first bytes stand here: a CONNECT, or TLS's ClientHello."""
    data = segment.payload
    is_connect = data[:1] == b"\x10" and any(data[at : at + 6] == b"\0\x04MQTT" for at in range(2, 6))
    return segment.sender is End.CLIENT and (is_connect or (data[:2] == b"\x16\x03" and data[5:6] == b"\x01"))


# ---- the whole capture


class Capture:
    """All connections of a capture."""

    def __init__(
        self,
        folder: Path,
        ends: Iterable[End],
        rests: Rests,
        warn: Callable[[str], None] = write_to_standard_error,
        log_version: int = NEWEST,
    ) -> None:
        self.connections = 0
        self.left_out = 0
        self._now = 0.0
        self._moment = 0  # of the segment that is being recorded, in microseconds
        self._looked_at = 0.0
        self._rest_after, self._warn = rests.after, warn
        self._warned: OrderedDict[str, None] = OrderedDict()
        self._recorders = {
            end: Recorder(folder, frozenset({end}), rests.after, clock=lambda: self._now, warn=self._warn_once,
                          log_version=log_version, moment=lambda: self._moment,
                          rest_before_connack=rests.before_connack)
            for end in ends
        }
        self._streams: dict[int, Stream | None] = {}  # None: it is over
        self._busy: dict[int, Stream] = {}
        self._blocked_unnamed: dict[int, Stream] = {}
        self._named: dict[bytes, Stream] = {}  # the latest of each Client Identifier that isn't over

    @property
    def is_stopped(self) -> bool:
        return any(recorder.is_stopped for recorder in self._recorders.values())

    def take(self, segment: Segment) -> None:
        """Takes in the next segment of the capture."""
        self._now = max(self._now, segment.time)
        self._time(segment)
        self._look_for_rest()
        if segment.stream not in self._streams:
            self._streams[segment.stream] = Stream(segment, self._recorders, self._warn_once, self._name, self._time)
            self.connections += 1
        stream = self._streams[segment.stream]
        if stream is not None:
            stream.take(segment)
            self._sort(stream)

    def finish(self) -> None:
        """The capture ends: writes what is left."""
        self._look_for_rest()
        for stream in [stream for stream in self._streams.values() if stream is not None]:
            stream.finish()
            self.left_out += stream.is_lost
        for recorder in self._recorders.values():
            recorder.finish()

    def _look_for_rest(self) -> None:
        """Has a REST written where there was silence, four times in the time that a silence takes."""
        if self._rest_after is None or self._now < self._looked_at + self._rest_after / 4:
            return
        self._looked_at = self._now
        for recorder in self._recorders.values():
            for key in self._busy:
                recorder.stirred(key)
            recorder.tick()

    def _time(self, segment: Segment) -> None:
        """What is recorded now has this segment's time."""
        self._moment = segment.moment

    def _name(self, stream: Stream, identifier: bytes) -> None:
        """Takes in the Client Identifier of a stream. Older ones that may have had the same can't go on now."""
        older = [*self._blocked_unnamed.values(), *filter(None, [self._named.get(identifier)])]
        for other in older:
            if other is not stream:
                other.break_off()
        self._named[identifier] = stream

    def _sort(self, stream: Stream) -> None:
        if stream.is_over:
            self._streams[stream.key] = None
            self.left_out += stream.is_lost
        for streams, is_one in ((self._busy, stream.is_busy), (self._blocked_unnamed, stream.is_blocked_unnamed)):
            if is_one and not stream.is_over:
                streams[stream.key] = stream
            else:
                streams.pop(stream.key, None)

    def _warn_once(self, line: str) -> None:
        """Warns only once of what both ends' recorders say of a connection."""
        if line not in self._warned:
            self._warned[line] = None
            if len(self._warned) > REMEMBERED_WARNINGS:
                self._warned.popitem(last=False)
            self._warn(line)


def parse_arguments(words: list[str] | None) -> argparse.Namespace:
    parser = Parser(
        prog="from-capture",
        description="Makes logs out of a capture of network packets, one for each Client Identifier and tested end.",
    )
    parser.add_argument("file", metavar="FILE", help="the capture, pcap or pcapng; - is standard input")
    parser.add_argument(
        "--server",
        metavar="HOST:PORT",
        type=parse_server,
        action="append",
        required=True,
        help="where the server listens; [ADDRESS]:PORT for IPv6, :PORT for that port of any host; may be repeated",
    )
    parser.add_argument("--out", metavar="DIR", type=Path, required=True, help="where the logs are written")
    parser.add_argument("--keylog", metavar="FILE", type=Path, help="the keys of TLS connections (SSLKEYLOGFILE)")
    parser.add_argument("--end", choices=("client", "server", "both"), default="both", help="whose logs are written")
    parser.add_rests("silence after which an end is at rest")
    parser.add_argument("--tshark", metavar="PROGRAM", default="tshark", help="the tshark that reads the capture")
    parser.add_log_version()
    arguments = parser.parse_args(words)
    parser.check_rests(arguments)
    return arguments


def ports_seen(program: str, file: str) -> list[int]:
    """The ports that connections of a capture go to, as far as their first segments are in it."""
    command = [program, "-n", "-r", file, "-Y", "tcp.flags.syn == 1 && tcp.flags.ack == 0"]
    answer = subprocess.run([*command, "-T", "fields", "-e", "tcp.dstport"], capture_output=True, text=True)
    return sorted({int(word) for word in answer.stdout.replace(",", " ").split() if word.isdigit()})


def nothing_found(arguments: argparse.Namespace) -> str:
    """Says that no connection goes to the servers that were named, and where those go that are there."""
    ports = ", ".join(str(port) for port in sorted({server.port for server in arguments.server}))
    line = f"no connection to the server, port {ports}, is in {arguments.file}"
    if arguments.file == "-":
        return line
    seen = ports_seen(arguments.tshark, arguments.file)
    return f"{line}: connections begin to {', '.join(map(str, seen)) or 'no port'}"


def prepare(arguments: argparse.Namespace) -> str:
    """Makes the folder for the logs. Says what is wrong, where something is."""
    if arguments.keylog is not None and not arguments.keylog.is_file():
        return f"{arguments.keylog} isn't a file"
    if arguments.file != "-" and (not os.path.exists(arguments.file) or os.path.isdir(arguments.file)):
        return f"{arguments.file} isn't a file"
    try:
        arguments.out.mkdir(parents=True, exist_ok=True)
    except OSError as error:
        return f"can't create {arguments.out}: {error.strerror}"
    return ""


def main(words: list[str] | None = None) -> int:
    """0 where the capture was read to its end, 1 where reading or writing failed, or no connection was found."""
    arguments = parse_arguments(words)
    ends = list(End) if arguments.end == "both" else [End(arguments.end)]
    problem = prepare(arguments)
    if problem:
        write_to_standard_error(f"from-capture: {problem}")
        return 1
    capture = Capture(arguments.out, ends, Rests.of(arguments), log_version=arguments.log_version)
    command = tshark_command(arguments.tshark, arguments.file, arguments.server, arguments.keylog)
    status = 0
    try:
        for segment in read_segments(command, arguments.server):
            capture.take(segment)
            if capture.is_stopped:
                break
        if not capture.connections:
            raise CaptureError(nothing_found(arguments))
    except CaptureError as error:
        write_to_standard_error(f"from-capture: {error}")
        status = 1
    if capture.is_stopped:
        status = 1
    capture.finish()
    print(f"{counted(capture.connections, 'connection')}, {capture.left_out} of them incomplete")
    return status
