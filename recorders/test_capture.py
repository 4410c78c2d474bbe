#!/usr/bin/env python3
"""Tests of from-capture: on captures made by hand, and on what tcpdump captures of mosquitto and its clients.

usage: recorders/test_capture.py
"""
from __future__ import annotations

import contextlib
import io
import ipaddress
import os
import signal
import ssl
import struct
import subprocess
import sys
import tempfile
import threading
import time
import unittest
from collections.abc import Iterator
from pathlib import Path

sys.dont_write_bytecode = True  # the repository stays as it is
sys.path.insert(0, str(Path(__file__).resolve().parent))
import captures
import log_format
from arguments import Rests
from captures import ACK, FIN, RST, SYN, Capture, End, Half, Piece, Segment, parse_server
from testing import PAHO, InFolder, accepts, find, free_port, joined, make_certificate, missing, mosquitto, verdict, wait_until

PSH = 0x08
CONNACK, CONNACK_RESUMED = bytes.fromhex("2003000000"), bytes.fromhex("2003010000")
PUBLISH = bytes.fromhex("32070001610007 0078")  # QoS 1, topic a, identifier 7
PUBACK = bytes.fromhex("40020007")
SUBSCRIBE, SUBACK = bytes.fromhex("82070001000001 6101".replace(" ", "")), bytes.fromhex("900400010001")
PINGREQ, PINGRESP, DISCONNECT = bytes.fromhex("c000"), bytes.fromhex("d000"), bytes.fromhex("e000")
TALK = "10.0.0.2:40000 to 10.0.0.1:1883"
NOT_SEEN = "not recorded: bytes of c are missing"
NO_KEYS = "its TLS can't be read without the keys of its connection"


def connect(identifier: str = "c", clean_start: bool = True, expiry: int = 300) -> bytes:
    name = identifier.encode()
    body = b"\0\x04MQTT\x05" + bytes((2 * clean_start, 0, 60, 5, 0x11)) + struct.pack(">IH", expiry, len(name)) + name
    return bytes((0x10, len(body))) + body


class Conversation:
    """A TCP connection that is written down as packets. Each end acknowledges what it got when it sends something."""

    def __init__(
        self, wire: Wire, client: str, server: str = "10.0.0.1", port: int = 40_000, first: int = 4_294_967_000
    ) -> None:
        self.wire = wire
        self.addresses = {End.CLIENT: (client, port), End.SERVER: (server, 1883)}
        self.next = {End.CLIENT: first, End.SERVER: 7}
        self.got = {End.CLIENT: 0, End.SERVER: 0}  # the next number that this end awaits

    def open(self) -> Conversation:
        self.send(End.CLIENT, flags=SYN)
        self.send(End.SERVER, flags=SYN | ACK)
        self.send(End.CLIENT)
        return self

    def accepted(self, identifier: str = "c", clean_start: bool = True, connack: bytes = CONNACK) -> Conversation:
        self.open()
        self.client(connect(identifier, clean_start))
        self.server(connack)
        self.client(SUBSCRIBE)
        self.server(SUBACK)
        self.send(End.CLIENT)
        return self

    def client(self, data: bytes, **options: int | bool) -> bytes:
        return self.send(End.CLIENT, data, **options)

    def server(self, data: bytes, **options: int | bool) -> bytes:
        return self.send(End.SERVER, data, **options)

    def send(
        self,
        end: End,
        data: bytes = b"",
        flags: int = ACK,
        is_captured: bool = True,
        arrives: bool = True,
        window: int = 1000,
    ) -> bytes:
        """Sends a segment with all that is new, and gives its packet, so that it can come again or later."""
        peer = captures.PEER[end]
        packet = self.packet(end, self.next[end], data, flags, window)
        self.next[end] = (self.next[end] + len(data) + bool(flags & (SYN | FIN))) & 0xFFFFFFFF
        if arrives:
            self.got[peer] = self.next[end]
        if is_captured:
            self.wire.put(packet)
        return packet

    def packet(self, end: End, number: int, data: bytes, flags: int = ACK, window: int = 1000) -> bytes:
        (source, source_port), (target, target_port) = self.addresses[end], self.addresses[captures.PEER[end]]
        ports = struct.pack(">HH", source_port, target_port)
        numbers = struct.pack(">II", number & 0xFFFFFFFF, self.got[end] if flags & ACK else 0)
        return ip_packet(source, target, ports + numbers + struct.pack(">BBHHH", 5 << 4, flags, window, 0, 0) + data)

    def close(self) -> None:
        self.client(DISCONNECT)
        self.send(End.CLIENT, flags=FIN | ACK)
        self.send(End.SERVER, flags=FIN | ACK)
        self.send(End.CLIENT)


def ip_packet(source: str, target: str, segment: bytes) -> bytes:
    """An Ethernet frame with a TCP segment, over IPv4 or IPv6 as the addresses say."""
    here, there = ipaddress.ip_address(source), ipaddress.ip_address(target)
    if here.version == 4:
        kind = 0x0800
        header = struct.pack(">BBHHHBBH", 0x45, 0, 20 + len(segment), 0, 0, 64, 6, 0) + here.packed + there.packed
    else:
        kind = 0x86DD
        header = struct.pack(">IHBB", 6 << 28, len(segment), 6, 64) + here.packed + there.packed
    return bytes(12) + struct.pack(">H", kind) + header + segment


class Wire:
    """What is captured: packets with their times."""

    def __init__(self) -> None:
        self.now = 1_000.0
        self.packets: list[tuple[float, bytes]] = []
        self.snap = 262_144

    def put(self, packet: bytes) -> None:
        self.now += 0.001
        self.packets.append((self.now, packet))

    def write(self, path: Path) -> None:
        head = struct.pack("<IHHiIII", 0xA1B2C3D4, 2, 4, 0, 0, self.snap, 1)
        bodies = (
            struct.pack("<IIII", int(at), int(at % 1 * 1e6), min(len(data), self.snap), len(data)) + data[: self.snap]
            for at, data in self.packets
        )
        path.write_bytes(head + b"".join(bodies))


class Case(InFolder):
    def setUp(self) -> None:
        super().setUp()
        self.warnings: list[str] = []

    def run_on(self, path: Path, *words: str) -> int:
        """Runs from-capture on a capture, and keeps what it prints."""
        with contextlib.redirect_stderr(io.StringIO()) as errors, contextlib.redirect_stdout(io.StringIO()) as printed:
            status = captures.main([str(path), "--out", str(self.logs), *words])
        self.warnings, self.printed = errors.getvalue().splitlines(), printed.getvalue()
        return status

    def log(self, name: str) -> list[str]:
        return joined((self.logs / f"{name}.log").read_bytes())

    def names(self) -> list[str]:
        return sorted(path.name for path in self.logs.iterdir())


def words(*items: str | bytes) -> list[str]:
    """The words of a log: SENT and RECV before bytes stand for a record of them."""
    result = []
    for item in items:
        if isinstance(item, bytes):
            result[-1] += " " + item.hex()
        else:
            result.append(item)
    return result


OPENED = words("OPEN", "SENT", connect(), "RECV", CONNACK, "SENT", SUBSCRIBE, "RECV", SUBACK)


@unittest.skipIf(missing("tshark"), missing("tshark"))
class ByHand(Case):
    def setUp(self) -> None:
        super().setUp()
        self.wire = Wire()

    def convert(self, *options: str, server: str = "10.0.0.1:1883") -> None:
        path = self.folder / "capture.pcap"
        self.wire.write(path)
        self.assertEqual(self.run_on(path, "--server", server, *options), 0, self.warnings)

    def test_both_ends_of_a_whole_session(self) -> None:
        talk = Conversation(self.wire, "10.0.0.2").accepted()
        talk.server(PUBLISH)
        talk.client(PUBACK)
        talk.close()
        self.convert()
        client = [*OPENED[:-1], *words("RECV", SUBACK + PUBLISH, "SENT", PUBACK + DISCONNECT, "CLOSE")]
        self.assertEqual(self.log("c.1.client"), client)
        swapped = [word.replace("SENT", "-").replace("RECV", "SENT").replace("-", "RECV") for word in client]
        self.assertEqual(self.log("c.1.server"), swapped)
        self.assertEqual((self.warnings, self.printed), ([], "1 connection, 0 of them incomplete\n"))
        self.assertEqual({verdict(path) for path in self.logs.iterdir()}, {"pass"})

    def test_records_have_the_times_of_the_packets(self) -> None:
        self.wire.now = 1_700_000_000.0
        Conversation(self.wire, "10.0.0.2").accepted()
        self.convert()
        times = [int(at) * 1_000_000 + int(at % 1 * 1e6) for at, _ in self.wire.packets]
        # The CONNECT is in the fourth packet. What an end received is acknowledged by the next one that it sends.
        for end, packets in (("client", (3, 3, 5, 5, 7)), ("server", (3, 4, 4, 6, 6))):
            records = log_format.records((self.logs / f"c.1.{end}.log").read_bytes())
            self.assertEqual([record.moment for record in records], [times[packet] for packet in packets])

    def test_logs_for_old_readers(self) -> None:
        Conversation(self.wire, "10.0.0.2").accepted().close()
        self.convert("--log-version", "1")
        self.assertEqual({path.read_bytes()[:5] for path in self.logs.iterdir()}, {b"MQTR\1"})
        self.assertEqual(self.log("c.1.client")[: len(OPENED)], OPENED)

    def test_ipv6_and_a_server_without_a_host(self) -> None:
        Conversation(self.wire, "fd00::2", "fd00::1").accepted("six").close()
        Conversation(self.wire, "10.0.0.2").accepted("four").close()
        self.convert("--end", "client", server="[fd00::1]:1883")
        self.assertEqual(self.names(), ["six.1.client.log"])
        self.convert("--end", "client", server=":1883")
        self.assertEqual(self.names(), ["four.1.client.log", "six.1.client.log", "six.2.client.log"])
        self.assertEqual({verdict(path) for path in self.logs.iterdir()}, {"pass"})

    def test_segments_that_come_again_overlap_or_come_out_of_order(self) -> None:
        talk = Conversation(self.wire, "10.0.0.2").accepted()
        for number in range(300, 306):
            publish = bytes.fromhex("3406000161") + struct.pack(">H", number) + b"\0"
            start = talk.next[End.CLIENT]
            if number == 300:  # it comes again
                self.wire.put(talk.client(publish))
            elif number == 301:  # its first half comes, and then all of it
                self.wire.put(talk.packet(End.CLIENT, start, publish[:4]))
                talk.client(publish)
            elif number == 302:  # its parts come in the wrong order, one of them over another
                talk.client(publish, is_captured=False)
                for first, last in ((5, 8), (3, 6), (0, 4)):
                    self.wire.put(talk.packet(End.CLIENT, start + first, publish[first:last]))
            elif number == 303:  # a probe for life, with a byte that isn't new
                self.wire.put(talk.packet(End.CLIENT, start - 1, b"?"))
                talk.client(publish)
            else:  # 305 comes before 304
                later = talk.client(publish, is_captured=False)
                if number == 305:
                    self.wire.put(later)
                    self.wire.put(earlier)
                earlier = later
        talk.server(b"".join(b"\x50\x02" + struct.pack(">H", number) for number in range(300, 306)))
        talk.send(End.CLIENT)
        self.convert()
        sent = b"".join(bytes.fromhex("3406000161") + struct.pack(">H", number) + b"\0" for number in range(300, 306))
        self.assertEqual(self.log("c.1.client")[5], "SENT " + sent.hex())
        self.assertEqual(self.warnings, [])
        self.assertEqual({verdict(path) for path in self.logs.iterdir()}, {"pass"})

    def test_numbers_go_around(self) -> None:
        talk = Conversation(self.wire, "10.0.0.2", first=4_294_967_295).accepted()
        talk.close()
        self.convert("--end", "server")
        self.assertEqual(self.log("c.1.server")[-2:], words("RECV", DISCONNECT, "CLOSE"))

    def test_a_gap_ends_the_log_and_the_session(self) -> None:
        talk = Conversation(self.wire, "10.0.0.2").accepted()
        talk.client(PINGREQ)
        talk.server(PINGRESP)
        talk.server(PUBLISH, is_captured=False)
        talk.client(PUBACK)
        talk.server(PINGRESP)
        talk.close()
        Conversation(self.wire, "10.0.0.2", port=40_001).accepted(clean_start=False, connack=CONNACK_RESUMED).close()
        Conversation(self.wire, "10.0.0.2", port=40_002).accepted().close()
        self.convert()
        self.assertEqual(
            self.warnings,
            [
                "10.0.0.2:40000 to 10.0.0.1:1883: the capture lacks bytes of the server after its first 13",
                NOT_SEEN,
                "not recorded: c resumes a session that began before the recording",
            ],
        )
        self.assertEqual(self.log("c.1.client"), [*OPENED, *words("SENT", PINGREQ)])
        swapped = [word.replace("SENT", "-").replace("RECV", "SENT").replace("-", "RECV") for word in OPENED]
        self.assertEqual(self.log("c.1.server"), [*swapped, *words("RECV", PINGREQ, "SENT", PINGRESP)])
        self.assertEqual(self.names(), [f"c.{number}.{end.value}.log" for number in (1, 2) for end in End])
        self.assertEqual({verdict(path) for path in self.logs.iterdir()}, {"pass"})

    def test_packets_that_were_cut_are_a_gap(self) -> None:
        talk = Conversation(self.wire, "10.0.0.2").accepted()
        talk.server(bytes.fromhex("30a001000161 00".replace(" ", "")) + bytes(156))
        talk.client(PINGREQ)
        talk.close()
        self.wire.snap = 120
        self.convert("--end", "client")
        self.assertEqual(len(self.warnings), 2, self.warnings)
        self.assertEqual(self.log("c.1.client"), OPENED)

    def test_a_connection_without_its_beginning(self) -> None:
        talk = Conversation(self.wire, "10.0.0.2")
        talk.got[End.CLIENT] = 7
        talk.client(PINGREQ)
        talk.server(PINGRESP)
        talk.close()
        Conversation(self.wire, "10.0.0.3").accepted().close()
        self.convert("--end", "client")
        self.assertEqual(self.warnings, ["10.0.0.2:40000 to 10.0.0.1:1883: its beginning isn't in the capture"])
        self.assertEqual(self.names(), ["c.1.client.log"])

    def test_a_connection_of_which_the_connect_is_missing_may_be_any(self) -> None:
        Conversation(self.wire, "10.0.0.2").accepted().close()
        talk = Conversation(self.wire, "10.0.0.3").open()
        talk.client(connect(), is_captured=False)
        talk.server(CONNACK)
        talk.close()
        Conversation(self.wire, "10.0.0.2", port=40_001).accepted(clean_start=False, connack=CONNACK_RESUMED).close()
        self.convert("--end", "client")
        self.assertEqual(self.log("c.1.client")[-1], "CLOSE")
        self.assertEqual(self.log("c.1.client").count("OPEN"), 1)
        self.assertEqual(self.names(), ["c.1.client.log"])

    def test_it_may_begin_with_its_connect(self) -> None:
        talk = Conversation(self.wire, "10.0.0.2")
        talk.got[End.CLIENT] = 7
        talk.client(connect())
        talk.server(CONNACK)
        talk.close()
        self.convert("--end", "client")
        self.assertEqual((self.warnings, self.log("c.1.client")[0:2]), ([], OPENED[:2]))

    def test_handshakes_that_are_captured_in_part(self) -> None:
        for lost in range(1, 7):
            with self.subTest(lost=lost):
                self.wire, self.logs = Wire(), self.folder / str(lost)
                Conversation(self.wire, "10.0.0.2").accepted().close()
                handshake = enumerate(self.wire.packets[:3])
                self.wire.packets[:3] = [packet for number, packet in handshake if not lost >> number & 1]
                self.convert("--end", "client")
                self.assertEqual(self.warnings, [])
                self.assertEqual(verdict(self.logs / "c.1.client.log"), "pass")
                self.assertEqual(self.log("c.1.client")[-1], "CLOSE")

    def test_received_is_what_the_end_acknowledged(self) -> None:
        """The client sends before it has the CONNACK, which came by here already; and it never gets the PUBACK."""
        talk = Conversation(self.wire, "10.0.0.2").open()
        publish = PUBLISH
        talk.client(connect())
        before = talk.got[End.CLIENT]
        talk.server(CONNACK)
        after, talk.got[End.CLIENT] = talk.got[End.CLIENT], before
        talk.client(PINGREQ)
        talk.got[End.CLIENT] = after
        talk.client(publish)
        talk.server(PUBACK, arrives=False)
        talk.send(End.CLIENT, flags=FIN | ACK)
        talk = Conversation(self.wire, "10.0.0.2", port=40_001).accepted(clean_start=False, connack=CONNACK_RESUMED)
        talk.client(bytes((publish[0] | 8,)) + publish[1:])
        talk.server(PUBACK)
        talk.close()
        self.convert("--end", "client")
        wanted = words("OPEN", "SENT", connect() + PINGREQ, "RECV", CONNACK, "SENT", publish, "CLOSE", "OPEN")
        self.assertEqual(self.log("c.1.client")[: len(wanted)], wanted)
        self.assertEqual(verdict(self.logs / "c.1.client.log"), "pass")

    def test_an_acknowledgement_that_comes_before_its_bytes(self) -> None:
        talk = Conversation(self.wire, "10.0.0.2").accepted()
        publish = talk.server(PUBLISH, is_captured=False)
        talk.client(PUBACK)
        self.wire.put(publish)
        talk.close()
        self.convert()
        self.assertEqual(self.warnings, [])
        self.assertEqual({verdict(path) for path in self.logs.iterdir()}, {"pass"})
        self.assertEqual(self.log("c.1.server")[5], "RECV " + (PUBACK + DISCONNECT).hex())

    def test_an_acknowledgement_that_comes_before_the_connect(self) -> None:
        talk = Conversation(self.wire, "10.0.0.2").open()
        first = talk.client(connect(), is_captured=False)
        talk.server(CONNACK)
        self.wire.put(first)
        talk.close()
        self.convert()
        self.assertEqual((self.warnings, self.log("c.1.client")[-1]), ([], "CLOSE"))

    def test_a_reset_while_bytes_were_under_way(self) -> None:
        """The server may have sent more than it put into packets: its log ends, and the client's goes on."""
        talk = Conversation(self.wire, "10.0.0.2").accepted()
        talk.server(PUBLISH, arrives=False)
        talk.send(End.CLIENT, flags=RST)
        Conversation(self.wire, "10.0.0.2", port=40_001).accepted(clean_start=False, connack=CONNACK_RESUMED).close()
        self.convert()
        self.assertEqual(self.warnings[0], f"{TALK}: broke while bytes of the server were under way")
        self.assertEqual(self.log("c.1.client").count("OPEN"), 2)
        self.assertEqual(self.log("c.1.server").count("OPEN"), 1)
        self.assertEqual({verdict(path) for path in self.logs.iterdir()}, {"pass"})

    def test_a_takeover_of_a_connection_that_died(self) -> None:
        talk = Conversation(self.wire, "10.0.0.2").accepted()
        talk.client(PUBLISH, arrives=False)
        Conversation(self.wire, "10.0.0.2", port=40_001).accepted(clean_start=False, connack=CONNACK_RESUMED).close()
        self.convert()
        self.assertEqual(self.warnings[0], f"{TALK}: broke while bytes of the client were under way")
        self.assertEqual(self.log("c.1.client").count("OPEN"), 1)
        self.assertEqual(self.log("c.1.server").count("OPEN"), 2)

    def test_rest_by_silence(self) -> None:
        talk = Conversation(self.wire, "10.0.0.2").accepted()
        self.wire.now += 8
        talk.server(PUBLISH)
        talk.client(PUBACK)
        talk.send(End.SERVER)
        self.wire.now += 8
        talk.close()
        self.convert("--rest", "5")
        for end in End:
            self.assertEqual([word for word in self.log(f"c.1.{end.value}") if word == "REST"], ["REST"] * 2)
        self.assertEqual({verdict(path) for path in self.logs.iterdir()}, {"pass"})

    def test_no_rest_where_silence_says_nothing(self) -> None:
        for number in range(4):
            with self.subTest(number):
                self.wire, self.logs = Wire(), self.folder / str(number)
                talk = Conversation(self.wire, "10.0.0.2").accepted()
                if number == 0:  # what the client sent isn't acknowledged: more may come after it
                    talk.client(PINGREQ, arrives=False)
                elif number == 1:  # the server takes nothing
                    talk.send(End.SERVER, window=0)
                elif number == 2:  # bytes came before others
                    talk.client(PINGREQ, is_captured=False, arrives=False)
                    talk.client(PINGREQ, arrives=False)
                else:  # the client has said that it sends no more
                    talk.send(End.CLIENT, flags=FIN | ACK)
                self.wire.now += 60
                Conversation(self.wire, "10.0.0.3").accepted("other")
                self.convert("--rest", "5")
                for end in End:
                    self.assertNotIn("REST", self.log(f"c.1.{end.value}"))

    def test_other_protocols(self) -> None:
        talk = Conversation(self.wire, "10.0.0.2").open()
        talk.client(bytes.fromhex("100d00044d5154540402003c00016f"))
        talk.server(bytes.fromhex("20020000"))
        talk.close()
        Conversation(self.wire, "10.0.0.3").open().close()
        self.convert("--end", "client")
        self.assertEqual(self.warnings, ["not recorded: o uses MQTT version 4"])

    def test_tls_without_keys(self) -> None:
        talk = Conversation(self.wire, "10.0.0.2").open()
        hello = bytes.fromhex("0303") + bytes(32) + bytes.fromhex("00 0002 1301 0100 0000")
        handshake = b"\x01\0" + struct.pack(">H", len(hello)) + hello
        talk.client(b"\x16\x03\x01" + struct.pack(">H", len(handshake)) + handshake)
        talk.server(bytes.fromhex("1703030020") + bytes(32))
        talk.client(bytes.fromhex("1703030020") + bytes(32))
        self.convert("--end", "client")
        self.assertEqual(self.warnings[0], f"{TALK}: {NO_KEYS}")
        self.assertFalse(any(self.logs.iterdir()))

    def test_a_capture_that_is_cut_is_told(self) -> None:
        Conversation(self.wire, "10.0.0.2").accepted()
        path = self.folder / "capture.pcap"
        self.wire.write(path)
        path.write_bytes(path.read_bytes()[:-10])
        self.assertEqual(self.run_on(path, "--server", "10.0.0.1:1883", "--end", "client"), 1)
        self.assertEqual(len(self.warnings), 1, self.warnings)
        self.assertEqual(self.log("c.1.client")[:2], OPENED[:2])

    def test_what_cannot_be_read(self) -> None:
        path = self.folder / "capture.pcap"
        path.write_bytes(b"no capture at all, and longer than a header is")
        self.assertEqual(self.run_on(path, "--server", "10.0.0.1:1883"), 1)
        self.assertEqual(self.run_on(self.folder / "none", "--server", "10.0.0.1:1883"), 1)
        self.assertEqual(self.run_on(path, "--server", ":1883", "--tshark", "/none/tshark"), 1)
        self.assertEqual(self.warnings, ["from-capture: /none/tshark can't be started: No such file or directory"])
        self.assertEqual(self.run_on(path, "--server", ":1883", "--keylog", str(self.folder / "none")), 1)


class Order(unittest.TestCase):
    """Halves of connections, without tshark."""

    def test_each_byte_comes_once_however_a_stream_is_cut(self) -> None:
        data = bytes(range(256)) * 4
        for step in (1, 3, 7, 100):
            for start in (0, 4_294_967_295 - 500):
                half, got = Half(start=start), b""
                parts = [(at, data[at : at + step + 5]) for at in range(0, len(data), step)]
                for at, part in (*parts[1::2], *parts[::2], *parts):
                    got += half.take((start + at) & 0xFFFFFFFF, part)
                self.assertEqual((got, half.size, half.held, half.held_bytes), (data, len(data), {}, 0))

    def test_acknowledgements_cut_pieces(self) -> None:
        half = Half(start=0)
        half.put(Piece(0, b"abc", False))
        half.put(Piece(3, b"def", False))
        got = [list(half.acknowledge(place)) for place in (0, 2, 1, 5, 9)]
        self.assertEqual(got, [[], [b"ab"], [], [b"c", b"de"], [b"f"]])
        self.assertEqual(half.piece_bytes, 0)

    def test_what_was_inside_tls_is_received_as_a_whole(self) -> None:
        half = Half(start=0)
        half.put(Piece(10, b"plain", True))
        self.assertEqual([list(half.acknowledge(place)) for place in (10, 11, 12)], [[], [b"plain"], []])

    def test_what_is_held_is_bounded(self) -> None:
        with tempfile.TemporaryDirectory() as folder:
            warnings: list[str] = []
            capture = Capture(Path(folder), End, Rests(None, None), warnings.append)
            blank = dict(stream=0, client="c", server="s", window=9, payload=b"", length=0, acknowledgement=1)
            capture.take(Segment(time=0, sender=End.CLIENT, flags=SYN, sequence=0, **blank))
            capture.take(Segment(time=0, sender=End.SERVER, flags=SYN | ACK, sequence=0, **blank))
            blank |= dict(payload=bytes(65_536), length=65_536)
            for number in range(1, 400):
                capture.take(Segment(time=1, sender=End.CLIENT, flags=ACK, sequence=5 + 65_536 * number, **blank))
            capture.finish()
            self.assertEqual(warnings[0], "c to s: the capture lacks bytes of the client after its first 0")

    def test_servers(self) -> None:
        self.assertTrue(parse_server("10.0.0.1:1883").is_at("10.0.0.1", 1883))
        self.assertFalse(parse_server("10.0.0.1:1883").is_at("10.0.0.2", 1883))
        self.assertTrue(parse_server("[FD00:0::1]:1883").is_at("fd00::1", 1883))
        self.assertTrue(parse_server(":1883").is_at("fd00::1", 1883))
        self.assertTrue(parse_server("localhost:1883").is_at("127.0.0.1", 1883))
        for text in ("10.0.0.1", "10.0.0.1:", "10.0.0.1:0", "10.0.0.1:65536", "10.0.0.1:x", "a b:1883"):
            with self.assertRaises(captures.argparse.ArgumentTypeError):
                parse_server(text)


@contextlib.contextmanager
def tcpdump(path: Path, *ports: int) -> Iterator[None]:
    """Captures these ports of the loopback, or skips the test where that isn't allowed."""
    user = ["-Z", "root"] if os.geteuid() == 0 else []
    wanted = " or ".join(f"tcp port {port}" for port in ports)
    command = [find("tcpdump") or "tcpdump", *user, "-i", "lo", "-U", "-w", str(path), "-s", "0", wanted]
    with subprocess.Popen(command, stdout=subprocess.DEVNULL, stderr=subprocess.PIPE, text=True) as process:
        assert process.stderr is not None
        if "listening" not in process.stderr.readline():
            raise unittest.SkipTest("capturing isn't allowed here")
        try:
            yield
            time.sleep(0.5)
        finally:
            process.send_signal(signal.SIGINT)


LIVE = ("tshark", "tcpdump", "mosquitto", "mosquitto_pub", "mosquitto_sub")


@unittest.skipIf(missing(*LIVE), missing(*LIVE))
class Live(Case):
    """mosquitto and its clients, as tcpdump captures them on the loopback."""

    def tool(self, name: str, port: int, *words: str) -> subprocess.Popen[str]:
        command = [find(name) or name, "-V", "5", "-h", "127.0.0.1", "-p", str(port), *words]
        return subprocess.Popen(command, stdout=subprocess.DEVNULL, text=True)

    def publish(self, port: int, *words: str) -> None:
        with self.tool("mosquitto_pub", port, *words) as process:
            self.assertEqual(process.wait(20), 0)

    def verdicts(self) -> dict[str, str]:
        return {path.name.removesuffix(".log"): verdict(path) for path in sorted(self.logs.iterdir())}

    def test_publishers_and_subscribers_of_all_levels_of_qos(self) -> None:
        path = self.folder / "capture.pcap"
        with mosquitto(self.folder) as port, tcpdump(path, port):
            kept = ["-i", "kept", "-x", "300", "-c", "-q", "2", "-t", "a/#"]
            with self.tool("mosquitto_sub", port, *kept, "-E"):
                pass
            with self.tool("mosquitto_sub", port, "-i", "sub", "-q", "2", "-t", "a/#", "-C", "4") as subscriber:
                time.sleep(2)
                for qos in "012":
                    self.publish(port, "-i", f"pub{qos}", "-t", f"a/{qos}", "-q", qos, "-m", f"message {qos}")
                (self.folder / "large").write_bytes(bytes(300_000))
                self.publish(port, "-i", "large", "-t", "a/large", "-q", "2", "-f", str(self.folder / "large"))
                self.assertEqual(subscriber.wait(20), 0)
            with self.tool("mosquitto_sub", port, *kept, "-C", "3") as subscriber:
                self.assertEqual(subscriber.wait(20), 0)
        self.assertEqual(self.run_on(path, "--server", f"127.0.0.1:{port}", "--rest", "1"), 0)
        self.assertEqual(self.warnings, [])
        names = ("kept", "large", "pub0", "pub1", "pub2", "sub")
        self.assertEqual(self.verdicts(), {f"{name}.1.{end.value}": "pass" for name in names for end in End})
        self.assertEqual(self.log("kept.1.client").count("OPEN"), 2)
        self.assertIn("REST", self.log("sub.1.client"))
        self.assertEqual(self.log("sub.1.server")[-1], "CLOSE")

    @unittest.skipIf(missing("openssl", PAHO), missing("openssl", PAHO))
    def test_tls_with_its_keys(self) -> None:
        import paho.mqtt.client as paho

        key, certificate, port = self.folder / "key.pem", self.folder / "certificate.pem", free_port()
        make_certificate(key, certificate)
        path, keys = self.folder / "capture.pcap", self.folder / "keys.txt"
        with mosquitto(self.folder, f"listener {port} 127.0.0.1\ncertfile {certificate}\nkeyfile {key}\n"):
            wait_until(lambda: accepts(port))
            with tcpdump(path, port):
                for version in (ssl.TLSVersion.TLSv1_2, ssl.TLSVersion.TLSv1_3):
                    self.exchange(paho.Client(version.name, protocol=paho.MQTTv5), port, certificate, keys, version)
        options = ("--server", f"127.0.0.1:{port}", "--rest", "1")
        self.assertEqual(self.run_on(path, *options, "--keylog", str(keys)), 0)
        self.assertEqual(self.warnings, [])
        names = ("TLSv1_2", "TLSv1_3")
        self.assertEqual(self.verdicts(), {f"{name}.1.{end.value}": "pass" for name in names for end in End})
        self.logs = self.folder / "without"
        self.assertEqual(self.run_on(path, *options), 0)
        self.assertEqual([line.partition(": ")[2] for line in self.warnings if " to " in line], [NO_KEYS] * 2)
        self.assertEqual(self.verdicts(), {})

    def exchange(self, client: object, port: int, certificate: Path, keys: Path, version: ssl.TLSVersion) -> None:
        """All levels of QoS, both ways, in one client over TLS."""
        context = ssl.create_default_context(cafile=str(certificate))
        context.minimum_version = context.maximum_version = version
        context.keylog_filename = str(keys)
        client.tls_set_context(context)
        received: list[bytes] = []
        subscribed = threading.Event()
        client.on_message = lambda client, data, message: received.append(message.payload)
        client.on_subscribe = lambda *_: subscribed.set()
        client.connect("127.0.0.1", port)
        client.loop_start()
        wait_until(client.is_connected)
        client.subscribe("a/#", 2)
        self.assertTrue(subscribed.wait(10))
        for payload in (b"x", bytes(100_000)):
            for qos in range(3):
                client.publish("a/b", payload, qos).wait_for_publish(10)
        wait_until(lambda: len(received) == 6)
        time.sleep(2)
        client.disconnect()
        client.loop_stop()


if __name__ == "__main__":
    unittest.main()
