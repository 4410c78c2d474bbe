#!/usr/bin/env python3
"""Tests of recording.py: which logs come of which connections.

usage: recorders/test_recording.py
"""
from __future__ import annotations

import errno
import os
import sys
import time
import unittest
from pathlib import Path
from unittest import mock

sys.dont_write_bytecode = True  # the repository stays as it is
sys.path.insert(0, str(Path(__file__).resolve().parent))
import framing
import log_format
import recording
from framing import Framer
from recording import End, Recorder, Standing, file_name
from testing import InFolder, verdict, words as records

BOTH = frozenset(End)


def text(value: bytes) -> bytes:
    return len(value).to_bytes(2, "big") + value


def packet(first: int, body: bytes) -> bytes:
    length, rest = bytearray(), len(body)
    while True:
        rest, low = rest >> 7, rest & 0x7F
        length.append(low | (0x80 if rest else 0))
        if not rest:
            return bytes((first,)) + bytes(length) + body


def connect(identifier: bytes, clean_start: bool = True, version: int = 5, protocol: bytes = b"MQTT") -> bytes:
    properties = b"\0" if version == 5 else b""
    flags = 2 if clean_start else 0
    return packet(0x10, text(protocol) + bytes((version, flags, 0, 60)) + properties + text(identifier))


def connack(reason: int = 0, present: bool = False, properties: bytes = b"") -> bytes:
    return packet(0x20, bytes((int(present), reason, len(properties))) + properties)


PINGREQ, PINGRESP = bytes.fromhex("C000"), bytes.fromhex("D000")
CLIENT_DISCONNECT, TAKEN_OVER = bytes.fromhex("E000"), bytes.fromhex("E0028E00")


class Case(InFolder):
    def setUp(self) -> None:
        super().setUp()
        self.now = 0.0
        self.warnings: list[str] = []

    def recorder(self, *ends: End, **options: object) -> Recorder:
        wanted = {"rest_after": None, "clock": lambda: self.now, "warn": self.warnings.append} | options
        return Recorder(self.folder, frozenset(ends) or frozenset({End.CLIENT}), **wanted)

    def recorded(self) -> dict[str, list[str]]:
        return {path.name: records(path.read_bytes()) for path in sorted(self.folder.iterdir())}

    def log(self, name: str) -> list[str]:
        return records((self.folder / name).read_bytes())

    def accept(
        self, recorder: Recorder, key: object, identifier: bytes, clean_start: bool = True, present: bool = False
    ) -> None:
        recorder.opened(key)
        recorder.from_client(key, connect(identifier, clean_start))
        recorder.from_server(key, connack(0, present))


def opening(identifier: bytes, clean_start: bool = True, present: bool = False) -> list[str]:
    """The first records of an accepted connection in its client's log."""
    return ["OPEN", f"SENT {connect(identifier, clean_start).hex()}", f"RECV {connack(0, present).hex()}"]


class Sessions(Case):
    def test_one_connection_gives_a_log_for_each_end(self) -> None:
        recorder = self.recorder(*BOTH)
        self.accept(recorder, 1, b"a")
        recorder.from_client(1, PINGREQ)
        recorder.from_server(1, PINGRESP)
        recorder.closed(1)
        client = [*opening(b"a"), "SENT c000", "RECV d000", "CLOSE"]
        swapped = [word.replace("SENT", "-").replace("RECV", "SENT").replace("-", "RECV") for word in client]
        self.assertEqual(self.recorded(), {"a.1.client.log": client, "a.1.server.log": swapped})
        self.assertEqual((self.folder / "a.1.client.log").read_bytes()[:8].hex(), "4d51545202000000")
        self.assertEqual((self.folder / "a.1.server.log").read_bytes()[:8].hex(), "4d51545202010000")

    def test_a_resumed_session_goes_on_and_a_clean_start_begins_a_log(self) -> None:
        recorder = self.recorder()
        for key, (clean_start, present) in enumerate(((True, False), (False, True), (False, False), (True, False))):
            self.accept(recorder, key, b"a", clean_start, present)
            recorder.closed(key)
        first = [*opening(b"a"), "CLOSE", *opening(b"a", False, True), "CLOSE", *opening(b"a", False), "CLOSE"]
        self.assertEqual(self.recorded(), {"a.1.client.log": first, "a.2.client.log": [*opening(b"a"), "CLOSE"]})

    def test_a_refused_clean_start_stays_in_the_log(self) -> None:
        recorder = self.recorder()
        self.accept(recorder, 1, b"a")
        recorder.closed(1)
        recorder.opened(2)
        recorder.from_client(2, connect(b"a"))
        recorder.from_server(2, connack(0x87))
        recorder.closed(2)
        self.accept(recorder, 3, b"a", False, True)
        refused = ["OPEN", f"SENT {connect(b'a').hex()}", f"RECV {connack(0x87).hex()}", "CLOSE"]
        words = [*opening(b"a"), "CLOSE", *refused, *opening(b"a", False, True)]
        self.assertEqual(self.recorded(), {"a.1.client.log": words})

    def test_a_connection_without_a_connack_stays_in_the_log(self) -> None:
        recorder = self.recorder()
        recorder.opened(1)
        recorder.from_client(1, connect(b"a", False))
        recorder.closed(1)
        self.accept(recorder, 2, b"a", False, True)  # the server may have accepted the first one
        unanswered = ["OPEN", f"SENT {connect(b'a', False).hex()}", "CLOSE"]
        self.assertEqual(self.recorded(), {"a.1.client.log": [*unanswered, *opening(b"a", False, True)]})
        self.assertEqual(self.warnings, [])

    def test_a_connection_on_which_nothing_was_sent_leaves_no_log(self) -> None:
        recorder = self.recorder(*BOTH, rest_after=1.0)
        for key in (1, 2):
            recorder.opened(key)
        self.now = 5
        recorder.tick()
        recorder.closed(1)  # the other one is open at the end
        self.accept(recorder, 3, b"a")
        recorder.opened(4)
        recorder.from_server(4, PINGRESP)
        recorder.closed(4)
        recorder.opened(5)
        recorder.from_client(5, b"\x10")
        recorder.finish()
        logs = {name: words for name, words in self.recorded().items() if "client" in name}
        unnamed = [["OPEN", "RECV d000", "CLOSE"], ["OPEN", "SENT 10"]]
        wanted = {f"@unnamed.{number}.client.log": words for number, words in enumerate(unnamed, 1)}
        self.assertEqual(logs, wanted | {"a.1.client.log": opening(b"a")})
        self.assertEqual((self.warnings, recorder._kept_bytes, recorder.connections), ([], 0, 3))

    def test_a_session_from_before_the_recording_is_left_out(self) -> None:
        recorder = self.recorder()
        self.accept(recorder, 1, b"a", False, True)
        recorder.closed(1)
        self.accept(recorder, 2, b"a", False, True)
        recorder.closed(2)
        self.assertEqual(self.recorded(), {})
        self.assertEqual(self.warnings, ["not recorded: a resumes a session that began before the recording"] * 2)
        self.accept(recorder, 3, b"a", False, False)
        self.accept(recorder, 4, b"a", False, True)
        self.assertEqual(self.recorded(), {"a.1.client.log": [*opening(b"a", False), "CLOSE", *opening(b"a", False, True)]})

    def test_it_is_recorded_where_there_was_nothing_before(self) -> None:
        self.accept(self.recorder(from_start=True), 1, b"a", False, True)
        self.assertEqual(self.recorded(), {"a.1.client.log": opening(b"a", False, True)})

    def test_an_empty_client_identifier_takes_the_assigned_one(self) -> None:
        recorder = self.recorder()
        assigned = b"\x21\0\x05\x26" + text(b"k") + text(b"v") + b"\x12" + text(b"auto/1")
        recorder.opened(1)
        recorder.from_client(1, connect(b""))
        recorder.from_server(1, connack(properties=assigned))
        recorder.closed(1)
        self.accept(recorder, 2, b"auto/1", False, True)
        first = ["OPEN", f"SENT {connect(b'').hex()}", f"RECV {connack(properties=assigned).hex()}", "CLOSE"]
        self.assertEqual(self.recorded(), {"auto%2F1.1.client.log": [*first, *opening(b"auto/1", False, True)]})

    def test_no_client_identifier_gives_a_log_of_its_own(self) -> None:
        recorder = self.recorder(End.SERVER)
        sent = (b"GET / HTTP/1.1\r\n\r\n", connect(b""), PINGREQ)
        for key, data in enumerate(sent):
            recorder.opened(key)
            recorder.from_client(key, data)
            recorder.closed(key)
        wanted = [["OPEN", f"RECV {data.hex()}", "CLOSE"] for data in sent]
        self.assertEqual([*self.recorded().values()], wanted)
        self.assertEqual([*self.recorded()], [f"@unnamed.{number}.server.log" for number in (1, 2, 3)])

    def test_other_versions_are_told_and_not_recorded(self) -> None:
        recorder = self.recorder()
        for key, (protocol, version) in enumerate(((b"MQTT", 4), (b"MQIsdp", 3), (b"MQTT", 0x84))):
            recorder.opened(key)
            recorder.from_client(key, connect(b"o\nld", True, version, protocol))
            recorder.from_server(key, bytes.fromhex("20020000"))
            recorder.closed(key)
        self.assertEqual(self.recorded(), {})
        self.assertEqual(self.warnings[0], "not recorded: o%0Ald uses MQTT version 4")
        self.assertEqual(len(self.warnings), 3)

    def test_earlier_files_are_never_written_over(self) -> None:
        (self.folder / "a.1.client.log").write_bytes(b"kept")
        self.accept(self.recorder(), 1, b"a")
        self.assertEqual((self.folder / "a.1.client.log").read_bytes(), b"kept")
        self.assertEqual(self.log("a.2.client.log"), opening(b"a"))

    def test_bytes_are_kept_as_they_come(self) -> None:
        recorder = self.recorder()
        recorder.opened(1)
        for byte in connect(b"a"):
            recorder.from_client(1, bytes((byte,)))
        recorder.from_server(1, connack() + PINGRESP)
        wanted = ["OPEN", *(f"SENT {byte:02x}" for byte in connect(b"a")), f"RECV {(connack() + PINGRESP).hex()}"]
        self.assertEqual(self.recorded(), {"a.1.client.log": wanted})


    def test_a_name_of_the_recorders_own(self) -> None:
        recorder = self.recorder(named=lambda identifier: file_name(identifier.removeprefix(b"run-7-")))
        self.accept(recorder, 1, b"run-7-a")
        recorder.closed(1)
        self.assertEqual([*self.recorded()], ["a.1.client.log"])


class Takeover(Case):
    def test_the_old_connection_is_closed_first_and_what_it_still_sends_is_left_out(self) -> None:
        recorder = self.recorder(End.SERVER)
        self.accept(recorder, 1, b"a", False)
        recorder.opened(2)
        recorder.from_client(2, connect(b"a", False))
        recorder.from_server(1, TAKEN_OVER)
        recorder.from_server(2, connack(0, True))
        recorder.from_client(1, PINGREQ)
        recorder.closed(1)
        recorder.from_client(2, PINGREQ)
        words = self.log("a.1.server.log")
        self.assertEqual([word.split()[0] for word in words], "OPEN RECV SENT SENT CLOSE OPEN RECV SENT RECV".split())
        self.assertEqual(words[3], f"SENT {TAKEN_OVER.hex()}")

    def test_a_clean_start_takes_over_into_a_new_log(self) -> None:
        recorder = self.recorder()
        self.accept(recorder, 1, b"a")
        self.accept(recorder, 2, b"a")
        recorder.from_client(1, PINGREQ)
        recorder.from_client(2, PINGREQ)
        self.assertEqual(
            self.recorded(), {"a.1.client.log": [*opening(b"a"), "CLOSE"], "a.2.client.log": [*opening(b"a"), "SENT c000"]}
        )

    def test_a_refused_connection_takes_nothing_over(self) -> None:
        recorder = self.recorder()
        self.accept(recorder, 1, b"a", False)
        recorder.opened(2)
        recorder.from_client(2, connect(b"a", False))
        recorder.from_server(2, connack(0x97))
        recorder.from_client(1, PINGREQ)
        recorder.closed(2)
        recorder.closed(1)
        refused = ["OPEN", f"SENT {connect(b'a', False).hex()}", f"RECV {connack(0x97).hex()}", "CLOSE"]
        self.assertEqual(self.recorded(), {"a.1.client.log": [*opening(b"a", False), "SENT c000", "CLOSE", *refused]})

    def test_a_refused_connection_that_stays_open_is_closed_by_a_takeover(self) -> None:
        recorder = self.recorder()
        self.accept(recorder, 1, b"a", False)
        recorder.opened(2)
        recorder.from_client(2, connect(b"a", False))
        recorder.from_server(2, connack(0x97))
        self.accept(recorder, 3, b"a", False, True)
        recorder.from_client(2, PINGREQ)
        recorder.closed(2)
        words = self.log("a.1.client.log")
        closed = ["OPEN", "SENT", "RECV", "CLOSE"]
        self.assertEqual([word.split()[0] for word in words], [*closed, *closed, *closed[:3]])

    def test_many_refused_connections_are_bounded(self) -> None:
        recorder = self.recorder()
        self.accept(recorder, 0, b"a", False)
        for key in range(1, 40):
            recorder.opened(key)
            recorder.from_client(key, connect(b"a", False))
            recorder.closed(key)
        recorder.closed(0)
        self.assertEqual(self.log("a.1.client.log").count("OPEN"), 1 + recording.WAITING_MOST)


class Missing(Case):
    def test_the_log_ends_and_the_session_is_left_out(self) -> None:
        recorder = self.recorder()
        self.accept(recorder, 1, b"a")
        self.accept(recorder, 2, b"b")
        recorder.missing(1)
        recorder.from_client(1, PINGREQ)
        recorder.closed(1)
        self.accept(recorder, 3, b"a", False, True)
        recorder.closed(3)
        self.accept(recorder, 4, b"a", False, False)
        self.accept(recorder, 5, b"b", False, True)
        self.assertEqual(
            self.recorded(),
            {
                "a.1.client.log": opening(b"a"),
                "a.2.client.log": opening(b"a", False),
                "b.1.client.log": [*opening(b"b"), "CLOSE", *opening(b"b", False, True)],
            },
        )
        self.assertEqual(
            self.warnings,
            [
                "not recorded: bytes of a are missing",
                "not recorded: a resumes a session that began before the recording",
            ],
        )

    def test_before_the_connack_it_is_the_connect_that_names_the_session(self) -> None:
        recorder = self.recorder()
        self.accept(recorder, 1, b"a")
        recorder.closed(1)
        recorder.opened(2)
        recorder.from_client(2, connect(b"a", False))
        recorder.missing(2)
        self.accept(recorder, 3, b"a", False, True)
        self.assertEqual(self.recorded(), {"a.1.client.log": [*opening(b"a"), "CLOSE"]})

    def test_before_the_connect_it_may_be_any(self) -> None:
        recorder = self.recorder()
        self.accept(recorder, 1, b"a")
        self.accept(recorder, 2, b"b")
        recorder.closed(1)
        recorder.opened(3)
        recorder.missing(3)
        recorder.from_client(2, PINGREQ)
        recorder.closed(2)
        self.accept(recorder, 4, b"a", False, True)
        self.accept(recorder, 5, b"b", False, True)
        self.accept(recorder, 6, b"c")
        self.assertEqual(
            self.recorded(),
            {
                "a.1.client.log": [*opening(b"a"), "CLOSE"],
                "b.1.client.log": [*opening(b"b"), "SENT c000", "CLOSE"],
                "c.1.client.log": opening(b"c"),
            },
        )

    def test_refused_connections_that_wait_are_left_out(self) -> None:
        recorder = self.recorder()
        self.accept(recorder, 1, b"a", False)
        recorder.opened(2)
        recorder.from_client(2, connect(b"a", False))
        recorder.from_server(2, connack(0x97))
        recorder.missing(1)
        recorder.closed(2)
        recorder.closed(1)
        self.assertEqual(self.recorded(), {"a.1.client.log": opening(b"a", False)})
        self.assertEqual(recorder._kept_bytes, 0)


class Rest(Case):
    def silent(self, recorder: Recorder) -> None:
        self.now += 5
        recorder.tick()
        recorder.tick()

    def test_one_rest_a_silence(self) -> None:
        recorder = self.recorder(rest_after=5.0)
        self.accept(recorder, 1, b"a")
        self.now = 4
        recorder.tick()
        self.silent(recorder)
        self.silent(recorder)
        recorder.from_client(1, PINGREQ)
        self.silent(recorder)
        self.assertEqual(self.log("a.1.client.log"), [*opening(b"a"), "REST", "SENT c000", "REST"])

    def test_none_of_a_client_before_the_connack_and_none_after_a_refusal(self) -> None:
        for end in End:
            recorder = self.recorder(end, rest_after=5.0, rest_before_connack=5.0 if end is End.CLIENT else None)
            recorder.opened(1)
            self.silent(recorder)
            recorder.from_client(1, connect(b"a"))
            self.silent(recorder)
            recorder.from_server(1, connack(0x80))
            self.silent(recorder)
            recorder.rested(1)
            self.assertNotIn("REST", self.log(f"a.1.{end.value}.log"))

    def test_a_server_that_does_not_answer_a_connect(self) -> None:
        recorder = self.recorder(End.SERVER, rest_after=5.0, rest_before_connack=20.0)
        recorder.opened(1)
        self.now = 100
        recorder.tick()  # nothing has come that it could answer
        recorder.from_client(1, connect(b"a")[:-1])
        self.now = 200
        recorder.tick()  # nor now, in the middle of a packet
        recorder.from_client(1, connect(b"a")[-1:])
        self.now = 219.9
        recorder.tick()
        self.assertEqual(recorder.standing(1), Standing.UNANSWERED)
        self.now = 220
        recorder.tick()
        recorder.tick()
        recorder.from_client(1, PINGREQ)
        self.now = 300
        recorder.tick()
        recorder.finish()
        pieces = [f"RECV {data.hex()}" for data in (connect(b"a")[:-1], connect(b"a")[-1:])]
        self.assertEqual(self.log("a.1.server.log"), ["OPEN", *pieces, "REST", "RECV c000", "REST"])

    def test_a_server_that_answers_late(self) -> None:
        """A CONNACK that comes before the longer silence is over has no REST before it, and a later one has."""
        for name, seconds, is_rest in ((b"in-time", 19, False), (b"too-late", 21, True)):
            recorder = self.recorder(End.SERVER, rest_after=5.0, rest_before_connack=20.0)
            recorder.opened(1)
            recorder.from_client(1, connect(name))
            self.now += seconds
            recorder.tick()
            recorder.from_server(1, connack())
            self.silent(recorder)
            early = ["REST"] if is_rest else []
            words = ["OPEN", f"RECV {connect(name).hex()}", *early, f"SENT {connack().hex()}", "REST"]
            self.assertEqual(self.log(f"{name.decode()}.1.server.log"), words)

    def test_before_the_connack_what_is_known_needs_no_silence(self) -> None:
        recorder = self.recorder(End.SERVER)
        recorder.opened(1)
        recorder.rested(1)
        recorder.from_client(1, connect(b"a"))
        recorder.rested(1)
        recorder.closed(1)
        recorder.opened(2)
        recorder.from_client(2, bytes.fromhex("0000"))
        recorder.rested(2)
        recorder.closed(2)
        self.assertEqual(self.log("a.1.server.log"), ["OPEN", f"RECV {connect(b'a').hex()}", "REST", "CLOSE"])
        self.assertEqual(self.log("@unnamed.1.server.log"), ["OPEN", "RECV 0000", "REST", "CLOSE"])

    def test_none_after_what_leaves_a_doubt(self) -> None:
        """An end has said that it leaves, or a packet isn't whole, or the tested end's own stream is lost."""
        odd = (CLIENT_DISCONNECT, *map(bytes.fromhex, ("c0", "3680", "c1", "00")))
        sent = [(data, record) for data in odd for record in (Recorder.from_client, Recorder.from_server)]
        for number, (data, record) in enumerate([*sent, (bytes.fromhex("c0ffffffff"), None)]):
            for end in End:
                with self.subTest(data=data.hex(), end=end):
                    own = Recorder.from_client if end is End.CLIENT else Recorder.from_server
                    name = f"{end.value}{number}"
                    recorder = self.recorder(end, rest_after=5.0, rest_before_connack=5.0)
                    self.accept(recorder, 1, name.encode())
                    (record or own)(recorder, 1, data)
                    self.silent(recorder)
                    self.assertNotIn("REST", self.log(f"{name}.1.{end.value}.log"))

    def test_none_after_what_is_broken_where_a_second_connack_may_refuse(self) -> None:
        recorder = self.recorder(End.SERVER, rest_after=5.0)
        self.accept(recorder, 1, b"a")
        recorder.from_server(1, connack(0x87))
        recorder.from_client(1, bytes.fromhex("c100"))
        self.silent(recorder)
        self.assertNotIn("REST", self.log("a.1.server.log"))

    def test_an_end_that_keeps_a_connection_on_which_what_came_is_broken(self) -> None:
        """It is at rest by the usual silence, also if nobody can tell where the packets of its peer begin."""
        for number, data in enumerate(map(bytes.fromhex, ("c0ffffffff", "c08000", "3600", "c100", "0000"))):
            for end in End:
                with self.subTest(data=data.hex(), end=end):
                    peers = Recorder.from_server if end is End.CLIENT else Recorder.from_client
                    name = f"{end.value}{number}"
                    recorder = self.recorder(end, rest_after=5.0)
                    self.accept(recorder, 1, name.encode())
                    self.assertEqual(recorder.standing(1), Standing.ACCEPTED)
                    peers(recorder, 1, data)
                    self.assertEqual(recorder.standing(1), Standing.BROKEN)
                    self.now += 4
                    recorder.tick()
                    self.assertNotIn("REST", self.log(f"{name}.1.{end.value}.log"))
                    self.silent(recorder)
                    peers(recorder, 1, PINGREQ)
                    recorder.rested(1)
                    recorder.closed(1)
                    wanted = [f"RECV {data.hex()}", "REST", "RECV c000", "REST", "CLOSE"]
                    self.assertEqual(self.log(f"{name}.1.{end.value}.log")[-5:], wanted)

    def test_an_end_that_should_have_closed_and_stays(self) -> None:
        recorder = self.recorder(End.SERVER)
        self.accept(recorder, 1, b"a")
        recorder.stayed_open(1)  # nothing says that it should close
        recorder.from_server(1, TAKEN_OVER)
        recorder.rested(1)
        self.assertEqual(self.log("a.1.server.log").count("REST"), 0)
        recorder.stayed_open(1)
        recorder.stayed_open(1)
        self.assertEqual(self.log("a.1.server.log")[-2:], [f"SENT {TAKEN_OVER.hex()}", "REST"])
        recorder.opened(2)
        recorder.from_client(2, connect(b"b"))
        recorder.from_server(2, connack(0x87))
        recorder.stayed_open(2)
        self.assertEqual(self.log("b.1.server.log")[-2:], [f"SENT {connack(0x87).hex()}", "REST"])

    def test_stirring_puts_it_off(self) -> None:
        recorder = self.recorder(rest_after=5.0)
        self.accept(recorder, 1, b"a")
        self.now = 4
        recorder.stirred(1)
        self.now = 8
        recorder.tick()
        self.assertEqual(self.log("a.1.client.log"), opening(b"a"))

    def test_none_by_silence_where_none_is_asked_for(self) -> None:
        recorder = self.recorder()
        self.accept(recorder, 1, b"a")
        self.silent(recorder)
        self.assertEqual(self.log("a.1.client.log"), opening(b"a"))
        recorder.rested(1)
        self.assertEqual(self.log("a.1.client.log"), [*opening(b"a"), "REST"])


class Releases(Case):
    def test_they_stand_where_they_happen_also_after_the_close(self) -> None:
        recorder = self.recorder(releases=True)
        self.accept(recorder, 1, b"a")
        recorder.released(1, 7)
        recorder.closed(1)
        recorder.released(1, 258)
        self.assertEqual(self.log("a.1.client.log"), [*opening(b"a"), "RELEASE 0007", "CLOSE", "RELEASE 0102"])
        self.assertEqual((self.folder / "a.1.client.log").read_bytes()[:8].hex(), "4d51545202000100")

    def test_a_message_that_goes_to_nobody_is_released_too(self) -> None:
        """A server answers 0x00 to a PUBLISH that no subscription matches, and has nobody to pass it on to."""
        publish, pubrec = bytes.fromhex("3406000161000900"), bytes.fromhex("50020009")
        pubrel, pubcomp = bytes.fromhex("62020009"), bytes.fromhex("70020009")
        for identifier, is_released in ((b"released", True), (b"not", False)):
            recorder = self.recorder(End.SERVER, releases=True)
            self.accept(recorder, 1, identifier)
            recorder.from_client(1, publish)
            if is_released:
                recorder.released(1, 9)
            recorder.from_server(1, pubrec)
            recorder.from_client(1, pubrel)
            recorder.from_server(1, pubcomp)
            wanted = "pass" if is_released else "L3"
            self.assertEqual(verdict(self.folder / f"{identifier.decode()}.1.server.log"), wanted)

    def test_a_new_session_has_none_of_the_old_one(self) -> None:
        recorder = self.recorder(releases=True)
        self.accept(recorder, 1, b"a")
        recorder.closed(1)
        self.accept(recorder, 2, b"a")
        recorder.released(1, 7)
        self.assertEqual(self.log("a.2.client.log"), opening(b"a"))
        self.assertEqual(self.log("a.1.client.log"), [*opening(b"a"), "CLOSE"])


class Versions(Case):
    """Logs of both versions, byte by byte as docs/LOG_FORMAT.md says."""

    def moments(self, name: str) -> list[int | None]:
        return [record.moment for record in log_format.records((self.folder / name).read_bytes())]

    def test_a_log_of_each(self) -> None:
        opened, pinged = "01 00000000{} 02 00000010{} 100e 0004 4d515454 05 02 003c 00 0001 61", "02 00000002{} c000"
        accepted, marked = "03 00000005{} 2003000000", "06 00000002{} 0102 05 00000000{} 04 00000000{}"
        for version in (1, 2):
            ticks = iter(range(1_000_000, 9_000_000, 1_000_000))
            recorder = self.recorder(releases=True, log_version=version, moment=lambda: next(ticks))
            self.accept(recorder, 1, b"a")
            recorder.from_client(1, PINGREQ)
            recorder.released(1, 258)
            recorder.rested(1)
            recorder.closed(1)
            told = ["" if version == 1 else f"{moment:016x}" for moment in range(1_000_000, 8_000_000, 1_000_000)]
            text = f"4d515452 {version:02x} 00 01 00 {opened} {accepted} {pinged} {marked}".format(*told)
            self.assertEqual((self.folder / f"a.{version}.client.log").read_bytes().hex(), text.replace(" ", ""))

    def test_what_is_kept_has_the_moment_at_which_it_came(self) -> None:
        recorder = self.recorder(moment=lambda: int(self.now))
        recorder.opened(1)
        for self.now, data in ((5, connect(b"a")), (7, PINGREQ)):
            recorder.from_client(1, data)
        self.now = 2  # the clock was set back
        recorder.from_server(1, connack())
        self.assertEqual(self.moments("a.1.client.log"), [0, 5, 7, 2])

    def test_moments_are_times_unless_the_recorder_says_others(self) -> None:
        begun = time.time() * 1_000_000
        self.accept(self.recorder(), 1, b"a")
        moments = self.moments("a.1.client.log")
        self.assertEqual(len(moments), 3)
        for moment in moments:
            self.assertTrue(begun - 1 <= moment <= time.time() * 1_000_000 + 1, (begun, moments))

    def test_a_moment_that_no_record_can_have(self) -> None:
        for number, (moment, told) in enumerate(((-1, 0), (1 << 64, (1 << 64) - 1)), 1):
            self.accept(self.recorder(moment=lambda: moment), 1, b"a")
            self.assertEqual(set(self.moments(f"a.{number}.client.log")), {told})

    def test_long_bodies_are_cut_into_records_of_one_moment(self) -> None:
        wanted = {1: [1_048_576] * 17 + [174_213], 2: [16_777_216, 1_222_789]}
        for version, sizes in wanted.items():
            ticks = iter(range(9))
            recorder = self.recorder(log_version=version, moment=lambda: next(ticks))
            self.accept(recorder, 1, b"a")
            recorder.from_client(1, packet(0x30, bytes(18_000_000)))
            records = [*log_format.records((self.folder / f"a.{version}.client.log").read_bytes())][3:]
            self.assertEqual([len(record.body) for record in records], sizes)
            self.assertEqual({record.moment for record in records}, {None if version == 1 else 3})

    def test_reading_a_log(self) -> None:
        self.accept(self.recorder(), 1, b"a")
        log = (self.folder / "a.1.client.log").read_bytes()
        ends = [8, 21, 21 + 13 + len(connect(b"a")), len(log)]  # of the header, and of the records
        for size in range(len(log) + 1):
            if size in ends:
                self.assertEqual(len([*log_format.records(log[:size])]), ends.index(size))
            else:
                self.assertRaises(ValueError, list, log_format.records(log[:size]))
        for header in (log[:4] + b"\0" + log[5:8], log[:4] + b"\3" + log[5:8], b"MQTS" + log[4:8]):
            self.assertRaises(ValueError, list, log_format.records(header + log[8:]))


class Safety(Case):
    def test_client_identifiers_make_no_paths_and_stay_apart(self) -> None:
        self.assertEqual(file_name(b"../../a b"), "%2E%2E%2F%2E%2E%2Fa%20b")
        self.assertEqual(file_name("é".encode()), "%C3%A9")
        self.assertEqual(file_name(b"-rf-x"), "%2Drf-x")
        long = [file_name(b"x" * 65_000 + bytes((end,))) for end in b"yz"]
        self.assertNotEqual(long[0], long[1])
        self.assertLess(max(map(len, long)), 120)

    def test_what_is_kept_is_bounded(self) -> None:
        recorder = self.recorder(*BOTH)
        for key in ("no packet", "no connack"):
            recorder.opened(key)
            if key == "no connack":
                recorder.from_client(key, connect(b"a"))
            for _ in range(40):
                recorder.from_client(key, b"\x30\xff\xff\xff\x7f" + bytes(65_536))
        self.assertEqual([*self.recorded()], ["@unnamed.1.client.log", "@unnamed.1.server.log"])
        self.assertGreater((self.folder / "@unnamed.1.client.log").stat().st_size, 40 * 65_536)
        self.assertEqual(len(self.warnings), 1)

    def test_packets_that_do_not_end_are_bounded_in_all(self) -> None:
        recorder = self.recorder()
        for key in range(100):
            recorder.opened(key)
            recorder.from_client(key, bytes.fromhex("10c0843d") + bytes(900_000))
        kept = sum(len(connection.client._body or b"") for connection in recorder._connections.values())
        self.assertLessEqual(max(kept, recorder._kept_bytes), recording.KEPT_MOST_IN_ALL)

    def test_only_the_first_packet_of_its_type_is_kept(self) -> None:
        recorder = self.recorder()
        self.accept(recorder, 1, b"a")
        connection = recorder._connections[1]
        recorder.from_client(1, bytes.fromhex("10 ff ff 3f") + bytes(500_000))
        recorder.from_server(1, bytes.fromhex("20 ff ff 3f") + bytes(500_000))
        self.assertEqual([framer._body for framer in (connection.client, connection.server)], [None, None])

    def test_a_failed_write_stops_recording_with_one_line(self) -> None:
        recorder = self.recorder()
        self.accept(recorder, 1, b"a")
        self.accept(recorder, 2, b"b")

        sizes = iter((3, 2))

        def full(file: int, data: bytes) -> int:
            if (size := next(sizes, 0)) == 0:
                raise OSError(errno.ENOSPC, os.strerror(errno.ENOSPC))
            self.assertEqual(write(file, data[:size]), size)
            return size

        write = os.write
        with mock.patch.object(recording.os, "write", full):
            recorder.from_client(1, PINGREQ)
            recorder.from_client(2, PINGREQ)
        recorder.closed(1)
        recorder.finish()
        self.assertEqual(len(self.warnings), 1, self.warnings)
        self.assertRegex(self.warnings[0], r"\Arecording stopped: /.*/a\.1\.client\.log: No space left on device\Z")
        self.assertEqual(self.recorded(), {"a.1.client.log": opening(b"a"), "b.1.client.log": opening(b"b")})

    def test_a_folder_that_is_not_there_stops_recording(self) -> None:
        recorder = self.recorder()
        recorder._folder = self.folder / "none"
        self.accept(recorder, 1, b"a")
        self.accept(recorder, 2, b"b")
        self.assertEqual(len(self.warnings), 1)

    def test_whatever_comes_nothing_is_raised(self) -> None:
        whole = connect(b"a") + connack() + PINGREQ + packet(0x30, bytes(300))
        recorder = self.recorder(*BOTH, rest_after=1.0)
        for at in range(len(whole)):
            for byte in (0x00, 0x10, 0x20, 0x7F, 0x80, 0xFF):
                changed = whole[:at] + bytes((byte,)) + whole[at + 1 :]
                recorder.opened(at)
                recorder.from_client(at, changed)
                recorder.from_server(at, changed[at // 2 :])
                self.now += 1
                recorder.tick()
                recorder.closed(at)
        self.assertEqual([line for line in self.warnings if "stopped" in line], [])
        self.recorded()

    def test_unknown_keys_are_passed_over(self) -> None:
        recorder = self.recorder()
        recorder.from_client(1, PINGREQ)
        recorder.closed(1)
        recorder.rested(1)
        recorder.released(1, 1)
        recorder.finish()
        recorder.finish()
        self.assertEqual((self.recorded(), self.warnings), ({}, []))

    def test_finish_writes_what_was_kept(self) -> None:
        recorder = self.recorder()
        recorder.opened(1)
        recorder.from_client(1, connect(b"a"))
        self.assertEqual(self.recorded(), {})
        recorder.finish()
        self.assertEqual(self.recorded(), {"a.1.client.log": ["OPEN", f"SENT {connect(b'a').hex()}"]})

    def test_forgotten_client_identifiers(self) -> None:
        with mock.patch.object(recording, "KNOWN_MOST", 2):
            recorder = self.recorder()
            for key, identifier in enumerate((b"a", b"b", b"c")):
                self.accept(recorder, key, identifier)
                recorder.closed(key)
            self.accept(recorder, 3, b"a", False, True)
        self.assertEqual(len(self.warnings), 1)


class Framing(unittest.TestCase):
    def test_packets_are_cut_however_they_come(self) -> None:
        stream = connect(b"a") + packet(0x32, bytes(200)) + PINGREQ + connect(b"b")
        wanted = [(1, connect(b"a")[2:]), (3, None), (12, None), (1, connect(b"b")[2:])]
        for size in (1, 2, 3, 7, 100, 1000):
            framer = Framer(framing.CONNECT)
            packets = [item for at in range(0, len(stream), size) for item in framer.feed(stream[at : at + size])]
            self.assertEqual(packets, wanted)
            self.assertTrue(framer.is_sound and framer.is_between)

    def test_a_remaining_length_that_is_none_loses_the_direction(self) -> None:
        for digits in ("c08000", "c0ffffff80", "c0ffffffff01"):
            framer = Framer(framing.CONNECT)
            self.assertEqual(framer.feed(bytes.fromhex(digits) + PINGREQ), [])
            self.assertTrue(framer.is_lost)


if __name__ == "__main__":
    unittest.main()
