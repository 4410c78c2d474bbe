#!/usr/bin/env python3
"""Tests of what the exerciser says of situations: where a log puts each statement to the test, and what is so there.

Its reading (exercising/reading.py) is compared with the second opinion on places (bench/places.py), event by event, on
the conformance suite and on all short logs of a run against the small broker that keeps the rules.

usage: recorders/test_situations.py [LOGS ..]
"""
from __future__ import annotations

import subprocess
import sys
import unittest
from collections.abc import Iterable, Iterator
from pathlib import Path
from types import ModuleType

sys.dont_write_bytecode = True  # the repository stays as it is
HERE = Path(__file__).resolve().parent
sys.path.insert(0, str(HERE))
from exercising.client_verbs import HOSTS
from exercising.client_verbs import NEEDS as CLIENT_NEEDS
from exercising.evidence import CLOSE, OPEN, RECV, REST, SENT, Evidence, binding, events_of, read
from exercising.outcome import Outcome
from exercising.packets import PING, PONG, Prop, Properties, Type, acknowledgement, codes, connack, connect, packet, publish, subscribe, unsubscribe
from exercising.running import Fate, Result
from exercising.situations import (
    PLAIN,
    Situation,
    ending_of,
    met_at,
    met_by,
    parse,
    reference,
    situations,
)
from exercising.table import Scenario, TableError, read_scenarios
from exercising.verbs import CLIENTS, NEEDS
from log_format import VERSIONS
from testing import HOST, PATIENCE, TOP, InFolder, accepts, free_port, judge_program, process, wait_until

BENCH = TOP / "bench"
SUITE = TOP / "examples/suite"
LONGEST = 6_000  # bytes of a log that the second opinion reads: it takes time that grows with the square
LEAST = {True: 150, False: 50}
Record = tuple[int, bytes]


def tables() -> dict[bool, dict[str, Scenario]]:
    """The scenarios of brokers and of clients, by their names."""
    broker = read_scenarios(HERE / "exercising/broker.scenarios", CLIENTS.shapes, NEEDS)
    client = read_scenarios(HERE / "exercising/client.scenarios", HOSTS.shapes, CLIENT_NEEDS)
    return {True: {one.name: one for one in broker}, False: {one.name: one for one in client}}


def log_of(*records: Record, is_server: bool = True) -> bytes:
    version = VERSIONS[2]
    return version.header(is_server, False) + b"".join(version.record(kind, body, 0) for kind, body in records)


def opened(*announced: tuple[int, int], present: bool = False) -> list[Record]:
    """A connection with a session that lives on."""
    pairs = [(Prop.SESSION_EXPIRY, 300), *announced]
    return [(OPEN, b""), (RECV, connect("a", not present, pairs)), (SENT, connack(present))]


def tags_at(evidence: Evidence, code: str) -> list[set[str]]:
    return [set(place.tags) for place in evidence.places if place.code == code]


class Language(unittest.TestCase):
    def test_braces_are_variants(self) -> None:
        found = parse("# a comment\nS06 {q1 q2} drop  # another\nW02\n", "x")
        wanted = [Situation("S06", ("q1", "drop")), Situation("S06", ("q2", "drop")), Situation("W02", ())]
        self.assertEqual(found, wanted)

    def test_what_is_wrong_is_said_with_its_line(self) -> None:
        for text, wanted in {
            "S6 q1": "x:1: 'S6' is no code",
            "\nS06 {}": "x:2: nothing is in the braces",
            "S06 q1\nS06 {q1 q2}": "x:2: S06 q1 is also at x:1",
        }.items():
            with self.assertRaises(TableError) as caught:
                parse(text, "x")
            self.assertTrue(str(caught.exception).startswith(wanted), str(caught.exception))


class Tables(unittest.TestCase):
    def test_there_are_so_many_and_each_statement_has_one(self) -> None:
        for is_server, least in LEAST.items():
            self.assertGreaterEqual(len(situations(is_server)), least)
            aims = {code for scenario in tables()[is_server].values() for code in scenario.aims}
            self.assertEqual({one.code for one in situations(is_server)}, aims)

    def test_a_reference_names_scenarios_and_situations_that_there_are(self) -> None:
        for is_server, table in tables().items():
            kept = reference(is_server)
            self.assertEqual(set(kept.values()) - set(table), set())
            self.assertEqual(set(kept) - set(situations(is_server)), set())

    def test_each_situation_of_a_broker_came_about_in_the_reference_run(self) -> None:
        self.assertEqual(sorted(set(situations(True)) - set(reference(True))), [])


class Readings(unittest.TestCase):
    """What is read of made logs."""

    def test_a_message_that_is_open_when_the_session_is_resumed(self) -> None:
        first = [*opened(), (SENT, publish("t", b"", 2, 1)), (SENT, publish("t", b"", 1, 2))]
        second = [*opened(present=True), (SENT, publish("t", b"", 2, 1, dup=True)),
                  (SENT, publish("t", b"", 1, 2, dup=True))]
        served = [(RECV, acknowledgement(Type.PUBREC, 1)), (SENT, acknowledgement(Type.PUBREL, 1)),
                  (RECV, acknowledgement(Type.PUBCOMP, 1)), (RECV, acknowledgement(Type.PUBACK, 2))]
        found = read(log_of(*first, (CLOSE, b""), *second, *served, (REST, b"")))
        self.assertEqual([(place.position, place.is_judged) for place in found.places if place.code == "S06"],
                         [(4, True), (5, True)])
        self.assertLessEqual({"q2", "unanswered", "one", "drop", "first"}, tags_at(found, "S06")[0])
        unserved = read(log_of(*first, (CLOSE, b""), *second, (REST, b"")))
        self.assertEqual({place.is_judged for place in unserved.places if place.code == "S06"}, {False})
        self.assertNotIn("S06", unserved.tested)
        wanted = Situation("S06", ("q2", "unanswered", "one", "drop", "first", "plain"))
        for evidence in (found, unserved):
            self.assertIn(wanted, met_by(evidence, frozenset((PLAIN,))))

    def test_the_end_before_the_kind_of_answer_and_how_many(self) -> None:
        messages = [(SENT, publish("t", b"", 2, number)) for number in range(1, 6)]
        received = [(RECV, acknowledgement(Type.PUBREC, 1)), (SENT, acknowledgement(Type.PUBREL, 1))]
        left = [(RECV, packet(Type.DISCONNECT)), (CLOSE, b"")]
        found = read(log_of(*opened(), *messages, *received, *left, *opened(present=True), (REST, b"")))
        first, *others = tags_at(found, "S06")
        self.assertLessEqual({"released", "many", "bye"}, first)
        self.assertTrue(all("unanswered" in tags for tags in others))

    def test_the_receive_maximum(self) -> None:
        limited = opened((Prop.RECEIVE_MAXIMUM, 2))
        sent = [(SENT, publish("t", b"", 1, number)) for number in (1, 2, 3)]
        answer = (RECV, acknowledgement(Type.PUBACK, 1, 0x80))
        found = read(log_of(*limited, sent[0], sent[1], answer, sent[2]))
        self.assertEqual([place.position for place in found.places if place.code == "S07"], [5, 7])
        self.assertEqual([{"refused", "refilled"} <= tags for tags in tags_at(found, "S07")], [False, True])
        self.assertLessEqual({"maximum-2", "q1", "new"}, tags_at(found, "S07")[0])

    def test_before_the_connack_of_who_authenticates_itself(self) -> None:
        asked = [(OPEN, b""), (SENT, connect("a", True, [(Prop.AUTHENTICATION_METHOD, b"m")])), (SENT, packet(Type.AUTH))]
        answers = {connack(): [3], packet(Type.CONNACK, b"\x00\xff\x00"): [3], b"\x20\x83\x00\x00\x00\x00": [3],
                   packet(Type.AUTH): [3, 5]}
        for answer, wanted in answers.items():
            log = log_of(*asked, (RECV, answer), (SENT, PING), is_server=False)
            for bad in ({}, {4: "W13"}):
                found = [place.position for place in read(log, bad, is_of_all=True).places if place.code == "A01"]
                self.assertEqual(found, wanted)
            self.assertNotIn("A01", read(log).tested)

    def test_what_a_suback_grants(self) -> None:
        asked = [*opened(), (RECV, subscribe(1, [("a", 0), ("b", 2)]))]
        for answer, wanted in {b"\0\2": [5], b"\x87\2": [5], b"\x87\x80": [], b"\x87\x80\1": [], b"": []}.items():
            found = read(log_of(*asked, (SENT, codes(Type.SUBACK, 1, answer))), is_of_all=True)
            self.assertEqual([place.position for place in found.places if place.code == "B05"], wanted)
        self.assertNotIn("B05", read(log_of(*asked, (SENT, codes(Type.SUBACK, 1, b"\0\2")))).tested)

    def test_what_an_unsuback_says(self) -> None:
        """Of filters that are subscribed, and of others, by what answered the last SUBSCRIBE before."""
        asked, granted = (RECV, subscribe(1, [("a", 0)])), (SENT, codes(Type.SUBACK, 1, b"\0"))
        ends, wrong = (RECV, unsubscribe(2, ["a"])), (RECV, packet(Type.UNSUBSCRIBE, b"\0\3\0\0\2a#"))
        later = [(OPEN, b""), (RECV, connect("a", False, [(Prop.SESSION_EXPIRY, 300)])), (SENT, connack(True))]
        logs: list[tuple[list[Record], bytes, set[str]]] = [
            ([asked, granted, ends], b"\x11", {"B06"}), ([asked, granted, ends], b"\0", {"B06", "B07"}),
            ([asked, granted, ends], b"\x87", set()), ([asked, granted, ends], b"", set()), ([ends], b"\x11", {"B07"}), ([ends], b"\0", {"B07"}),
            ([asked, ends, granted], b"\0", {"B07"}), ([asked, ends], b"\x11", set()),
            ([asked, (SENT, codes(Type.SUBACK, 1, b"\x87")), ends], b"\x11", {"B07"}),
            ([asked, asked, (SENT, codes(Type.SUBACK, 1, b"\x87")), ends], b"\x11", set()),
            ([asked, granted, ends, asked], b"\x11", set()), ([asked, granted, (RECV, unsubscribe(3, ["a"])), ends], b"\x11", set()),
            ([asked, granted, (RECV, unsubscribe(2, ["a", "a"]))], b"\x87\x11", set()),
            ([asked, granted, wrong, ends], b"\0", set()), ([asked, granted, (CLOSE, b""), *later, ends], b"\x11", {"B06"}),
            ([asked, granted, (CLOSE, b""), *later[:2], wrong, (CLOSE, b""), *later, ends], b"\x11", set()),
            ([asked, granted, (CLOSE, b""), *opened(), ends], b"\x11", {"B07"}),
        ]
        for events, answer, wanted in logs:
            log = log_of(*opened(), *events, (SENT, codes(Type.UNSUBACK, 2, answer)))
            bad = {at: "W15" for at, (_, body) in enumerate([*opened(), *events], 1) if body == wrong[1]}
            places = [place for place in read(log, bad, is_of_all=True).places if place.code in ("B06", "B07")]
            self.assertEqual({place.code for place in places}, wanted, (events, answer))
            self.assertEqual({place.position for place in places}, {len(opened()) + len(events) + 1} if wanted else set())
            self.assertFalse(read(log, bad).tested & {"B06", "B07"})
        early = [opened()[0], opened()[1], ends, (SENT, codes(Type.UNSUBACK, 2, b"\0"))]
        for connack_, wanted in {opened()[2]: [4], (SENT, packet(Type.CONNACK, b"\0\x87\0")): []}.items():
            found = read(log_of(*early, connack_), is_of_all=True).places
            self.assertEqual([place.position for place in found if place.code == "B07"], wanted)
            self.assertEqual(["never-subscribed" in tags for tags in tags_at(read(log_of(*early, connack_), is_of_all=True), "B07")],
                             [True] * len(wanted))

    def test_what_is_sent_by_subscriptions(self) -> None:
        """By those of the session that match, also once they ended."""
        share, plain = b"$share/g/t", b"t"
        codes_ = {one: (SENT, codes(Type.SUBACK, 1, bytes((one,)))) for one in (0, 1, 0x87)}
        numbered, ends = [(Prop.SUBSCRIPTION_IDENTIFIER, 7)], (RECV, unsubscribe(2, ["t"]))
        none = [(OPEN, b""), (RECV, connect("a", True, [(Prop.SESSION_EXPIRY, 300)])),
                (SENT, connack(False, 0, [(Prop.SUBSCRIPTION_IDENTIFIER_AVAILABLE, 0)]))]

        def asked(name: bytes, options: int, properties: Properties = ()) -> Record:
            return RECV, subscribe(1, [(name.decode(), options)], properties)

        logs: list[tuple[list[Record], int, set[str]]] = [
            ([], 1, set()), ([asked(plain, 1), codes_[1]], 1, set()), ([asked(plain, 1, numbered), codes_[1]], 1, {"P02"}),
            ([asked(plain, 1, numbered)], 0, {"P02"}), ([asked(plain, 1, numbered), asked(b"#", 1), codes_[0x87]], 0, set()),
            ([asked(b"#", 0), codes_[0x87], asked(plain, 1, numbered)], 0, {"P02"}),
            ([asked(share, 1, numbered), codes_[1]], 1, {"B08", "B09", "P02", "R02"}), ([asked(share, 1), codes_[1]], 0, {"B08", "R02"}),
            ([asked(share, 0x20), codes_[0]], 0, {"B08", "R01"}), ([asked(share, 8), codes_[0]], 0, {"B08"}),
            ([asked(share, 0), codes_[0x87]], 0, {"B08"}), ([asked(share, 0), codes_[0], asked(plain, 0), codes_[0]], 0, {"B08"}),
            ([asked(share, 0), codes_[0], asked(plain, 0x20), codes_[0]], 0, {"B08", "R02"}),
            ([asked(plain, 0x20), codes_[0]], 0, {"R01"}), ([asked(plain, 0x28), codes_[0]], 0, set()),
            ([asked(plain, 0), codes_[0], ends, asked(plain, 0x20), codes_[0]], 0, set()),
            ([asked(plain, 0x20), codes_[0], (RECV, packet(Type.SUBSCRIBE, b"\0\1\0\0\2t#\0"))], 0, set()),
            ([asked(share, 0), codes_[0], (CLOSE, b""), *opened(present=True)], 0, {"B08", "R02"}),
            ([asked(share, 0), codes_[0], (CLOSE, b""), *opened()], 0, set()),
        ]
        for start in (opened(), none):
            for events, qos, wanted in logs:
                records = [*start, *events, (SENT, publish("t", b"", qos, 9))]
                bad = {at: "W15" for at, (_, body) in enumerate(records, 1) if b"t#" in body}
                places = read(log_of(*records), bad, is_of_all=True).places
                found = {place.code for place in places if place.code in ("B08", "B09", "P02", "R01", "R02")}
                is_later = any(kind == OPEN for kind, _ in events)
                self.assertEqual(found, wanted if start is not none or is_later else wanted - {"P02"}, events)
                self.assertFalse(read(log_of(*records), bad).tested & found)
        resent = [*opened(), asked(share, 1), codes_[1], (SENT, publish("t", b"", 1, 9, dup=True))]
        self.assertFalse({place.code for place in read(log_of(*resent), is_of_all=True).places} & {"B08", "B09", "P02", "R01", "R02"})

    def test_subscription_identifiers_that_are_sent(self) -> None:
        """P01: whosever they are, where some subscription matches."""
        numbered, ends = [(Prop.SUBSCRIPTION_IDENTIFIER, 7)], (RECV, unsubscribe(2, ["t"]))
        asked, answers = (RECV, subscribe(1, [("t", 1)])), {one: (SENT, codes(Type.SUBACK, 1, bytes((one,)))) for one in (1, 0x87)}
        logs: list[tuple[list[Record], bool]] = [
            ([], False), ([asked], True), ([asked, answers[1]], True), ([asked, answers[0x87]], False), ([asked, answers[1], ends], True),
            ([(RECV, subscribe(1, [("u", 1)], numbered))], False), ([(RECV, subscribe(1, [("$share/g/+", 1)], numbered))], True),
            ([asked, (CLOSE, b""), *opened()], False), ([asked, (CLOSE, b""), *opened(present=True)], True),
        ]
        for events, wanted in logs:
            before = [*opened(), *events]
            for sent, is_tested in ((publish("t", b"", properties=numbered), wanted), (publish("t", b""), False),
                                    (publish("t", b"", 1, 9, dup=True, properties=numbered), False)):
                found = read(log_of(*before, (SENT, sent)), is_of_all=True).places
                at = [place.position for place in found if place.code == "P01"]
                self.assertEqual(at, [len(before) + 1] if is_tested else [], events)

    def test_a_topic_by_its_alias(self) -> None:
        alias, share = [(Prop.TOPIC_ALIAS, 1)], (RECV, subscribe(1, [("$share/g/#", 0)]))
        sent = [(SENT, publish("t", b"", 0, properties=alias)), (SENT, publish("", b"", 0, properties=alias))]
        found = read(log_of(*opened(), share, *sent, (CLOSE, b""), *opened(present=True), sent[1]), is_of_all=True)
        self.assertEqual([place.position for place in found.places if place.code == "R02"], [5, 6])
        self.assertEqual([tags & {"hash", "new", "greeting"} for tags in tags_at(found, "R02")], [{"hash", "new"}] * 2)

    def test_after_a_second_connect(self) -> None:
        again = [(OPEN, b""), (RECV, connect("a", True)), (SENT, connack()), (RECV, connect("a", True))]
        for shown in ((REST, b""), (CLOSE, b""), (SENT, packet(Type.DISCONNECT))):
            found = [place.position for place in read(log_of(*again, shown, (REST, b"")), {}, is_of_all=True).places if place.code == "D02"]
            self.assertEqual(found, [4])
        for before, after in (([], [(SENT, PONG)]), ([(RECV, packet(Type.DISCONNECT))], [(CLOSE, b"")])):
            log = log_of(*again[:3], *before, again[3], *after)
            self.assertNotIn("D02", read(log, {}, is_of_all=True).tested)
        self.assertNotIn("D02", read(log_of(*again, (REST, b""))).tested)

    def test_after_a_malformed_packet(self) -> None:
        """What can't be read is malformed, not what can be, and only the first of it counts."""
        flags, identifier, overlong = b"\xc1\0", acknowledgement(Type.PUBACK, 0), b"\x30\x80\0"
        for bytes_, code, wanted in ((flags, "W01", [4]), (identifier, "W09", []), (overlong, "", [4])):
            bad = {4: code, 5: "W01"} if code else {}
            for shown in ((REST, b""), (CLOSE, b""), (SENT, packet(Type.DISCONNECT))):
                log = log_of(*opened(), (RECV, bytes_), shown, (REST, b""))
                found = [place.position for place in read(log, bad, is_of_all=True).places if place.code == "D01"]
                self.assertEqual(found, wanted)
        again = log_of(*opened(), (RECV, flags), (RECV, flags), (REST, b""))
        found = read(again, {4: "W01", 5: "W01"}, is_of_all=True)
        self.assertEqual([place.position for place in found.places if place.code == "D01"], [4])
        for before, after in (([], [(SENT, PONG)]), ([(RECV, packet(Type.DISCONNECT))], [(CLOSE, b"")])):
            log = log_of(*opened(), *before, (RECV, flags), *after)
            self.assertNotIn("D01", read(log, {4 + len(before): "W01"}, is_of_all=True).tested)
        self.assertNotIn("D01", read(again, {4: "W01", 5: "W01"}).tested)

    def test_after_a_protocol_error(self) -> None:
        """The first packet that isn't allowed, by the CONNECT and the CONNACK before it."""
        pong, ping = (RECV, PONG), (RECV, PING)
        left = packet(Type.DISCONNECT, b"\0\5\x11\0\0\0\x3c")
        accepted = lambda *announced: [(OPEN, b""), (RECV, connect("a", True)), (SENT, connack(False, 0, announced))]
        plain, few = accepted(), accepted((Prop.TOPIC_ALIAS_MAXIMUM, 5))
        sets, uses, high = (bytes.fromhex(text) for text in ("300700016103230001", "3006000003230001", "300700016103230006"))
        shared = subscribe(1, [("$share/g/a", 4)])
        at_most_1, small = accepted((Prop.MAXIMUM_QOS, 1)), accepted((Prop.MAXIMUM_PACKET_SIZE, 10))
        kept = publish("t", b"", 0, 0, retain=True)
        logs: list[tuple[list, list[int]]] = [
            ([*plain, pong, pong], [4]), ([*plain, ping], []), ([plain[0], ping, *plain[1:]], [2]),
            ([*plain, (RECV, packet(Type.AUTH))], [4]), ([*plain, (RECV, left)], [4]), ([*opened(), (RECV, left)], []),
            ([*plain, (RECV, sets)], [4]), ([*few, (RECV, sets), (RECV, uses)], []), ([*few, (RECV, uses)], [4]),
            ([*few, (RECV, high)], [4]), ([*accepted((Prop.RETAIN_AVAILABLE, 0)), (RECV, kept)], [4]), ([*plain, (RECV, kept)], []),
            ([*at_most_1, (RECV, publish("t", b"", 2, 1))], [4]), ([*at_most_1, (RECV, publish("t", b"", 1, 1))], []),
            ([*small, (RECV, publish("t", b"123456", 0, 0))], [4]), ([*small, (RECV, publish("t", b"1234", 0, 0))], []),
            ([*plain, (RECV, shared)], [4]), ([*plain, (RECV, subscribe(1, [("a", 4)]))], []),
        ]
        for events, wanted in logs:
            for shown in ((REST, b""), (CLOSE, b""), (SENT, packet(Type.DISCONNECT))):
                found = [place.position for place in read(log_of(*events, shown), {}, is_of_all=True).places if place.code == "D03"]
                self.assertEqual(found, wanted, events)
        broken = read(log_of(*few, (RECV, b"\x30\5\0\1\xff\0x"), (RECV, uses), (REST, b"")), {4: "W04"}, is_of_all=True)
        self.assertNotIn("D03", broken.tested)
        self.assertNotIn("D03", read(log_of(*plain, pong, (REST, b""))).tested)

    def test_after_too_many_publishes(self) -> None:
        """The first PUBLISH of QoS 2 with which more messages aren't finished than the Receive Maximum."""
        begun = [(OPEN, b""), (RECV, connect("a", True)), (SENT, connack(False, 0, [(Prop.RECEIVE_MAXIMUM, 1)]))]
        first, second, third = ((RECV, publish("t", b"", 2, i)) for i in (1, 2, 3))
        once, again = (RECV, publish("t", b"", 1, 2)), (RECV, publish("t", b"", 2, 1, dup=True))
        answer = lambda kind, code=0: (SENT, acknowledgement(kind, 1, code))
        received, refused, release = answer(Type.PUBREC), answer(Type.PUBREC, 0x97), (RECV, acknowledgement(Type.PUBREL, 1))
        logs: list[tuple[list, list[int]]] = [
            ([*begun, first], []), ([*begun, first, second, third], [5]), ([*begun, first, received, second], [6]),
            ([*begun, first, received, release, second], []), ([*begun, first, answer(Type.PUBCOMP), second], []),
            ([*begun, first, refused, second], []), ([*begun, first, refused, second, third], []),
            ([*begun, first, second, refused], []), ([*begun, first, second, (REST, b""), refused], [5]),
            ([*begun, first, again], []), ([*begun, first, once], []), ([*begun, once, (RECV, publish("t", b"", 1, 3))], []),
            ([*begun[:2], first, begun[2], second], [5]), ([*begun[:2], first, second, begun[2]], []),
            ([*begun, first, (RECV, publish("t", b"", 0, 0))], []), ([*opened(), first, second], []),
            ([*begun, first, (CLOSE, b""), *begun, second], []),
        ]
        for events, wanted in logs:
            for shown in ((REST, b""), (CLOSE, b""), (SENT, packet(Type.DISCONNECT))):
                found = [place.position for place in read(log_of(*events, shown), {}, is_of_all=True).places if place.code == "D05"]
                self.assertEqual(found, wanted, events)
        left = log_of(*begun, first, (RECV, packet(Type.DISCONNECT)), second, (REST, b""))
        self.assertNotIn("D05", read(left, {}, is_of_all=True).tested)
        self.assertNotIn("D05", read(log_of(*begun, first, second, (REST, b""))).tested)

    def test_after_a_connect(self) -> None:
        """It is answered, or left at a REST at which the server doesn't wait for an AUTH."""
        plain, asks = connect("a", True), connect("a", True, [(Prop.AUTHENTICATION_METHOD, b"m")])
        auth, small = packet(Type.AUTH), connect("a", True, [(Prop.MAXIMUM_PACKET_SIZE, 4)])
        rest, close, answer = (REST, b""), (CLOSE, b""), (SENT, connack())
        logs = {
            (plain, answer): [2], (plain, rest): [2], (plain, close): [], (small, answer): [], (small, rest): [],
            (asks, (SENT, auth), rest): [], (asks, (RECV, auth), (SENT, auth), rest): [],
            (asks, (SENT, auth), rest, (RECV, auth), rest): [2], (plain, (RECV, packet(Type.DISCONNECT)), rest): [],
            (plain, (RECV, plain), rest): [2], (plain, (RECV, b"\x30\x80\0"), rest): [],
        }
        for (hello, *others), wanted in logs.items():
            log = log_of((OPEN, b""), (RECV, hello), *others)
            found = [place.position for place in read(log, {}, is_of_all=True).places if place.code == "C24"]
            self.assertEqual(found, wanted, others)
        log = log_of((OPEN, b""), (RECV, plain), (RECV, b"\xc1\0"), rest)
        self.assertNotIn("C24", read(log, {3: "W01"}, is_of_all=True).tested)
        log = log_of((OPEN, b""), (RECV, plain), (RECV, plain), answer)
        self.assertNotIn("C24", read(log, {2: "W06"}, is_of_all=True).tested)
        self.assertNotIn("C24", read(log).tested)

    def test_silence(self) -> None:
        asked = [*opened(), (RECV, PING), (SENT, PONG)]
        self.assertNotIn("E7R", read(log_of(*asked)).tested)
        self.assertIn("E7R", read(log_of(*asked, (REST, b""))).tested)

    def test_deliveries(self) -> None:
        asked = [*opened(), (RECV, subscribe(1, [("a/+", 1), ("a/#", 0)])), (SENT, bytes.fromhex("90050001000100"))]
        found = read(log_of(*asked, (SENT, publish("a/b", b"", 1, 1, retain=True))))
        for code in ("B01", "B02"):
            self.assertLessEqual({"plus", "hash", "several-filters", "retained"}, tags_at(found, code)[0])
        self.assertIn("granted-1", tags_at(found, "B02")[0])

    def test_after_the_peer_broke_a_rule(self) -> None:
        found = read(log_of(*opened(), (RECV, PING), (SENT, PONG), (REST, b"")))
        found.keep_before(4)
        self.assertEqual({code[0] for code in found.tested}, {"W", "C"})

    def test_a_rest_after_a_broken_packet_says_nothing(self) -> None:
        asked = log_of(*opened(), (RECV, b"\xc1\0"), (RECV, PING), (REST, b""))
        self.assertIn("E7R", read(asked).tested)
        self.assertNotIn("E7R", read(asked, {4: "W01"}).tested)

    def test_how_a_scenario_ends_connections(self) -> None:
        broker = tables()[True]
        for name, wanted in {"connect-plain": PLAIN, "outbound-reset-q1-none-1": "reset",
                             "takeover-3-times": "takeover", "broker-term-inbound": "term"}.items():
            self.assertEqual(ending_of(broker[name]), {wanted})

    def test_the_situations_at_a_fault(self) -> None:
        found = read(log_of(*opened((Prop.RECEIVE_MAXIMUM, 1)), *[(SENT, publish("t", b"", 1, one)) for one in (1, 2)]))
        where = met_at(found, frozenset((PLAIN,)), [("S07", 5), ("S01", 5), ("S07", 9)])
        self.assertEqual({one.text for one in where["S07", 5]}, {"maximum-1 q1"})
        self.assertEqual(where["S07", 9], frozenset())

    def test_a_log_without_connections_tests_nothing(self) -> None:
        for is_server in (True, False):
            self.assertEqual(read(log_of(is_server=is_server)).tested, set())


class LastTable(InFolder):
    def test_what_came_about_and_why_others_did_not(self) -> None:
        wrapped, kept, table = Situation("S01", ("wrapped",)), reference(True), tables()[True]
        first = next(iter(kept.values()))
        held, avoided, *_ = [one for one, name in kept.items() if name == first]
        scenario = table[first]
        result = Result(scenario, Fate.COMPLETED, met=frozenset((held,)))
        outcome = Outcome(True, "broker x", self.folder, [result], [*table.values()],
                          left_out={kept[wrapped]: "no --slow"})
        lines = outcome._situation_lines()
        self.assertEqual(lines[0], f"  situations           1  of {len(outcome.situations)} came about; faults in 0")
        self.assertEqual(outcome.why_avoided(wrapped), "no --slow")
        self.assertTrue(any(line.endswith("no --slow") and "S01 wrapped" in line for line in lines))
        self.assertEqual(outcome.why_avoided(avoided), "the tested end avoids it")
        other = next(one for one, name in kept.items() if name not in (first, kept[wrapped]))
        self.assertEqual(outcome.why_avoided(other), "the scenarios that bring it about weren't chosen")


def second_opinion() -> tuple[ModuleType, ModuleType]:
    sys.path.insert(0, str(BENCH))
    import places
    import reading

    return places, reading


def differences(paths: Iterable[Path]) -> Iterator[str]:
    """Where this reading of a log differs from the second opinion."""
    places, reading = second_opinion()
    for path in paths:
        log = path.read_bytes()
        recording = reading.Recording(log)
        if len(log) > LONGEST or recording.refusal:
            continue
        known = places.log_of(recording)
        bad = {at: event.item.rule for at, event in enumerate(known.events, 1) if isinstance(event.item, reading.Bad)}
        found = read(log, bad, is_of_all=True)
        bound = binding(found.is_server, is_of_all=True)
        wanted = {(code, at) for code in bound for at in places.on_request.places(known, code)}
        seen = {(place.code, place.position) for place in found.places if place.is_judged}
        if (count := sum(1 for _ in events_of(log, {}))) != known.last:
            yield f"{path.name}: {count} events, and not {known.last}"
        yield from (f"{path.name}: {code} at {at} is no place" for code, at in sorted(seen - wanted))
        yield from (f"{path.name}: {code} at {at} is missing" for code, at in sorted(wanted - seen))


@unittest.skipUnless((BENCH / "places.py").is_file(), "bench/ isn't there")
class SecondOpinion(InFolder):
    def test_the_suite(self) -> None:
        self.assertEqual([*differences(sorted(SUITE.glob("*.log")))], [])

    def test_logs_of_a_run(self) -> None:
        port = free_port()
        words = [sys.executable, HERE / "exercise", "broker", f"{HOST}:{port}", "--out", self.logs, "--program",
                 judge_program(), "--rest", "0.05", "--wait", "0.4", "--wrong-password", "wrong"]
        with process(sys.executable, HERE / "plain_broker.py", port):
            wait_until(lambda: accepts(port), "the plain broker listens")
            subprocess.run([str(word) for word in words], capture_output=True, timeout=PATIENCE * 5)
        logs = sorted(self.logs.rglob("*.log"))
        self.assertGreater(len(logs), 300)
        self.assertEqual([*differences(logs)], [])


if __name__ == "__main__":
    if len(sys.argv) > 1:
        lines = [*differences(path for word in sys.argv[1:] for path in sorted(Path(word).rglob("*.log")))]
        print("\n".join(lines) or "no difference")
        sys.exit(1 if lines else 0)
    unittest.main()
