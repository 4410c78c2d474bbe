#!/usr/bin/env python3
"""Tests of recorders/exercise: its language, how it judges both ends, and what it says of brokers right and wrong.

A small broker that keeps the rules (plain_broker.py) is what the whole table is played against: it may find nothing
there, and the exerciser itself has to keep the rules wherever the table says so.

usage: recorders/test_exercise.py
"""
from __future__ import annotations

import asyncio
import contextlib
import io
import os
import re
import shutil
import signal
import socket
import subprocess
import sys
import threading
import unittest
from collections import Counter
from collections.abc import Callable, Iterator
from concurrent.futures import ThreadPoolExecutor
from pathlib import Path
from types import SimpleNamespace
from unittest import mock
from xml.etree import ElementTree

sys.dont_write_bytecode = True  # the repository stays as it is
HERE = Path(__file__).resolve().parent
sys.path.insert(0, str(HERE))
from exercising.both_ends import Fairness, other_end
from exercising.campaign import Campaign
from exercising.client import missing_needs
from exercising.client_verbs import HOSTS
from exercising.client_verbs import NEEDS as CLIENT_NEEDS
from exercising.evidence import FOREIGN, FURTHER, binding
from exercising.hosts import Program
from exercising.links import Tape
from exercising.notation import NotationError, bytes_of
from exercising.packets import PING, Cutter, Packet, Prop, Type, connack, connect, packet, publish, reply, subscribe
from exercising.running import CONNECTIONS_MOST, Fate, Result, Runner, death_of, in_turn
from exercising.situations import situations
from exercising.stage import Silence, Target
from exercising.table import Scenario, TableError, parse, read_scenarios
from exercising.verbs import CLIENTS, NEEDS
from judging.program import Judge
from judging.statements import ALL, CLIENT, SERVER, every_statement_of, judges_further
from judging.verdict import Verdict
from log_format import VERSIONS, records
from planting import Plant, State, serve
from recording import End
from testing import (
    HOST,
    KINDS,
    PATIENCE,
    InFolder,
    accepts,
    find,
    free_port,
    judge_program,
    missing,
    process,
    wait_until,
)
from testing import broker as mosquitto_broker

COMMAND = HERE / "exercise"
PLAIN = HERE / "plain_broker.py"
TABLE = HERE / "exercising/broker.scenarios"
CLIENT_TABLE = HERE / "exercising/client.scenarios"
RUN_SECONDS = 400
MOST_EVENTS = 3_000  # of a log, without --slow
OPEN, SENT, RECV, CLOSE, REST = 1, 2, 3, 4, 5
ACCEPTED = connack()


def table() -> list[Scenario]:
    return read_scenarios(TABLE, CLIENTS.shapes, NEEDS)


def client_table() -> list[Scenario]:
    return read_scenarios(CLIENT_TABLE, HOSTS.shapes, CLIENT_NEEDS)


def log_of(*records: tuple[int, bytes], is_server: bool = True) -> bytes:
    version = VERSIONS[2]
    return version.header(is_server, False) + b"".join(version.record(kind, body, 0) for kind, body in records)


class Language(unittest.TestCase):
    def parsed(self, text: str) -> list[Scenario]:
        return parse(text, "x.scenarios", CLIENTS.shapes, NEEDS)

    def refused(self, text: str) -> str:
        with self.assertRaises(TableError) as caught:
            self.parsed(text)
        return str(caught.exception)

    def test_variants_in_braces_are_all_combinations(self) -> None:
        found = self.parsed("""
# a comment
one-{end}-q{qos}  end={drop bye}  qos={1 2}   | aims S02 S06 | needs start
  a connect clean expiry=300 ; a publish T/{n} qos={qos} x4
  x3 a {end}
""")
        self.assertEqual([one.name for one in found], ["one-drop-q1", "one-drop-q2", "one-bye-q1", "one-bye-q2"])
        first = found[0]
        self.assertEqual((first.aims, first.needs, first.breaks_rules), (("S02", "S06"), {"start"}, False))
        self.assertEqual([line.times for line in first.lines], [1, 3])
        publishing = first.lines[0].steps[1]
        self.assertEqual((publishing.words, dict(publishing.options), publishing.times), (("T/{n}",), {"qos": "1"}, 4))
        self.assertEqual(first.place, "x.scenarios:3")

    def test_values_together_and_lines_of_values(self) -> None:
        found = self.parsed("""
two-{a}{b}-{what}  a,b={1,x 2,y}  | aims W13 | breaks the rules
  each what bytes
    ping    c0 00
    text    30 .. "a;b" [] 'x'
  try a send {bytes} ; a rest
""")
        self.assertEqual([one.name for one in found], ["two-1x-ping", "two-1x-text", "two-2y-ping", "two-2y-text"])
        line = found[1].lines[0]
        self.assertTrue(line.may_end and found[1].breaks_rules)
        self.assertEqual([step.raw for step in line.steps], ["""30 .. "a;b" [] 'x'""", ""])

    def test_what_is_wrong_is_said_with_its_line(self) -> None:
        for text, wanted in {
            "  a rest": "x.scenarios:1: a step before the first scenario",
            "one | aims S01": "x.scenarios:1: one has no steps",
            "one\n  a rest": "x.scenarios:1: one aims at nothing",
            "One | aims S01\n  a rest": "x.scenarios:1: 'One' is no name",
            "one | aims S1\n  a rest": "x.scenarios:1: 'aims S1' is neither",
            "one | needs luck\n  a rest": "x.scenarios:1: 'needs luck' is neither",
            "one two | aims S01\n  a rest": "x.scenarios:1: 'two' isn't NAME={VALUE VALUE}",
            "one-{b}  a,b={1 2,3} | aims S01\n  a rest": "x.scenarios:1: each value of a,b must be 2 words",
            "one | aims S01\n  a dance": "x.scenarios:2: no such verb: 'dance'",
            "one | aims S01\n  a": "x.scenarios:2: 'a' isn't ACTOR VERB",
            "one | aims S01\n  a connect {qos}": "x.scenarios:2: there is no value {qos}",
            "one | aims S01\n  a connect loudly": "x.scenarios:2: connect has 1 words after it, and should have 0 to 0",
            "one | aims S01\n  a connect speed=3": "x.scenarios:2: connect has no speed=",
            "one | aims S01\n  each what\n  a rest": "x.scenarios:2: `each` needs names, and lines of values",
            "one | aims S01\n  x3": "x.scenarios:2: nothing comes after 'x3'",
            "one | aims S01\n  a rest\none | aims S01\n  a rest": "x.scenarios:3: one is also at x.scenarios:1",
        }.items():
            self.assertTrue(self.refused(text).startswith(wanted), (text, self.refused(text)))

    def test_bytes(self) -> None:
        names = {"T": "x1/7", "I": "me"}
        for source, wanted in {
            "c0 00": "c000",
            '30 .. "T/a" [23 0005] \'hi\'': "300e" + "0006" + b"x1/7/a".hex() + "03" + "230005" + b"hi".hex(),
            '"T\\xff" "a/T"': "0005" + b"x1/7".hex() + "ff" + "0006" + b"a/x1/7".hex(),
            "41*3 'ab'*2": "414141" + b"abab".hex(),
            '"I":4': "0004" + b"mexx".hex(),
            "c0 .. + d0 ..": "c000d000",
            "30 .. 00*200": "30c801" + "00" * 200,
            "[ [ 01 ] ]": "020101",
            "flags:02 login": "02",
        }.items():
            self.assertEqual(bytes_of(source, names).hex(), wanted, source)

    def test_a_user_if_there_is_one(self) -> None:
        names = {"user": "me", "password": "it"}
        self.assertEqual(bytes_of("flags:02 01 login", names).hex(), "c201" + "0002" + b"me".hex() + "0002" + b"it".hex())

    def test_what_says_no_bytes(self) -> None:
        for source in ("3", "zz", "[", "]", "30 .. ..", "[ .. ]", "'open", "00*9999999"):
            with self.assertRaises(NotationError, msg=source):
                bytes_of(source, {})


class Packets(unittest.TestCase):
    def test_what_is_made_is_what_the_program_says(self) -> None:
        made = {
            connect("me", True, [(Prop.SESSION_EXPIRY, 300)]): "CONNECT",
            publish("a/b", b"hello", 2, 7, properties=[(Prop.USER_PROPERTY, (b"k", b"v"))]): "PUBLISH",
            subscribe(5, [("a/#", 2)], [(Prop.SUBSCRIPTION_IDENTIFIER, 300)]): "SUBSCRIBE",
            connack(True, 0, [(Prop.RECEIVE_MAXIMUM, 20)]): "CONNACK",
            packet(Type.PUBREL, b"\0\7"): "PUBREL",
        }
        for data, name in made.items():
            words = [judge_program(), "packet", data.hex()]
            answer = subprocess.run(words, capture_output=True, text=True, timeout=PATIENCE)
            self.assertEqual((answer.returncode, name in answer.stdout), (0, True), answer.stdout)

    def test_what_is_read_and_answered(self) -> None:
        cutter = Cutter()
        data = publish("a", b"x" * 200, 1, 9) + publish("b", b"", 2, 10) + packet(Type.PUBREL, b"\0\x0a")
        came = [got for at in range(len(data)) for got in cutter.feed(data[at : at + 1])]
        self.assertEqual([str(got) for got in came], ["PUBLISH id 9", "PUBLISH id 10", "PUBREL id 10 0x00"])
        self.assertEqual([(reply(got) or b"").hex() for got in came], ["40020009", "5002000a", "7002000a"])
        self.assertTrue(cutter.is_between and not cutter.is_lost)
        cutter.feed(bytes.fromhex("30ffffffff01"))
        self.assertTrue(cutter.is_lost)

    def test_reading_never_fails(self) -> None:
        for first in range(256):
            for body in (b"", b"\0", b"\0\1", b"\0\1\xff", bytes(range(40))):
                Cutter().feed(bytes((first, len(body))) + body)


class BothEnds(InFolder):
    """The broker answers an acknowledgement that was never asked for, before or after the client's own fault."""

    def weighed(self, *records: tuple[int, bytes]) -> tuple[int, list[str], list[str]]:
        """The status of a log, the codes that count, and those that are there to be looked at."""
        path = self.folder / "a.log"
        path.write_bytes(log_of((OPEN, b""), (RECV, connect("a", True)), (SENT, ACCEPTED), *records))
        fairness = Fairness()
        fairness.judge = Judge(judge_program(), 20, fairness.weigh, keeps=True)
        verdict = fairness.judge.judge(path)
        return (verdict.status, [key.split()[0] for key in verdict.faults],
                [fault.code for fault in fairness.looks.get(path, [])])

    def test_before_and_after_our_own_fault(self) -> None:
        stray = (SENT, bytes.fromhex("40020009"))  # a PUBACK
        broken = (RECV, bytes.fromhex("30020000"))  # a PUBLISH without a topic or properties
        self.assertEqual(self.weighed(stray), (1, ["E1A"], []))
        self.assertEqual(self.weighed(stray, broken), (1, ["E1A"], []))
        self.assertEqual(self.weighed(broken, stray), (0, [], ["E1A"]))
        self.assertEqual(self.weighed(broken, (REST, b""), stray), (0, [], ["E1A"]))

    def test_what_holds_whatever_the_peer_does(self) -> None:
        broken = (RECV, bytes.fromhex("30020000"))
        self.assertEqual(self.weighed(broken, (SENT, bytes.fromhex("40020000"))), (1, ["W09"], []))

    def test_a_fault_that_is_decided_later(self) -> None:
        unanswered = (RECV, publish("a", b"", 1, 3))
        stray = (RECV, bytes.fromhex("40020009"))
        self.assertEqual(self.weighed(unanswered, (REST, b"")), (1, ["E1R"], []))
        self.assertEqual(self.weighed(unanswered, (REST, b""), stray), (1, ["E1R"], []))
        self.assertEqual(self.weighed(unanswered, stray, (REST, b"")), (0, [], ["E1R"]))

    def test_the_other_end_has_no_rest(self) -> None:
        log = log_of((OPEN, b""), (RECV, b"ab"), (SENT, b"cd"), (REST, b""), (CLOSE, b""))
        wanted = log_of((OPEN, b""), (SENT, b"ab"), (RECV, b"cd"), (CLOSE, b""), is_server=False)
        self.assertEqual(other_end(log), wanted)


class Table(unittest.TestCase):
    def test_it_has_at_least_so_many(self) -> None:
        self.assertGreaterEqual(len(table()), 245)

    def test_each_statement_that_can_be_broken_is_aimed_at(self) -> None:
        aims = {code for scenario in table() for code in scenario.aims}
        self.assertEqual(binding(True, True) - FOREIGN[True] - aims, set())
        self.assertEqual(aims - binding(True, True), set())

    def test_the_further_statements_are_those_of_the_program(self) -> None:
        known = [one for one in every_statement_of(judge_program()) if one.asked_by == ALL]
        for is_server, end in ((True, SERVER), (False, CLIENT)):
            if known:
                self.assertEqual({one.code for one in known if one.binds(end)}, FURTHER[is_server])

    def test_all_bytes_can_be_said(self) -> None:
        for scenario in table():
            for step in (step for line in scenario.lines for step in line.steps if step.verb in ("send", "dribble")):
                bytes_of(step.raw, {"T": "t", "I": "i", "D": "d"})


class ClientTable(unittest.TestCase):
    def test_it_has_at_least_so_many(self) -> None:
        self.assertGreaterEqual(len(client_table()), 148)

    def test_each_statement_that_can_be_broken_is_aimed_at(self) -> None:
        aims = {code for scenario in client_table() for code in scenario.aims}
        self.assertEqual(binding(False, True) - FOREIGN[False] - aims, set())
        self.assertEqual(aims - binding(False, True), set())

    def test_all_bytes_can_be_said(self) -> None:
        for scenario in client_table():
            for step in (step for line in scenario.lines for step in line.steps if step.verb == "send"):
                bytes_of(step.raw, {})


class Called(InFolder):
    def command(self, *words: object) -> list[str]:
        return [sys.executable, str(COMMAND), *map(str, words)]

    def called(self, *words: object) -> tuple[int, str, str]:
        """The status, and what is written to standard output and standard error."""
        answer = subprocess.run(self.command(*words), capture_output=True, text=True, timeout=RUN_SECONDS)
        return answer.returncode, answer.stdout, answer.stderr

    def exercised(self, port: int, *words: object) -> tuple[int, str, str]:
        return self.called("broker", f"{HOST}:{port}", "--out", self.logs, "--program", judge_program(), *words)

    def runner(self, port: int, jobs: int = 1) -> Runner:
        """Plays scenarios without a command line."""
        fairness = Fairness()
        fairness.judge = judge = Judge(judge_program(), 20, fairness.weigh, keeps=True)
        return Runner(Target(HOST, port), "ab12", self.logs, Silence(0.1), jobs, judge, fairness)

    @contextlib.contextmanager
    def plain(self) -> Iterator[int]:
        """The plain broker: its port."""
        port = free_port()
        with process(sys.executable, PLAIN, port) as child:
            wait_until(lambda: child.poll() is not None or accepts(port), "the plain broker listens")
            yield port

    @contextlib.contextmanager
    def served(self, serve: Callable[[socket.socket], None]) -> Iterator[int]:
        """A server that does with each connection what a function says: its port."""
        with socket.create_server((HOST, 0), backlog=100) as listener:

            def loop() -> None:
                while True:
                    try:
                        connection, _ = listener.accept()
                    except OSError:
                        return
                    with connection, contextlib.suppress(OSError):
                        serve(connection)

            thread = threading.Thread(target=loop, daemon=True)
            thread.start()
            yield listener.getsockname()[1]


class Listing(Called):
    def test_all_and_for_a_statement(self) -> None:
        status, printed, _ = self.called("list")
        self.assertEqual((status, printed.splitlines()[-1]), (0, f"{len(table())} scenarios"))
        status, printed, _ = self.called("list", "--for", "s06")
        wanted = [scenario.name for scenario in table() if "S06" in scenario.aims]
        self.assertEqual([line.split()[0] for line in printed.splitlines()[:-1]], wanted)
        status, printed, _ = self.called("list", "--client")
        self.assertEqual((status, printed.splitlines()[-1]), (0, f"{len(client_table())} scenarios"))

    def test_output_that_cannot_be_written(self) -> None:
        with open("/dev/full", "w") as full:
            answer = subprocess.run([sys.executable, COMMAND, "list"], stdout=full, stderr=subprocess.PIPE, text=True,
                                    timeout=PATIENCE)
        line = "exercise: standard output: No space left on device\n"
        self.assertEqual((answer.returncode, answer.stderr), (4, line))

    def test_situations_each_with_a_scenario(self) -> None:
        for words, is_server in ((["--for", "s06"], True), (["--client"], False)):
            status, printed, _ = self.called("list", "--situations", *words)
            lines = printed.splitlines()
            wanted = [one for one in situations(is_server) if "--for" not in words or one.code == "S06"]
            self.assertEqual((status, lines[-1], len(lines)), (0, f"{len(wanted)} situations", len(wanted) + 1))
            if is_server:
                self.assertRegex(printed, r"S06 q1 unanswered kill first +broker-kill-q1")


class Order(unittest.TestCase):
    def test_first_come_those_that_bring_about_most(self) -> None:
        text = "one-{a}  a={1 2}  | aims S01\n  a rest\ntwo-{a}  a={1 2}  | aims S01\n  a rest\n"
        found = in_turn(parse(text, "x", CLIENTS.shapes, NEEDS), ["two-2", "gone"])
        self.assertEqual([one.name for one in found], ["two-2", "one-1", "two-1", "one-2"])

    def test_silence_grows_while_answers_are_slow(self) -> None:
        with mock.patch("exercising.stage.time.monotonic") as clock:
            clock.return_value = 100.0
            silence = Silence(0.1, most=1.0)
            seen = [silence.now]
            for moment, slow in ((100, 0.05), (103, 0.2), (104, 0.03), (109, 0.01), (112.5, 0.5), (200, 0.001)):
                clock.return_value = moment
                silence.learn(slow)
                seen.append(round(silence.now, 3))
        self.assertEqual(seen, [0.1, 0.2, 0.8, 0.8, 0.8, 1.0, 0.1])

    def test_scenarios_are_played_again_until_one_shows_it_again(self) -> None:
        def result(name: str, *codes: str) -> Result:
            verdict = Verdict(Path(name), 1, keeps=True)
            for code in codes:
                verdict.take(f"fault 4 {code} x decided 9 record 4 offset -", 0)
            return Result(Scenario(name, (), frozenset(), False, (), "x:1"), Fate.COMPLETED, verdicts=[verdict])

        again: dict[str, list[str]] = {"one": [], "two": ["S06"], "three": ["S06"], "four": []}
        results = [result(name, "S06", "S01") for name in again]
        runner = SimpleNamespace(results=results, stop_reason="", play_again=lambda one: result(
            one.scenario.name, *again[one.scenario.name]))
        with contextlib.redirect_stderr(io.StringIO()):
            played = Campaign._play_again(SimpleNamespace(), runner)
        self.assertEqual(list(played), ["one", "two"])
        self.assertEqual([sorted(one.broken) for one in results], [["S01"], ["S01", "S06"], ["S01"], ["S01"]])

    def test_each_scenario_with_another_error_is_played_again(self) -> None:
        """Of D01 and D03 each has an error of its own; of the other statements one is enough."""
        def result(name: str, *codes: str) -> Result:
            verdict = Verdict(Path(name), 1, keeps=True)
            for code in codes:
                verdict.take(f"fault 4 {code} x decided 9 record 4 offset -", 0)
            return Result(Scenario(name, (), frozenset(), False, (), "x:1"), Fate.COMPLETED, verdicts=[verdict])

        again = {"one": ["D01"], "two": ["D01"], "three": ["D03"], "four": [], "five": ["D02"], "six": ["D02"]}
        first = {"one": "D01", "two": "D01", "three": "D03", "four": "D01", "five": "D02", "six": "D02"}
        results = [result(name, first[name]) for name in again]
        runner = SimpleNamespace(results=results, stop_reason="", play_again=lambda one: result(
            one.scenario.name, *again[one.scenario.name]))
        with contextlib.redirect_stderr(io.StringIO()):
            played = Campaign._play_again(SimpleNamespace(), runner)
        self.assertEqual(set(played), set(again) - {"six"})
        self.assertEqual({one.scenario.name for one in results if one.broken}, {"one", "two", "three", "five"})


class Unread(InFolder):
    """A broker that closes before it has read all that was sent to it."""

    def session(self, reads_all: bool) -> list[str]:
        """The kinds of records of two connections of a session, at whose first the broker closes."""
        with socket.create_server((HOST, 0)) as listener:
            tape = Tape(self.folder / str(reads_all), End.SERVER, "", self.warnings.append)
            for number in range(2):
                link = tape.link(socket.create_connection(listener.getsockname()))
                server, _ = listener.accept()
                link.send(connect("me", clean=number == 0, properties=[(Prop.SESSION_EXPIRY, 100)]))
                server.recv(1000)
                server.sendall(connack(session_present=number == 1))
                link.expect(Type.CONNACK)
                link.send(PING)
                if reads_all or number == 1:
                    server.recv(1000)
                server.close()
                self.assertTrue(link.closes(PATIENCE))
                link.close()
            tape.finish()
        return [KINDS[kind] for log in sorted((self.folder / str(reads_all)).iterdir())
                for kind, _, _ in records(log.read_bytes())]

    def test_what_goes_on_of_its_session_is_left_out(self) -> None:
        self.warnings: list[str] = []
        one = ["OPEN", "RECV", "SENT", "RECV", "CLOSE"]
        self.assertEqual((self.session(reads_all=True), self.warnings), ([*one, *one], []))
        self.assertEqual((self.session(reads_all=False), self.warnings),
                         (one, ["not recorded: me resumes a session of which not all was read"]))


class Misuse(Called):
    def test_it_is_refused_before_any_work(self) -> None:
        port = free_port()
        for words, line in (
            (["--only", "no-such"], "no scenario's name begins with 'no-such'"),
            (["--require", "X99"], "no statement has the code X99"),
            (["--require", "C02,S07"], "no statement binds a broker by the code C02"),
            (["--for", "reachable"], "no statement binds a broker by the code REACHABLE"),
            (["--for", "F05"], "F05 is a further statement: nothing is judged by it without --all"),
            (["--all", "--for", "F01"], "no statement binds a broker by the code F01"),
            (["--all", "--program", "true"], "--all needs a program whose `check` knows it"),
            (["--jobs", "0"], "--jobs must be at least 1"),
            (["--rest", "0"], "isn't a number of seconds above 0"),
            (["--junit", self.folder], "--junit"),
            (["--start", "true", "--remote"], "--start starts a broker on this host"),
        ):
            status, printed, errors = self.exercised(port, *words)
            self.assertEqual((status, printed), (3, ""), words)
            self.assertIn(line, errors.splitlines()[-1])
            self.assertFalse(self.logs.exists(), words)

    def test_a_clients_command(self) -> None:
        for words, line in (
            (["sleep", "1"], "the client's command must have {port} in it"),
            (["no-such-client", "{port}"], "no-such-client can't be run"),
        ):
            status, printed, errors = self.called("client", "--out", self.logs, "--program", judge_program(), "--", *words)
            self.assertEqual((status, printed), (3, ""), words)
            self.assertIn(line, errors.splitlines()[-1])
            self.assertFalse(self.logs.exists(), words)

    def test_another_host_only_if_it_is_asked_for(self) -> None:
        status, _, errors = self.called("broker", "192.0.2.1:1883", "--out", self.logs, "--program", judge_program())
        self.assertEqual(status, 3)
        self.assertIn("192.0.2.1 isn't this host", errors.splitlines()[-1])

    def test_logs_of_an_earlier_run_stay(self) -> None:
        (self.logs / "x").mkdir(parents=True)
        (self.logs / "x/a.1.server.log").write_bytes(b"MQTR")
        status, _, errors = self.exercised(free_port())
        self.assertEqual(status, 3)
        self.assertIn("has logs of an earlier run", errors.splitlines()[-1])


class Unreachable(Called):
    def assert_said(self, answer: tuple[int, str, str], line: str) -> None:
        self.assertEqual(answer[:2], (4, ""), answer)
        self.assertIn(line, answer[2].splitlines()[-1])

    def test_nobody_listens(self) -> None:
        self.assert_said(self.exercised(free_port()), "can't be reached: Connection refused")

    def test_no_mqtt(self) -> None:
        def http(connection: socket.socket) -> None:
            connection.recv(4096)
            connection.sendall(b"HTTP/1.0 400 Bad Request\r\n\r\n")

        with self.served(http) as port:
            self.assert_said(self.exercised(port), "doesn't speak MQTT 5.0")

    def test_only_an_older_version(self) -> None:
        def old(connection: socket.socket) -> None:
            connection.recv(4096)
            connection.sendall(bytes.fromhex("20020001"))

        with self.served(old) as port:
            self.assert_said(self.exercised(port), "it refuses the version (0x01)")

    def test_who_lets_nobody_in(self) -> None:
        def strict(connection: socket.socket) -> None:
            connection.recv(4096)
            connection.sendall(bytes.fromhex("2003008700"))

        with self.served(strict) as port:
            self.assert_said(self.exercised(port), "CONNACK 0x87; name a user with --user and --password")

    def test_a_command_that_starts_none(self) -> None:
        self.assert_said(self.exercised(free_port(), "--start", "false"), "it said nothing")
        self.assert_said(self.exercised(free_port(), "--start", "no-such-program"), "no-such-program can't be started")

    def test_a_broker_that_goes_into_the_background(self) -> None:
        port = free_port()
        script = self.folder / "start.sh"
        script.write_text(f"#!/bin/sh\n{sys.executable} {PLAIN} {port} &\n")
        script.chmod(0o755)
        self.assert_said(self.exercised(port, "--start", script), "start the broker in the foreground")
        self.assertFalse(accepts(port))

    def test_a_broker_that_is_there_already_isnt_taken_for_the_one_that_is_started(self) -> None:
        with self.plain() as port:
            self.assert_said(self.exercised(port, "--start", f"{sys.executable} {PLAIN} {port}"), "is taken already")
            self.assertTrue(accepts(port))

    def test_a_broker_that_dies(self) -> None:
        port = free_port()
        with process(sys.executable, PLAIN, port) as child:
            wait_until(lambda: accepts(port), "the plain broker listens")
            words = self.command("broker", f"{HOST}:{port}", "--out", self.logs, "--program", judge_program(),
                                 "--only", "outbound,stay")
            with subprocess.Popen(words, stdout=subprocess.PIPE, stderr=subprocess.DEVNULL, text=True) as run:
                wait_until(lambda: len([*self.logs.glob("stay*/*.log")]) > 0, "logs are written")
                child.kill()
                printed, _ = run.communicate(timeout=RUN_SECONDS)
        self.assertEqual(run.returncode, 4)
        self.assertIn("it stopped early: the broker is gone", printed)


class Interrupted(Called):
    def test_whole_logs_and_the_table_so_far(self) -> None:
        with self.plain() as port:
            words = self.command("broker", f"{HOST}:{port}", "--out", self.logs, "--program", judge_program(),
                                 "--only", "connect,outbound,stay")
            with subprocess.Popen(words, stdout=subprocess.PIPE, stderr=subprocess.DEVNULL, text=True) as run:
                wait_until(lambda: len([*self.logs.glob("stay*/*.log")]) > 0, "logs are written")
                run.send_signal(signal.SIGINT)
                printed, _ = run.communicate(timeout=RUN_SECONDS)
        self.assertEqual(run.returncode, 4)
        self.assertIn("it stopped early: it was interrupted", printed)
        self.assertIn("tested, kept", printed)
        logs = [*self.logs.rglob("*.log")]
        statuses = {path.name: subprocess.run([judge_program(), "check", path], capture_output=True).returncode
                    for path in logs}
        self.assertEqual({status for status in statuses.values() if status not in (0, 1)}, set(), statuses)


class Counted(socket.socket):
    """A connection that counts how many of its kind are open, and how many were at most."""

    now = most = 0
    lock = threading.Lock()

    @classmethod
    def create(cls, address: tuple[str, int], seconds: float) -> Counted:
        connection = cls(socket.AF_INET)
        connection.settimeout(seconds)
        connection.connect(address)
        with cls.lock:
            cls.now += 1
            cls.most = max(cls.most, cls.now)
        return connection

    def close(self) -> None:
        with self.lock:
            Counted.now -= self.fileno() >= 0
        super().close()


class Bounds(Called):
    MOST = 8

    def test_connections(self) -> None:
        chosen = [one for one in table() if one.name.startswith(("takeover", "outbound-takeover-q1", "inbound-q"))]
        self.assertGreater(sum(one.connections for one in chosen), 3 * self.MOST)
        with (self.plain() as port, mock.patch("exercising.running.CONNECTIONS_MOST", self.MOST),
              mock.patch("exercising.stage.socket.create_connection", Counted.create)):
            self.runner(port, jobs=100).play_all(chosen, None)
        self.assertTrue(self.MOST / 2 < Counted.most <= self.MOST, Counted.most)
        page = " ".join((HERE / "EXERCISE.md").read_text().split())
        self.assertIn(f"No more than {CONNECTIONS_MOST} connections are open at a time", page)

    def test_time(self) -> None:
        text = "one | aims E7R\n  a connect\n  x1000 a quiet 0.05\n"
        with self.plain() as port, mock.patch("exercising.running.SCENARIO_SECONDS", 1.0):
            runner = self.runner(port)
            runner.play_all(parse(text, "x.scenarios", CLIENTS.shapes, NEEDS), None)
        (result,) = runner.results
        self.assertEqual((result.fate, result.why), (Fate.ENDED, "it took more than 1 s"))

    def test_a_flood_that_takes_too_long_tests_nothing(self) -> None:
        text = "one | aims S01\n  b connect ; a connect ; a subscribe T\n  a flood T from=b count=60000 window=1 seconds=1\n"
        with self.plain() as port:
            runner = self.runner(port)
            runner.play_all(parse(text, "x.scenarios", CLIENTS.shapes, NEEDS), None)
        (result,) = runner.results
        self.assertEqual(result.fate, Fate.ENDED)
        self.assertRegex(result.why, r"\Aonly \d+ of 60000 messages came in 1 s\Z")

    def test_who_is_there_when_the_broker_dies(self) -> None:
        """They are all there at once, so there may be no more of them."""
        deaths: Counter[tuple[str, ...]] = Counter()
        for scenario in table():
            if scenario.has_verb("kill"):
                deaths[death_of(scenario)] += scenario.connections
        self.assertLessEqual(max(deaths.values()), CONNECTIONS_MOST)


class DryRun(Called):
    """The whole table against the plain broker."""

    maxDiff = None

    def test_nothing_is_found_and_the_exerciser_keeps_the_rules(self) -> None:
        port = free_port()
        junit = self.folder / "report.xml"
        status, printed, errors = self.exercised(
            port, "--start", f"{sys.executable} {PLAIN} {port}", "--denied", "denied/x", "--wrong-password", "wrong",
            "--require", "reachable", "--junit", junit, "--most", "3",
        )
        self.assertEqual(status, 0, f"{printed}\n{errors}")
        slow = [scenario.name for scenario in table() if "slow" in scenario.needs]
        played = len(table()) - len(slow)
        self.assertIn(f"{played} scenarios in ", printed)
        self.assertIn(f" ({played} completed), ", printed)
        self.assertIn("broken               0", printed)
        self.assertIn("not tested           0", printed)
        self.assertRegex(errors, rf"\n\d+ of {played} scenarios, \d+ s\n")
        self.assertEqual(ElementTree.parse(junit).getroot().attrib["failures"], "0")
        self.assert_own_rules_kept(slow)
        self.assert_names_of_its_own()
        self.assertFalse(accepts(port))

    @unittest.skipUnless(judges_further(judge_program()), "the program that judges doesn't know `check --all`")
    def test_further_statements_if_they_are_asked_for(self) -> None:
        words = ("--only", "connect-plain,takeover-clean,will-accepted", "--rest", "0.1")
        with self.plain() as port:
            status, printed, errors = self.exercised(port, *words, "--all")
            self.assertEqual(status, 0, f"{printed}\n{errors}")
            self.assertIn(f"{len(binding(True, True))} statements bind such an end", printed)
            kept = printed.partition("tested, kept")[2].partition("not tested")[0].split()
            self.assertLessEqual({"A02", "V06"}, set(kept))
            self.assertIn("F05: it announced no Maximum QoS to who has a Will, and refused none for it", printed)
            shutil.rmtree(self.logs)
            printed = self.exercised(port, *words)[1]
        self.assertIn(f"{len(binding(True, False))} statements bind such an end", printed)
        self.assertNotRegex(printed, "A02|F05|V06")

    def assert_own_rules_kept(self, slow: list[str]) -> None:
        """The exerciser's own end of each log has no fault, except where the table says that it breaks the rules."""
        right = {scenario.name for scenario in table() if not scenario.breaks_rules} - set(slow)
        paths = [path for path in sorted(self.logs.rglob("*.log")) if path.parent.name in right]
        self.assertGreater(len(paths), len(right) - 1)
        with ThreadPoolExecutor() as pool:
            faults = {path: codes for path, codes in zip(paths, pool.map(own_faults, paths)) if codes}
        self.assertEqual({f"{path.parent.name}/{path.name}": codes for path, codes in faults.items()}, {})

    def assert_names_of_its_own(self) -> None:
        """Each topic and filter has the run's name for a level, except where only a broker of its own hears of it."""
        started = {scenario.name for scenario in table() if "start" in scenario.needs}
        paths = sorted(path for path in self.logs.rglob("*.log") if path.parent.name not in started)
        words = ([judge_program(), "show", "--long", path] for path in paths)
        with ThreadPoolExecutor() as pool:
            shown = [*pool.map(lambda one: subprocess.run(one, capture_output=True, text=True).stdout, words)]
        self.assertLess(max(text.count("\n") for text in shown), MOST_EVENTS)
        lines = [line for text in shown for line in text.splitlines() if " RECV " in line]
        (run,) = {name for line in lines for name in re.findall(r' client "(x[0-9a-f]+)-', line)}
        names = {name for line in lines for name in re.findall(r' (?:will-)?(?:filter|topic) "([^"]*)"', line)}
        self.assertGreater(len(names), 300)
        self.assertEqual({name for name in names if run not in name.split("/")}, {"", "denied/x", "$share/g"})

    def test_what_is_required_and_not_tested(self) -> None:
        with self.plain() as port:
            status, printed, _ = self.exercised(port, "--only", "connect-plain", "--require", "E7R,S07")
        self.assertEqual(status, 1)
        self.assertIn("required, and not tested: S07", printed)

    def test_sessions_and_retained_messages_are_gone_afterwards(self) -> None:
        with self.plain() as port:
            status, _, _ = self.exercised(port, "--only", "subscribe-options-00,outbound-drop-q1-none-1,wills-retained")
            self.assertEqual(status, 0)
            self.assert_nothing_is_left(port)

    def test_so_is_what_a_scenario_leaves(self) -> None:
        text = "one | aims B01\n  a connect clean expiry=300 ; a publish T qos=1 retain ; a rest\n"
        with self.plain() as port:
            self.runner(port).play_all(parse(text, "x.scenarios", CLIENTS.shapes, NEEDS), None)
            self.assert_nothing_is_left(port)

    def assert_nothing_is_left(self, port: int) -> None:
        """No message is retained, and none of the logs' clients has a session."""
        with socket.create_connection((HOST, port), PATIENCE) as connection:
            connection.settimeout(1)
            connection.sendall(connect("look", True) + subscribe(1, [("#", 0)]))
            came = b""
            with contextlib.suppress(TimeoutError):
                while data := connection.recv(4096):
                    came += data
        self.assertEqual([got.name for got in Cutter().feed(came)], ["CONNACK", "SUBACK"])
        logs = [*self.logs.rglob("*.log")]
        self.assertTrue(logs)
        for path in logs:
            words = [judge_program(), "show", "--long", path]
            shown = subprocess.run(words, capture_output=True, text=True, timeout=PATIENCE).stdout
            for name in set(re.findall(r' RECV CONNECT .* client "([^"]+)"', shown)):
                with socket.create_connection((HOST, port), PATIENCE) as connection:
                    connection.sendall(connect(name, False))
                    (greeting,) = Cutter().feed(connection.recv(4096))
                self.assertEqual((greeting.code, greeting.session_present), (0, False), name)

    def test_a_time_after_which_nothing_begins(self) -> None:
        with self.plain() as port:
            status, printed, _ = self.exercised(port, "--seconds", "0.2", "--jobs", "1", "--only", "stay,outbound")
        self.assertIn(": the time was up", printed)


class Once(Called):
    def test_an_answer_that_is_missing_only_once_does_not_count(self) -> None:
        lost: list[bool] = []

        def lose_the_second(got: Packet, _: State) -> bytes | None:
            if got.kind == Type.PINGRESP:
                lost.append(True)
            return b"" if got.kind == Type.PINGRESP and len(lost) == 2 else None

        proxy = free_port()
        with self.plain() as port:
            plant = Plant("once", "E7R", "connect-plain", lose_the_second)
            thread = threading.Thread(target=lambda: asyncio.run(serve(proxy, port, plant)), daemon=True)
            thread.start()
            wait_until(lambda: accepts(proxy), "the proxy listens")
            status, printed, errors = self.exercised(proxy, "--only", "connect-plain", "--wait", "0.3", "--rest", "0.1")
        self.assertEqual(status, 0, printed)
        self.assertIn("again, alone and with more time: connect-plain (E7R)", errors)
        self.assertIn("not seen again       1  E7R 1", printed)
        self.assertIn("ignored: 1 fault by once", printed)

    def test_the_silence_is_ten_times_as_long(self) -> None:
        runner = self.runner(free_port())
        with mock.patch.object(runner, "play_one") as played:
            for scenario, rest in zip(table(), (0.0, 0.2)):
                runner.play_again(Result(scenario, Fate.COMPLETED, rest=rest))
        self.assertEqual([call.args[0].silence.now for call in played.call_args_list], [1.0, 2.0])

    def test_a_scenario_that_fails_by_a_mistake(self) -> None:
        text = "one | aims E7R\n  a connect ; a publish T qos=x\ntwo | aims E7R\n  a connect ; a rest ; a bye\n"
        with self.plain() as port:
            runner = self.runner(port, jobs=2)
            runner.play_all(parse(text, "x.scenarios", CLIENTS.shapes, NEEDS), None)
        fates = {result.scenario.name: (result.fate, result.why) for result in runner.results}
        self.assertEqual(fates["two"], (Fate.COMPLETED, ""))
        self.assertEqual(fates["one"][0], Fate.ENDED)
        self.assertIn("x.scenarios:2: qos=x isn't a number", fates["one"][1])


class Clients(Called):
    def test_how_long_drivers_are(self) -> None:
        sizes = sorted(len(path.read_text().splitlines()) for path in (HERE / "exercising/drivers").iterdir())
        self.assertTrue(30 <= sizes[0] and sizes[-1] <= 75, sizes)
        for page in (HERE / "EXERCISE.md", HERE.parent / "README.md"):
            self.assertRegex(" ".join(page.read_text().split()), r"driver\*?:? (?:of )?30 to 75 lines in")

    def test_a_method_only_where_the_command_takes_one(self) -> None:
        options = SimpleNamespace(does="driver", slow=True, words=["x", "{port}", "{method}"])
        self.assertEqual(missing_needs(options), {})
        self.assertEqual(Program(tuple(options.words), "driver").command(7, "me", 0, 1, 1, "m"), ["x", "7", "m"])
        self.assertEqual(Program(tuple(options.words), "driver").command(7, "me", 0, 1, 1), ["x", "7", ""])
        options.words.pop()
        self.assertEqual(missing_needs(options), {"method": "the client's command has no {method}"})

    def test_one_that_never_connects(self) -> None:
        words = ("client", "--out", self.logs, "--program", judge_program(), "--only", "plain-q0", "--")
        status, printed, _ = self.called(*words, "sh", "-c", "sleep 60 # {port}")
        self.assertEqual(status, 4)
        self.assertIn("too many scenarios weren't completed: 1 of 1", printed)
        self.assertIn("the client doesn't connect", printed)

    def test_what_a_client_has_started_is_ended_too(self) -> None:
        """Also where the client itself has to be killed."""
        words = ("client", "--out", self.logs, "--program", judge_program(), "--only", "plain-q0", "--")
        started = self.folder / "started"
        self.called(*words, "sh", "-c", f"trap '' TERM; sleep 300 & echo $! >> {started}; wait # {{port}}")
        for number in started.read_text().split():
            wait_until(lambda number=number: has_ended(int(number)), "what the client has started ends")


def has_ended(number: int) -> bool:
    """Whether a process is no more, or waits only for somebody to ask how it ended."""
    try:
        return Path(f"/proc/{number}/stat").read_text().rpartition(")")[2].split()[0] == "Z"
    except FileNotFoundError:
        return True


def own_faults(path: Path) -> list[str]:
    """The codes of the faults at the exerciser's own end of a log."""
    further = [ALL] if judges_further(judge_program()) else []
    answer = subprocess.run([judge_program(), "check", *further], input=other_end(path.read_bytes()),
                            capture_output=True, timeout=PATIENCE)
    found = [line.split()[2] for line in answer.stdout.decode().splitlines() if line.startswith("fault ")]
    return [code for code in found if code != "S06"]  # whether we had come to rest isn't known


@unittest.skipIf(missing("mosquitto"), missing("mosquitto"))
class Mosquitto(Called):
    def test_known_faults_are_found_and_can_be_expected(self) -> None:
        with mosquitto_broker(self.folder, f"user {os.environ.get('USER', 'root')}\n" if os.geteuid() else "user root\n"
                              ) as (port, _):
            words = ["--only", "connect-plain,packet-size-40,receive-maximum-2-q1,bad-publish-response-wild"]
            status, printed, errors = self.exercised(port, *words)
            self.assertEqual(status, 1, errors)
            broken = next(line for line in printed.splitlines() if line.startswith("  broken "))
            codes = set(broken.split()[2:])
            self.assertTrue({"C14", "S07", "W14"} <= codes, printed)
            known = self.folder / "known.txt"
            logs = [*self.logs.rglob("*.log")]
            known.write_text("".join(f"{path} {code} 1000\n" for path in logs for code in sorted(codes)))
            shutil.rmtree(self.logs)
            page, sarif = self.folder / "page.html", self.folder / "report.sarif"
            status, printed, _ = self.exercised(port, *words, "--expect", known, "--html", page, "--sarif", sarif)
            self.assertEqual(status, 0, printed)
            self.assertIn("receive-maximum-2-q1", page.read_text())
            self.assertIn('"S07"', sarif.read_text())

    def test_a_user_and_a_password(self) -> None:
        asked = self.folder / "passwd"
        asked.touch()
        subprocess.run([find("mosquitto_passwd") or "mosquitto_passwd", "-b", asked, "me", "right"], check=True)
        asked.chmod(0o644)  # mosquitto goes on as another user
        self.folder.chmod(0o755)
        with mosquitto_broker(self.folder, f"allow_anonymous false\npassword_file {asked}\n") as (port, _):
            words = ["--only", "connect-plain,refused-password", "--wrong-password", "wrong", "--require", "C09"]
            status, _, errors = self.exercised(port, *words)
            self.assertEqual((status, "name a user with --user and --password" in errors), (4, True))
            status, printed, errors = self.exercised(port, *words, "--user", "me", "--password", "right")
            self.assertEqual(status, 0, f"{printed}\n{errors}")

    @unittest.skipIf(missing("cc"), missing("cc"))
    def test_what_is_seen_outside_is_seen_inside_too(self) -> None:
        port, config = free_port(), self.folder / "mosquitto.conf"
        user = "" if os.geteuid() else "user root\n"
        config.write_text(f"listener {port} {HOST}\nallow_anonymous true\n{user}")
        status, printed, errors = self.exercised(
            port, "--start", f"{find('mosquitto')} -c {config}", "--inside", "--only",
            "packet-size-40,receive-maximum,bad-publish-response-wild,broker-kill-q1-none",
        )
        self.assertEqual(status, 1, errors)
        judge = Judge(judge_program(), 0, lambda _: None)
        verdicts = [judge.judge(path) for path in sorted(self.logs.rglob("*.log"))]
        outside: Counter[str] = Counter()
        inside: Counter[str] = Counter()
        for verdict in verdicts:
            (inside if verdict.path.parent.name == "inside" else outside).update(verdict.faults)
        self.assertEqual({"C14", "S07", "W14"} - {key.split()[0] for key in outside}, set(), printed)
        self.assertEqual([key for key in outside if outside[key] > inside[key]], [])
        names = {path.name for path in (self.logs / "inside").rglob("*.log")}
        self.assertIn("packet-size-40-q1-a.1.server.log", names)
        self.assertFalse(accepts(port))


if __name__ == "__main__":
    unittest.main()
