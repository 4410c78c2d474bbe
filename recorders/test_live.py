#!/usr/bin/env python3
"""Tests of judging live: what the library for C says while a log is written is what the program says of it afterwards.

Where the library isn't built, a stand-in takes its place that asks the program at each step: so what is tested then is
all but the library itself.

usage: recorders/test_live.py
"""
from __future__ import annotations

import contextlib
import os
import subprocess
import sys
import tempfile
import unittest
from collections.abc import Iterator
from pathlib import Path
from types import SimpleNamespace
from typing import Any
from unittest import mock

sys.dont_write_bytecode = True  # the repository stays as it is
HERE = Path(__file__).resolve().parent
sys.path.insert(0, str(HERE))
from exercising import live
from exercising.both_ends import Fairness, other_end
from exercising.evidence import SERVER_AT
from exercising.live import LIBRARY_VARIABLE, Ends, Live, LiveJudge, find_library
from exercising.packets import connack, connect
from exercising.running import Result, Runner
from exercising.stage import Silence, Target
from exercising.table import Scenario, read_scenarios
from exercising.verbs import CLIENTS, NEEDS
from judging.program import Judge
from judging.verdict import FAULT, FAULTS, PASSED, fault_of
from log_format import VERSIONS
from testing import HOST, TOP, InFolder, accepts, free_port, judge_program, process, wait_until

OPEN, SENT, RECV, CLOSE, REST = 1, 2, 3, 4, 5
PLANTED = "E1A-twice"
CHOSEN = ("inbound-q1-repeats", "connect-plain", "inbound-breaks-two-qos", "outbound-drop-q1-none-1")
STRAY = bytes.fromhex("40020009")  # a PUBACK that nobody asked for


class Trouble(Exception):
    pass


class StandIn:
    """A judge with the calls of examples/live/mqjudge.py, which asks the program about all bytes so far."""

    made = 0

    def __init__(self) -> None:
        self.log, self._given, self.is_free = b"", set(), False
        StandIn.made += 1

    def feed(self, data: bytes) -> None:
        self.log += data

    def _check(self) -> list[str]:
        with tempfile.NamedTemporaryFile(suffix=".log") as file:
            file.write(self.log)
            file.flush()
            answer = subprocess.run([judge_program(), "check", file.name], capture_output=True, text=True)
        if answer.returncode not in (0, 1):
            raise Trouble(answer.stdout)
        return answer.stdout.splitlines()

    def new_faults(self) -> list[Any]:
        found = [line for line in self._check()[:-1] if line not in self._given]
        self._given.update(found)
        return [fault_of(match) for line in found if (match := FAULT.fullmatch(line))]

    def finish(self) -> int:
        return int(self._check()[-1].split()[-2])

    def free(self) -> None:
        self.is_free = True


STAND_IN = SimpleNamespace(Judge=StandIn, Trouble=Trouble)


def library() -> Any:
    """The library, if it is built, else what stands for it."""
    return find_library() or STAND_IN


def log_of(*records: tuple[int, bytes]) -> bytes:
    version = VERSIONS[2]
    return version.header(True, False) + b"".join(version.record(kind, body, 0) for kind, body in records)


HELLO = ((OPEN, b""), (RECV, connect("a", True)), (SENT, connack()))


class Growing(InFolder):
    """A log that is written bit by bit."""

    def test_both_ends_know_their_faults_when_they_are_there(self) -> None:
        path = self.folder / "a.log"
        ends = Ends(library(), path)
        self.addCleanup(ends.free)
        whole = log_of(*HELLO, (SENT, STRAY), (RECV, STRAY), (REST, b""), (CLOSE, b""))
        places = {len(log_of(*HELLO)): ([], []), len(log_of(*HELLO, (SENT, STRAY))): (["E1A"], []),
                  len(log_of(*HELLO, (SENT, STRAY), (RECV, STRAY))): (["E1A"], ["E1A"])}
        wanted: tuple[list[str], list[str]] = ([], [])
        for size in range(0, len(whole) + 1):
            path.write_bytes(whole[:size])
            if size % 7 and size not in places:
                continue
            ends.advance()
            wanted = places.get(size, wanted)
            seen = ([fault.code for fault in ends.faults], [fault.code for fault in ends.own_faults])
            self.assertEqual(seen, wanted, size)
        self.assertEqual(ends.finish(), 7)

    def test_the_sessions_have_the_programs_faults_word_by_word(self) -> None:
        """Of both ends; the citation of a fault depends on the end."""
        logs = sorted((TOP / "examples/sessions").glob("*.log"))
        self.assertTrue({log.read_bytes()[SERVER_AT] for log in logs} == {0, 1})
        for path in logs:
            ends = Ends(library(), path)
            self.addCleanup(ends.free)
            ends.finish()
            for data, seen in ((path.read_bytes(), ends.faults), (other_end(path.read_bytes()), ends.own_faults)):
                answer = subprocess.run([judge_program(), "check"], input=data, capture_output=True)
                lines = [FAULT.fullmatch(line) for line in answer.stdout.decode().splitlines()]
                self.assertEqual(sorted(seen), sorted(map(fault_of, filter(None, lines))), path.name)

    def test_what_can_not_be_judged_is_left_to_the_program(self) -> None:
        fairness = Fairness()
        judge = LiveJudge(judge_program(), 20, fairness.weigh)
        fairness.judge = judge
        watch = Live(library(), judge, fairness, lambda _: None).watch(self.folder)
        path = self.folder / "a.log"
        path.write_bytes(log_of((RECV, b"\0"), (OPEN, b"")))
        watch.advance()
        watch.finish()
        self.assertEqual((judge.passed, judge.judge(path).status), ({}, 2))


class Played(InFolder):
    """Scenarios against a broker with a planted fault."""

    @contextlib.contextmanager
    def planted(self) -> Iterator[int]:
        port, proxy = free_port(), free_port()
        with process(sys.executable, HERE / "plain_broker.py", port):
            wait_until(lambda: accepts(port), "the plain broker listens")
            with process(sys.executable, HERE / "planting.py", proxy, port, PLANTED):
                wait_until(lambda: accepts(proxy), "the proxy listens")
                yield proxy

    def play(self, port: int, found: Any) -> tuple[list[Result], Fairness, LiveJudge, list[str]]:
        fairness, said = Fairness(), []
        judge = LiveJudge(judge_program(), 20, fairness.weigh)
        fairness.judge = judge
        watching = Live(found, judge, fairness, said.append)
        runner = Runner(Target(HOST, port, patience=0.5), "ab12", self.logs, Silence(0.1), 4, judge, fairness,
                        live=watching)
        table = read_scenarios(HERE / "exercising/broker.scenarios", CLIENTS.shapes, NEEDS)
        chosen: list[Scenario] = [one for one in table if one.name in CHOSEN]
        runner.play_all(chosen, None)
        return runner.results, fairness, judge, said

    def test_the_verdicts_are_the_programs(self) -> None:
        made = StandIn.made
        with self.planted() as port:
            results, fairness, judge, said = self.play(port, library())
        afterwards = Fairness()
        program = Judge(judge_program(), 20, afterwards.weigh, keeps=True)
        afterwards.judge = program
        verdicts = [verdict for result in results for verdict in result.verdicts]
        self.assertEqual(len(results), len(CHOSEN))
        for verdict in verdicts:
            again = program.judge(verdict.path)
            for what in ("status", "faults", "found", "last", "has_rest", "end"):
                self.assertEqual(getattr(verdict, what), getattr(again, what), what)
            own = [(fault.position, fault.code) for fault in afterwards.own_faults(verdict.path)]
            self.assertEqual([(fault.position, fault.code) for fault in fairness.own_faults(verdict.path)], own)
        self.assertEqual({verdict.status for verdict in verdicts}, {PASSED, FAULTS})
        self.assertEqual({path for path in judge.passed},
                         {verdict.path for verdict in verdicts if not verdict.found})
        self.assertEqual(sum(line.startswith("E1A in ") for line in said), 1, said)
        self.assertTrue(find_library() or StandIn.made > made)

    def test_logs_that_pass_are_not_given_to_the_program(self) -> None:
        with self.planted() as port, mock.patch.object(Judge, "_ask", autospec=True, side_effect=Judge._ask) as asked:
            results, _, judge, _ = self.play(port, library())
        paths = {call.args[1] for call in asked.call_args_list}
        self.assertEqual(paths & set(judge.passed), set())
        self.assertEqual(paths | set(judge.passed), {one.path for result in results for one in result.verdicts})


class Finding(InFolder):
    def test_no_library_is_no_trouble(self) -> None:
        with mock.patch.dict(os.environ, {LIBRARY_VARIABLE: str(self.folder / "none.so")}):
            self.assertIsNone(find_library())

    def test_recorders_alone(self) -> None:
        with mock.patch.object(live, "MODULE", self.folder / "examples/live/mqjudge.py"):
            self.assertIsNone(find_library())

    def test_a_library_of_another_version_is_not_used(self) -> None:
        module = self.folder / "mqjudge.py"
        module.write_text("import os\nARCHIVE = None\ndef loaded():\n    raise ImportError('another version')\n")
        with mock.patch.object(live, "MODULE", module), mock.patch.dict(os.environ, {LIBRARY_VARIABLE: "x"}):
            self.assertIsNone(find_library())


if __name__ == "__main__":
    unittest.main()
