#!/usr/bin/env python3
"""Tests of `recorders/judge --all` and `--times`: logs are judged by further statements too, and each report says so.

A program of a few lines stands for the judge; where the judge knows further statements, it is asked too.

usage: recorders/test_further.py
"""
from __future__ import annotations

import json
import sys
import unittest
from pathlib import Path
from xml.etree import ElementTree

sys.dont_write_bytecode = True  # the repository stays as it is
sys.path.insert(0, str(Path(__file__).resolve().parent))
from judge_calls import Case as WithStandIn
from judging.statements import TIMES, every_statement_of, judges_further
from made_logs import log, record
from sarif_schema import problems
from testing import TOP, judge_program

STAND_IN = """#!/bin/sh
# By S01 each log passes. By F05, a further statement, each fails at its third event; by K02, on times, at its fourth.
echo "$*" >> "$0.calls"
case " $* " in *" --times "*) all=1 times=1 ;; *" --all "*) all=1 times= ;; *) all= times= ;; esac
for file; do :; done
case "$1" in
check) test -f "$file" || { echo refused 1 Header at 0; exit 2; }
  test "$all" && echo "fault 3 F05 MQTT-3.2.2-12 decided 3 record 3 offset -"
  case "$*" in *--why*) echo "because 3 F05 event 2" ;; esac
  test "$times" && echo "fault 4 K02 MQTT-3.1.2-22,MQTT-3.2.2-22 decided 4 record 4 offset -"
  case "$times$*" in
  1*--why*) echo "because 4 K02 event 3 numbers 21 20" ;;
  *--coverage*) echo "tested S01 MQTT-2.2.1-4 places 0"; test "$all" && echo "tested F05 MQTT-3.2.2-12 places 1"
    test "$times" && echo "tested K02 MQTT-3.1.2-22,MQTT-3.2.2-22 places 1"; echo "covered 0 of 1 statements" ;;
  esac
  test "$times" && echo "fail 2 faults 4 events" && exit 1
  test "$all" && echo "fail 1 faults 4 events" && exit 1
  echo "pass 4 events"; exit 0 ;;
show) echo "1 record 1 OPEN"; echo '2 record 2 RECV CONNECT size 23 client "c" clean-start 1 keep-alive 60'
  echo "3 record 3 SENT CONNACK size 7 code 0x00 session-present 0 maximum-qos 1"
  case "$*" in *--faults*) test "$all" && echo "  fault F05 MQTT-3.2.2-12 It is refused. (because of event 2)" ;; esac
  echo "4 record 4 CLOSE"
  case "$times$*" in 1*--faults*) echo "  fault K02 MQTT-3.1.2-22 It closes. (because of event 3)" ;; esac; exit 0 ;;
explain) printf '%s server MQTT-3.2.2-12\\nIt is refused.\\n\\nIn a server: Refuse it.\\n' "$2"; exit 0 ;;
rules) echo "S01 both MQTT-2.2.1-3;MQTT-2.2.1-4 It is so."
  test "$all" && echo "F05 server MQTT-3.2.2-12 It is refused."
  test "$times" && echo "K02 server MQTT-3.1.2-22,MQTT-3.2.2-22 It closes."; exit 0 ;;
--version) echo "mqjudge 1.2.3 (of a test)"; exit 0 ;;
esac
exit 3
"""
OLD = """#!/bin/sh
# A program that knows no further statements.
case "$*" in *--all*) echo "error: unexpected argument '--all' found" >&2; exit 3 ;; esac
case "$1" in rules) echo "S01 both MQTT-2.2.1-3;MQTT-2.2.1-4 It is so."; exit 0 ;; esac
echo "pass 4 events"
"""
SAID = "judged by the further statements too (--all): F05"
CAUSE = "the CONNECT, with a Will QoS above the announced maximum"
SAID_OF_TIMES = "judged by the further statements too (--times): F05, K02"
LATE = "nothing came from the client for 21 microseconds, and the limit is 20"


class Case(WithStandIn):
    def setUp(self) -> None:
        super().setUp()
        self.program.write_text(STAND_IN)
        (self.logs / "a.log").write_bytes(log(record(4), end=1))

    def written(self, option: str, *words: object) -> str:
        """What is in the report that this option writes."""
        path = self.folder / "report"
        self.judged(self.logs, "--all", option, path, *words)
        return path.read_text()

    def named(self, text: str) -> Path:
        path = self.folder / "named"
        path.write_text(text)
        return path


class Reports(Case):
    def test_nothing_changes_unasked(self) -> None:
        status, printed, errors = self.judged(self.logs)
        last = "1 log: 1 pass, 0 fail, 0 refused, 0 failed"
        self.assertEqual((status, printed.splitlines()[-1], errors), (0, last, ""))
        self.assertNotIn("further", printed)
        self.assertFalse([call for call in self.calls() if "--all" in call])

    def test_what_is_printed(self) -> None:
        status, printed, errors = self.judged(self.logs, "--all")
        lines = printed.splitlines()
        self.assertEqual((status, errors), (1, ""))
        self.assertIn("  F05 MQTT-3.2.2-12 1 fault: It is refused.", lines)
        self.assertIn(f"      because of event 2: {CAUSE}", lines)
        self.assertEqual(lines[-2:], [SAID, "1 log: 0 pass, 1 fail, 0 refused, 0 failed"])
        self.assertTrue(any(line.endswith("program explain F05") for line in lines))

    def test_it_is_asked_everywhere(self) -> None:
        self.judged(self.logs, "--all", "--coverage", "--html", self.folder / "page")
        told = [call for call in self.calls() if call.startswith(("check", "show")) and call.endswith("a.log")]
        wanted = ["check --coverage --all", "check --why --all", "show --long --faults --around 2 --all", "show --long"]
        self.assertEqual([call.rpartition(" ")[0] for call in told], wanted)

    def test_lines_of_json(self) -> None:
        (found,) = (json.loads(line) for line in self.judged(self.logs, "--all", "--json")[1].splitlines())
        (fault,) = found["faults"]
        self.assertEqual((found["all"], fault["code"], fault["because"]), (True, "F05", 2))
        (found,) = (json.loads(line) for line in self.judged(self.logs, "--json")[1].splitlines())
        self.assertEqual(("all" in found, found["faults"]), (False, []))

    def test_reports_for_programs(self) -> None:
        (suite,) = ElementTree.fromstring(self.written("--junit"))
        self.assertIn(SAID, (suite.findtext("system-out") or "").splitlines())
        told = json.loads(self.written("--sarif"))
        self.assertEqual(problems(told), [])
        (run,) = told["runs"]
        self.assertEqual([rule["id"] for rule in run["tool"]["driver"]["rules"]], ["F05"])
        self.assertEqual(run["tool"]["driver"]["rules"][0]["shortDescription"]["text"], "It is refused.")
        (invocation,) = run["invocations"]
        self.assertIn(SAID, [notice["message"]["text"] for notice in invocation["toolExecutionNotifications"]])
        (result,) = run["results"]
        self.assertIn(f"Because of event 2: {CAUSE}.", result["message"]["text"])

    def test_the_page(self) -> None:
        page = self.written("--html", "--coverage")
        self.assertIn(SAID, page)
        self.assertIn("Refuse it.", page)
        self.assertIn('title="It is refused."><span>F05</span>', page)

    def test_annotations(self) -> None:
        printed = self.judged(self.logs, "--all", "--github")[1]
        self.assertTrue(any(line.startswith("::error") and "F05" in line for line in printed.splitlines()))
        self.assertIn(SAID, printed.splitlines())


class Times(Case):
    """The statements on times, which `--all` leaves out."""

    def test_what_is_printed(self) -> None:
        for words in (("--times",), ("--all", "--times")):
            status, printed, errors = self.judged(self.logs, *words)
            lines = printed.splitlines()
            self.assertEqual((status, errors), (1, ""))
            self.assertIn("  K02 MQTT-3.1.2-22,MQTT-3.2.2-22 1 fault: It closes.", lines)
            self.assertIn(f"      because of event 3: {LATE}", lines)
            self.assertIn("  F05 MQTT-3.2.2-12 1 fault: It is refused.", lines)
            self.assertEqual(lines[-2:], [SAID_OF_TIMES, "1 log: 0 pass, 1 fail, 0 refused, 0 failed"])

    def test_it_is_asked_everywhere(self) -> None:
        self.judged(self.logs, "--times", "--coverage", "--html", self.folder / "page")
        told = [call for call in self.calls() if call.startswith(("check", "show")) and call.endswith("a.log")]
        wanted = ["check --coverage --times", "check --why --times", "show --long --faults --around 2 --times"]
        wanted.append("show --long")
        self.assertEqual([call.rpartition(" ")[0] for call in told], wanted)

    def test_lines_of_json(self) -> None:
        (found,) = (json.loads(line) for line in self.judged(self.logs, "--times", "--json")[1].splitlines())
        self.assertEqual((found["all"], found["times"]), (True, True))
        wanted = [("F05", []), ("K02", [21, 20])]
        self.assertEqual([(fault["code"], fault["numbers"]) for fault in found["faults"]], wanted)
        (found,) = (json.loads(line) for line in self.judged(self.logs, "--all", "--json")[1].splitlines())
        self.assertNotIn("times", found)

    def test_names(self) -> None:
        self.assertEqual(self.judged(self.logs, "--times", "--ignore", "f05,k02")[0], 0)
        why = "K02 is a further statement: nothing is judged by it without --times\n"
        for words in ((), ("--all",)):
            status, _, errors = self.judged(self.logs, *words, "--ignore", "K02")
            self.assertEqual(status, 3)
            self.assertIn(why, errors)
        status, printed, _ = self.judged(self.logs, "--times", "--require-coverage", self.named("server K02 2\n"))
        self.assertIn("not tested: server K02: 1 place, 2 required", printed.splitlines())

    def test_a_program_that_knows_none(self) -> None:
        self.program.write_text(OLD.replace("--all", "--times"))
        status, printed, errors = self.judged(self.logs, "--times")
        self.assertEqual((status, printed), (3, ""))
        self.assertIn("judges by no statements on times: its check has no --times; build a newer one", errors)
        self.program.write_text(STAND_IN.replace('echo "$*"', 'case "$*" in *--times*) exit 3 ;; esac; echo "$*"'))
        self.assertEqual(self.judged(self.logs, "--all", "--ignore", "F05")[0], 0)


class Names(Case):
    """Where a code is read: of what doesn't count, of known faults, and of what has to be tested."""

    def test_they_are_known_if_asked_for(self) -> None:
        self.assertEqual(self.judged(self.logs, "--all", "--ignore", "f05")[0], 0)
        self.assertEqual(self.judged(self.logs, "--all", "--expect", self.named("a.log F05 1\n"))[0], 0)
        status, printed, _ = self.judged(self.logs, "--all", "--require-coverage", self.named("server F05 2\n"))
        self.assertIn("not tested: server F05: 1 place, 2 required", printed.splitlines())
        self.assertEqual(status, 1)
        self.judged(self.logs, "--all", "--write-coverage", self.folder / "tested")
        self.assertIn("server F05 1\n", (self.folder / "tested").read_text())

    def test_they_are_refused_unasked(self) -> None:
        """By the words that say how to ask for them."""
        why = "F05 is a further statement: nothing is judged by it without --all"
        named = self.named("a.log F05 1\n")
        for words, option in ((("--ignore", "F05"), "--ignore"), (("--expect", named), f"--expect: {named}, line 1")):
            status, printed, errors = self.judged(self.logs, *words)
            self.assertEqual((status, printed), (3, ""))
            self.assertIn(f"{option}: {why}\n", errors)
        required = self.named("server F05 1\n")
        status, _, errors = self.judged(self.logs, "--require-coverage", required)
        self.assertEqual(status, 3)
        self.assertIn(f"line 1: {why}\n", errors)

    def test_which_there_are(self) -> None:
        listed = every_statement_of(str(self.program))
        wanted = [("S01", "both", ""), ("F05", "server", "--all"), ("K02", "server", "--times")]
        self.assertEqual([(one.code, one.ends, one.asked_by) for one in listed], wanted)
        _, _, errors = self.judged(self.logs, "--all", "--ignore", "F06")
        self.assertIn("there is no statement F06; those with F are F05\n", errors)
        _, _, errors = self.judged(self.logs, "--all", "--require-coverage", self.named("client F05 1\n"))
        self.assertIn("F05 binds a server, and no client\n", errors)

    def test_a_program_that_knows_none(self) -> None:
        self.program.write_text(OLD)
        status, printed, errors = self.judged(self.logs, "--all")
        self.assertEqual((status, printed), (3, ""))
        self.assertIn("judges by no further statements: its check has no --all; build a newer one", errors)
        self.assertEqual(self.judged(self.logs)[0], 0)
        self.assertEqual(self.judged(self.logs, "--ignore", "S01")[0], 0)


@unittest.skipUnless(judges_further(judge_program()), "the judge knows no further statements")
class WithTheJudge(WithStandIn):
    def test_the_suite(self) -> None:
        """Each broken log has its fault, each kept one none; and without `--all` all of them pass."""
        for code in "B05 B06 B07 B08 B09 P01 P02 R01 R02 F01 F02 F03 F04 F05 F06 V03 V04 V06 C24 D01 D02 D03 D05 A01 A02 A03".split():
            broken, kept = (TOP / f"examples/suite/{code}-{which}.log" for which in ("broken", "kept"))
            status, printed, _ = self.judged(broken, "--all", program=judge_program())
            self.assertTrue(any(line.startswith(f"  {code} ") for line in printed.splitlines()), printed)
            self.assertEqual("because of event" in printed, code[0] != "V" and code != "B08", printed)
            self.assertEqual((status, self.judged(kept, "--all", program=judge_program())[0]), (1, 0))
            self.assertEqual(self.judged(broken, kept, program=judge_program())[0], 0)

    @unittest.skipUnless(judges_further(judge_program(), TIMES), "the judge knows no statements on times")
    def test_the_suite_on_times(self) -> None:
        """The same with `--times`, without which all pass."""
        for code in ("K01", "K02"):
            broken, kept = (TOP / f"examples/suite/{code}-{which}.log" for which in ("broken", "kept"))
            status, printed, _ = self.judged(broken, "--times", program=judge_program())
            self.assertTrue(any(line.startswith(f"  {code} ") for line in printed.splitlines()), printed)
            self.assertIn("because of event 3: nothing came from the client for ", printed)
            self.assertEqual((status, self.judged(kept, "--times", program=judge_program())[0]), (1, 0))
            self.assertEqual(self.judged(broken, kept, "--all", program=judge_program())[0], 0)


if __name__ == "__main__":
    unittest.main()
