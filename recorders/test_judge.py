#!/usr/bin/env python3
"""Tests of recorders/judge, with a program of a few lines in place of the judge, and of the examples with the judge.

usage: recorders/test_judge.py
"""
from __future__ import annotations

import contextlib
import json
import os
import pty
import re
import signal
import subprocess
import sys
import unittest
from pathlib import Path
from xml.etree import ElementTree

sys.dont_write_bytecode = True  # the repository stays as it is
sys.path.insert(0, str(Path(__file__).resolve().parent))
from judge_calls import BROKEN, FAIL, LOG, PASS, REFUSED, Case, log_of
from judging.statements import ALL, judges_further
from testing import PATIENCE, TOP, judge_program, needs_why, says_why, wait_until

CONNECT = bytes.fromhex("100e00044d5154540502003c0000 0161")  # of a client a
HELLO = bytes.fromhex("160301 00c8 01 0000c4 0303") + bytes(199)  # as TLS begins


def all_of(terminal: int) -> str:
    """All that was written to a terminal whose other end is closed. It may come in pieces."""
    shown = b""
    try:
        while piece := os.read(terminal, 4096):
            shown += piece
    except OSError:  # all is read
        pass
    os.close(terminal)
    return shown.decode()


class Statuses(Case):
    def test_the_worst_of_the_logs(self) -> None:
        wanted = {"a": (PASS, 0), "b": (FAIL, 1), "c": (REFUSED, 2), "d": (BROKEN, 4)}
        for name, (text, status) in wanted.items():
            self.put(**{name: text})
            self.assertEqual(self.judged()[0], status)
        self.assertEqual(self.judged()[1].splitlines()[-1], "4 logs: 1 pass, 1 fail, 1 refused, 1 failed")

    def test_a_program_that_ends_in_a_way_that_it_has_not(self) -> None:
        endings = {"fail 1 faults 3 events": 0, "pass 3 events": 1, "": 5, "pass 4 events": 139, "pass 5 events": 3}
        for text, ending in endings.items():
            self.put(odd=f"{text}\n{ending}\n")
            status, printed, _ = self.judged()
            self.assertEqual((status, printed.splitlines()[0]), (4, f"failed {self.logs}/odd.log"))
            self.assertIn("the program ended with status", printed)

    def test_a_program_that_is_killed_or_is_none(self) -> None:
        self.put(a=PASS)
        self.program.write_text("#!/bin/sh\nkill -9 $$\n")
        status, printed, _ = self.judged()
        self.assertEqual((status, "the program ended with status -9" in printed), (4, True))
        for program in (self.folder / "none", self.folder):
            status, printed, errors = self.judged(program=program)
            self.assertEqual((status, printed), (3, ""))
            self.assertEqual(errors.splitlines()[-1], f"judge: --program: {program} can't be run")

    def test_where_no_log_is(self) -> None:
        status, printed, errors = self.judged()
        self.assertEqual((status, errors), (4, f"judge: no logs in {self.logs}\n"))
        self.assertEqual(self.judged(self.logs / "none.log", program=judge_program())[0], 4)

    def test_misuse(self) -> None:
        self.put(a=PASS)
        for words in ([self.logs, "--jobs", "0"], [self.logs, "--most", "-1"], [self.logs, "--none"], ["--jobs", "2"]):
            self.assertEqual(self.judged(*words)[0], 3, words)

    def test_output_that_cannot_be_written(self) -> None:
        self.put(a=FAIL)
        with open("/dev/full", "w") as full:
            answer = subprocess.run(self.command(), stdout=full, stderr=subprocess.PIPE, text=True, timeout=PATIENCE)
        self.assertEqual((answer.returncode, answer.stderr), (4, "judge: standard output: No space left on device\n"))

    def test_a_full_disk_names_the_file(self) -> None:
        self.put(a=FAIL)
        for option in ("--junit", "--html", "--sarif"):
            status, printed, errors = self.judged(self.logs, option, "/dev/full")
            self.assertEqual((status, errors), (4, "judge: /dev/full: No space left on device\n"))
            self.assertIn("1 log: 0 pass, 1 fail", printed)
        limited = ["bash", "-c", 'ulimit -f 1; exec "$@"', "limited"]  # blocks of 1,024 bytes
        report = self.folder / "report.xml"
        words = [*limited, *self.command(self.logs, "--junit", report)]
        self.put(**{f"log{number}": FAIL for number in range(9)})
        answer = subprocess.run(words, capture_output=True, text=True, timeout=PATIENCE)
        self.assertEqual((answer.returncode, answer.stderr), (4, f"judge: {report}: File too large\n"))
        self.assertFalse(report.exists())

    def test_a_full_disk_below_a_copy(self) -> None:
        """A log that ends inside a record is copied up to its last whole one, and one on standard input is, too."""
        limited = ["bash", "-c", 'ulimit -f 1; exec "$@"', "limited"]
        log = log_of((1, b""), (2, CONNECT), (2, bytes(3_000)), (4, b""))[:-1]
        (self.logs / "cut.log").write_bytes(log)
        words = [*limited, *self.command(program=judge_program())]
        answer = subprocess.run(words, capture_output=True, text=True, timeout=PATIENCE)
        self.assertEqual(answer.returncode, 4)
        self.assertRegex(answer.stdout, r"\Afailed .*/cut\.log\n  /.*: File too large\n")
        words = [*limited, *self.command("-", program=judge_program())]
        answer = subprocess.run(words, input=log, capture_output=True, timeout=PATIENCE)
        self.assertEqual(answer.returncode, 4)
        self.assertRegex(answer.stderr.decode(), r"\Ajudge: /.*: File too large\n\Z")

    def test_a_report_that_cannot_be_written_is_misuse(self) -> None:
        self.put(a=FAIL)
        self.program.write_text(f"#!/bin/sh\ntouch {self.folder}/began\n")
        for place in (self.folder / "none" / "report.xml", self.folder):
            status, printed, errors = self.judged(self.logs, "--junit", place)
            self.assertEqual((status, printed), (3, ""))
            self.assertIn(f"judge: --junit: {place} can't be written: ", errors.splitlines()[-1])
        self.assertFalse((self.folder / "began").exists())

    def test_a_reader_that_goes(self) -> None:
        self.put(**{f"log{number}": FAIL for number in range(300)})
        with subprocess.Popen(self.command(), stdout=subprocess.PIPE, stderr=subprocess.PIPE, text=True) as child:
            assert child.stdout is not None and child.stderr is not None
            child.stdout.readline()
            child.stdout.close()
            self.assertEqual((child.stderr.read(), child.wait(PATIENCE)), ("", 4))

    def test_an_empty_folder_beside_another(self) -> None:
        self.put(a=PASS)
        empty, other = self.folder / "empty", self.folder / "other"
        empty.mkdir()
        other.mkdir()
        (other / "no.log").write_text("nothing")
        report = self.folder / "report.xml"
        status, printed, errors = self.judged(empty, self.logs, other, "--junit", report)
        self.assertEqual((status, errors), (4, f"judge: no logs in {empty}\njudge: no logs in {other}\n"))
        self.assertEqual(printed.splitlines()[-1], "1 log: 1 pass, 0 fail, 0 refused, 0 failed")
        self.assertEqual(len([*ElementTree.parse(report).iter("error")]), 2)


class Printed(Case):
    def test_what_is_not_a_pass_and_a_table(self) -> None:
        self.put(a=PASS, b=FAIL, c=REFUSED, d=FAIL)
        first, second = FAIL.splitlines()[:2]
        faults = ["  S01 MQTT-2.2.1-3 1 fault", f"    {first}", "  W09 sec-2.2.1 1 fault", f"    {second}"]
        wanted = [f"fail {self.logs}/b.log", *faults, f"refused {self.logs}/c.log", "  refused 7 Nested at 13"]
        wanted += [f"fail {self.logs}/d.log", *faults, "", "code   faults   logs  citation"]
        wanted += ["S01         2      2  MQTT-2.2.1-3", "W09         2      2  sec-2.2.1", "refused 7 Nested: 1 log"]
        wanted += [f"what breaks S01, and what to change: {self.program} explain S01, and so for each code"]
        wanted += ["", "4 logs: 1 pass, 2 fail, 1 refused, 0 failed"]
        self.assertEqual(self.judged()[1].splitlines(), wanted)

    def test_no_more_faults_of_a_log_than_are_wanted(self) -> None:
        fault = FAIL.splitlines()[0]
        self.put(many=f"{fault}\n" * 1000 + "fail 1000 faults 2000 events\n1\n")
        for words, count in (([], 20), (["--most", "3"], 3), (["--most", "0"], 0), (["--most", "1000"], 1000)):
            printed = self.judged(self.logs, *words)[1].splitlines()
            more = [f"    and {1000 - count} more"] if count < 1000 else []
            wanted = ["  S01 MQTT-2.2.1-3 1000 faults", *[f"    {fault}"] * count, *more]
            self.assertEqual(printed[1 : 1 + len(wanted)], wanted)
            self.assertIn("S01      1000      1  MQTT-2.2.1-3", printed)

    def test_files_and_folders_each_once(self) -> None:
        self.put(a=PASS, b=PASS)
        inner = self.logs / "inner" / "folder.log"
        inner.mkdir(parents=True)
        (inner / "c.log").write_text(LOG + PASS)
        (inner / "d.txt").write_text(FAIL)
        status, printed, _ = self.judged(self.logs, self.logs / "a.log", inner)
        self.assertEqual((status, printed.splitlines()[-1]), (0, "3 logs: 3 pass, 0 fail, 0 refused, 0 failed"))

    def shown(self, name: str, faults: list[str], events: dict[int, str]) -> list[str]:
        """What is printed of a log with these faults and events, which its header says to be of version 2."""
        lines = [*faults, f"fail {len(faults)} faults 9 events", "1"]
        (self.logs / f"{name}.log").write_text("\n".join(["MQTR\x02\0\0\0", *lines, ""]))
        (self.logs / f"{name}.log.show").write_text("\n".join([*events.values(), ""]))
        printed = self.judged(self.logs / f"{name}.log")[1]
        return printed.partition("\n\n")[0].splitlines()[1:]

    def test_what_a_fault_means(self) -> None:
        self.put(a=FAIL)
        events = [f"{number} record {number} SENT PINGREQ size 2" for number in range(1, 10)]
        sentence = "  fault S01 MQTT-2.2.1-3 It takes no identifier. (decided at event 9)"
        with_time = "  fault W09 sec-2.2.1 It isn't 0. (offset 2) (at 2026-11-26 12:04:05.000001 UTC)"
        shown = [*events[:5], sentence, *events[5:7], with_time, *events[7:], ".."]
        (self.logs / "a.log.show").write_text("\n".join(shown) + "\n")
        report = self.folder / "report.xml"
        printed = self.judged(self.logs, "--junit", report)[1].splitlines()
        first, second = FAIL.splitlines()[:2]
        said = [*events[:5], "  fault S01 (decided at event 9)", *events[5:7], "  fault W09 (offset 2)", *events[7:]]
        wanted = ["S01 MQTT-2.2.1-3 1 fault: It takes no identifier.", f"  {first}"]
        wanted += [f"    {line}" for line in said[2:9]]
        wanted += ["W09 sec-2.2.1 1 fault: It isn't 0.", f"  {second}", *(f"    {line}" for line in said[4:11])]
        self.assertEqual(printed[1 : 1 + len(wanted)], [f"  {line}" for line in wanted])
        self.assertEqual((ElementTree.parse(report).findtext(".//failure") or "").splitlines(), wanted)

    def test_codes_of_one_event_share_what_happened(self) -> None:
        faults = [f"fault 2 {code} sec-1 decided 2 record 2 offset -" for code in ("W09", "S01")]
        faults += ["fault 3 E1A sec-1 decided 3 record 3 offset -"]
        events = {number: f"{number} record {number} moment 0 SENT PINGREQ size 2" for number in (1, 2, 3)}
        events[2] += "".join(f"\n  fault {code} sec-1 It is {code}." for code in ("W09", "S01"))
        events[3] += "\n  fault E1A sec-1 It is E1A."
        happened = ["1 record 1 moment 0 SENT PINGREQ size 2", "2 record 2 moment 0 SENT PINGREQ size 2", "  fault W09"]
        happened += ["  fault S01", "3 record 3 moment 0 SENT PINGREQ size 2", "  fault E1A"]
        excerpt = [f"      {line}" for line in happened]
        wanted = ["  E1A sec-1 1 fault: It is E1A.", f"    {faults[2]}", *excerpt]
        wanted += ["  S01 sec-1 1 fault: It is S01.", f"    {faults[1]}"]
        wanted += ["  W09 sec-1 1 fault: It is W09.", f"    {faults[0]}"]
        self.assertEqual(self.shown("a", faults, events), [*wanted, *excerpt])

    def test_moments_of_events_are_times_where_they_can_be(self) -> None:
        moments = {1: 1_795_694_645_000_001, 2: 1_795_694_646_500_000, 3: 7}
        events = {at: f"{at} record {at} moment {moment} SENT PINGREQ size 2" for at, moment in moments.items()}
        fault = "fault 2 S01 sec-1 decided 2 record 2 offset -"
        lines = self.shown("a", [fault], events)
        self.assertEqual(lines[-3:], ["      1 record 1 12:04:05.000001 SENT PINGREQ size 2",
                                      "      2 record 2 12:04:06.500000 SENT PINGREQ size 2",
                                      "      3 record 3 moment 7 SENT PINGREQ size 2"])
        self.assertEqual(lines[1], f"    {fault} at 2026-11-26 12:04:06.500000 UTC")

    def test_long_texts_and_lines_are_cut(self) -> None:
        fields = f'topic "{"t" * 70_000}" payload 3 user-property "a\\"b" ' + 'reason-string "r" ' * 40
        fault = "fault 1 S01 sec-1 decided 1 record 1 offset -"
        lines = self.shown("a", [fault], {1: f"1 record 1 SENT PUBLISH {fields}"})
        beginning = f'      1 record 1 SENT PUBLISH topic "{"t" * 60}.." payload 3 user-property "a\\"b" reason-string'
        self.assertTrue(lines[-1].startswith(beginning), lines[-1])
        self.assertTrue(lines[-1].endswith(" ..") and len(lines[-1]) < 340)

    @needs_why
    def test_the_values_that_decide(self) -> None:
        """The limit that a packet breaks is beside it, if the packet that announced it is."""
        printed = self.judged(TOP / "examples/sessions/client-large-packet.log", program=judge_program())[1]
        self.assertRegex(printed, r"RECV CONNACK size 18 code 0x00 .*maximum-packet-size 100\b")
        self.assertIn("SENT PUBLISH size 214 ", printed)
        self.assertEqual(printed.count("A packet isn't larger than the peer's Maximum Packet Size."), 1)
        report = self.folder / "report.xml"
        numbers = {"large-packet": "214 bytes, at most 100", "qos": "QoS 2, at most 1", "flood": "6 in flight, at most 5"}
        for name, words in ((name, f"because of event 3: {said} allowed") for name, said in numbers.items()):
            log = TOP / f"examples/sessions/client-{name}.log"
            printed = self.judged(log, "--junit", report, program=judge_program())[1].splitlines()
            place = printed.index(f"      {words}")  # under the fault's line
            self.assertTrue(printed[place - 1].startswith("    fault ") and " record " in printed[place + 1])
            self.assertIn(f"\n    {words}\n", ElementTree.parse(report).findtext(".//failure") or "")

    @needs_why
    def test_limits_that_are_announced_far_away(self) -> None:
        """That of the fault's connection holds, and what holds without one."""
        def sent(number: int) -> tuple[int, bytes]:
            return 2, bytes.fromhex("3207000161") + number.to_bytes(2, "big") + b"\0x"

        pings = [(2, b"\xc0\0"), (3, b"\xd0\0")] * 50
        limits = [(3, bytes.fromhex(f"2006000003 2100{limit:02x}")) for limit in (1, 2)]
        alias = (2, bytes.fromhex("300900016103230007") + b"xx")
        for records, words in (
            ([(2, CONNECT), limits[0], (4, b""), (1, b""), (2, CONNECT), limits[1], *pings, *map(sent, (1, 2, 3))],
             "because of event 7: 3 in flight, at most 2 allowed"),
            ([(2, CONNECT), (3, bytes.fromhex("2003000000")), *pings, alias],
             "Topic Alias 7, at most 0 allowed by default"),
        ):
            (self.logs / "a.log").write_bytes(log_of((1, b""), *records, (4, b"")))
            for option in ("--json", "--html", "--most"):
                place = {"--json": [], "--html": [self.folder / "page.html"], "--most": ["0"]}[option]
                printed = self.judged(self.logs, option, *place, program=judge_program())[1]
                self.assertEqual(printed.count(f"      {words}\n"), option != "--json", printed)

    def test_what_to_ask_next(self) -> None:
        log = TOP / "examples/identifier-in-use.log"
        line = next(line for line in self.judged(log, program=judge_program())[1].splitlines() if "explain" in line)
        self.assertTrue(line.startswith("what breaks S01, and what to change: "))
        answer = subprocess.run(line.partition("change: ")[2], shell=True, capture_output=True, text=True)
        self.assertEqual(answer.returncode, 0)
        self.assertIn("Packet Identifier", answer.stdout)
        self.assertNotIn("explain", self.judged(TOP / "examples/pass.log", program=judge_program())[1])

    def test_the_advice_on_what_is_sent_again(self) -> None:
        answer = subprocess.run([judge_program(), "explain", "S01"], capture_output=True, text=True)
        client, server = " ".join(answer.stdout.split()).partition("In a client:")[2].split("In a server:")
        self.assertIn("A PUBLISH that is sent again needs DUP 1", client)
        self.assertIn("What is sent again to a resumed session needs DUP 1", server)
        page = " ".join((TOP / "docs/STATEMENTS.md").read_text().split())
        self.assertIn("With DUP 0 it can't be told from a new one, so it is reported as S01: then its Packet Identifier"
                      " is right, and DUP is wrong.", page)

    def on_a_terminal(self, **variables: str) -> str:
        """What is written to a terminal."""
        here, there = pty.openpty()
        environment = {name: value for name, value in os.environ.items() if name not in ("NO_COLOR", "TERM")}
        with open(there, "w") as terminal:
            subprocess.run(self.command(), stdout=terminal, stderr=subprocess.DEVNULL, timeout=PATIENCE,
                           env=environment | {"TERM": "xterm"} | variables)
        return all_of(here).replace("\r\n", "\n")

    def test_colours_on_a_terminal(self) -> None:
        self.put(a=FAIL)
        plain = self.judged()[1]
        coloured = self.on_a_terminal()
        wanted = [f"\x1b[31mfail\x1b[0m {self.logs}/a.log", "  \x1b[1mS01\x1b[0m MQTT-2.2.1-3 1 fault"]
        wanted += ["  \x1b[31m  fault 5\x1b[0m S01 MQTT-2.2.1-3 decided 5 record 5 offset -"]
        self.assertEqual(coloured.splitlines()[:3], wanted)
        self.assertEqual(re.sub(r"\x1b\[\d+m", "", coloured), plain)
        self.assertNotIn("\x1b", plain)
        for variables in ({"NO_COLOR": "1"}, {"TERM": "dumb"}, {"TERM": ""}):
            self.assertEqual(self.on_a_terminal(**variables), plain)
        self.assertEqual(self.on_a_terminal(NO_COLOR=""), coloured)  # it is as if it weren't set

    def test_names_with_characters_that_a_terminal_obeys(self) -> None:
        names = {b"a\x1b[31m\x07.log": r"a\x1b[31m\x07.log", "b\u009b\u202e.log".encode(): r"b\x9b\u202e.log",
                 b"c\nfail.log": r"c\nfail.log", b"d\xff.log": r"d\xff.log", "e\u00e9.log".encode(): "e\u00e9.log"}
        for name in names:
            Path(os.fsdecode(os.path.join(os.fsencode(self.logs), name))).write_text(LOG + FAIL)
        for printed in (self.on_a_terminal(NO_COLOR="1"), self.judged()[1]):
            said = [line for line in printed.splitlines() if line.startswith("fail ")]
            self.assertEqual(sorted(said), sorted(f"fail {self.logs}/{name}" for name in names.values()))

    def test_files_of_a_folder_that_are_no_logs(self) -> None:
        self.put(a=PASS)
        (self.logs / "mosquitto.log").write_text("1700000000: mosquitto starting\npass 4 events\n0\n")
        status, printed, _ = self.judged()
        wanted = ["left out: 1 file of the folders that don't begin with MQTR"]
        wanted += ["1 log: 1 pass, 0 fail, 0 refused, 0 failed"]
        self.assertEqual((status, printed.splitlines()[-2:]), (0, wanted))
        status, printed, _ = self.judged(self.logs / "mosquitto.log")  # one that is named is judged
        self.assertEqual((status, printed.splitlines()), (0, ["", wanted[-1]]))

    def test_files_that_are_named_and_are_no_logs(self) -> None:
        self.program.write_text("#!/bin/sh\necho refused 1 Header at 0\necho mqjudge: it is a file >&2\nexit 2\n")
        others = {b"\xd4\xc3\xb2\xa1": "it is a capture: recorders/from-capture makes logs of it"}
        others |= {b"\x0a\x0d\x0d\x0a": others[b"\xd4\xc3\xb2\xa1"]}
        others |= {b"\x1f\x8b\x08\0": "it is compressed by gzip: unpack it first"}
        for content, note in others.items():
            path = self.logs / "other"
            path.write_bytes(content)
            wanted = [f"refused {path}", "  refused 1 Header at 0", f"  {note}"]
            self.assertEqual(self.judged(path)[1].splitlines()[:3], wanted)

    def test_names_that_are_no_text(self) -> None:
        for name in (b"\xff\xfe.log", b"line\nend.log", b"\x1b[31m.log", b"-.log", b"&<>\".log"):
            Path(os.fsdecode(os.path.join(os.fsencode(self.logs), name))).write_text(LOG + FAIL)
        report = self.folder / "report.xml"
        self.assertEqual(self.judged(self.logs, "--junit", report)[0], 1)
        self.assertEqual(len([*ElementTree.parse(report).iter("testcase")]), 5)

    def test_progress_on_a_terminal(self) -> None:
        self.put(a=PASS, b=FAIL, c=PASS)
        here, there = pty.openpty()
        with open(there, "w") as terminal:
            answer = subprocess.run(self.command(), stdout=subprocess.PIPE, stderr=terminal, timeout=PATIENCE)
        shown = all_of(here)
        self.assertEqual(answer.returncode, 1)
        wanted = ("", "1 of 3 logs", "", "2 of 3 logs", "")
        self.assertEqual(shown.split("\r")[1:], [f"{line}\x1b[K" for line in wanted])
        self.assertNotIn("of 3 logs", self.judged()[2])


class Reports(Case):
    def test_junit(self) -> None:
        self.put(a=PASS, b=FAIL, c=REFUSED, d=BROKEN)
        report = self.folder / "report.xml"
        self.assertEqual(self.judged(self.logs, "--junit", report)[0], 4)
        (suite,) = ElementTree.parse(report).getroot()
        counts = {name: suite.get(name) for name in ("tests", "failures", "errors", "skipped")}
        self.assertEqual(counts, {"tests": "4", "failures": "1", "errors": "2", "skipped": "0"})
        said = [[(part.tag, part.get("type"), part.get("message"), part.text) for part in case]
                for case in suite.findall("testcase")]
        first, second = FAIL.splitlines()[:2]
        faults = f"S01 MQTT-2.2.1-3 1 fault\n  {first}\nW09 sec-2.2.1 1 fault\n  {second}"
        refused, broken = REFUSED.splitlines()[0], BROKEN.splitlines()[0]
        self.assertEqual(
            said,
            [
                [],
                [("failure", "fail", "2 faults: S01, W09", faults)],
                [("error", "refused", refused, refused)],
                [("error", "failed", broken, broken)],
            ],
        )
        self.assertEqual(suite.findtext("system-out"), "4 logs: 1 pass, 1 fail, 1 refused, 1 failed")
        self.assertEqual([case.get("name") for case in suite.findall("testcase")], ["a.log", "b.log", "c.log", "d.log"])


class StandardInput(Case):
    def given(self, log: bytes, *words: object) -> tuple[int, list[str]]:
        """The status, and the lines that are printed, where a log comes through a pipe."""
        answer = subprocess.run(self.command(*words, program=judge_program()), input=log, capture_output=True)
        self.assertEqual(answer.stderr, b"")
        return answer.returncode, answer.stdout.decode().splitlines()

    def test_a_log(self) -> None:
        faulty = (TOP / "examples/identifier-in-use.log").read_bytes()
        status, printed = self.given(faulty, "-")
        self.assertEqual((status, printed[0]), (1, "fail -"))
        self.assertEqual(printed[1:], self.given(b"", TOP / "examples/identifier-in-use.log")[1][1:])
        self.assertEqual(self.given((TOP / "examples/pass.log").read_bytes(), "-")[0], 0)
        known = self.folder / "known"
        known.write_text("- S01 1\n")
        self.assertEqual(self.given(faulty, "-", "--expect", known)[0], 0)

    def test_it_ends_inside_a_record_or_is_none(self) -> None:
        status, printed = self.given((TOP / "examples/identifier-in-use.log").read_bytes()[:-1], "-")
        self.assertEqual((status, printed[0]), (1, "fail -"))
        self.assertIn("it ends inside a record", "".join(printed))
        self.assertEqual(self.given(b"", "-")[0], 2)

    def test_beside_others_and_a_file_of_that_name(self) -> None:
        (self.logs / "-").write_bytes((TOP / "examples/pass.log").read_bytes())
        answer = subprocess.run(self.command("./-", "--json", program=judge_program()), cwd=self.logs,
                                stdin=subprocess.DEVNULL, capture_output=True, text=True)
        self.assertEqual((answer.returncode, json.loads(answer.stdout)["verdict"]), (0, "pass"))
        faulty = (TOP / "examples/identifier-in-use.log").read_bytes()
        status, printed = self.given(faulty, "-", TOP / "examples/pass.log", "-")
        self.assertEqual((status, printed[-1]), (1, "2 logs: 1 pass, 1 fail, 0 refused, 0 failed"))

    def test_names_that_are_not_utf_8(self) -> None:
        for name, log in ((b"a\xff.log", "identifier-in-use.log"), (b"b\xfe.log", "pass.log")):
            with open(os.path.join(os.fsencode(self.logs), name), "wb") as file:
                file.write((TOP / "examples" / log).read_bytes())
        page = self.folder / "page.html"
        status, printed = self.given(b"", self.logs, "--html", page)
        self.assertEqual((status, printed[0]), (1, rf"fail {self.logs}/a\xff.log"))
        self.assertIn("      5 record 5 SENT PUBLISH size 9 qos 1 dup 0 id 1 retain 0 topic \"a\" payload 1", printed)
        self.assertEqual(printed[-1], "2 logs: 1 pass, 1 fail, 0 refused, 0 failed")


class Lines(Case):
    """`--json`: a line for each log."""

    def lines(self, *words: object, program: object = None) -> list[dict[str, object]]:
        answer = self.judged(*words, "--json", program=program)
        self.said = answer[2].splitlines()
        return [json.loads(line) for line in answer[1].splitlines()]

    def test_each_log_has_one(self) -> None:
        self.put(a=PASS, b=FAIL, c=REFUSED, d=BROKEN)
        first = {"position": 5, "code": "S01", "citation": "MQTT-2.2.1-3", "decided": 5, "record": 5, "offset": None}
        second = {"position": 7, "code": "W09", "citation": "sec-2.2.1", "decided": 7, "record": 6, "offset": 2}
        wanted = [{"log": f"{self.logs}/a.log", "verdict": "pass", "events": 3, "faults": []},
                  {"log": f"{self.logs}/b.log", "verdict": "fail", "events": 9, "faults": [first, second]},
                  {"log": f"{self.logs}/c.log", "verdict": "refused", "refused": 7, "name": "Nested", "at": 13},
                  {"log": f"{self.logs}/d.log", "verdict": "failed", "failed": "mqjudge: read failed"}]
        self.assertEqual(self.lines(self.logs), wanted)
        self.assertEqual(self.said, ["4 logs: 1 pass, 1 fail, 1 refused, 1 failed"])
        ignored = self.lines(self.logs, "--ignore", "W09,S01", "--min-events", "5", "--most", "0")
        self.assertEqual([line["verdict"] for line in ignored], ["too short", "pass", "refused", "failed"])
        self.assertEqual(ignored[1]["faults"], [fault | {"ignored": "--ignore"} for fault in (first, second)])
        self.assertEqual(ignored[1]["ignored"], ["S01 1 fault (--ignore)", "W09 1 fault (--ignore)"])

    def test_of_the_judge_itself(self) -> None:
        (self.logs / "a.log").write_bytes(log_of((1, b""), (2, HELLO), (4, b"")))
        (line,) = self.lines(self.logs, program=judge_program())
        self.assertEqual((line["end"], line["has-rest"], line["events"]), ("client", False, 4))
        self.assertTrue(line["notes"][0].startswith("the client begins TLS"))
        self.assertEqual(self.said[0], "no REST in 1 of 1 log: missing answers aren't judged there")
        log = TOP / "examples/sessions/server-killed.log"
        why = ["--why"] if says_why() else []
        answer = subprocess.run([judge_program(), "check", *why, "--json", str(log)], capture_output=True, text=True)
        (line,) = self.lines(log, program=judge_program())
        self.assertEqual(line["faults"], json.loads(answer.stdout)["faults"])

    def test_not_beside_annotations(self) -> None:
        self.put(a=PASS)
        self.assertEqual(self.judged(self.logs, "--json", "--github")[:2], (3, ""))


class Running(Case):
    def test_as_many_at_a_time_as_are_wanted(self) -> None:
        """Each call waits for the three others."""
        self.program.write_text(
            f'#!/bin/sh\ncd {self.folder}\ntouch began.$$\n'
            "for turn in $(seq 600)\n"
            "do test $(ls began.* | wc -l) = 4 && echo pass 1 events && exit 0; sleep 0.05; done\nexit 4\n"
        )
        self.put(a=PASS, b=PASS, c=PASS, d=PASS)
        self.assertEqual(self.judged(self.logs, "--jobs", "4")[0], 0)

    def test_an_interrupt_ends_it(self) -> None:
        self.program.write_text(f"#!/bin/sh\ntouch {self.folder}/began\nexec sleep 60\n")
        self.put(**{f"log{number}": PASS for number in range(100)})
        reports = [self.folder / name for name in ("report.xml", "page.html", "old.sarif")]
        reports[-1].write_text("old")
        options = zip(("--junit", "--html", "--sarif"), reports)
        words = self.command(self.logs, "--jobs", "2", *(word for option in options for word in option))
        before = signal.signal(signal.SIGINT, signal.default_int_handler)  # a shell's `&` has it ignored
        self.addCleanup(signal.signal, signal.SIGINT, before)
        pipe = subprocess.PIPE
        child = subprocess.Popen(words, stdout=pipe, stderr=pipe, text=True, start_new_session=True)
        with contextlib.ExitStack() as stack:
            stack.callback(lambda: child.poll() is None and os.killpg(child.pid, signal.SIGKILL))
            wait_until((self.folder / "began").exists, "the program runs")
            os.killpg(child.pid, signal.SIGINT)
            self.assertEqual(child.communicate(timeout=PATIENCE), ("", "judge: interrupted\n"))
        self.assertEqual(child.returncode, 4)
        self.assertEqual([path.name for path in reports if path.exists()], ["old.sarif"])
        self.assertEqual(reports[-1].read_text(), "old")


class Examples(unittest.TestCase):
    """The sessions that are kept as examples."""

    FOLDER = TOP / "examples/sessions"

    def test_each_has_the_report_that_the_judge_gives(self) -> None:
        """By the further statements too, if it knows them."""
        further = [ALL] if judges_further(judge_program()) else []
        for log in sorted(self.FOLDER.rglob("*.log")):
            with self.subTest(log.stem):
                words = [judge_program(), "check", *further, str(log)]
                answer = subprocess.run(words, capture_output=True, text=True)
                self.assertEqual(answer.stdout, log.with_suffix(".report").read_text())

    def test_each_has_a_sentence(self) -> None:
        page = (self.FOLDER / "README.md").read_text()
        names = {path.stem for path in self.FOLDER.iterdir() if path.is_file()} - {"README"}
        self.assertGreaterEqual(len(names), 12)
        for name in sorted(names):
            self.assertIn(f"`{name}`", page)
            self.assertTrue((self.FOLDER / f"{name}.log").is_file() and (self.FOLDER / f"{name}.report").is_file())

    def test_each_of_the_survey_is_shown_there(self) -> None:
        page, folder = (TOP / "docs/SURVEY.md").read_text(), self.FOLDER / "survey"
        names = {path.stem for path in folder.iterdir()}
        self.assertGreaterEqual(len(names), 20)
        for name in sorted(names):
            self.assertIn(f"<!-- survey events {name}.log ", page)
            self.assertTrue((folder / f"{name}.log").is_file() and (folder / f"{name}.report").is_file())
        self.assertLess(sum(path.stat().st_size for path in folder.iterdir()), 300_000)


if __name__ == "__main__":
    unittest.main()
