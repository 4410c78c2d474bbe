#!/usr/bin/env python3
"""Tests of recorders/judge by what is in logs: which of them count, what isn't MQTT, cut logs, and times.

usage: recorders/test_judged_logs.py
"""
from __future__ import annotations

import json
import os
import subprocess
import sys
import unittest
from pathlib import Path
from xml.etree import ElementTree

sys.dont_write_bytecode = True  # the repository stays as it is
sys.path.insert(0, str(Path(__file__).resolve().parent))
import log_format
from judge_calls import FAIL, LOG, PASS, REFUSED, Case, log_of
from judging.resends import Resends
from made_logs import KEEPING, RESUMED, packet, publish, reconnected, record, text
from testing import PATIENCE, TOP, judge_program, says_why


class Policies(Case):
    """What doesn't count for the status is counted in the last line."""

    def last(self, *words: object) -> tuple[int, str]:
        status, printed, _ = self.judged(self.logs, *words)
        return status, printed.splitlines()[-1]

    def baseline(self, *lines: str) -> Path:
        path = self.folder / "known"
        path.write_text("# known faults\n\n" + "".join(f"{self.logs}/{line}\n" for line in lines))
        return path

    def test_logs_that_are_too_short(self) -> None:
        self.put(a=PASS, b="pass 2 events\n0\n")
        passes = "2 logs: 2 pass (1 of them too short to say anything), 0 fail, 0 refused, 0 failed"
        self.assertEqual(self.last(), (0, passes))
        report = self.folder / "report.xml"
        short = "2 logs: 1 pass, 0 fail, 0 refused, 0 failed, 1 too short"
        self.assertEqual(self.last("--min-events", "3", "--junit", report), (1, short))
        (failure,) = ElementTree.parse(report).iter("failure")
        self.assertEqual(failure.get("message"), "too short to say anything: 2 events")
        self.assertEqual(self.last("--min-events", "2")[0], 0)

    def test_too_few_logs(self) -> None:
        self.put(a=PASS, b=FAIL)
        self.assertEqual([self.judged(self.logs, "--min-logs", count)[0] for count in (0, 1, 2)], [1, 1, 1])
        report = self.folder / "report.xml"
        status, printed, _ = self.judged(self.logs, "--min-logs", "3", "--junit", report, "--github")
        line = "too few logs: 2, where --min-logs asks for 3"
        self.assertEqual((status, printed.splitlines()[-2]), (4, line))
        self.assertIn(f"::error title=mqjudge::{line}", printed.splitlines())
        self.assertEqual([error.get("message") for error in ElementTree.parse(report).iter("error")], [line])
        counts = {name: ElementTree.parse(report).getroot().get(name) for name in ("tests", "errors", "failures")}
        self.assertEqual(counts, {"tests": "3", "errors": "1", "failures": "1"})
        self.assertEqual(self.judged(self.logs, "--min-logs", "-1")[0], 3)

    def test_codes_that_are_ignored(self) -> None:
        self.put(a=FAIL)
        ends = "0 refused, 0 failed; ignored: "
        self.assertEqual(self.last("--ignore", "w09"), (1, f"1 log: 0 pass, 1 fail, {ends}1 fault by --ignore"))
        report = self.folder / "report.xml"
        words = ("--ignore", "W09,S01", "--junit", report)
        self.assertEqual(self.last(*words), (0, f"1 log: 1 pass, 0 fail, {ends}2 faults by --ignore"))
        (skipped,) = ElementTree.parse(report).iter("skipped")
        self.assertEqual(skipped.get("message"), "S01 1 fault (--ignore); W09 1 fault (--ignore)")
        self.assertEqual(ElementTree.parse(report).getroot()[0].get("skipped"), "1")

    def test_refusals_that_are_allowed(self) -> None:
        self.put(a=REFUSED)
        self.assertEqual(self.last("--allow-refused", "13")[0], 2)
        wanted = "1 log: 1 pass, 0 fail, 0 refused, 0 failed; ignored: 1 refused log by --allow-refused"
        self.assertEqual(self.last("--allow-refused", "13,7"), (0, wanted))

    def test_only_new_faults_count(self) -> None:
        self.put(a=FAIL)
        for lines, status in ((["a.log S01 1", "a.log W09 1"], 0), (["a.log S01 1"], 1), (["b.log S01 1"], 1)):
            self.assertEqual(self.last("--expect", self.baseline(*lines))[0], status, lines)
        printed = self.judged(self.logs, "--expect", self.baseline("a.log S01 3", "a.log W09 1", "c.log S02 1"))[1]
        wanted = [f"gone: {self.logs}/a.log S01: 3 faults expected, 1 found"]
        wanted += [f"gone: {self.logs}/c.log S02: 1 fault expected, 0 found"]
        wanted += ["1 log: 1 pass, 0 fail, 0 refused, 0 failed; ignored: 2 faults by --expect"]
        self.assertEqual(printed.splitlines()[-3:], wanted)

    def test_names_of_logs(self) -> None:
        self.put(a=FAIL)
        inner = self.logs / "inner" / "b.log"
        inner.parent.mkdir()
        inner.write_text(LOG + FAIL)
        known, here = self.folder / "known", self.logs.parent
        spellings = ["{}", "logs/{}", "./logs/{}", "logs/./inner/../{}"]
        spellings += [f"{self.logs}/{{}}", f"{self.logs}//inner/../{{}}"]
        for named in (self.logs, "logs", "./logs", "logs/inner/.."):
            for spelling in spellings:
                names = [spelling.format(name) for name in ("a.log", "inner/b.log")]
                known.write_text("".join(f"{name} s01 1\n{name} w09 1\n" for name in names))
                words = self.command(named, "--expect", known)
                answer = subprocess.run(words, cwd=here, capture_output=True, text=True, timeout=PATIENCE)
                self.assertEqual((answer.returncode, "gone" in answer.stdout), (0, False), (named, spelling))
        known.write_text("b.log S01 1\nb.log W09 1\n")  # a file that is named has the name that it has in its folder
        self.assertEqual(self.judged(inner, "--expect", known)[0], 0)
        self.assertEqual(self.judged(self.logs, "--expect", known)[0], 1)

    def test_patterns_of_names(self) -> None:
        self.put(**{f"run{number}.client": FAIL for number in (1, 2)}, other=FAIL)
        known = self.folder / "known"
        for lines, status in (
            (["*.client.log S01 1", "*.client.log W09 1", "other.log S01 1", "other.log W09 1"], 0),
            (["logs/run[12].client.log S01 1", "*run?.client.log W09 1", "other.log S01 1", "other.log W09 1"], 0),
            (["*.client.log S01 1", "*.client.log W09 1"], 1),
            (["*.log S01 0", "*.log S01 1", "other.log S01 0", "*.log W09 1"], 0),  # the most that any line says
            (["*.LOG S01 1", "*.log W09 1"], 1),
        ):
            known.write_text("\n".join(lines))
            self.assertEqual(self.judged(self.logs, "--expect", known)[0], status, lines)
        known.write_text("*.log S01 1\n*.log W09 2\nrun3.* S02 1\n")
        gone = [line for line in self.judged(self.logs, "--expect", known)[1].splitlines() if line.startswith("gone")]
        wanted = ["gone: *.log W09: 2 faults expected, 1 found", "gone: run3.* S02: 1 fault expected, 0 found"]
        self.assertEqual(gone, wanted)

    def test_a_name_that_looks_like_a_pattern(self) -> None:
        self.put(**{"a[1]": FAIL})
        known = self.folder / "known"
        known.write_text("a[1].log S01 1\na[1].log W09 1\n")
        self.assertEqual(self.judged(self.logs, "--expect", known)[0], 0)

    def test_what_does_not_exist_is_misuse(self) -> None:
        self.put(a=FAIL)
        unknown = self.baseline("a.log X99 1")
        all_codes = "; there are W01, W09, S01, S02, E1A"
        refusals = "there is no refusal 99; there are 1 Header, 2 Version, 3 Role, "
        wanted = {
            ("--ignore", "XYZ"): f"--ignore: there is no statement XYZ{all_codes}",
            ("--ignore", "S1"): "--ignore: there is no statement S1; those with S are S01, S02",
            ("--ignore", "w09,s3"): "--ignore: there is no statement S3; those with S are S01, S02",
            ("--expect", unknown): f"--expect: {unknown}, line 3: there is no statement X99{all_codes}",
            ("--allow-refused", "99"): f"--allow-refused: {refusals}",
            ("--allow-refused", "x"): "--allow-refused: there is no refusal X; ",
        }
        report = self.folder / "report.xml"
        for words, why in wanted.items():
            status, printed, errors = self.judged(self.logs, *words, "--junit", report)
            self.assertEqual((status, printed), (3, ""))
            self.assertTrue(errors.splitlines()[-1].startswith(f"judge: {why}"), errors)
            self.assertFalse(report.exists())

    def test_the_statements_that_the_judge_has(self) -> None:
        log = TOP / "examples/identifier-in-use.log"
        words = (log, "--ignore", "s01", "--allow-refused", "12")
        self.assertEqual(self.judged(*words, program=judge_program())[0], 0)
        status, _, errors = self.judged(log, "--ignore", "S99", program=judge_program())
        self.assertEqual(status, 3)
        self.assertIn("those with S are S01, S02, S03, S04, S05, S06, S07", errors)

    def test_more_faults_than_are_known(self) -> None:
        fault = FAIL.splitlines()[0]
        self.put(a=f"{fault}\n{fault}\nfail 2 faults 9 events\n1\n")
        status, printed, _ = self.judged(self.logs, "--expect", self.baseline("a.log S01 1"))
        self.assertEqual(status, 1)
        self.assertIn("  S01: 2 faults, 1 of them expected", printed.splitlines())

    def test_misuse(self) -> None:
        self.put(a=PASS)
        bad = self.baseline("a.log S01")
        none = self.folder / "none"
        for words in (("--expect", bad), ("--expect", none), ("--ignore", "9"), ("--allow-refused", "x")):
            self.assertEqual(self.judged(self.logs, *words)[0], 3, words)


class Foreign(Case):
    """Logs of what isn't MQTT, by the judge itself. Records: OPEN 1, SENT 2, RECV 3, CLOSE 4."""

    CONNECT = bytes.fromhex("100e00044d5154540502003c0000 0161")
    HTTP = b"GET /status HTTP/1.1\r\nHost: broker\r\n\r\n"
    WEBSOCKET = b"GET /mqtt HTTP/1.1\r\nHost: broker\r\nUpgrade: WebSocket\r\nConnection: Upgrade\r\n\r\n"
    HELLO = bytes.fromhex("160301 00c8 01 0000c4 0303") + bytes(199)
    ALERT = bytes.fromhex("150303 0002 0246")
    SPEAKS = "the client speaks HTTP (GET /status HTTP/1.1), not MQTT"
    TLS = "the client begins TLS (a ClientHello), and no MQTT is recorded: "
    UPGRADES = "the client asks for a WebSocket (GET /mqtt HTTP/1.1), and no MQTT is recorded: "
    ANSWERS = "the server answers with TLS, not MQTT: "

    def lines(self, *records: tuple[int, bytes], is_server: bool = False) -> list[str]:
        """What is printed of a log, without the fault lines and the table."""
        (self.logs / "a.log").write_bytes(log_of(*records, is_server=is_server))
        printed = self.judged(self.logs, program=judge_program())[1]
        return [line for line in printed.partition("\n\n")[0].splitlines() if not line.startswith("    fault")]

    def test_they_are_named_in_words(self) -> None:
        for data, words in ((self.HTTP * 9, self.SPEAKS), (self.HELLO, self.TLS), (self.WEBSOCKET, self.UPGRADES)):
            first, second, *rest = self.lines((1, b""), (2, data), (4, b""))
            self.assertIn(first, (f"fail {self.logs}/a.log", f"pass {self.logs}/a.log"))
            self.assertTrue(second.startswith(f"  {words}"), second)
            self.assertNotIn("47", "".join(rest))
            self.assertNotIn("bytes", "".join(rest))
            first, second, *_ = self.lines((1, b""), (3, data), (4, b""), is_server=True)
            self.assertEqual((first, second.startswith(f"  {words}")), (f"pass {self.logs}/a.log", True))

    def test_they_come_in_pieces(self) -> None:
        pieces = [(2, self.WEBSOCKET[at : at + 1]) for at in range(40)] + [(2, self.WEBSOCKET[40:])]
        self.assertTrue(self.lines((1, b""), *pieces)[1].startswith(f"  {self.UPGRADES}"))

    def test_a_server_that_answers_otherwise(self) -> None:
        lines = self.lines((1, b""), (2, self.CONNECT), (3, self.ALERT), (4, b""))
        self.assertTrue(lines[1].startswith(f"  {self.ANSWERS}"), lines)
        lines = self.lines((1, b""), (2, self.CONNECT), (3, b"HTTP/1.1 400 Bad Request\r\n\r\n"), (4, b""))
        self.assertTrue(lines[1].startswith("  the server answers with HTTP (HTTP/1.1 400 Bad Request), not MQTT: "))

    def test_the_verdict_stays(self) -> None:
        (self.logs / "a.log").write_bytes(log_of((1, b""), (2, self.HELLO), (4, b"")))
        status, printed, _ = self.judged(self.logs, program=judge_program())
        self.assertEqual(status, 1)
        self.assertIn("    fault 2 W01 MQTT-2.1.3-1 decided 2 record 2 offset 0", printed)
        self.assertEqual(printed.splitlines()[-1], "1 log: 0 pass, 1 fail, 0 refused, 0 failed")
        self.assertNotIn("what to change", printed)

    def test_so_do_the_reports_in_place_of_advice(self) -> None:
        """One log breaks W01 in HTTP, one lets it pass, and another has MQTT that breaks S01."""
        (self.logs / "a.log").write_bytes(log_of((1, b""), (2, self.HTTP * 9), (4, b"")))
        (self.logs / "b.log").write_bytes(log_of((1, b""), (3, self.HTTP), (4, b""), is_server=True))
        (self.logs / "c.log").write_bytes((TOP / "examples/identifier-in-use.log").read_bytes())
        page, report = self.folder / "page.html", self.folder / "report.sarif"
        words = (self.logs, "--html", page, "--sarif", report, "--github")
        status, printed, _ = self.judged(*words, program=judge_program())
        self.assertEqual(status, 1)
        annotations = [line for line in printed.splitlines() if line.startswith("::")]
        self.assertEqual([line.partition(",title=")[2].split(": ")[0] for line in annotations],
                         [f"not MQTT::{self.SPEAKS}", "S01 MQTT-2.2.1-3::1 fault, the first at event 5",
                          f"not MQTT::{self.SPEAKS}"])
        self.assertEqual([line.split()[0] for line in annotations], ["::error", "::error", "::warning"])
        results = json.loads(report.read_text())["runs"][0]["results"]
        self.assertEqual([result["message"]["text"].partition(": ")[2] for result in results if
                          result["ruleId"] == "W01"], [self.SPEAKS] * 5)
        text = page.read_text()
        self.assertEqual(text.count(f"<p class=foreign>{self.SPEAKS[0].upper()}{self.SPEAKS[1:]}</p>"), 2)
        self.assertEqual((text.count("<article "), text.count("not MQTT</span>")), (1, 2))
        self.assertNotIn("47</mark> 45 54", text)
        self.assertNotIn("forgets the 0x02 of PUBREL", text)  # the advice on W01
        self.assertIn('<a class="code" href="#l1">W01</a>', text)
        self.assertIn("<section class=log id=l1 ", text)

    def test_mqtt_is_not_named(self) -> None:
        """Neither is what only contains such bytes, or what comes on a later connection, whose events are shown."""
        accepted = (3, bytes.fromhex("2003000000"))
        for records in (
            [(1, b""), (2, self.CONNECT), accepted, (2, b"\x30\x30\0\x01a\0" + self.HTTP), (4, b"")],
            [(1, b""), (2, self.CONNECT), accepted, (4, b""), (1, b""), (2, self.HELLO), (4, b"")],
        ):
            self.assertNotIn("not MQTT", "".join(self.lines(*records)))
        self.assertIn("BAD W01", "".join(self.lines(*records)))


class Rests(Case):
    def remark(self, **logs: bytes) -> list[str]:
        for path in self.logs.iterdir():
            path.unlink()
        for name, log in logs.items():
            (self.logs / f"{name}.log").write_bytes(log)
        status, printed, _ = self.judged(self.logs, program=judge_program())
        self.assertEqual(status, 0)
        return [line for line in printed.splitlines() if "REST" in line]

    def test_logs_without_one_are_counted(self) -> None:
        """A client that never acknowledges passes where no REST is recorded."""
        publish = (3, bytes.fromhex("3207000161000100 78".replace(" ", "")))
        session = [(1, b""), (2, Foreign.CONNECT), (3, bytes.fromhex("2003000000")), publish]
        silent, rested = log_of(*session), (TOP / "examples/pass.log").read_bytes()
        line = "no REST in {} of {}: missing answers aren't judged there"
        self.assertEqual(self.remark(a=silent), [line.format(1, "1 log")])
        self.assertEqual(self.remark(a=silent, b=rested, c=log_of(*session, version=1)), [line.format(2, "3 logs")])
        self.assertEqual(self.remark(a=rested), [])
        self.assertEqual(self.remark(a=log_of(*session[:3], (2, b"\xc0\0" * 3), (5, b""), version=1)), [])

    def test_one_before_the_connack_imposes_nothing(self) -> None:
        session = [(1, b""), (2, Foreign.CONNECT), (5, b"")]
        answered = [(4, b""), (1, b""), (2, Foreign.CONNECT), (3, bytes.fromhex("2003000000"))]
        self.assertEqual(len(self.remark(a=log_of(*session))), 1)
        self.assertEqual(len(self.remark(a=log_of(*session, *answered))), 1)
        self.assertEqual(self.remark(a=log_of(*session, *answered, (5, b""))), [])

    def test_long_bodies_are_passed_over(self) -> None:
        """Also a REST behind more bytes than are read at once, and bodies that look like one."""
        publish = (2, bytes.fromhex("30ffff1f 000161 00".replace(" ", "")) + b"\x05" * (0x7FFFF - 4))
        session = [(1, b""), (2, Foreign.CONNECT), (3, bytes.fromhex("2003000000")), publish]
        for version in (1, 2):
            self.assertEqual(len(self.remark(a=log_of(*session, version=version))), 1)
            self.assertEqual(self.remark(a=log_of(*session, (5, b""), version=version)), [])
        pings = [(2, b"\xc0\0")] * 50_000
        self.assertEqual(len(self.remark(a=log_of(*session[:3], *pings))), 1)
        self.assertEqual(self.remark(a=log_of(*session[:3], *pings, (5, b""))), [])

    def test_a_pipe_that_is_named(self) -> None:
        """It can be read once, so nothing is said of RESTs."""
        pipe = self.folder / "pipe"
        os.mkfifo(pipe)
        with subprocess.Popen(["sh", "-c", 'cat "$0" > "$1"', TOP / "examples/before-connack-new.log", pipe]):
            status, printed, _ = self.judged(pipe, program=judge_program())
        self.assertEqual((status, printed), (0, "\n1 log: 1 pass, 0 fail, 0 refused, 0 failed\n"))

    def test_what_is_not_judged_is_not_counted(self) -> None:
        (self.logs / "a.log").write_bytes(log_of((4, b"")))
        self.assertNotIn("REST", self.judged(self.logs, program=judge_program())[1])


class Cut(Case):
    """Logs that end inside a record, as a recorder may leave them that was killed. The judge itself judges them."""

    def test_they_are_judged_up_to_their_last_whole_record(self) -> None:
        log = (TOP / "examples/pass.log").read_bytes()
        self.cut_at(range(8, len(log)), log, [8, 13, 33, 43, 57, 66, 71, 76])

    def test_so_are_those_of_version_2(self) -> None:
        """With moments whose bytes would be kinds and lengths, if they were taken for such."""
        log = (TOP / "examples/pass.log").read_bytes()
        moments = (0, 0x0100000000040000, 0x0200000001030000, (1 << 64) - 1, 0x0500000000, 4, 1)
        made = log_format.VERSIONS[2].header(False, True)
        for record, moment in zip(log_format.records(log), moments, strict=True):
            made += log_format.VERSIONS[2].record(record.kind, record.body, moment)
        for sizes in (range(8, 49), range(49, 89), range(89, len(made))):
            self.cut_at(sizes, made, [8, 21, 49, 67, 89, 106, 119, 132])

    def cut_at(self, sizes: range, log: bytes, borders: list[int]) -> None:
        """Beginnings of these sizes, of a log that passes and has these places after its header and after each record."""
        for path in self.logs.iterdir():
            path.unlink()
        for size in sizes:
            (self.logs / f"{size:03}.log").write_bytes(log[:size])
        status, printed, _ = self.judged(program=judge_program())
        wanted = []
        for size in sorted(set(sizes) - set(borders)):
            whole = max(border for border in borders if border < size)
            note = f"  it ends inside a record: judged are its first {whole} bytes"
            wanted += [f"pass {self.logs}/{size:03}.log", f"  pass {borders.index(whole)} events", note]
        self.assertEqual(printed.splitlines()[: len(wanted)], wanted)
        short = sum(size < borders[3] for size in sizes)
        passed = f"{len(sizes)} pass" + (f" ({short} of them too short to say anything)" if short else "")
        last = f"{len(sizes)} logs: {passed}, 0 fail, 0 refused, 0 failed"
        self.assertEqual((status, printed.splitlines()[-1]), (0, last))

    def test_faults_before_the_cut_are_found(self) -> None:
        log = (TOP / "examples/identifier-in-use.log").read_bytes()
        (self.logs / "a.log").write_bytes(log[:-1])
        report = self.folder / "report.xml"
        status, printed, _ = self.judged(self.logs, "--junit", report, program=judge_program())
        self.assertEqual(status, 1)
        self.assertIn("S01", printed)
        self.assertIn("it ends inside a record", ElementTree.parse(report).findtext(".//failure") or "")

    def test_no_header_is_no_log(self) -> None:
        for header in (b"MQTR\x01\0\0\0", b"MQTR\x02\0\0\0"):
            for size in range(8):
                (self.logs / f"{size}.log").write_bytes(header[:size])
            status, printed, _ = self.judged(program=judge_program())
            self.assertEqual((status, printed.splitlines()[-1]), (2, "4 logs: 0 pass, 0 fail, 4 refused, 0 failed"))
            status, printed, _ = self.judged(*self.logs.iterdir(), program=judge_program())
            self.assertEqual((status, printed.splitlines()[-1]), (2, "8 logs: 0 pass, 0 fail, 8 refused, 0 failed"))


class Times(Case):
    """Logs of version 2, by what the stand-in shows of them."""

    FAULTS = {5: "fault 5 S01 MQTT-2.2.1-3 decided 5 record 5 offset -",
              7: "fault 7 W09 sec-2.2.1 decided 7 record 6 offset 2"}

    def times(self, moments: dict[int, int], *words: object) -> list[str]:
        """The fault lines that are printed of a log whose events have these moments."""
        (self.logs / "a.log").write_text(f"MQTR\x02\0\0\0\n{FAIL}")
        events = [f"{at} record {at} moment {moments.get(at, 0)} SENT PINGREQ size 2\n" for at in range(1, 10)]
        (self.logs / "a.log.show").write_text("".join(events))
        printed = self.judged(self.logs, *words)[1].splitlines()
        return [line.strip() for line in printed if line.strip().startswith("fault ")]

    def test_beside_each_fault_that_is_shown(self) -> None:
        first, second = self.FAULTS.values()
        wanted = [f"{first} at 2026-11-26 12:04:05.000001 UTC", f"{second} at 2026-11-26 12:04:06.500000 UTC"]
        moments = {5: 1_795_694_645_000_001, 7: 1_795_694_646_500_000}
        self.assertEqual(self.times(moments), wanted)
        self.assertEqual(self.times(moments, "--ignore", "S01,W09"), wanted)
        self.assertEqual(self.times(moments, "--most", "1"), wanted[:1])
        report = self.folder / "report.xml"
        self.times(moments, "--junit", report)
        self.assertIn(wanted[1], ElementTree.parse(report).findtext(".//failure") or "")

    def test_moments_that_are_no_times(self) -> None:
        first, second = self.FAULTS.values()
        for moment in (0, 1, 946_684_799_999_999, 4_102_444_800_000_000, 1_795_694_645_000_001_000, (1 << 64) - 1):
            self.assertEqual(self.times({5: moment, 7: moment}), [first, second])
        wanted = [f"{first} at 2000-01-01 00:00:00.000000 UTC", f"{second} at 2099-12-31 23:59:59.999999 UTC"]
        self.assertEqual(self.times({5: 946_684_800_000_000, 7: 4_102_444_799_999_999}), wanted)

    def test_a_program_that_shows_no_moments(self) -> None:
        (self.logs / "a.log").write_text(f"MQTR\x02\0\0\0\n{FAIL}")
        (self.logs / "a.log.show").write_text("".join(f"{at} record {at} SENT PINGREQ size 2\n" for at in range(1, 10)))
        self.assertNotIn("UTC", self.judged()[1])


@unittest.skipUnless(says_why(), "the program that judges doesn't know `check --why`")
class SentAgain(Case):
    """A PUBLISH under an identifier in use that looks like an earlier connection's, sent again with DUP 0."""

    FIRST = record(2, publish("a/b", 1))  # event 4 of its log; the next connection's first event after the CONNACK is 9
    HOLDER = "      because of event {}: it holds the identifier"
    SENTENCE = ("      This looks like the PUBLISH of event {} sent again: then its Packet Identifier is right, and DUP"
                " has to be 1 (section 3.3.1.1).")

    def said(self, made: bytes, *words: str) -> tuple[list[str], list[str]]:
        """The positions of the faults of S01, and the lines on PUBLISHes that are sent again, each with two before it."""
        (self.logs / "a.log").write_bytes(made)
        printed = self.judged(self.logs, *words, program=judge_program())[1].splitlines()
        faults = [line.split()[1] for line in printed if line.startswith("    fault ") and line.split()[2] == "S01"]
        return faults, [line for three in zip(printed, printed[1:], printed[2:]) for line in three
                        if "sent again" in three[2]]

    def repeated(self, position: int, at: int) -> list[str]:
        """The lines on the event at a position, which is sent again at another."""
        fault = f"    fault {at} S01 MQTT-2.2.1-3 decided {at} record {at} offset -"
        return [fault, self.HOLDER.format(position), self.SENTENCE.format(position)]

    def test_it_is_said_at_the_first(self) -> None:
        self.assertEqual(self.said(reconnected([self.FIRST], [self.FIRST])), (["9"], self.repeated(4, 9)))
        sent = [record(2, publish("x", 2)), record(2, publish("y", 2)), self.FIRST, record(2, publish("z", 3))]
        made = reconnected(sent, sent)
        self.assertEqual(self.said(made), (["5", "12", "13", "14", "15"], self.repeated(6, 14)))
        report = self.folder / "report.xml"
        self.said(made, "--junit", str(report))
        text_of = ElementTree.parse(report).findtext(".//failure") or ""
        self.assertEqual(text_of.count(self.SENTENCE.strip().format(6)), 1)

    def test_a_fault_that_is_not_listed(self) -> None:
        """What is around the first one is printed nevertheless. The other PUBLISH is far away."""
        pings = [record(2, packet(0xC0, b"")), record(3, packet(0xD0, b""))] * 300
        made = reconnected([self.FIRST, *pings], [self.FIRST])
        self.assertEqual(self.said(made, "--most", "0"),
                         ([], ["    and 1 more", self.HOLDER.format(4), self.SENTENCE.format(4)]))

    def test_what_differs_is_another_message(self) -> None:
        whole = publish("a/b", 1)
        again = {"topic": publish("a/c", 1), "QoS": b"\x34" + whole[1:], "size": packet(0x32, whole[2:] + b"x"),
                 "payload": whole[:-1] + b"y", "nothing": whole}
        for name, sent in again.items():
            lines = self.repeated(4, 9) if name == "nothing" else []
            self.assertEqual(self.said(reconnected([self.FIRST], [record(2, sent)])), (["9"], lines), name)
        example = self.judged(TOP / "examples/sessions/server-killed.log", program=judge_program())[1]
        self.assertIn("fault 12 S01", example)  # it has another payload
        self.assertNotIn("This looks like", example)

    def test_the_same_connection(self) -> None:
        self.assertEqual(self.said(reconnected([self.FIRST, self.FIRST], [])), (["5"], []))
        made = reconnected([self.FIRST], [self.FIRST, self.FIRST])
        self.assertEqual(self.said(made), (["9", "10"], self.repeated(4, 9)))

    def test_with_dup_there_is_no_fault(self) -> None:
        again = record(2, b"\x3a" + publish("a/b", 1)[1:])
        self.assertEqual(self.said(reconnected([self.FIRST], [again])), ([], []))
        resumed = [record(4), record(1), record(2, KEEPING), record(3, RESUMED)]
        made = reconnected([self.FIRST], [again, *resumed, self.FIRST])
        self.assertEqual(self.said(made), (["14"], self.repeated(4, 14)))

    def test_what_is_acknowledged_is_not_sent_again(self) -> None:
        """After a PUBREC the identifier is in use, but it is the PUBREL that is sent again."""
        exactly_once = record(2, b"\x34" + publish("a/b", 1)[1:])
        received = record(3, packet(0x50, b"\0\1"))
        self.assertEqual(self.said(reconnected([exactly_once], [exactly_once])), (["9"], self.repeated(4, 9)))
        self.assertEqual(self.said(reconnected([exactly_once, received], [exactly_once])), (["10"], []))

    def test_a_subscribe_that_waits(self) -> None:
        subscribe = record(2, packet(0x82, b"\0\1\0" + text("a") + b"\0"))
        answer = record(3, packet(0x90, b"\0\1\0\0"))
        self.assertEqual(self.said(reconnected([self.FIRST], [subscribe, self.FIRST])), (["9", "10"], []))
        self.assertEqual(self.said(reconnected([self.FIRST, subscribe], [self.FIRST])),
                         (["5", "10"], self.repeated(4, 10)))  # none waits on the next connection
        made = reconnected([self.FIRST], [subscribe, answer, self.FIRST])
        self.assertEqual(self.said(made), (["9", "11"], self.repeated(4, 11)))

    def test_topic_aliases(self) -> None:
        """A name is compared where an alias stands for it, if that was set on the connection."""
        alias, able = b"\x23\0\3", record(3, bytes.fromhex("2006010003220005"))
        short = record(2, publish("", 1, alias))
        for name, count in (("a/b", 1), ("a/c", 0)):
            for setter in (packet(0x30, text(name) + b"\3" + alias + b"x"), publish(name, 2, alias)):
                made = reconnected([self.FIRST], [record(2, setter), short]).replace(record(3, RESUMED), able)
                self.assertEqual(self.said(made), (["10"], self.repeated(4, 10) * count), name)
        made = reconnected([record(2, publish("a/b", 1, alias))], [short]).replace(record(3, RESUMED), able)
        self.assertEqual(self.said(made), (["9"], []))

    def test_very_long_names_are_not_compared(self) -> None:
        for size, count in ((900, 1), (2_000, 0)):
            sent = [record(2, publish("z" * size, 1))]
            self.assertEqual(self.said(reconnected(sent, sent)), (["9"], self.repeated(4, 9) * count))

    def test_only_what_the_program_names_is_compared(self) -> None:
        """The PUBLISH of event 3 is the same, and on an earlier connection."""
        sent = 'SENT PUBLISH size 11 qos 1 dup 0 id 1 retain 0 topic "a/b" payload 1'
        for holder, between, found in ((3, "RECV PINGRESP size 2", {7: 3}), (5, "RECV PINGRESP size 2", {}),
                                       (3, "RECV PUBREC size 4 id 1 code 0x00", {})):
            resends = Resends({7: holder})
            for place, event in enumerate(["OPEN", "REST", sent, between, "CLOSE", "OPEN", sent], 1):
                resends.take(f"{place} record {place} {event}")
            self.assertEqual((resends.found, resends.is_done), (found, True))

    def test_connections_that_are_not_accepted(self) -> None:
        """What is sent on one belongs to no session. What is sent before a CONNACK belongs to that of the CONNACK."""
        refused = [record(1), record(2, KEEPING), record(2, publish("a/c", 1)), record(3, bytes.fromhex("2003008700"))]
        for topic, count in (("a/b", 1), ("a/c", 0)):
            again = record(2, publish(topic, 1))
            made = reconnected([self.FIRST, record(4), *refused], [again])
            self.assertEqual(self.said(made), (["14"], self.repeated(4, 14) * count), topic)
        made = reconnected([self.FIRST], [], early=(self.FIRST,))
        fault = "    fault 8 S01 MQTT-2.2.1-3 decided 9 record 8 offset -"
        self.assertEqual(self.said(made), (["8"], [fault, self.HOLDER.format(4), self.SENTENCE.format(4)]))

    def test_a_server(self) -> None:
        begin, resume = [(1, b""), (3, KEEPING)], (2, RESUMED)
        first = (2, publish("a/b", 1))
        made = log_of(*begin, (2, bytes.fromhex("2003000000")), first, (4, b""), *begin, resume, first, (4, b""),
                      is_server=True)
        faults, lines = self.said(made)
        self.assertEqual((faults, lines[1:]), (["9"], [self.HOLDER.format(4), self.SENTENCE.format(4)]))


if __name__ == "__main__":
    unittest.main()
