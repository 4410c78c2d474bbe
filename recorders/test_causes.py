#!/usr/bin/env python3
"""Tests of what recorders/judge says of the events that faults conflict with, in all its reports.

The words are compared with those of the second opinion, bench/because.py, on worked logs and the suite. In the others a
program of a few lines stands for the judge, which says what is made up here; so what is wanted is written by hand.

usage: recorders/test_causes.py
"""
from __future__ import annotations

import json
import re
import sys
import unittest
from pathlib import Path
from xml.etree import ElementTree

sys.dont_write_bytecode = True  # the repository stays as it is
sys.path.insert(0, str(Path(__file__).resolve().parent))
from judge_calls import FAIL, PASS, Case, Told
from judging.causes import CASES, Evidence, read_because, said
from judging.excerpt import sentence_in, told
from sarif_schema import problems
from testing import TOP

sys.path.append(str(TOP / "bench"))
import because as second_opinion
import worked_because
from further_table import TIMES
from on_request import faults

OPENING = ["OPEN", 'SENT CONNECT size 15 client "me" clean-start 1 keep-alive 60',
           "RECV CONNACK size 8 code 0x00 session-present 0 receive-maximum 1"]
RESUMING = ["CLOSE", "OPEN", 'SENT CONNECT size 15 client "me" clean-start 0 keep-alive 60',
            "RECV CONNACK size 5 code 0x00 session-present 1"]
PINGS = ["SENT PINGREQ size 2", "RECV PINGRESP size 2"]


def publish(number: int) -> str:
    return f'SENT PUBLISH size 9 qos 1 dup 0 id {number} retain 0 topic "a" payload 1'


class Words(unittest.TestCase):
    def test_they_are_those_of_the_second_opinion(self) -> None:
        """Each comes in a worked log."""
        met = set()
        for name, log, *_ in worked_because.worked():
            for place, code in faults(log, TIMES):
                wanted = second_opinion.evidence(log, place, code)
                key, found = read_because(second_opinion.line(place, code, wanted)) or ((0, ""), Evidence(None))
                self.assertEqual((key, found), ((place, code), Evidence(wanted.because, wanted.numbers)), name)
                words = said(code, found)
                self.assertEqual(f" ({words})" if words else "", wanted.said(), name)
                met.add((code, found.because is not None))
        kept = {(code, is_event) for code, both in CASES.items() for is_event in (True, False) if both[not is_event]}
        wide = {("S07", False)}  # 65,536 messages in flight: that log is too long for this test
        self.assertEqual(kept - met, wide)
        own = {"C01", "C09", "C18", "C19", "B08", "V03", "V04", "V06", *(f"W{number:02}" for number in range(1, 22))}  # which say all
        self.assertEqual(met - kept, {(code, False) for code in own})
        self.assertEqual(said("S07", Evidence(None, (65_536, 65_535))), "65536 in flight, at most 65535 allowed by default")

    def test_what_is_not_known_is_not_said(self) -> None:
        """A statement that isn't known, numbers that are missing."""
        self.assertEqual(said("X99", Evidence(4, (1, 2))), "because of event 4")
        self.assertEqual(said("X99", Evidence(None)), "")
        self.assertEqual(said("S07", Evidence(4, (1,))), "because of event 4")
        self.assertEqual(said("S07", None), "")
        self.assertIsNone(read_because("because of event 4"))

    def test_words_that_the_program_shows_under_an_event(self) -> None:
        """They are no part of a sentence. They stay where the sentence is left out, unless they stand already too."""
        line = "  fault S07 MQTT-4.9.0-2 It keeps (all of) it. (because of event 3: 6 in flight, at most 5 allowed) (decided at event 9)"
        self.assertEqual(sentence_in(line), ("S07", "It keeps (all of) it."))
        self.assertEqual(told(line, {"S07"}),
                         "  fault S07 (because of event 3: 6 in flight, at most 5 allowed) (decided at event 9)")
        self.assertEqual(told(line, {"S07"}, is_explained=True), "  fault S07 (decided at event 9)")
        self.assertEqual(told(line, set(), is_explained=True), line)
        line = "  fault C16 sec-1 It is so. (Topic Alias 7 wasn't set on this connection)"
        self.assertEqual(told(line, {"C16"}, is_explained=True), "  fault C16")
        line = "  fault W09 sec-1 It isn't 0. (offset 2) (at 2026-11-26 12:04:05.000001 UTC)"
        self.assertEqual(told(line, {"W09"}, is_explained=True), "  fault W09 (offset 2)")
        self.assertEqual(sentence_in(line), ("W09", "It isn't 0."))


class Asked(Case):
    """How often the program is asked."""

    def checks(self) -> list[str]:
        return [call.replace(f"{self.logs}/", "") for call in self.calls() if call.startswith("check")]

    def test_once_where_there_are_no_faults(self) -> None:
        self.put(a=PASS, b="refused 7 Nested at 13\n2\n", c="mqjudge: read failed\n4\n")
        for option in ("--json", "--github"):
            self.judged(self.logs, option, "--jobs", "1")
        self.assertEqual(self.checks(), ["check a.log", "check b.log", "check c.log"] * 2)

    def test_once_more_where_there_are(self) -> None:
        self.tell([*OPENING, publish(1), publish(2)], [Told(5, "S07", "3 numbers 2 1")])
        self.assertEqual(self.judged()[0], 1)
        self.assertEqual(self.checks(), ["check a.log", "check --why a.log"])

    def test_a_program_that_cannot_say_it(self) -> None:
        """It isn't asked again, and nothing is said, in no report."""
        for name in "abc":
            self.tell([*OPENING, publish(1), publish(2)], [Told(5, "S07", "3 numbers 2 1")], name, is_old=True)
        page, sarif = self.folder / "page.html", self.folder / "report.sarif"
        status, printed, errors = self.judged(self.logs, "--jobs", "1", "--html", page, "--sarif", sarif, "--github")
        self.assertEqual((status, errors), (1, ""))
        self.assertEqual([call for call in self.checks() if "--why" in call], ["check --why a.log"])
        for text in (printed, sarif.read_text(), page.read_text().partition("<main")[2].partition("<script")[0]):
            self.assertNotIn("because", text.lower())
        self.assertEqual(printed.count("    fault 5 S07 "), 3)

    def test_what_is_said_of_another_log_is_left_out(self) -> None:
        """It may have changed between two readings. The verdict stands as it was given first."""
        path = self.tell([*OPENING, publish(1), publish(2)], [Told(5, "S07", "3 numbers 2 1")])
        why = path.with_name("a.log.why")
        for change in (("5 events", "6 events"), ("fault 5 S07", "fault 4 S07"), ("because 5", "because 4"), (why.read_text(), "")):
            before = why.read_text()
            why.write_text(before.replace(*change))
            status, printed, _ = self.judged()
            self.assertEqual((status, "\n      because of " in printed), (1, change[0] == "fault 5 S07"), change)
            self.assertIn("    fault 5 S07 sec-1 decided 5 record 5 offset -\n", printed)
            why.write_text(before)


class Printed(Case):
    def lines(self, events: list[str], faults: list[Told], *words: object) -> list[str]:
        """What is printed of a log, after its name, without what `print_verdict` puts before each line."""
        self.tell(events, faults)
        report = self.folder / "report.xml"
        printed = self.judged(self.logs, "--junit", report, *words)[1].partition("\n\n")[0].splitlines()[1:]
        lines = [line[2:] for line in printed]
        self.assertEqual((ElementTree.parse(report).findtext(".//failure") or "").splitlines(), lines)
        return lines

    def test_under_each_fault(self) -> None:
        events = [*OPENING, *(publish(number) for number in (1, 2, 3))]
        faults = [Told(5, "S07", "3 numbers 2 1"), Told(6, "S07", "3 numbers 3 1")]
        causes = [f"    because of event 3: {number} in flight, at most 1 allowed" for number in (2, 3)]
        first, second = (f"  {fault.line}" for fault in faults)
        head, shown = "S07 sec-1 2 faults: It is so.", f"    3 record 3 {events[2]}"
        lines = self.lines(events, faults)
        self.assertEqual(lines[:5], [head, first, causes[0], second, causes[1]])
        self.assertEqual(lines[5], shown)  # which is near, so it isn't shown twice
        self.assertEqual(lines.count(shown), 1)
        self.assertEqual(self.lines(events, faults, "--most", "1")[:4], [head, first, causes[0], "  and 1 more"])
        self.assertEqual(self.lines(events, faults, "--most", "0")[:3], [head, "  and 2 more", causes[0]])

    def test_it_is_said_once(self) -> None:
        """Under a fault's line, or if it has none, where its event is shown."""
        events = [*OPENING, *(publish(number) for number in (1, 2, 3))]
        faults = [Told(5, "S07", "3 numbers 2 1"), Told(6, "S07", "3 numbers 3 1")]
        first, event, second = "      fault S07", f"    6 record 6 {events[5]}", "      fault S07"
        self.assertEqual(self.lines(events, faults)[-3:], [first, event, second])
        second += " (because of event 3: 3 in flight, at most 1 allowed)"
        self.assertEqual(self.lines(events, faults, "--most", "1")[-3:], [first, event, second])

    def test_where_there_is_no_event(self) -> None:
        faults = [Told(4, "E1A", "-"), Told(5, "W09", "-"), Told(6, "C16", "- numbers 7")]
        lines = self.lines([*OPENING, *PINGS, *PINGS], faults)
        self.assertEqual([line for line in lines if "this " in line],
                         ["    Topic Alias 7 wasn't set on this connection", "    never asked for in this session"])

    def test_an_event_far_away_is_shown_too(self) -> None:
        """With a mark for the events between, if there are any."""
        for between, mark in ((500, ["    .."]), (1, ["    .."]), (0, [])):
            events = [*OPENING, *PINGS[:1] * between, PINGS[0], publish(1), publish(2)]
            at = between + 6
            wanted = [f"    3 record 3 {events[2]}", *mark]
            wanted += [f"    {place} record {place} {events[place - 1]}" for place in (at - 2, at - 1, at)]
            lines = self.lines(events, [Told(at, "S07", "3 numbers 2 1")])
            self.assertEqual(lines[3:], [*wanted, "      fault S07"], between)

    def test_an_event_that_comes_later(self) -> None:
        events = [*OPENING, "RECV PUBLISH size 9 qos 1 dup 0 id 1", *PINGS * 3, "REST", "CLOSE"]
        lines = self.lines(events, [Told(4, "E1R", "11", decided=11)])
        self.assertEqual(lines[2], "    because of event 11: the REST, with no answer before it")
        self.assertEqual(lines[-3:], [f"    6 record 6 {events[5]}", "    ..", "    11 record 11 REST"])

    def test_codes_of_one_event_show_what_both_conflict_with(self) -> None:
        events = [*OPENING, publish(1), *PINGS * 5, publish(2), publish(1)]
        faults = [Told(16, "S01", "4"), Told(16, "S07", "3 numbers 3 1")]
        lines = self.lines(events, faults)
        self.assertIn("    because of event 4: it holds the identifier", lines)
        place = lines.index(f"    3 record 3 {events[2]}")
        self.assertEqual(lines[place + 1 : place + 4],
                         [f"    4 record 4 {events[3]}", "    ..", f"    14 record 14 {events[13]}"])


class Reports(Case):
    """Reports for programs, of a log with faults that have an event, numbers, both, or neither."""

    EVENTS = [*OPENING, publish(1), publish(1), *PINGS, 'SENT PUBACK size 4 id 9 code 0x00', "SENT BAD W09 offset 2"]
    FAULTS = [Told(5, "S01", "4"), Told(5, "S07", "3 numbers 2 1"), Told(8, "E1A", "-"), Told(9, "W09", "-")]
    SAID = ["because of event 4: it holds the identifier",
            "because of event 3: 2 in flight, at most 1 allowed", "never asked for in this session", ""]

    def setUp(self) -> None:
        super().setUp()
        self.tell(self.EVENTS, self.FAULTS)

    def test_json(self) -> None:
        (line,) = (json.loads(line) for line in self.judged(self.logs, "--json")[1].splitlines())
        found = [(fault["position"], fault["code"], fault["because"], fault["numbers"]) for fault in line["faults"]]
        self.assertEqual(found, [(5, "S01", 4, []), (5, "S07", 3, [2, 1]), (8, "E1A", None, []), (9, "W09", None, [])])
        self.put(b=FAIL)  # of which it isn't known
        lines = [json.loads(line) for line in self.judged(self.logs, "--json")[1].splitlines()]
        self.assertEqual([{"because", "numbers"} & fault.keys() for fault in lines[1]["faults"]], [set(), set()])

    def test_sarif(self) -> None:
        place = self.folder / "report.sarif"
        self.judged(self.logs, "--sarif", place)
        report = json.loads(place.read_text())
        self.assertEqual(problems(report), [])
        results = report["runs"][0]["results"]
        texts = [result["message"]["text"].partition("It is so.")[2] for result in results]
        self.assertEqual(texts, [f" {cause[0].upper()}{cause[1:]}." if cause else "" for cause in self.SAID])
        related = [[(place["message"]["text"], place["logicalLocations"], place["physicalLocation"]) for place in
                    result.get("relatedLocations", [])] for result in results]
        own = results[0]["locations"][0]["physicalLocation"]
        self.assertEqual(related, [[(self.SAID[0], [{"fullyQualifiedName": "event 4", "kind": "event"}], own)],
                                   [(self.SAID[1], [{"fullyQualifiedName": "event 3", "kind": "event"}], own)], [], []])
        self.assertEqual([(result["properties"]["because"], result["properties"]["numbers"]) for result in results],
                         [(4, []), (3, [2, 1]), (None, []), (None, [])])

    def test_annotations(self) -> None:
        lines = [line for line in self.judged(self.logs, "--github")[1].splitlines() if line.startswith("::")]
        found = {line.partition("title=")[2][:3]: line.partition("It is so.")[2].partition("%0A")[0] for line in lines}
        self.assertEqual(found, {"S01": " Because of event 4: it holds the identifier.",
                                 "S07": " Because of event 3: 2 in flight, at most 1 allowed.",
                                 "E1A": " Never asked for in this session.", "W09": ""})

    def test_ignored_faults_have_it_too(self) -> None:
        (line,) = (json.loads(line) for line in self.judged(self.logs, "--json", "--ignore", "S01")[1].splitlines())
        self.assertEqual(line["faults"][0]["because"], 4)


class Pages(Case):
    """The page of `--html`."""

    def page(self, events: list[str], faults: list[Told], is_old: bool = False) -> str:
        self.tell(events, faults, is_old=is_old)
        place = self.folder / "page.html"
        self.assertEqual(self.judged(self.logs, "--html", place)[0], 1)
        return place.read_text()

    @staticmethod
    def arrows(page: str) -> list[str]:
        """Which events lines lead to from faults that conflict with them."""
        return re.findall(r'<g class=b data-t=(\S+) role=img>', page)

    def test_a_card_says_the_event_and_the_numbers(self) -> None:
        page = self.page([*OPENING, publish(1), publish(2)], [Told(5, "S07", "3 numbers 2 1")])
        self.assertIn("<article id=f1-5-S07 data-a=e1-3>", page)
        self.assertIn("<dt>Because<dd><a href=#e1-3>event 3</a> (CONNACK): <b>2</b> in flight, at most <b>1</b> allowed<",
                      page)
        self.assertIn('<g class=b data-t=e1-3 role=img><title>S07 at event 5, because of event 3</title><path ', page)
        page = self.page([*OPENING, publish(1), publish(2)], [Told(5, "S07", "3 numbers 2 1")], is_old=True)
        self.assertEqual((page.count("<dt>Because"), page.count("<g ")), (0, 0))

    def test_where_there_is_no_event(self) -> None:
        faults = [Told(4, "E1A", "-"), Told(5, "S07", "- numbers 65536 65535"), Told(6, "C18", "-")]
        page = self.page([*OPENING, *PINGS, *PINGS], faults)
        self.assertIn("<dt>Because<dd>never asked for in this session<", page)
        self.assertIn("<dt>Because<dd><b>65,536</b> in flight, at most <b>65,535</b> allowed by default<", page)
        self.assertEqual((page.count("<dt>Because"), page.count(" data-a="), page.count("<g ")), (2, 0, 0))

    def test_an_event_that_is_far_away_is_drawn(self) -> None:
        """Also on an earlier connection, of which the beginning is drawn too; what is between is one line."""
        events = [*OPENING, *PINGS * 20, publish(1), *PINGS * 200, *RESUMING, *PINGS * 200, publish(1), *PINGS * 20]
        first, last = events.index(publish(1)) + 1, len(events) - 40
        self.assertEqual(events[last - 1], publish(1))
        page = self.page(events, [Told(last, "S01", str(first))])
        self.assertIn(f"<dt>Because<dd><a href=#e1-{first}>event {first}</a> (PUBLISH) on connection 1: it holds the"
                      " identifier<", page)
        charts = re.sub(r"<svg class=fold.*?</svg>(?=<line x2=100% /><text><a)", "", page)  # without what is folded
        for place in (1, 2, 3, first, last):
            self.assertIn(f"<svg id=e1-{place} ", charts)
        self.assertNotIn("<svg id=e1-20 ", charts)
        self.assertIn(f"<title>S01 at event {last}, because of event {first}</title>", page)
        page = self.page([*OPENING, *PINGS * 400, publish(1), publish(2)], [Told(805, "S07", "3 numbers 2 1")])
        self.assertIn("<a href=#e1-3>event 3</a> (CONNACK): ", page)
        self.assertIn("<svg id=e1-3 ", page)

    def test_events_without_an_identifier_in_common(self) -> None:
        """Nothing but the evidence says that this one belongs to the fault."""
        events = [*OPENING, *PINGS * 100, "SENT DISCONNECT size 2 code 0x00", *PINGS * 100, *PINGS * 200]
        page = self.page(events, [Told(len(events) - 100, "C11", "204")])
        self.assertIn("<dt>Because<dd><a href=#e1-204>event 204</a>: the DISCONNECT<", page)
        self.assertIn("<svg id=e1-204 ", page)

    def test_a_run_has_the_numbers_of_each(self) -> None:
        events = [*OPENING, *(publish(number) for number in (1, 2, 3, 4))]
        page = self.page(events, [Told(4 + at, "S07", f"3 numbers {1 + at} 1") for at in (1, 2, 3)])
        self.assertEqual(page.count("<article "), 1)
        for at in (1, 2, 3):
            self.assertIn(f", {1 + at} in flight, at most 1 allowed</span>", page)
            self.assertIn(f"id=f1-{4 + at}-S07 data-a=e1-3>", page)
        self.assertEqual(len(self.arrows(page)), 1)  # one for all
        self.assertIn("<title>S07 at event 5, S07 at event 6, S07 at event 7, because of event 3</title>", page)
        self.assertNotIn(", because of <a", page)

    def test_a_run_with_an_event_for_each(self) -> None:
        events = [*OPENING, *(publish(number) for number in (1, 2, 3, 1, 2, 3))]
        page = self.page(events, [Told(7 + at, "S01", str(4 + at)) for at in (0, 1, 2)])
        self.assertEqual((page.count("<article "), len(self.arrows(page))), (1, 3))
        for at in (0, 1, 2):
            self.assertIn(f", because of <a href=#e1-{4 + at}>{4 + at}</a></span>", page)
            self.assertIn(f"id=f1-{7 + at}-S01 data-a=e1-{4 + at}>", page)

    def test_the_event_that_shows_it_is_the_event(self) -> None:
        """One line is enough. What comes later than the fault has one too."""
        events = [*OPENING, "RECV PUBLISH size 9 qos 1 dup 0 id 1", *PINGS, "REST", "CLOSE"]
        page = self.page(events, [Told(4, "E1R", "7", decided=7)])
        self.assertIn("<dt>Because<dd><a href=#e1-7>event 7</a>: the REST, with no answer before it<", page)
        self.assertEqual((page.count("<g role=img>"), self.arrows(page)), (1, []))
        self.assertIn("<title>E1R at event 4, shown by event 7</title>", page)
        page = self.page([*OPENING, publish(1), *RESUMING, *PINGS, "REST"], [Told(4, "S06", "8", decided=11)])
        self.assertIn("<title>S06 at event 4, shown by event 11</title>", page)
        self.assertIn("<title>S06 at event 4, because of event 8</title>", page)

    def test_an_event_is_named_unless_the_words_do_so(self) -> None:
        events = [*OPENING, publish(1), "RECV PUBACK size 4 id 1 code 0x00", publish(1).replace("dup 0", "dup 1")]
        page = self.page(events, [Told(6, "S02", "5")])
        self.assertIn("<dt>Because<dd><a href=#e1-5>event 5</a> (PUBACK): the exchange was over with it<", page)
        page = self.page([*OPENING, publish(1)], [Told(4, "C13", "3")])
        self.assertIn("<dt>Because<dd><a href=#e1-3>event 3</a>: the CONNACK, with Session Present 1<", page)

    def test_numbers_that_are_events_are_links(self) -> None:
        again = [publish(number).replace("dup 0", "dup 1") for number in (2, 1)]
        events = [*OPENING, publish(1), publish(2), *RESUMING, *again]
        page = self.page(events, [Told(11, "S05", "10 numbers 5 4")])
        self.assertIn("<dt>Because<dd><a href=#e1-10>event 10</a> (PUBLISH): first sent as event"
                      " <a href=#e1-5>5</a>, and this one as event <a href=#e1-4>4</a> before it<", page)

    def test_every_link_leads_somewhere(self) -> None:
        """Also where a chart has no room for what a fault conflicts with."""
        events = [*OPENING, *(publish(number) for number in range(1, 1_400))]
        faults = [Told(place, "S07", f"3 numbers {place - 3} 1") for place in range(5, 1_400, 2)]
        page = self.page(events, faults)
        links, names = (set(re.findall(rf'\b{mark}([^\s">]+)', page)) for mark in ('href="?#', 'id="?'))
        self.assertEqual(links - names, set())
        self.assertIn("<svg id=e1-3 ", page)


if __name__ == "__main__":
    unittest.main()
