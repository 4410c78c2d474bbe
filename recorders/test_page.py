#!/usr/bin/env python3
"""Tests of the page that recorders/judge writes, as it is written.

usage: recorders/test_page.py
"""
from __future__ import annotations

import hashlib
import json
import re
import sys
import time
import unittest
from pathlib import Path

sys.dont_write_bytecode = True  # the repository stays as it is
sys.path.insert(0, str(Path(__file__).resolve().parent))
from judging.causes import Evidence
from judging.events import Bytes, Event, bytes_of, read_event
from judging.explain import Explanation
from judging.labels import difference, label
from judging.page import LARGEST, Gallery, Page
from judging.program import IDENTIFIER
from judging.refusals import REFUSALS
from judging.story import Fault, Teller
from judging.verdict import FAULTS, Verdict
from made_logs import CONNECT, log, packet, publish, reconnected, record, run, text
from page_calls import ACCEPTED, OVERRIDE, RECORDED, Case, timed
from sarif_schema import problems
from testing import TOP, needs_why


class Lines(unittest.TestCase):
    """What is read from the program's lines."""

    def test_fields(self) -> None:
        event = read_event('7 record 9 moment 12 RECV PUBLISH size 21 qos 1 dup 0 id 3 retain 1 topic "a \\"b\\" \\x0A"'
                           ' payload 4 user-property "id 9" "x \\\\y" user-property "" "" topic-alias 2')
        assert event is not None
        found = (event.position, event.record, event.moment, event.name, event.identifier)
        self.assertEqual(found, (7, 9, 12, "PUBLISH", 3))
        self.assertEqual(event.field("topic"), 'a "b" \n')
        users = [values for name, values in event.fields if name == "user-property"]
        self.assertEqual(users, [["id 9", "x \\y"], ["", ""]])
        self.assertEqual((event.field("payload"), event.field("topic-alias"), event.time), ("4", "2", None))
        self.assertIsNone(read_event("fail 1 faults 6 events"))

    def test_bytes(self) -> None:
        wanted = {"30 07 [00] 02": (["30", "07", "00", "02"], range(2, 3), 0, False),
                  "A2 00 []": (["A2", "00"], None, 0, False),
                  ".. 76 [00] 01 ..": (["76", "00", "01"], range(1, 2), 1, True),
                  ".. 76 [00 01] 02": (["76", "00", "01", "02"], range(1, 3), 1, False)}
        for words, (digits, marked, first, is_cut) in wanted.items():
            self.assertEqual(bytes_of(words, 2), Bytes(digits, marked, first, is_cut), words)

    def test_what_belongs_together(self) -> None:
        """PUBLISHes under 1 on connections that are new, resumed, refused, closed without a CONNACK, and new."""
        endings = ["code 0x00 session-present 0", "code 0x00 session-present 1", "code 0x87 session-present 0", "",
                   "code 0x00 session-present 0"]
        events = []
        for ending in endings:
            events += ["OPEN", "SENT CONNECT size 15", "SENT PUBLISH size 9 qos 1 dup 0 id 1"]
            events += [f"RECV CONNACK size 5 {ending}"] * bool(ending) + ["RELEASE 1", "CLOSE", "RELEASE 1"]
        places = [place for place, event in enumerate(events, 1) if event.endswith("1")]
        teller = Teller("client", [Fault(place, "S01", "", place, place, None) for place in places], {1: 1})
        for place, event in enumerate(events, 1):
            teller.take(f"{place} record {place} {event}")
        story = teller.story()
        keys = [story.scenes[place].key for place in places if "CONNACK" not in events[place - 1]]
        self.assertEqual(keys, ["s1i1"] * 6 + ["c3i1", "s1i1", "s1i1", "c4i1", "s1i1", "s1i1"] + ["s2i1"] * 3)
        opens = [scene for scene in story.scenes.values() if scene.event.kind == "OPEN"]
        fates = [scene.connection.fate for scene in opens if scene.connection]
        self.assertEqual(fates, ["new", "resumed", "void", "void", "new"])


class Labels(unittest.TestCase):
    """What stands at an arrow."""

    def test_what_decides(self) -> None:
        many = 'filter "a/#" qos 1 no-local 0 retain-as-published 0 retain-handling 0'
        wanted = {
            'SENT PUBLISH size 9 qos 1 dup 1 id 3 retain 0 topic "a/b" payload 1 topic-alias 7':
                "PUBLISH id 3 · QoS 1 · DUP · a/b · alias 7",
            'SENT PUBLISH size 9 qos 0 dup 0 retain 0 topic "" payload 1 topic-alias 7':
                "PUBLISH · QoS 0 · no topic · alias 7",
            f'SENT PUBLISH size 99 qos 0 dup 0 retain 0 topic "{"z" * 29}" payload 1': f"PUBLISH · QoS 0 · {'z' * 28}…",
            f'SENT PUBLISH size 99 qos 0 dup 0 retain 0 topic "{OVERRIDE * 4}" payload 1':
                f"PUBLISH · QoS 0 · {OVERRIDE * 3}…",
            'SENT CONNECT size 16 client "c" clean-start 1 keep-alive 60': "CONNECT · Clean Start",
            "RECV CONNACK size 5 code 0x00 session-present 1": "CONNACK · Session Present 1",
            "RECV CONNACK size 5 code 0x87 session-present 0": "CONNACK · Session Present 0 · Not authorized",
            "RECV PUBREC size 5 id 2 code 0x97": "PUBREC id 2 · Quota exceeded",
            "RECV PUBACK size 4 id 2 code 0x00": "PUBACK id 2",
            f"SENT SUBSCRIBE size 20 id 1 {many} {many}": "SUBSCRIBE id 1 · a/# and 1 more",
            "RECV SUBACK size 7 id 1 code 0x02 code 0x00": "SUBACK id 1 · Granted QoS 2 · Granted QoS 0",
            "RECV SUBACK size 7 id 1 code 0x02 code 0x8F": "SUBACK id 1 · Topic Filter invalid",
            "RECV UNSUBACK size 7 id 1 code 0x00": "UNSUBACK id 1",
            "SENT DISCONNECT size 3 code 0x04": "DISCONNECT · Disconnect with Will Message",
            "SENT BAD W04 offset 2 type PUBLISH bytes 30": "PUBLISH, malformed",
        }
        for line, words in wanted.items():
            event = read_event(f"1 record 1 {line}")
            assert event is not None
            self.assertEqual(label(event), words)

    def test_the_difference_to_the_event_before(self) -> None:
        first = 1_795_694_645_000_001
        wanted = {0: "", 999: "+999 µs", 1_500: "+1.5 ms", 1_234_000: "+1.234 s", 95_000_000: "+1 min 35 s",
                  7_260_000_000: "+2 h 1 min", -20: "−20 µs"}
        for later, words in wanted.items():
            events = [Event(1, 1, moment, "REST", "") for moment in (first, first + later)]
            self.assertEqual(difference(*events), words)
        self.assertEqual(difference(None, events[0]), "")
        self.assertEqual(difference(Event(1, 1, 17, "REST", ""), Event(2, 2, 20, "REST", "")), "+3")


class Texts(Case):
    """What is wrong in a text is marked, and not its length; the fault's offset stays where the program put it."""

    def printed(self, *records: bytes) -> list[str]:
        """What is printed of the broken packets of a log, after their types."""
        (self.logs / "a.log").write_bytes(log(*records, record(4)))
        lines = [line for line in run(self.logs)[1].splitlines() if " BAD " in line]
        return [line.partition(" type ")[2] for line in lines]

    def test_what_is_wrong(self) -> None:
        def subscribe(topic_filter: bytes) -> bytes:
            return packet(0x82, b"\0\1\0" + len(topic_filter).to_bytes(2, "big") + topic_filter + b"\0")

        def name(topic: bytes) -> bytes:
            return packet(0x30, len(topic).to_bytes(2, "big") + topic + b"\0")

        wanted = {
            name(b"ab\xe2\x82"): "PUBLISH at 6 bytes 30 07 00 04 61 62 [E2 82] 00",  # cut inside a character
            name(b"a\xed\xa0\x80"): "PUBLISH at 5 bytes 30 07 00 04 61 [ED] A0 80 00",  # a surrogate
            name(b"a\0b\0"): "PUBLISH at 5 bytes 30 07 00 04 61 [00] 62 00 00",
            name(b"a/+/#"): "PUBLISH at 6 bytes 30 08 00 05 61 2F [2B] 2F 23 00",
            subscribe(b"a/b+/c"): "SUBSCRIBE at 10 bytes 82 0C 00 01 00 00 06 61 2F 62 [2B] 2F 63 00",
            subscribe(b"+/#/c"): "SUBSCRIBE at 9 bytes 82 0B 00 01 00 00 05 2B 2F [23] 2F 63 00",
            packet(0xA2, b"\0\1\0\0\1a\0\3#/b"): "UNSUBSCRIBE at 10 bytes A2 0B 00 01 00 00 01 61 00 03 [23] 2F 62",
            packet(0x30, b"\0\1a\x09&\0\1n\0\3v\xe2\x82"):  # in the second text of a User Property
                "PUBLISH at 13 bytes 30 0D 00 01 61 09 26 00 01 6E 00 03 76 [E2 82]",
            subscribe(b""): "SUBSCRIBE bytes 82 06 00 01 00 [00] 00 00",  # here the length is what is wrong
        }
        for one, words in wanted.items():
            self.assertEqual(self.printed(record(2, one)), [words])

    def test_the_bytes_around_it_come_from_the_log(self) -> None:
        """It is far in a text, its packet is one of several that end in one record, and the other direction is lost."""
        ping = packet(0xC0, b"")
        broken = [packet(0x30, (300).to_bytes(2, "big") + b"z" * before + b"\0" + b"y" * (299 - before) + b"\0")
                  for before in (200, 80)]
        sent = ping + broken[0] + broken[1] + ping
        received = packet(0xD0, b"") + bytes.fromhex("d08000")
        self.assertEqual(self.printed(record(2, sent[:250]), record(3, received), record(2, sent[250:])), [
            f"PUBLISH at {before + 5} bytes .. {'7A ' * 32}[00] {'79 ' * 31}.." for before in (200, 80)])
        page = self.page()
        self.assertIn("   205  <mark>00</mark> 79 79 79", page)
        self.assertIn("At offset 205 U+0000 is marked; its field begins at offset 3, with a length.", page)
        self.assertIn("record 6, connection 1", page)


class Written(Case):
    """What stands in a page, without a browser."""

    def test_a_refused_log(self) -> None:
        (self.logs / "a.log").write_bytes(log(record(1)))
        page = self.page()
        self.assertIn("refused 7 Nested at 43", page)
        self.assertIn(REFUSALS["Nested"].meaning, page)
        self.assertIn(REFUSALS["Nested"].advice, page)
        self.assertEqual(page.count('<div class="chart"'), 1)

    def test_each_refusal_has_its_meaning(self) -> None:
        table = re.findall(r"^\| (\d+) \| (\w+) \|", (TOP / "docs/LOG_FORMAT.md").read_text(), re.MULTILINE)
        known = {(str(refusal.number), name) for name, refusal in REFUSALS.items()}
        self.assertEqual({row for row in table if row[1] not in ("Read", "Memory")}, known)

    def test_what_is_ignored_is_grey_and_counted(self) -> None:
        (self.logs / "a.log").write_bytes(log(record(2, publish("a", 1)), record(2, publish("a", 1)), record(4)))
        self.assertNotIn("ignored by", self.page())
        page = self.page(self.logs, "--ignore", "S01")
        self.assertIn("<article id=f1-5-S01 class=ignored data-a=e1-4>", page)
        self.assertIn('ignored by --ignore', page)
        self.assertIn('<tr class="ignored"><th scope=row><a class="code" href="#f1-5-S01">S01</a>', page)
        self.assertIn('<span class="badge pass">pass</span>', page)
        self.assertIn("1 fault ignored", page)
        known = self.folder / "known"
        known.write_text(f"{self.logs}/a.log S01 1\n")
        self.assertIn("ignored by --expect", self.page(self.logs, "--expect", known))

    def test_a_refusal_that_is_allowed(self) -> None:
        (self.logs / "a.log").write_bytes(log(record(1)))
        page = self.page(self.logs, "--allow-refused", "7")
        self.assertIn('<p class="remark">ignored: refused 7 Nested (--allow-refused)</p>', page)
        self.assertIn(REFUSALS["Nested"].meaning, page)

    def test_a_log_that_is_too_short(self) -> None:
        (self.logs / "a.log").write_bytes(log())
        self.assertIn("too few events", self.page(self.logs, "--min-events", "9"))

    def test_where_the_program_fails(self) -> None:
        (self.logs / "a.log").write_bytes(log())
        program = self.folder / "program"
        program.write_text("#!/bin/sh\necho 'mqjudge: <read> failed' >&2\nexit 4\n")
        program.chmod(0o755)
        page = self.page(program=program)
        self.assertIn("mqjudge: &lt;read&gt; failed", page)
        self.assertIn("there is no verdict", page)

    def test_a_broken_packet(self) -> None:
        broken = bytes.fromhex("32070001c3000100") + b"x"
        (self.logs / "a.log").write_bytes(log(record(2, broken), record(4)))
        page = self.page()
        self.assertIn("     0  32 07 00 01 <mark>C3</mark> 00 01 00  2·······\n     8  78", page)
        self.assertIn("At offset 4 what isn't UTF-8 is marked; its field begins at offset 2, with a length.", page)
        user = packet(0x30, b"\0\1a\x08&\0\1n\0\2v\xff")  # the offset is that of the pair
        (self.logs / "a.log").write_bytes(log(record(2, user), record(4)))
        self.assertIn("At offset 13 what isn't UTF-8 is marked; its field begins at offset 7, with a length.", self.page())
        (self.logs / "a.log").write_bytes(log(record(2, bytes.fromhex("4100")), record(4)))
        page = self.page()
        self.assertIn("     0  <mark>41</mark> 00", page)
        self.assertIn("The byte at offset 0 is marked.", page)

    @needs_why
    def test_the_limit_that_the_peer_announced(self) -> None:
        page = self.page(*RECORDED)
        for number, words in ((1, "<b>6</b> in flight, at most <b>5</b>"), (2, "<b>214</b> bytes, at most <b>100</b>"),
                              (3, "QoS <b>2</b>, at most <b>1</b>")):
            self.assertIn(f"<dt>Because<dd><a href=#e{number}-3>event 3</a> (CONNACK): {words} allowed<", page)
        self.assertIn(">event 9</a> (CONNECT): <b>3</b> in flight, at most <b>2</b> allowed<", page)
        alias = b"\x23" + (7).to_bytes(2, "big")
        (self.logs / "a.log").write_bytes(log(record(2, publish("a", 1, alias)), record(4)))
        self.assertIn("<dt>Because<dd>Topic Alias <b>7</b>, at most <b>0</b> allowed by default<", self.page())

    def test_events_far_from_a_fault_are_one_line(self) -> None:
        apart = [part for number in range(2, 102) for part in (record(2, publish("a", number)),
                                                               record(3, packet(0x40, number.to_bytes(2, "big"))))]
        ends = record(2, publish("a", 1))
        (self.logs / "a.log").write_bytes(log(ends, *apart, ends, record(4)))
        page = self.page()
        # 5 to 202: what is under identifier 1 isn't folded
        self.assertIn("<text><a href=#e1-5>Show 198 events</a></text>", page)
        self.assertIn('<svg id=e1-5 class=s y=', page)
        self.assertIn("<a href=#e1-4>4 PUBLISH</a>, <b>205 PUBLISH</b>", page)
        self.assertIn('id=e1-4 class="s s1i1o"', page)

    def test_folds_of_many_faults_open(self) -> None:
        """There is no room for the events between all of them, but between the first ones they are whole."""
        pings = [record(2, packet(0xC0, b"")), record(3, packet(0xD0, b""))] * 20
        (self.logs / "a.log").write_bytes(log(*([record(2, publish("a", 1)), *pings] * 40), record(4)))
        page = self.page()
        self.assertGreater(len(re.findall("<a href=#e1-\\d+>Show 3\\d events</a>", page)), 10)
        self.assertGreater(page.count("events not shown"), 20)

    def test_a_short_log_is_drawn_whole(self) -> None:
        twice = [record(2, publish("a", 1))] * 2
        for pings, is_folded in ((17, False), (18, True)):  # of 40 events, and of 42
            apart = [record(2, packet(0xC0, b"")), record(3, packet(0xD0, b""))] * pings
            (self.logs / "a.log").write_bytes(log(*apart, *twice, record(4)))
            page = self.page()
            self.assertIn(f"{6 + 2 * pings} events, 1 fault", page)
            self.assertEqual("class=gap" in page, is_folded)
            self.assertEqual('<svg id=e1-10 class=s y=' in page, True)

    @needs_why
    def test_a_run_of_a_fault_is_one_card(self) -> None:
        limit = bytes.fromhex("2006000003210002")  # Receive Maximum 2
        sent = [record(2, publish("a", number)) for number in range(1, 61)]
        (self.logs / "a.log").write_bytes(log(*sent, record(4)).replace(ACCEPTED, record(3, limit)))
        page = self.page()
        self.assertEqual(page.count("<article "), 1)
        self.assertIn("<a href=#e1-6>Events 6</a> to <a href=#e1-63>63</a>, 58 faults:", page)
        for position in range(7, 64):
            self.assertIn(f"<i id=f1-{position}-S07 data-a=e1-3></i>", page)
            self.assertIn(f"<li><a href=#e1-{position}>{position}</a><span> PUBLISH id {position - 3} · QoS 1 · a,"
                          f" {position - 3} in flight, at most 2 allowed</span>", page)
        self.assertEqual(page.count("<text class=c>"), 58)
        self.assertIn("<text><a href=#e1-11>Show 50 events</a></text>", page)  # those between the first and the last
        two = [part for number in (1, 2, 1, 2) for part in [record(2, publish("a", number))]]
        (self.logs / "a.log").write_bytes(log(*two, record(4)))
        self.assertEqual(self.page().count("<article "), 2)  # two are no run

    @needs_why
    def test_what_tells_the_faults_of_a_run_from_each_other(self) -> None:
        """When they were, where their bytes are wrong, how large they are, and what shows them."""
        limit = record(3, bytes.fromhex("2006000003270000000c".replace("2006000003", "2008000005")))
        sizes = [record(2, publish("t" * count, count)) for count in (5, 6, 7)]
        wrong = [record(2, packet(0x30, text("a" * count).replace(b"a", b"\xff") + b"\0")) for count in (1, 2, 3)]
        silent = [record(3, publish("a", number)) for number in (1, 2, 3)]
        for records, accepted, wanted in (
            (sizes, limit, [f"· {'t' * count}, {count + 8} bytes, at most 12 allowed, 12:04:05.00{count - 2}001" for count in (5, 6, 7)]),
            (wrong, ACCEPTED, [f"PUBLISH, malformed, offset 2, 12:04:05.00{place}001" for place in (3, 4, 5)]),
            ([*silent, record(5)], ACCEPTED,
             [f"12:04:05.00{place}001, decided at <a href=#e1-7>7</a></span>" for place in (3, 4, 5)]),
        ):
            made = log(*records, record(4)).replace(ACCEPTED, accepted)
            (self.logs / "a.log").write_bytes(timed(made))
            page = self.page()
            self.assertEqual(page.count("<article "), 1)
            lines = re.findall("<li>.*?</span>", page)
            self.assertEqual([words in line for words, line in zip(wanted, lines, strict=True)], [True] * 3, lines)

    def test_what_set_a_topic_alias(self) -> None:
        aliases, alias = bytes.fromhex("2006000003220005"), b"\x23\0\3"
        pings = [record(2, packet(0xC0, b"")), record(3, packet(0xD0, b""))] * 30
        begin = [record(1), record(2, CONNECT), record(3, aliases)]
        use = record(2, publish("", 2, alias))
        made = log(record(2, publish("a", 1, alias)), *pings, record(4), *begin, *pings, use, record(4))
        (self.logs / "a.log").write_bytes(made.replace(ACCEPTED, record(3, aliases)))
        page = self.page()
        self.assertIn("<article id=f1-129-C16 data-a=e1-4>", page)  # which the program doesn't name
        self.assertIn("<dt>Topic Alias<dd>3 was set by <a href=#e1-4>event 4</a> on connection 1: an alias ends with"
                      " its connection", page)
        self.assertLess(page.index("<svg id=e1-4 "), page.index("class=gap"))  # it isn't in a fold
        (self.logs / "a.log").write_bytes(log(use, record(4)).replace(ACCEPTED, record(3, aliases)))
        self.assertIn("<dt>Topic Alias<dd>nothing before it sets 3", self.page())

    @needs_why
    def test_a_publish_that_is_sent_again(self) -> None:
        """That is said before what is usual, on the card of each such fault."""
        said = ("<p class=advice>This looks like the PUBLISH of <a href=#e1-{0}>event {0}</a> sent again: then its"
                " Packet Identifier is right, and DUP has to be 1 (section 3.3.1.1).</p>{1}")
        first, second = record(2, publish("a", 1)), record(2, publish("b", 2))
        (self.logs / "a.log").write_bytes(reconnected([first, second], [first, second]))
        page = self.page(name="again")
        self.assertIn(said.format(4, "<div class=advice><p><b>What usually breaks it in a client"), page)
        self.assertIn(said.format(5, "<a href=#f1-10-S01>What usually breaks it"), page)
        three = [record(2, publish("abc"[number - 1], number)) for number in (1, 2, 3)]
        changed = [record(2, publish("d", 1)), *three[1:]]  # the first of the run is another message
        (self.logs / "a.log").write_bytes(reconnected(three, changed))
        page = self.page()
        self.assertEqual(page.count("<article "), 1)
        self.assertIn("<p class=advice><a href=#e1-12>Event 12</a> looks like the PUBLISH of <a href=#e1-5>event 5</a>"
                      " sent again: ", page)
        self.assertIn("· c, because of <a href=#e1-6>6</a>, looks like <a href=#e1-6>6</a> sent again</span>", page)
        for sent, again in (([first, first], []), ([first], [record(2, publish("b", 1))])):
            (self.logs / "a.log").write_bytes(reconnected(sent, again))
            self.assertNotIn("sent again:", self.page())

    def test_what_a_pass_has(self) -> None:
        for name in "abc":
            sent = [record(2, publish(name, 1)), record(3, packet(0x40, bytes.fromhex("000110")))]
            (self.logs / f"{name}.log").write_bytes(log(*sent, record(4)))
        page = self.page()
        self.assertIn('<details class="passes"><summary>3 logs passed</summary>', page)
        self.assertIn('<th scope=row><a href="#l2">b.log</a>', page)
        self.assertIn("<p class=about>Sent: 1 CONNECT, 1 PUBLISH; received: 1 CONNACK, 1 PUBACK</p>", page)
        self.assertEqual(page.count('<div class="chart"'), 3)
        self.assertIn("<text>PUBACK id 1 · No matching subscribers</text>", page)
        self.assertIn('id="filter"', page)
        self.assertEqual(page.count("<label hidden>"), 2)  # all have one verdict, and none broke a statement

    def test_few_logs_need_no_table(self) -> None:
        (self.logs / "a.log").write_bytes(log(record(4)))
        (self.logs / "b.log").write_bytes(log(record(2, publish("a", 1)), record(2, publish("a", 1)), record(4)))
        page = self.page()
        self.assertNotIn('id="filter"', page)
        self.assertNotIn('class="logs"', page)
        self.assertLess(page.index("<section class=log id=l1 "), page.index("<details class=log id=l2 "))

    def test_a_record_of_what_was_judged(self) -> None:
        for count in (2, 3):
            for number in range(count):
                sent = [record(2, publish(str(number), 1))] * (1 + number)  # two under one identifier are a fault
                (self.logs / f"{number}.log").write_bytes(log(*sent))
            page = self.page()
            for path in self.logs.iterdir():
                self.assertEqual(page.count(hashlib.sha256(path.read_bytes()).hexdigest()), 1, path)
        self.assertRegex(page, r" on 20\d\d-\d\d-\d\d \d\d:\d\d UTC, in ")

    def test_what_the_cards_say_is_said_once(self) -> None:
        page = self.page(*RECORDED)
        self.assertNotIn("The statements that were broken", page)
        self.assertEqual(page.count("Unacknowledged packets are sent again when a session is resumed."), 2)
        self.assertEqual(page.count("The peer still holds its half of each exchange."), 1)
        self.assertIn('aria-label="Chart of client-flood.log"', page)

    def test_names_of_files(self) -> None:
        for name in ("<script>alert(1)</script>", f"a{OVERRIDE}b", '"quotes"', "line\nend"):
            (self.logs / f"{name.replace('/', '')}.log").write_bytes(log(record(2, publish("a", 0))))
        page = self.page()
        self.assertNotIn("<script>alert", page)
        self.assertNotIn(OVERRIDE, page)
        self.assertIn('a<span class="odd">U+202E</span>b', page)

    def test_the_picture_in_the_readme(self) -> None:
        self.assertIn("](docs/chart.png)", (TOP / "README.md").read_text())
        self.assertLessEqual((TOP / "docs/chart.png").stat().st_size, 100_000)

    def test_a_packet_with_many_long_properties(self) -> None:
        users = b"".join(b"\x26" + text("name") + text("v" * 30_000) for _ in range(60))
        size = len(users)
        length = bytes([size & 127 | 128, size >> 7 & 127 | 128, size >> 14])
        large = packet(0x32, text("a") + b"\0\1" + length + users + b"x")
        halves = (record(2, large[:900_000]), record(2, large[900_000:]))
        (self.logs / "a.log").write_bytes(log(record(2, publish("a", 1)), *halves, record(4)))
        page = self.page()
        self.assertIn("… cut: 30,000 bytes in all", page)
        self.assertIn('<span class="note">and more</span>', page)
        self.assertLess(len(page), 100_000)

    def test_no_logs(self) -> None:
        self.assertIn("no logs were judged", self.page().lower())


class Moments(Case):
    """A log of version 2, by a program that says of it what is made up here."""

    EVENTS = """1 record 1 moment {0} OPEN
2 record 2 moment {1} SENT CONNECT size 15 client "" clean-start 1 keep-alive 60
3 record 3 moment {2} RECV CONNACK size 5 code 0x00 session-present 0
4 record 4 moment {3} SENT PUBLISH size 9 qos 1 dup 0 id 1 retain 0 topic "a" payload 1
5 record 5 moment {4} SENT PUBLISH size 9 qos 1 dup 0 id 1 retain 0 topic "a" payload 1
6 record 6 moment {5} REST
"""
    FAULTS = "fault 4 S01 MQTT-2.2.1-3 decided {} record 4 offset -\nfail 1 faults 6 events\n"

    def told(self, first: int, step: int, topic: str = "a", decided: int = 6) -> str:
        self.logs.joinpath("a.log").write_bytes(b"MQTR\x02\0\0\0")
        events = self.EVENTS.format(*(first + step * place for place in range(6))).replace('"a"', f'"{topic}"')
        program = self.folder / "program"
        program.write_text(f"#!/bin/sh\ncase $1 in\ncheck) cat <<'END'\n{self.FAULTS.format(decided)}END\nexit 1;;\n"
                           f"show) cat <<'END'\n{events}END\nexit 0;;\nesac\nexit 3\n")
        program.chmod(0o755)
        return self.page(program=program, name="moments" if step > 1 else "counts")

    def test_microseconds_since_1970(self) -> None:
        page = self.told(1_795_694_645_000_001, 1500)
        self.assertIn("<dt>Time<dd>2026-11-26 12:04:05.004501 UTC", page)
        self.assertIn("REST, 2026-11-26 12:04:05.007501 UTC", page)
        self.assertIn("<tspan class=t>12:04:05.000<tspan class=v>001</tspan></tspan> 1</text><text class=b>", page)
        self.assertIn("</tspan></tspan> 2</text><text class=t>+1.5 ms</text>", page)
        self.assertIn('<div class="chart timed"', page)

    def test_another_unit(self) -> None:
        page = self.told(17, 1)
        self.assertIn("<dt>Time<dd>moment 20", page)
        self.assertIn("<text><tspan class=t>18</tspan> 2</text><text class=t>+1</text>", page)
        self.assertNotIn("UTC", page.partition("<section")[2])

    def test_moments_of_many_digits(self) -> None:
        page = self.told((1 << 64) - 6, 1)
        self.assertIn("<dt>Time<dd>moment 18446744073709551613", page)
        self.assertIn("<tspan class=t>…073709551613</tspan>", page)

    def test_a_topic_at_the_event_that_shows_a_fault(self) -> None:
        page = self.told(0, 0, topic=f"<b>{OVERRIDE}", decided=5)
        self.assertNotIn(OVERRIDE, page)
        self.assertIn('</a>: PUBLISH id 1 · QoS 1 · &lt;b&gt;<span class="odd">U+202E</span>', page)

    def test_moments_that_are_all_0(self) -> None:
        page = self.told(0, 0)
        self.assertNotIn("<dt>Time", page)
        self.assertNotIn('<div class="chart timed"', page)

    def test_a_log_that_the_judge_reads(self) -> None:
        self.logs.joinpath("a.log").write_bytes(timed((TOP / "examples/identifier-in-use.log").read_bytes()))
        page = self.page()
        self.assertIn("<dt>Time<dd>2026-11-26 12:04:05.004001 UTC", page)
        self.assertIn("12:04:05.005<tspan class=v>001</tspan></tspan> 6</text><text class=t>+1.0 ms</text>", page)
        self.assertIn(", recorded from 2026-11-26 12:04:05 to 12:04:05 UTC</p>", page)
        printed = run(self.logs)[1]
        self.assertIn("record 5 offset - at 2026-11-26 12:04:05.004001 UTC\n", printed)

    def test_reports_for_code_hosts(self) -> None:
        self.told(1_795_694_645_000_001, 1500)
        place = self.folder / "report.sarif"
        _, printed, _ = run(self.logs, "--sarif", place, "--github", program=self.folder / "program")
        report = json.loads(place.read_text())
        self.assertEqual(problems(report), [])
        time = "2026-11-26 12:04:05.004501 UTC"
        wanted = f"S01 MQTT-2.2.1-3 at event 4, record 4, {time}, decided at event 6: "
        self.assertEqual(report["runs"][0]["results"][0]["message"]["text"], wanted)
        self.assertIn(f"::1 fault, the first at event 4, {time}: ", printed)
        self.assertIn(f"fault 4 S01 MQTT-2.2.1-3 decided 6 record 4 offset - at {time}\n", printed)


class Sizes(unittest.TestCase):
    """Many logs with many faults, from lines as the program prints them."""

    @staticmethod
    def verdict(name: str, count: int) -> Verdict:
        """A log in which every tenth PUBLISH takes an identifier that is in use."""
        verdict = Verdict(Path("logs") / name, FAULTS, keeps=True, end="client")
        events = ["OPEN", 'SENT CONNECT size 15 client "me" clean-start 1 keep-alive 60',
                  "RECV CONNACK size 5 code 0x00 session-present 0"]
        for fault in range(count):
            for number in range(10 * fault + 1, 10 * fault + 11):
                sent = f'SENT PUBLISH size 40 qos 1 dup 0 id {number} retain 0 topic "sensors/hall/3" payload 19'
                events += [sent, sent if number % 10 == 1 else f"RECV PUBACK size 4 id {number} code 0x00"]
        for fault in range(count):
            at = 5 + 20 * fault
            verdict.take(f"fault {at} S01 MQTT-2.2.1-3 decided {at} record {at} offset -", 20)
            verdict.evidence[at, "S01"] = Evidence(at - 1)
        verdict.take(f"fail {count} faults {len(events)} events", 20)
        lines = [f"{number} record {number} {event}" for number, event in enumerate(events, 1)]
        found = (IDENTIFIER.match(lines[fault.position - 1]) for fault in verdict.found[:250])
        identifiers = {fault.position: int(match[1]) for fault, match in zip(verdict.found, found) if match}
        teller = Teller("client", verdict.found[:250], identifiers, verdict.evidence)
        for line in lines:
            teller.take(line)
        verdict.story = teller.story()
        return verdict

    def written(self, counts: list[int]) -> str:
        gallery, verdicts = Gallery(), []
        for number, count in enumerate(counts):
            verdicts.append(self.verdict(f"client-{number}.log", count))
            gallery.take(verdicts[-1])
        explanation = Explanation("S01", "MQTT-2.2.1-3", "It is in use.", {"In a client": "Why it breaks. " * 20})
        begun = time.process_time()
        page = Page("mqjudge", "many logs", [], {"S01": explanation}).write(verdicts)
        self.assertLess(time.process_time() - begun, 10)
        self.assertLessEqual(len(page.encode()), LARGEST)
        links, names = (set(re.findall(rf'\b{mark}([^\s">]+)', page)) for mark in ('href="?#', 'id="?'))
        self.assertEqual(links - names, set())
        return page

    def test_a_thousand_logs_with_ten_thousand_faults(self) -> None:
        page = self.written([10] * 1000)
        self.assertEqual(page.count('<div class="chart"'), 1000)
        self.assertEqual(page.count("<article "), 10_000)
        self.assertNotIn("rows only", page)
        self.assertIn('<section class="statement" id="r-S01">', page)  # since the cards have no room for it

    def test_more(self) -> None:
        page = self.written([10] * 1000 + [12] * 200)
        self.assertEqual(page.count('<div class="chart"'), 200)
        self.assertEqual(page.count("<tr id="), 1000)
        self.assertEqual(page.count("<tr data-v="), 200)
        self.assertIn("Charts are drawn of the worst 200 logs; the other 1,000 logs that aren&#x27;t a pass are rows"
                      " only.", page)
        self.assertIn('data-n="client-1199.log"', page)

    def test_one_log_with_many_faults(self) -> None:
        page = self.written([2_000])
        self.assertEqual(page.count("<article "), 250)
        self.assertIn("1,750 other faults", page)


if __name__ == "__main__":
    unittest.main()
