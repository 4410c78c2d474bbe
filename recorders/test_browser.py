#!/usr/bin/env python3
"""Tests of the page that recorders/judge writes, in a browser.

It is opened in chromium, where that is installed: what it shows, that its links lead somewhere, that it asks for
nothing else, that its scripts don't fail, and how many pages of paper it takes. `--keep DIR` keeps the pages and their
pictures, to be looked at.

usage: recorders/test_browser.py [--keep DIR]
"""
from __future__ import annotations

import base64
import re
import sys
import unittest
from collections import Counter
from pathlib import Path

sys.dont_write_bytecode = True  # the repository stays as it is
sys.path.insert(0, str(Path(__file__).resolve().parent))
from browser import CHROMIUM, Browser
from exercising.table_file import KEPT as HELD
from judge_calls import Told, WithStandIn
from judging.coverage import Coverage, Demand
from judging.explain import Explanation
from judging.page import Page
from judging.story import STEP
from judging.verdict import FAULTS, PASSED, Verdict
from made_logs import CONNECT, log, packet, publish, record, text
from page_calls import ACCEPTED, EXAMPLES, KEPT, OVERRIDE, RECORDED, Case, timed
from surveying.findings import kinds_of
from surveying.gallery import write_page
from test_survey import BROKEN, said, surveyed
from test_survey import run as made_run
from testing import judge_program, missing, needs_why

WIDTHS = (390, 1280)  # of a phone, and of a small screen


def hostile_log() -> bytes:
    """Faults with texts that would be scripts, that turn the direction, and that are as long as they may be.

    So is the Client Identifier. A second CONNECT under it is a fault.
    """
    texts = ['<script>window.hit = 1</script>', '"><img src=x onerror="window.hit = 2">', f"left{OVERRIDE}right",
             "'; alert(1) //", "z" * 65_535, "\u05d0\u05d1 <b>&amp;</b>", "a\u0301\u0301\u0301\u0301", "\u2028\u200b"]
    records = []
    for number, words in enumerate(texts, 1):
        user = b"\x26" + text("name") + text('<svg onload="window.hit = 3">')
        records += [record(2, publish(words, number)), record(2, publish(words, number, user))]
        records += [record(2, packet(0xC0, b""))] * STEP  # so that the faults are no run
    identifier = text(f"</title><script>window.hit = 5</script>{OVERRIDE}")
    connect = packet(0x10, bytes.fromhex("00044d5154540502003c00") + identifier)
    broken = record(2, bytes.fromhex("32070001c3000100") + b"x")
    return log(*records, broken, record(2, connect), record(4)).replace(record(2, CONNECT), record(2, connect))


@unittest.skipIf(missing(CHROMIUM), missing(CHROMIUM))
class InBrowser(Case):
    browser: Browser

    @classmethod
    def setUpClass(cls) -> None:
        cls.browser = Browser()
        cls.browser.__enter__()
        cls.addClassCleanup(cls.browser.__exit__, None, None, None)

    def open(self, place: str = "", width: int = 1280) -> None:
        self.browser.open(self.place, width, place=place)

    def edge(self, selector: str, side: str = "top") -> float:
        """Where an edge of an element is in the window, in pixels."""
        return float(self.browser.value(f"document.querySelector({selector!r}).getBoundingClientRect().{side}"))

    def click(self, selector: str) -> None:
        event = "new MouseEvent('click', {bubbles: true, cancelable: true})"
        self.browser.value(f"void document.querySelector({selector!r}).dispatchEvent({event})")


class Opened(InBrowser):
    """What a page shows in a browser."""

    def look(self, name: str) -> None:
        """Takes pictures at both widths, in both schemes, and checks what holds for each page."""
        for width in WIDTHS:
            for scheme in ("light", "dark"):
                self.browser.open(self.place, width, scheme)
                self.assertEqual(self.browser.asked, [self.place.resolve().as_uri()])
                self.assertEqual(self.browser.errors, [])
                self.assertEqual(self.browser.value("document.documentElement.scrollWidth"), width)
                picture = self.place.with_name(f"{name}-{width}-{scheme}.png")
                self.browser.picture(picture, width)
                self.assertGreater(picture.stat().st_size, 10_000)
        self.assertEqual(self.browser.value(DEAD_LINKS), [])
        self.assertEqual(self.browser.value(OUTSIDE), [])

    def test_the_examples(self) -> None:
        self.page(*RECORDED, name="examples")
        self.look("examples")
        for section in self.browser.value(FAULTS_OF_LOGS):
            lines = (EXAMPLES / section["name"]).with_suffix(".report").read_text().splitlines()
            wanted = [line.split()[1:3] for line in lines if line.startswith("fault ")]
            self.assertEqual([name.split("-")[1:] for name in section["faults"]], wanted)
            for name in section["faults"]:
                self.browser.open(self.place, place=name)
                said = self.browser.value(f"document.getElementById({name!r}).closest('article').innerText")
                self.assertIn("and what to change:", said)  # without a word of the standard
                self.assertIn("Fields", said)
        self.assertEqual(self.browser.value("document.querySelectorAll('.logs tbody tr').length"), 16)
        self.assertNotIn("rule", self.browser.value("document.body.innerText").lower().replace("rules of", ""))

    def test_a_survey(self) -> None:
        one = surveyed(made_run(S07=said(BROKEN, 10, 2, "a"), S01=said(HELD, 7), W14=said(BROKEN, 5, 1, loose="b")))
        other = surveyed(made_run(S07=said(BROKEN, 10, 2, "a")), name="mqtt-js")
        self.place = (KEPT[0] if KEPT else self.folder) / "survey.html"
        about = {"date": "2026-01-02", "system": "a system", "judged by": "mqjudge 1"}
        write_page(self.place, judge_program(), [one, other], kinds_of([one, other]), {"S07": "It is so."}, about)
        self.look("survey")
        title = self.browser.value("document.querySelector('h1').innerText")
        self.assertEqual(title, "2 programs surveyed, 2 kinds of faults")
        self.assertEqual(self.browser.value("document.querySelectorAll('.survey .x').length"), 3)  # with the legend's

    def test_a_hostile_log(self) -> None:
        (self.logs / "hostile <script>window.hit = 4<script>.log").write_bytes(hostile_log())
        page = self.page(name="hostile")
        self.assertNotIn(OVERRIDE, page)
        self.assertLess(len(page), 200_000)
        self.look("hostile")
        self.assertIsNone(self.browser.value("window.hit === undefined ? null : window.hit"))
        self.assertEqual(self.browser.value("document.querySelectorAll('script').length"), 1)
        shown = self.browser.value("document.body.innerText")
        for words in ("<script>window.hit = 1</script>", '"><img src=x onerror="window.hit = 2">', "leftU+202Eright",
                      "… cut: 65,535 bytes in all", "U+2028U+200B", '<svg onload="window.hit = 3">',
                      "</title><script>window.hit = 5</script>U+202E"):
            self.assertIn(words, shown)

    @needs_why
    def test_what_belongs_to_a_fault_is_lit(self) -> None:
        self.page(*RECORDED, name="examples")
        lit = "[...document.querySelectorAll('.lit')].map((place) => place.id.split('-')[1]).join(' ')"
        self.browser.open(self.place, place="f5-12-S01")  # server-killed
        self.assertEqual(self.browser.value(lit), "4 5 6 12 13")
        self.assertEqual(self.browser.value(lit.replace("'.lit'", "'.other'")), "4 5")
        self.browser.open(self.place, place="f5-6-S06")
        near = lit.replace("'.lit'", "'.near'")
        self.assertEqual(self.browser.value(near), "10 11")  # the CONNACK that resumed, and the REST that shows it
        self.browser.open(self.place, place="f1-9-S07")  # client-flood
        self.assertEqual(self.browser.value(lit), "9 18")
        self.assertEqual(self.browser.value(near), "3")  # the CONNACK
        self.click("#e1-10 line")
        self.assertEqual(self.browser.value("location.hash"), "#f1-10-S07")

    def test_logs_are_chosen(self) -> None:
        self.page(*RECORDED, name="examples")
        self.browser.open(self.place)
        shown = ("[...document.querySelectorAll('.logs tbody tr, .log')].filter((place) => !place.hidden)"
                 ".map((place) => place.tagName).join(' ')")
        chosen = [("code", "S07", "TR TR SECTION SECTION"), ("verdict", "pass", ""),
                  ("code", "", "TR " * 10 + "DETAILS " * 10), ("name", "WILL", "TR DETAILS")]
        for name, value, wanted in chosen:
            self.browser.value(f"{{const part = document.getElementById({name!r}); part.value = {value!r};"
                               " part.dispatchEvent(new Event('input', {bubbles: true}))}")
            self.assertEqual(self.browser.value(shown), wanted.strip())
        self.assertEqual(self.browser.value("document.getElementById('count').textContent"), "1 of 16 logs")

    def test_without_scripts(self) -> None:
        self.page(*RECORDED, name="examples")
        self.browser.open(self.place, scripts=False)
        self.assertEqual(self.browser.value("getComputedStyle(document.getElementById('filter')).display"), "none")
        shown = self.browser.value("document.body.innerText")
        self.assertIn("What usually breaks it in a server, and what to change", shown)

    def test_each_fault_can_be_reached(self) -> None:
        self.page(*RECORDED, name="examples")
        self.browser.open(self.place)
        self.browser.call("Accessibility.enable")
        nodes = self.browser.call("Accessibility.getFullAXTree")["nodes"]
        names = {(node["role"]["value"], node["name"]["value"]) for node in nodes if "role" in node and "name" in node}
        for words in ("S07 at event 9", "S01 at event 12", "client-flood.log", "Event 12"):
            self.assertIn(("link", words), names)
        self.assertIn(("heading", "Faults by statement"), names)
        self.assertIn(("region", "Chart of client-flood.log"), names)
        places = self.browser.value("[...document.querySelectorAll('a')].every((place) => place.tabIndex === 0)")
        self.assertTrue(places)

    def test_printing(self) -> None:
        self.page(*RECORDED, name="examples")
        self.browser.open(self.place, scheme="dark")
        self.assertGreater(len(self.browser.call("Page.printToPDF", printBackground=True)["data"]), 50_000)
        self.browser.call("Emulation.setEmulatedMedia", media="print")
        self.assertEqual(self.browser.value("getComputedStyle(document.body).backgroundColor"), "rgb(255, 255, 255)")
        self.browser.call("Emulation.setEmulatedMedia", media="")


class Matrix(InBrowser):
    """What the logs test: 40 logs by 57 statements."""

    CODES = tuple(f"{family}{number:02}" for family in "WCS" for number in range(1, 20))
    NEVER = ("C10", "S05")

    def setUp(self) -> None:
        super().setUp()
        verdicts = [self.verdict(number) for number in range(40)]
        coverage = Coverage(verdicts, Demand(least=57), {code: f"{code} <b>is so</b>." for code in self.CODES})
        page = Page("mqjudge", "40 logs", [], {"S01": Explanation("S01")}, coverage).write(verdicts)
        self.place = (KEPT[0] if KEPT else self.folder) / "matrix.html"
        self.place.write_text(page)

    def verdict(self, number: int) -> Verdict:
        """The name of each is hostile, and the first ones have faults."""
        name = f"{number}{OVERRIDE}<img src=x onerror=window.hit=1>\"'{'z' * number * 5}.log"
        places = {f"{code} sec-1": 0 if code in self.NEVER else 3 ** ((number + at) % 14)
                  for at, code in enumerate(self.CODES)}
        faults = Counter({"S01 sec-1": 2} if number < 3 else {})
        return Verdict(Path(name), FAULTS if faults else PASSED, last="pass 9 events", places=places, faults=faults,
                       end="server")

    def size(self, name: str) -> int:
        return int(self.browser.value(f"document.querySelector('.matrix').{name}"))

    def test_it_is_readable(self) -> None:
        for width in (390, 1200):
            for scheme in ("light", "dark"):
                self.browser.open(self.place, width, scheme)
                self.assertEqual((self.browser.errors, self.browser.value("window.hit")), ([], None))
                self.assertEqual(self.browser.value("document.documentElement.scrollWidth"), width)
                self.browser.picture(self.place.with_name(f"matrix-{width}-{scheme}.png"), width)
        self.open(width=1200)
        self.assertEqual(self.size("scrollWidth"), self.size("clientWidth"))  # all statements are seen at once
        self.assertEqual(self.browser.value("document.querySelectorAll('.matrix .x').length"), 3)
        self.assertEqual(self.browser.value(DEAD_LINKS), [])
        tall = "[...document.querySelectorAll('.matrix tbody tr')].filter((row) => row.offsetHeight > 20).length"
        self.assertEqual(self.browser.value(tall), 0)
        cut = ("[...document.querySelectorAll('.matrix td')].filter((one) => one.scrollWidth > one.clientWidth + 1)"
               ".map((one) => one.textContent)")
        self.assertEqual(self.browser.value(cut), [])

    def test_heads_and_names_stay_in_sight(self) -> None:
        self.open(width=390)
        self.browser.value("document.querySelector('.matrix').style.maxHeight = '400px'")
        self.browser.value("document.querySelector('.matrix').scrollTo(300, 300)")
        self.assertEqual((self.size("scrollLeft"), self.size("scrollTop") > 0), (300, True))
        for selector, side in ((".matrix thead", "top"), (".matrix tbody th", "left")):
            self.assertLessEqual(abs(self.edge(selector, side) - self.edge(".matrix", side)), 1)

    def test_on_paper(self) -> None:
        self.open(width=1200)
        answer = self.browser.call("Page.printToPDF", printBackground=True, preferCSSPageSize=True)
        made = base64.b64decode(answer["data"])
        self.assertLess(len(made), 4_000_000)
        sizes = [tuple(map(float, box)) for box in re.findall(rb"/MediaBox \[0 0 ([\d.]+) ([\d.]+)\]", made)]
        self.assertIn(True, [width > height for width, height in sizes])
        self.assertLess(len(sizes), 8)


class Causes(WithStandIn, InBrowser):
    """Lines from faults to the events that they conflict with, by a program of a few lines that names these."""

    OPENING = ("OPEN", 'SENT CONNECT size 15 client "me" clean-start 1 keep-alive 60',
               "RECV CONNACK size 8 code 0x00 session-present 0 receive-maximum 2")
    PINGS = ("SENT PINGREQ size 2", "RECV PINGRESP size 2")
    UPRIGHT, ARROW = ".d .b path:not(.to)", ".d .b path.to"

    def setUp(self) -> None:
        super().setUp()
        self.put_program()

    @staticmethod
    def sent(*numbers: int) -> list[str]:
        return [f'SENT PUBLISH size 9 qos 1 dup 0 id {number} retain 0 topic "a" payload 1' for number in numbers]

    def flood(self, pings: int) -> None:
        """A page of a log in which the last two of four messages are too many, so many pings after the CONNACK."""
        events = [*self.OPENING, *self.PINGS * pings, *self.sent(1, 2, 3, 4)]
        self.last = len(events)
        self.tell(events, [Told(self.last - 1, "S07", "3 numbers 3 2"), Told(self.last, "S07", "3 numbers 4 2")])
        self.page(program=self.program, name="causes")

    def check_ends(self) -> None:
        """A line begins at the fault's arrow, and ends at the arrow of what it conflicts with."""
        self.assertAlmostEqual(self.edge(self.ARROW), self.edge("#e1-3 line"), delta=1)
        uprights = self.browser.value(f"[...document.querySelectorAll({self.UPRIGHT!r})].map((place) => [place"
                                      ".getBoundingClientRect().top, place.getBoundingClientRect().bottom])")
        self.assertAlmostEqual(uprights[0][0], self.edge("#e1-3 line"), delta=1)
        self.assertAlmostEqual(uprights[-1][1], self.edge(f"#e1-{self.last} line"), delta=1)
        for above, below in zip(uprights, uprights[1:]):
            self.assertLessEqual(abs(above[1] - below[0]), 2)

    def test_they_lead_from_event_to_event(self) -> None:
        """Over the parts of a chart, at both widths; nothing is wider than the page."""
        for pings in (2, 17):
            self.flood(pings)
            for width in WIDTHS:
                for scheme in ("light", "dark"):
                    self.browser.open(self.place, width, scheme)
                    self.check_ends()
                    self.assertEqual(self.browser.value("document.documentElement.scrollWidth"), width)
                    self.assertLessEqual(self.edge(self.UPRIGHT, "right"), self.edge(".picture", "right"))
            self.assertEqual(self.browser.value(DEAD_LINKS), [])

    def test_a_fold_between_opens(self) -> None:
        self.flood(100)
        self.open()
        self.check_ends()
        before = self.edge(f"#e1-{self.last} line")
        self.click(".gap > text a")
        self.assertGreater(self.edge(f"#e1-{self.last} line"), before + 1_000)
        self.check_ends()
        self.click(".gap > text a")
        self.check_ends()

    def test_the_line_of_the_chosen_fault_stands_out(self) -> None:
        events = [*self.OPENING, *self.sent(1, 2, 1), *self.PINGS * 15, *self.sent(2)]
        self.tell(events, [Told(6, "S01", "4"), Told(len(events), "S01", "5")])
        self.page(program=self.program, name="chosen")
        on = "[...document.querySelectorAll('.d .on')].map((line) => line.dataset.t)"
        for place, cause in (("f1-6-S01", "e1-4"), (f"f1-{len(events)}-S01", "e1-5")):
            self.open(place)
            self.assertEqual(set(self.browser.value(on)), {cause})
            self.assertEqual(self.browser.value("document.querySelector('.near').id"), cause)
        self.open()
        self.assertEqual(self.browser.value(on), [])

    def test_what_is_in_a_fold_is_shown(self) -> None:
        """Of a run only the first faults and the last one are drawn, with what they conflict with."""
        numbers = range(1, 11)
        events = [*self.OPENING, *self.sent(*numbers), *self.PINGS * 100, *self.sent(*numbers)]
        first = len(events) - 9
        self.tell(events, [Told(first + at, "S01", str(4 + at)) for at in range(10)])
        self.page(program=self.program, name="run")
        self.open()
        self.assertEqual([self.edge(f"#e1-{place}", "height") > 0 for place in (4, 5, 6, 9, 13)],
                         [True, True, True, False, True])
        self.open(f"f1-{first + 5}-S01")
        self.assertGreater(self.edge("#e1-9", "height"), 0)
        self.assertEqual(self.browser.value("document.querySelector('.near').id"), "e1-9")

    def test_they_have_names(self) -> None:
        self.flood(17)
        self.open()
        self.browser.call("Accessibility.enable")
        nodes = self.browser.call("Accessibility.getFullAXTree")["nodes"]
        names = [(node["role"]["value"], node["name"]["value"]) for node in nodes if "role" in node and "name" in node]
        words = f"S07 at event {self.last - 1}, S07 at event {self.last}, because of event 3"
        self.assertEqual([role for role, name in names if name == words], ["image"])  # once, though it has parts
        self.assertIn(("link", "event 3"), names)

    def test_on_paper(self) -> None:
        self.flood(17)
        self.open(width=720)
        self.browser.call("Emulation.setEmulatedMedia", media="print")
        self.addCleanup(self.browser.call, "Emulation.setEmulatedMedia", media="")
        self.check_ends()
        self.assertLessEqual(self.edge(self.UPRIGHT, "right"), self.edge(".faults", "left"))


class Used(InBrowser):
    """What a page does where it is clicked."""

    def test_a_card_chooses_its_fault(self) -> None:
        self.page(*RECORDED, name="examples")
        self.open("f5-6-S06")
        self.browser.value("scrollBy(0, 40)")
        place = self.edge("#f5-12-S01 h4")
        for selector in ("#f5-12-S01 .advice", "#f5-12-S01 a[href='#e5-6']"):
            self.click(selector)
            self.assertEqual(self.edge("#f5-12-S01 h4"), place)  # nothing is scrolled
            self.assertEqual(self.browser.value("location.hash"), "#f5-12-S01")
        self.assertEqual(self.browser.value("document.querySelector('.chosen').closest('.log').id"), "l5")
        self.assertEqual(self.browser.value("document.querySelectorAll('article.chosen').length"), 1)
        self.assertEqual(self.browser.value("document.querySelector('.seen').id"), "e5-6")

    def test_a_phone_shows_card_and_chart(self) -> None:
        self.page(*RECORDED, name="examples")
        for name in ("f5-12-S01", "f1-12-S07"):  # the last one is in the middle of a run
            self.open(name, 390)
            picture, card = ".picture:has(.chosen)", "article.chosen h4"
            event = ".chart .chosen"
            self.assertGreaterEqual(self.edge(picture), 0)
            self.assertGreaterEqual(self.edge(event), self.edge(picture))
            self.assertLessEqual(self.edge(event, "bottom"), self.edge(picture, "bottom"))
            self.assertGreaterEqual(self.edge(card), self.edge(picture, "bottom"))
            self.assertLessEqual(self.edge(card, "bottom"), 1000)

    @needs_why
    def test_the_line_of_a_fault_in_a_run_is_marked(self) -> None:
        self.page(*RECORDED, name="examples")
        self.open("f1-11-S07")
        self.assertEqual(self.browser.value("document.querySelector('.run .here').textContent"),
                         "11 PUBLISH id 8 · QoS 1 · flood, 8 in flight, at most 5 allowed")
        self.click("#f1-9-S07 h4")
        self.assertEqual(self.browser.value("document.querySelector('.run .here').textContent").split()[0], "9")

    def test_long_positions_and_times_have_room(self) -> None:
        pings = [record(2, packet(0xC0, b"")), record(3, packet(0xD0, b""))]
        twice = [record(2, publish("a", 1))] * 2
        for count in (3, 4_998, 49_998):  # at events of 2, 5 and 6 digits
            made = log(*pings * count, *twice, record(4))
            for one in (made, timed(made)):
                (self.logs / "a.log").write_bytes(one)
                self.page(name="digits")
                for width in (390, 1280):
                    self.open(width=width)
                    last = f"#e1-{2 * count + 5} text"
                    self.assertGreaterEqual(self.edge(last, "left"), self.edge(".picture", "left"))

    def test_parts_of_a_chart_meet(self) -> None:
        """Rows are as far from each other where a part ends, bands and the line to a later event go on."""
        limit = record(3, bytes.fromhex("2006000003210002"))
        silent = record(3, publish("a", 1))
        pings = [record(2, packet(0xC0, b"")), record(3, packet(0xD0, b""))] * 15
        made = log(silent, *pings, record(5), record(4)).replace(ACCEPTED, limit)
        (self.logs / "a.log").write_bytes(made)
        self.page(name="parts")
        self.open()
        parts = "[...document.querySelectorAll('.part')]"
        count = int(self.browser.value(f"{parts}.length"))
        self.assertGreater(count, 3)
        places = [self.edge(f"#e1-{number} line") for number in range(5, 35)]
        self.assertEqual({round(after - before) for before, after in zip(places, places[1:])}, {28})
        edges = ("((place) => [place.getBoundingClientRect().top, place.getBoundingClientRect().bottom])")
        bands = self.browser.value(f"[...document.querySelectorAll('.part > rect.new')].map({edges})")
        self.assertEqual(len(bands), count)
        links = self.browser.value(f"[...document.querySelectorAll('.d path:not(.to)')].map({edges})")
        self.assertEqual(len(links), count)
        for shapes in (bands, links):
            self.assertTrue(all(0 <= before[1] - after[0] <= 2 for before, after in zip(shapes, shapes[1:])), shapes)
        self.assertEqual(self.browser.value("document.querySelectorAll('.d path.to').length"), 1)  # an arrow

    def test_a_fold_opens(self) -> None:
        apart = [part for number in range(2, 102) for part in (record(2, publish("a", number)),
                                                               record(3, packet(0x40, number.to_bytes(2, "big"))))]
        ends = record(2, publish("a", 1))
        rest = [record(5), record(2, packet(0xC0, b"")), record(3, packet(0xD0, b""))]
        (self.logs / "a.log").write_bytes(log(ends, *apart, ends, *rest, record(4)))
        self.page(name="fold")
        self.open()
        shut = [self.edge(selector) for selector in ("#e1-4", "#e1-205", "#e1-208")]
        bottom = self.edge("rect.new", "bottom")
        self.assertEqual(self.edge("#e1-100", "height"), 0)
        size = int(self.browser.value("document.querySelector('.gap').dataset.h"))
        self.click(".gap > text a")
        self.assertEqual(size, 198 * 28)
        self.assertEqual([self.edge(selector) for selector in ("#e1-4", "#e1-205", "#e1-208")],
                         [shut[0], shut[1] + size, shut[2] + size])
        self.assertEqual(self.edge("rect.new", "bottom"), bottom + size)
        self.assertGreater(self.edge("#e1-100", "height"), 0)
        self.assertLess(self.edge("#e1-202", "bottom"), self.edge("#e1-205"))
        self.click(".gap > text a")
        self.assertEqual([self.edge(selector) for selector in ("#e1-4", "#e1-205", "#e1-208")], shut)
        self.assertEqual(self.edge("#e1-100", "height"), 0)
        self.open("e1-100")  # a link to what is in it opens it
        self.assertGreater(self.edge("#e1-100", "height"), 0)
        self.assertLess(self.edge("#e1-100"), 1000)

    def test_what_set_an_alias_is_lit(self) -> None:
        aliases, alias = bytes.fromhex("2006000003220005"), b"\x23\0\3"
        begin = [record(4), record(1), record(2, CONNECT), record(3, aliases)]
        made = log(record(2, publish("a", 1, alias)), *begin, record(2, publish("", 2, alias)), record(4))
        (self.logs / "a.log").write_bytes(made.replace(ACCEPTED, record(3, aliases)))
        self.page(name="alias")
        self.open("f1-9-C16")
        self.assertEqual(self.browser.value("document.querySelector('.near').id"), "e1-4")

    def test_tables_are_sorted(self) -> None:
        self.page(*RECORDED, name="examples")
        self.open()
        cells = "[...document.querySelectorAll('.logs')].at(-1).querySelectorAll('td.num')"
        order = f"[...{cells}].map((cell) => cell.textContent).join(' ')"
        wanted = ["7", "9", "16", "20", "26", "30", "33", "33", "35", "35"]
        for words in (wanted, wanted[::-1]):
            self.browser.value("void [...document.querySelectorAll('.logs')].at(-1)"
                               ".querySelector('thead .num button').click()")
            self.assertEqual(self.browser.value(order), " ".join(words))
        self.assertEqual(self.browser.value("document.querySelector('[aria-sort]').ariaSort"), "descending")

    def test_passes_are_folded(self) -> None:
        self.page(*RECORDED, name="examples")
        self.open()
        self.assertEqual(self.browser.value("document.querySelectorAll('.passes[open], .log[open]').length"), 0)
        is_seen = "document.querySelector('#l16 .chart').checkVisibility()"
        self.assertFalse(self.browser.value(is_seen))
        self.click(".passes a[href='#l16']")
        self.browser.value("void (location.hash = 'l16')")
        self.assertEqual(self.browser.value("document.querySelectorAll('.passes[open], #l16[open]').length"), 2)
        self.assertTrue(self.browser.value(is_seen))
        self.assertLess(self.edge("#l16"), 1000)

    def printed_pages(self) -> int:
        """How many pages of A4 a page takes on paper."""
        answer = self.browser.call("Page.printToPDF", printBackground=True, paperWidth=8.27, paperHeight=11.69)
        return len(re.findall(rb"/Type /Page\b", base64.b64decode(answer["data"])))

    def test_a_log_begins_on_the_first_page_of_paper(self) -> None:
        """A chart that doesn't fit there is continued, and isn't moved to the next page."""
        sent, acknowledged = record(2, publish("sensors/hall", 1)), record(3, packet(0x40, b"\0\1"))
        for records, most in (([sent, acknowledged] * 30, 1), ([sent, acknowledged] * 29 + [sent, sent], 2)):
            (self.logs / "a.log").write_bytes(timed(log(*records, record(4))))
            self.page(name="paper")
            self.open()
            self.assertLessEqual(self.printed_pages(), most)

    def test_a_phone_shows_tables(self) -> None:
        self.page(*RECORDED, name="examples")
        self.open(width=390)
        row = ".codes tbody tr"
        self.assertEqual(self.edge(f"{row} td:last-child", "left"), self.edge(f"{row} th", "left"))
        self.assertGreaterEqual(self.edge(f"{row} td:last-child"), self.edge(f"{row} th", "bottom"))
        unit = "getComputedStyle(document.querySelector('.codes td.num'), '::after').content"
        self.assertEqual(self.browser.value(unit), '" fault"')

    def test_what_is_printed(self) -> None:
        self.page(*RECORDED, name="examples")
        self.open(width=720)
        self.browser.value("void dispatchEvent(new Event('beforeprint'))")
        self.browser.call("Emulation.setEmulatedMedia", media="print")
        self.addCleanup(self.browser.call, "Emulation.setEmulatedMedia", media="")
        self.assertEqual(self.browser.value("document.querySelectorAll('.passes[open]').length"), 1)  # with its hashes
        breaks = "[...document.querySelectorAll('section.log')].map((place) => getComputedStyle(place).breakBefore)"
        self.assertEqual(set(self.browser.value(breaks)), {"auto"})  # no page is left for a log
        self.assertLess(abs(self.edge("#l5 .picture") - self.edge("#l5 .faults")), 20)  # they are side by side
        self.assertGreaterEqual(self.edge("#l5 .faults", "left"), self.edge("#l5 .picture", "right"))
        self.browser.value("void dispatchEvent(new Event('afterprint'))")
        self.assertEqual(self.browser.value("document.querySelectorAll('.passes[open]').length"), 0)


DEAD_LINKS = ("[...document.querySelectorAll('a')].map((place) => place.getAttribute('href'))"
              ".filter((link) => !link.startsWith('#') || !document.getElementById(link.slice(1)))")
OUTSIDE = ("[...document.querySelectorAll('[src], link, image, use, iframe, object, embed')]"
           ".filter((place) => place.getAttribute('href') !== 'data:,').map((place) => place.outerHTML)")
FAULTS_OF_LOGS = ("[...document.querySelectorAll('section.log')].map((place) => ({name: place.dataset.n, faults:"
                  " [...place.querySelectorAll('[id^=f]')].map((fault) => fault.id)}))")


if __name__ == "__main__":
    if "--keep" in sys.argv:
        place = sys.argv.index("--keep")
        KEPT.append(Path(sys.argv[place + 1]))
        KEPT[0].mkdir(parents=True, exist_ok=True)
        del sys.argv[place : place + 2]
    unittest.main()
