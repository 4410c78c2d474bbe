#!/usr/bin/env python3
"""Tests of recorders/survey: what it makes of runs, its page, its command line, and a run with what is installed.

usage: recorders/test_survey.py
"""
from __future__ import annotations

import gzip
import json
import re
import shutil
import subprocess
import sys
import unittest
from pathlib import Path
from typing import Any

sys.dont_write_bytecode = True  # the repository stays as it is
HERE = Path(__file__).resolve().parent
sys.path.insert(0, str(HERE))
from exercising.evidence import BINDING, FOREIGN, FURTHER
from exercising.table_file import BROKEN, FORM, KEPT, UNTESTED
from judging.statements import ALL, every_statement_of, judges_further
from surveying.document import (
    ON_REQUEST,
    Document,
    DocumentError,
    events_in,
    filled,
    in_words,
    known_kinds,
    places_in,
    words_for,
)
from surveying.findings import FOREIGN_SIGN, PROVOKED, TABLE, UNBOUND, Cell, Run, Surveyed, every_code, kinds_of, read_run
from surveying.front import front, head_of
from surveying.software import SOFTWARE, Missing, ejabberd, mosquitto, unpacked_version
from testing import HOST, TOP, InFolder, accepts, free_port, judge_program, missing, process, wait_until

MISUSE = 3
PAGE = TOP / "docs/SURVEY.md"
SESSIONS = TOP / "examples/sessions"
PLAIN = HERE / "plain_broker.py"
RUN_SECONDS = 400
SHOWN = """1 record 1 moment 0 OPEN
2 record 2 moment 0 SENT CONNECT size 15
3 record 3 moment 0 SENT PUBLISH size 9 qos 1 dup 0 id 1
  fault S01 MQTT-2.2.1-3 It is so. (decided at event 5)
4 record 4 moment 0 CLOSE
"""


def software(name: str) -> Any:
    return next(one for one in SOFTWARE if one.name == name)


def said(fate: str, places: int = 0, faults: int = 0, scenarios: str = "", loose: str = "") -> dict[str, Any]:
    """What a table says of a statement."""
    found: dict[str, Any] = {"fate": fate, "places": places, "situations": {"met": 1, "of": 2}}
    if fate == BROKEN:
        found |= {"faults": faults, "faults inside": 0, "scenarios": scenarios.split(), "broken in": ["q1 many"],
                  "scenarios that break rules": loose.split(), "seen again": [],
                  "logs": [{"log": "server-window.log", "events": 9, "faults": faults, "first": 5}]}
    return found | ({"why": "it didn't come about"} if fate == UNTESTED else {})


def run(folder: Path = SESSIONS, is_of_all: bool = False, **statements: dict[str, Any]) -> Run:
    return Run(folder, {"form": FORM, "all": is_of_all, "statements": statements,
                        "scenarios": {"played": 2, "completed": 2}, "logs": 3})


def surveyed(*runs: Run, name: str = "mosquitto", why: str = "") -> Surveyed:
    return Surveyed(software(name), "1.0", [*runs], why)


class Findings(unittest.TestCase):
    def test_cells(self) -> None:
        first = run(S07=said(BROKEN, 10, 2, "a b"), W14=said(BROKEN, 5, 1, loose="c"), C15=said(UNTESTED),
                    S01=said(KEPT, 7))
        again = run(S07=said(KEPT, 8), W14=said(BROKEN, 5, 1, loose="c"), C15=said(UNTESTED), S01=said(UNTESTED))
        one = surveyed(first, again)
        self.assertEqual(one.cell("S07"), Cell(BROKEN, 18, 2))
        self.assertEqual(one.cell("W14"), Cell(PROVOKED, 10, 2))
        self.assertEqual(one.cell("C15"), Cell(UNTESTED, why="it didn't come about"))
        self.assertEqual(one.cell("S01"), Cell(KEPT, 7))
        self.assertEqual(one.cell("W15"), Cell(FOREIGN_SIGN))
        self.assertEqual((one.cell("C02"), one.cell("L1")), (Cell(UNBOUND), Cell(UNBOUND)))
        self.assertEqual(one.codes(BROKEN), ["S07"])

    def test_what_answers_a_fault_comes_last(self) -> None:
        broken = run(W14=said(BROKEN, 5, 1, loose="c"), S07=said(BROKEN, 9, 1, "a"), C14=said(BROKEN, 9, 1, "a", "c"))
        kinds = kinds_of([surveyed(broken, run(S07=said(KEPT, 1)))])
        self.assertEqual([(kind.name, kind.is_provoked) for kind in kinds],
                         [("C14 mosquitto", False), ("S07 mosquitto", False), ("W14 mosquitto", True)])
        self.assertEqual([kind.is_steady({}) for kind in kinds], [False, False, False])
        self.assertEqual(kinds[0].log, SESSIONS / "server-window.log")
        self.assertTrue(kinds_of([surveyed(broken)])[0].is_steady({}))

    def test_a_fault_that_breaks_one_statement_or_another(self) -> None:
        one = surveyed(run(S06=said(BROKEN, 9, 1, "a")), run(S04=said(BROKEN, 9, 1, "a"), S06=said(KEPT, 1)))
        known = known_kinds("<!-- survey kind S06+S04 mosquitto -->")
        both = frozenset(("S04", "S06"))
        self.assertEqual(known, {"S06 mosquitto": both, "S04 mosquitto": both})
        self.assertEqual([kind.is_steady(known) for kind in kinds_of([one])], [True, True])
        self.assertEqual([kind.is_steady({}) for kind in kinds_of([one])], [False, False])

    def test_further_statements_bind_if_they_were_asked_for(self) -> None:
        asked, unasked = surveyed(run(is_of_all=True, F05=said(KEPT, 3), V06=said(BROKEN, 5, 1, "a"))), surveyed(run())
        self.assertEqual((asked.cell("F05"), asked.cell("V06")), (Cell(KEPT, 3), Cell(BROKEN, 5, 1)))
        self.assertEqual((asked.cell("F01"), unasked.cell("F05")), (Cell(UNBOUND), Cell(UNBOUND)))
        self.assertEqual(asked.codes(BROKEN), ["V06"])
        self.assertEqual(set(asked.bound - unasked.bound), set(FURTHER[True]))
        self.assertEqual([code for code in every_code([asked]) if code not in every_code([unasked])],
                         "B05 B06 B07 B08 B09 P01 P02 R01 R02 F01 F02 F03 F04 F05 F06 V03 V04 V06 C24 D01 D02 D03 D05 A01 A02 A03".split())

    def test_a_table_that_is_none(self) -> None:
        self.assertIsNone(read_run(SESSIONS))


class Page(unittest.TestCase):
    def document(self) -> Document:
        one = surveyed(run(S07=said(BROKEN, 10, 2, "a b c d e f g"), C15=said(UNTESTED), S01=said(KEPT, 7)))
        left = surveyed(name="ejabberd", why="erl isn't installed")
        about = {"date": "2026-01-02", "system": "a system", "judged by": "mqjudge 1"}
        return Document([one, left], kinds_of([one]), {"S07": "It is so."}, ["S07 mosquitto"], about,
                        lambda log, words: SHOWN)

    def test_what_is_between_marks_is_made_anew(self) -> None:
        text = "# A\n<!-- survey about -->\nold\nold\n<!-- end -->\nmine\n<!-- survey others -->\n<!-- end -->\n"
        made = filled(text, self.document().part)
        self.assertEqual(made, "# A\n<!-- survey about -->\nMade on 2026-01-02, on a system.\nJudged by mqjudge"
                               " 1.\n<!-- end -->\nmine\n<!-- survey others -->\nNone.\n<!-- end -->\n")
        self.assertEqual(filled(made, self.document().part), made)
        with self.assertRaises(DocumentError):
            filled("<!-- survey about -->\nno end\n", self.document().part)

    def test_the_parts(self) -> None:
        part = self.document().part
        lines = part("matrix", ["broker"])
        self.assertEqual(lines[:2], ["| | `mosquitto` | |", "|---|---:|---|"])
        self.assertLessEqual({"| C15 | - |  |", "| S01 | 7 |  |", "| S07 | **2 of 10** | It is so. |"}, set(lines))
        self.assertEqual(len(lines), 2 + len(BINDING[True] - FOREIGN[True]))
        self.assertIn("- `ejabberd`: erl isn't installed", part("software", []))
        self.assertEqual(part("kind", ["S07", "mosquitto"]), [
            "- `mosquitto` 1.0: in 1 of 1 run, 2 faults at 10 places, in 7 scenarios (`a`, `b`, `c`, `d`, `e`,",
            "  `f` and 1 more), in the situations `q1 many`."])
        self.assertEqual(part("kind", ["C14", "mosquitto"]), ["- `mosquitto`: not seen in this survey."])
        shown = part("events", ["x.log", "3"])
        self.assertEqual(shown[:3], ["```", "mqjudge show --long --faults examples/sessions/survey/x.log", ".."])
        self.assertEqual(shown[4:], ["  fault S01 MQTT-2.2.1-3 It is so. (decided at event 5)", "..", "```"])
        for name, words in (("events", ["x.log"]), ("events", ["x.log", "1"]), ("matrix", []), ("nothing", [])):
            with self.assertRaises(DocumentError):
                part(name, words)

    def test_further_statements_are_marked(self) -> None:
        one = surveyed(run(is_of_all=True, V06=said(BROKEN, 5, 1, "a")))
        document = Document([one], kinds_of([one]), {"V06": "It is so."}, [], {}, lambda log, words: SHOWN)
        self.assertIn(f"| V06 | **1 of 5** | {ON_REQUEST}It is so. |", document.part("matrix", ["broker"]))
        self.assertEqual(words_for("client-x-v06.log"), ["show", "--long", "--faults", ALL])
        self.assertEqual(words_for("client-x-c14-v06x.log"), ["show", "--long", "--faults"])
        shown = document.part("events", ["client-x-v06.log", "3"])
        self.assertEqual(shown[1], f"mqjudge show --long --faults {ALL} examples/sessions/survey/client-x-v06.log")
        html = front([one], kinds_of([one]), {"V06": "It is so."}, {})
        for words in ('<th scope=col class=further title="It is so. (judged on request)"><span>V06</span>',
                      "V03 V04 V06 C24 D01 D02 D03 D05 A01 A02 A03</em> judged on request</span>", "<td>It is so. <em>(judged on request)</em>"):
            self.assertIn(words, html)
        self.assertNotIn("further", head_of("S07", {}))

    def test_events(self) -> None:
        self.assertEqual([*places_in("2-4"), *places_in("7")], [2, 3, 4, 7])
        lines = SHOWN.replace(" moment 0", "").splitlines()
        self.assertEqual(events_in(SHOWN.replace(" moment 0", ""), {1, 3}), [lines[0], "..", lines[2], lines[3], ".."])
        event, time = "4 record 4 RECV PINGREQ size 2", " (at 2026-01-02 03:04:05.678901 UTC)"
        twice = "\n".join([*lines[:4], event, lines[3] + time])
        self.assertEqual(events_in(twice, {3, 4})[-3:], [lines[3], event, "  fault S01 (decided at event 5)"])

    def test_words_of_cells(self) -> None:
        cells = [Cell(BROKEN, 5, 2), Cell(PROVOKED, 5, 2), Cell(KEPT, 5), Cell(UNTESTED), Cell(UNBOUND)]
        self.assertEqual([*map(in_words, cells)], ["**2 of 5**", "(2) of 5", "5", "-", ""])

    def test_the_front(self) -> None:
        one = surveyed(run(S07=said(BROKEN, 10, 2, "a"), C15=said(UNTESTED), S01=said(KEPT, 7)))
        html = front([one], kinds_of([one]), {"S07": "It <is> so."}, {"S07 mosquitto": 4})
        for words in ('<td class=x title="S07: 2 faults at 10 places">2', 'href="#l4"', "It &lt;is&gt; so.",
                      '<td class=v title="C15: not tested: it didn&#x27;t come about">',
                      '<td class=g2 title="S01: kept at 7 places">7'):
            self.assertIn(words, html)


class Unpacked(InFolder):
    def test_a_version_is_that_of_its_changes(self) -> None:
        place = self.folder / "usr/share/doc/one"
        place.mkdir(parents=True)
        with gzip.open(place / "changelog.Debian.gz", "wt") as changes:
            changes.write("one (2.0.21-1~bpo12+1) bookworm-backports; urgency=medium\n\n  * (no) more\n")
        self.assertEqual(unpacked_version(self.folder, "one"), "2.0.21-1~bpo12+1")
        self.assertEqual(unpacked_version(self.folder, "two"), "of no package")

    def test_what_isnt_there_is_said(self) -> None:
        for prepare, name in ((mosquitto, "mosquitto"), (ejabberd, "ejabberd")):
            with self.assertRaisesRegex(Missing, f"{name} isn't unpacked in "):
                prepare(self.folder, root=self.folder)


class Repository(unittest.TestCase):
    def test_the_page_is_whole(self) -> None:
        text = PAGE.read_text()
        filled(text, lambda name, words: [])
        known = known_kinds(text)
        self.assertLessEqual({name.split()[1] for name in known}, {one.name for one in SOFTWARE})
        sentences = {one.code for one in every_statement_of(judge_program())}
        if sentences and judges_further(judge_program()):
            self.assertLessEqual({name.split()[0] for name in known}, sentences)

    def test_what_it_takes_is_said(self) -> None:
        """The page has the Debian packages of all software."""
        text = PAGE.read_text()
        for package in {package for one in SOFTWARE for package in one.packages}:
            self.assertRegex(text, rf"(^|\s){re.escape(package)}(\s|$)")


class Commands(InFolder):
    def called(self, *words: object) -> tuple[int, str, str]:
        command = [sys.executable, str(HERE / "survey"), *map(str, words)]
        answer = subprocess.run(command, capture_output=True, text=True, timeout=RUN_SECONDS)
        return answer.returncode, answer.stdout, (answer.stderr.splitlines() or [""])[-1]

    def test_misuse(self) -> None:
        (self.folder / "old").mkdir()
        (self.folder / "old/a.log").touch()
        bad = self.folder / "bad.md"
        bad.write_text("<!-- survey about -->\n")
        out, program = ("--out", self.logs), ("--program", judge_program())
        for words, wanted in (
            (program, "one of the arguments --out --read --list is required"),
            ((*out, "--read", self.folder, *program), "not allowed with argument --out"),
            ((*out, *program, "--only", "mosquito"), "no software is called mosquito: see --list"),
            ((*out, *program, "--runs", "0"), "'0' isn't a number above 0"),
            ((*out, *program, "--html", self.folder / "none/page.html"), "can't be written: No such file or directory"),
            ((*out, *program, "--write", self.folder / "none.md"), "No such file or directory"),
            ((*out, *program, "--write", bad), "no <!-- end --> comes after <!-- survey about -->"),
            ((*out, "--program", self.folder / "none"), "mqjudge can't be run: build it, or name it with --program"),
            (("--out", self.folder / "old", *program), "has logs of an earlier run: name another folder, or remove it"),
            (("--read", self.folder, *program), "has no survey.json of a survey"),
        ):
            status, _, line = self.called(*words)
            self.assertEqual(status, MISUSE, words)
            self.assertIn(wanted, line)

    def test_all_is_listed(self) -> None:
        status, printed, _ = self.called("--list")
        self.assertEqual(status, 0)
        self.assertEqual([line.split()[0] for line in printed.splitlines()], [one.name for one in SOFTWARE])

    def kept(self, *fates: dict[str, Any]) -> Path:
        """A survey of one software that left its tables, and a log."""
        out = self.folder / "survey"
        for number, statements in enumerate(fates, 1):
            folder = out / "mosquitto" / str(number)
            folder.mkdir(parents=True)
            shutil.copy(SESSIONS / "server-window.log", folder)
            (folder / TABLE).write_text(json.dumps(run(**statements).table))
        software = {"mosquitto": {"version": "1.0", "why": ""}, "ejabberd": {"version": "", "why": "not here"}}
        about = {"date": "2026-01-02", "system": "a system", "judged by": "mqjudge 1", "runs": len(fates),
                 "software": software}
        (out / "survey.json").write_text(json.dumps(about))
        return out

    def test_an_earlier_survey_is_read(self) -> None:
        broken = {"S07": said(BROKEN, 10, 2, "a"), "S01": said(KEPT, 7)}
        out, page, document = self.kept(broken, broken), self.folder / "page.html", self.folder / "page.md"
        document.write_text("<!-- survey kind S07 mosquitto -->\n<!-- end -->\n")
        status, printed, _ = self.called("--read", out, "--program", judge_program(), "--html", page, "--write",
                                         document)
        self.assertEqual(status, 0, printed)
        self.assertIn("ejabberd: not here\n", printed)
        wanted = "1 kind of faults, and 0 after a fault of the other end; 1 of these 1 in each run"
        self.assertEqual(printed.splitlines()[-1], wanted)
        self.assertIn("in 2 of 2 runs, 4 faults at 20 places", document.read_text())
        html = page.read_text()
        self.assertIn("<h1>1 program surveyed, 1 kind of faults</h1>", html)
        self.assertIn('<a class=code href="#l1">S07</a>', html)
        self.assertIn("server-window.log", html)

    def test_runs_that_differ_and_kinds_that_are_new(self) -> None:
        out = self.kept({"S07": said(BROKEN, 10, 2, "a")}, {"S07": said(KEPT, 7), "S01": said(BROKEN, 3, 1, "b")})
        document = self.folder / "page.md"
        marks = [f"<!-- survey kind {code} mosquitto -->\n<!-- end -->\n" for code in ("S07", "C14")]
        document.write_text("".join(marks))
        status, printed, _ = self.called("--read", out, "--program", judge_program(), "--write", document)
        self.assertEqual(status, 1)
        for line in ("not in each run: S07 mosquitto: in 1 of 2", "not described: S01 mosquitto",
                     "described, not seen: C14 mosquitto"):
            self.assertIn(f"{line}\n", printed)


class Tables(InFolder):
    def test_a_run_writes_its_table(self) -> None:
        port, file = free_port(), self.folder / "table.json"
        with process(sys.executable, PLAIN, port) as child:
            wait_until(lambda: child.poll() is not None or accepts(port), "the plain broker listens")
            command = [sys.executable, str(HERE / "exercise"), "broker", f"{HOST}:{port}", "--out", self.logs, "--only",
                       "inbound-q1-repeats", "--write-table", file, "--program", judge_program()]
            subprocess.run([*map(str, command)], capture_output=True, timeout=RUN_SECONDS)
        table = json.loads(file.read_text())
        self.assertEqual((table["form"], table["end"]), (FORM, "server"))
        self.assertEqual({one["fate"] for one in table["statements"].values()}, {KEPT, UNTESTED})
        self.assertTrue(all(one["places"] > 0 for one in table["statements"].values() if one["fate"] == KEPT))


class Whole(Commands):
    @unittest.skipIf(missing("mosquitto_pub"), missing("mosquitto_pub"))
    def test_what_is_installed(self) -> None:
        """A client that is quick, by a program that isn't there for another."""
        status, printed, said = self.called("--out", self.logs, "--only", "mosquitto_pub", "--runs", 1, "--program",
                                            judge_program())
        self.assertIn(status, (0, 1), said)
        self.assertRegex(printed, r"(?m)^mosquitto_pub .+: 1 run$")
        self.assertIn("only after a fault of the other end   1  C13", printed)


if __name__ == "__main__":
    unittest.main()
