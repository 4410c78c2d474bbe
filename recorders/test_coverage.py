#!/usr/bin/env python3
"""Tests of what `recorders/judge` says of coverage: how often logs test statements, and whether that is enough.

A program of a few lines stands for the judge; where the judge counts places, it is asked too.

usage: recorders/test_coverage.py
"""
from __future__ import annotations

import html
import json
import re
import subprocess
import sys
import unittest
from pathlib import Path
from xml.etree import ElementTree

sys.dont_write_bytecode = True  # the repository stays as it is
sys.path.insert(0, str(Path(__file__).resolve().parent))
from judge_calls import Case as WithStandIn
from judging.coverage import Coverage, Demand, in_order
from judging.matrix import SHADES, Row, matrices, shade, short
from judging.statements import counts_places
from judging.verdict import PASSED, Verdict
from made_logs import CONNACK, CONNECT, log, publish, record
from sarif_schema import problems
from testing import TOP, judge_program

STAND_IN = """#!/bin/sh
# Of a log it says what lies beside it, or of a copy what lies beside the program; the last line is the status.
case "$1 $2" in
"check --coverage") test -n "$3" || { echo refused 1 Header at 0; exit 2; }
  said="$3.said"; test -f "$said" || said="$0.said"; sed '$d' < "$said"; exit "$(tail -n 1 "$said")" ;;
"check "*) sed '/^tested\\|^covered\\|^unjudged/d;$d' < "$2.said"; exit "$(tail -n 1 "$2.said")" ;;
"rules ") printf '%s sec-1 It is so.\\n' 'W01 both' 'W09 both' 'C02 client' 'S01 both' 'E7R server'; exit 0 ;;
esac
exit 3
"""
OLD = """#!/bin/sh
# A program that counts no places.
case "$*" in *--coverage*) echo "error: unexpected argument '--coverage' found" >&2; exit 3 ;; esac
touch "$0.began"
exit 4
"""
CLIENT, SERVER = log(record(4)), log(record(4), end=1)
PASS = ("pass 5 events", "0")
FAIL = ("fail 1 faults 5 events", "1")
FAULT = "fault 5 S01 MQTT-2.2.1-3 decided 5 record 5 offset -"


def tested(**places: int) -> list[str]:
    """What the program says of places."""
    lines = [f"tested {code} sec-1 places {count}" for code, count in places.items()]
    return [*lines, f"covered {sum(map(bool, places.values()))} of {len(places)} statements"]


class Case(WithStandIn):
    def setUp(self) -> None:
        super().setUp()
        self.program.write_text(STAND_IN)

    def add(self, name: str, content: bytes, *said: str) -> None:
        (self.logs / f"{name}.log").write_bytes(content)
        (self.logs / f"{name}.log.said").write_text("\n".join(said) + "\n")

    def add_some(self) -> None:
        """Two clients, of which one has a fault, and a server."""
        self.add("a", CLIENT, *tested(W01=2, W09=0, C02=1, S01=0), *PASS)
        self.add("b", CLIENT, FAULT, *tested(W01=5, W09=0, C02=1, S01=3), *FAIL)
        self.add("c", SERVER, *tested(W01=1, W09=0, S01=0, E7R=0), *PASS)

    def required(self, *lines: str) -> Path:
        path = self.folder / "required"
        path.write_text("".join(f"{line}\n" for line in lines))
        return path


class Printed(Case):
    def test_sums_of_each_end(self) -> None:
        self.add_some()
        status, printed, errors = self.judged(self.logs, "--coverage")
        lines = printed.splitlines()
        place = lines.index("tested: client 3 of 4 statements; never: W09")
        self.assertEqual(lines[place + 1 : place + 3], ["tested: server 1 of 4 statements; never: W09 S01 E7R", ""])
        self.assertTrue(lines[place - 2].startswith("what breaks S01") and not lines[place - 1])
        self.assertEqual((status, errors), (1, ""))

    def test_reports_stay_without_it(self) -> None:
        self.add_some()
        bare = self.judged(self.logs)
        status, printed, errors = self.judged(self.logs, "--coverage")
        kept = [line for line in printed.splitlines() if not line.startswith("tested: ")]
        self.assertNotIn("tested", bare[1])
        place = next(at for at, (one, other) in enumerate(zip(kept, kept[1:])) if not one and not other)
        del kept[place]
        self.assertEqual((status, kept, errors), (bare[0], bare[1].splitlines(), bare[2]))

    def test_all_is_tested(self) -> None:
        self.add("a", CLIENT, *tested(W01=2, S01=1), *PASS)
        self.assertIn("tested: client 2 of 2 statements\n", self.judged(self.logs, "--coverage")[1])

    def test_what_is_not_judged(self) -> None:
        gaps = ["unjudged sent lost event 14 record 9", "unjudged sent lost event 20 record 15",
                "unjudged sent unfinished PUBLISH bytes 12 event 24 record 20", "unjudged sent unfinished Reserved bytes 1",
                "unjudged B01 B02 shared event 12 record 13", "unjudged sent unread 12 record 20", "unjudged answers no-rest"]
        self.add("a", CLIENT, *tested(W01=2, S01=1), *gaps, *PASS)
        self.add("b", CLIENT, *tested(W01=2, S01=1), gaps[-1], *PASS)
        self.add("c", SERVER, *tested(W01=1), *PASS)
        _, printed, _ = self.judged(self.logs, "--coverage")
        self.assertIn("tested: client 2 of 2 statements\nnot judged: client answers no-rest in 2 of 2 logs, sent lost in 1 of"
                      " 2 logs, sent unfinished in 1 of 2 logs, B01 B02 shared in 1 of 2 logs\ntested: server 1 of 1 statements\n\n",
                      printed)
        lines = [json.loads(line) for line in self.judged(self.logs, "--coverage", "--json")[1].splitlines()]
        place = {"event": 14, "record": 9}
        self.assertEqual(lines[0]["unjudged"][0], place | {"what": "sent", "why": "lost"})
        unfinished = {"what": "sent", "why": "unfinished"}
        self.assertEqual(lines[0]["unjudged"][2], unfinished | {"bytes": 12, "type": "PUBLISH", "event": 24, "record": 20})
        self.assertEqual(lines[0]["unjudged"][3], unfinished | {"bytes": 1, "type": "Reserved"})
        self.assertEqual(lines[1]["unjudged"], [{"what": "answers", "why": "no-rest"}])
        self.assertNotIn("unjudged", lines[2])
        self.assertNotIn("unjudged", self.judged(self.logs, "--json")[1])

    def test_what_counts_no_places(self) -> None:
        """What is refused, cut or ignored, and what isn't MQTT."""
        self.add("a", CLIENT, *tested(W01=2, S01=0), *PASS)
        self.add("b", CLIENT, FAULT, *tested(W01=5, S01=3), *FAIL)
        self.add("refused", CLIENT, "refused 7 Nested at 13", "2")
        self.add("failed", CLIENT, "mqjudge: read failed", "4")
        request = record(1) + record(2, b"GET / HTTP/1.1\r\n\r\n") + record(4)
        self.add("http", b"MQTR\x01\0\0\0" + request, *tested(W01=1, S01=0), *PASS)
        status, printed, _ = self.judged(self.logs, "--coverage", "--ignore", "S01", "--allow-refused", "7")
        said = [line for line in printed.splitlines() if line.startswith(("tested", "no places"))]
        wanted = ["tested: client 1 of 2 statements; never: S01",
                  "no places count of 4 logs: 1 failed, 1 ignored, 1 not MQTT, 1 refused"]
        self.assertEqual((status, said), (4, wanted))

    def test_a_log_that_is_cut(self) -> None:
        self.add("a", CLIENT + record(1)[:-1], "refused 10 Cut at 60", "2")
        (self.folder / "program.said").write_text("\n".join([*tested(W01=2), *PASS, ""]))
        status, printed, _ = self.judged(self.logs, "--coverage")
        self.assertIn("it ends inside a record", printed)
        self.assertEqual((status, "no places count of 1 log: 1 cut" in printed, "tested" in printed), (0, True, False))

    def test_statements_that_only_some_logs_have(self) -> None:
        """Those on releases, and those on packets that only the other end sends."""
        self.assertEqual(in_order(["WCSB", "WCSLB", "WXCB"]), list("WXCSLB"))
        self.assertEqual(in_order([]), [])
        self.add("a", SERVER, *tested(W01=2, S01=1), *PASS)
        self.add("b", SERVER, *tested(W01=2, W09=0, S01=1, E7R=4), *PASS)
        path = self.folder / "written"
        self.assertEqual(self.judged(self.logs, "--write-coverage", path)[0], 0)
        self.assertEqual(path.read_text().splitlines(), ["# 2 logs of a server: END CODE PLACES", "server W01 4",
                                                         "server W09 0", "server S01 2", "server E7R 4"])


class Required(Case):
    def said(self, *words: object) -> tuple[int, list[str]]:
        status, printed, _ = self.judged(self.logs, *words)
        return status, [line for line in printed.splitlines() if line.startswith("not tested")]

    def test_what_falls_short(self) -> None:
        self.add("a", CLIENT, *tested(W01=2, W09=0, C02=1), *PASS)
        path = self.required("# what is to be tested", "", "client W01 2", "Client w09 1", "client C02 12",
                             "server E7R 1", "client S01 0")
        wanted = ["not tested: client W09: 0 places, 1 required", "not tested: client C02: 1 place, 12 required",
                  "not tested: server E7R: 0 places, 1 required"]
        self.assertEqual(self.said("--require-coverage", path), (1, wanted))
        self.assertEqual(self.said("--require-coverage", self.required("client W01 2", "client C02 1")), (0, []))

    def test_the_most_that_a_line_requires(self) -> None:
        self.add("a", CLIENT, *tested(W01=2), *PASS)
        path = self.required("client W01 2", "client W01 4", "client W01 3")
        self.assertEqual(self.said("--require-coverage", path),
                         (1, ["not tested: client W01: 2 places, 4 required"]))

    def test_at_least_so_many_statements(self) -> None:
        self.add_some()
        self.add("b", CLIENT, *tested(W01=5, W09=0, C02=1, S01=3), *PASS)
        self.assertEqual(self.said("--min-coverage", "1"), (0, []))
        wanted = ["not tested: client: 3 statements, 4 required", "not tested: server: 1 statement, 4 required"]
        self.assertEqual(self.said("--min-coverage", "4"), (1, wanted))
        self.assertEqual(self.said("--min-coverage", "0"), (0, []))
        self.assertIn("tested: server 1 of 4 statements", self.judged(self.logs, "--min-coverage", "0")[1])

    def test_an_end_that_has_only_logs_which_do_not_count(self) -> None:
        self.add("a", SERVER, "refused 7 Nested at 13", "2")
        self.assertEqual(self.said("--min-coverage", "1"), (2, ["not tested: server: 0 statements, 1 required"]))

    def test_what_is_written_is_what_there_is(self) -> None:
        self.add_some()
        path = self.folder / "written"
        self.judged(self.logs, "--write-coverage", path)
        wanted = ["# 2 logs of a client: END CODE PLACES",
                  *("client W01 7", "client W09 0", "client C02 2", "client S01 3"),
                  "# 1 log of a server: END CODE PLACES",
                  *("server W01 1", "server W09 0", "server S01 0", "server E7R 0")]
        self.assertEqual(path.read_text().splitlines(), wanted)
        self.assertEqual(self.said("--require-coverage", path, "--write-coverage", path), (1, []))
        (self.logs / "b.log").unlink()
        self.assertEqual(self.said("--require-coverage", path), (1, [
            "not tested: client W01: 2 places, 7 required", "not tested: client C02: 1 place, 2 required",
            "not tested: client S01: 0 places, 3 required"]))


class Misuse(Case):
    def refused(self, *words: object, program: object = None) -> str:
        """The last line of what is refused before any log is judged."""
        status, printed, errors = self.judged(self.logs, *words, program=program)
        self.assertEqual((status, printed), (3, ""), words)
        return errors.splitlines()[-1].removeprefix("judge: ")

    def test_lines_of_the_file(self) -> None:
        self.add("a", CLIENT, *tested(W01=2), *PASS)
        path = self.folder / "required"
        wanted = {
            "server E7R": "isn't END CODE PLACES",
            "server E7R one": "isn't END CODE PLACES",
            "server E7R -1": "isn't END CODE PLACES",
            f"server E7R {'9' * 5_000}": "isn't END CODE PLACES",
            "broker E7R 1": "isn't END CODE PLACES",
            "server E7R 1 2": "isn't END CODE PLACES",
            "server E8R 1": "there is no statement E8R; those with E are E7R",
            "client e7r 1": "E7R binds a server, and no client",
            "server C02 1": "C02 binds a client, and no server",
        }
        for line, why in wanted.items():
            self.required("# a comment", "client W01 1", line, "client Z99 1")
            said = self.refused("--require-coverage", path)
            self.assertTrue(said.startswith(f"--require-coverage: {path}, line 3") and said.endswith(why), said)

    def test_files_that_cannot_be_used(self) -> None:
        self.add("a", CLIENT, *tested(W01=2), *PASS)
        path = self.folder / "none"
        self.assertEqual(self.refused("--require-coverage", path),
                         f"--require-coverage: {path} can't be read: No such file or directory")
        place = self.folder / "none" / "written"
        self.assertEqual(self.refused("--write-coverage", place),
                         f"--write-coverage: {place} can't be written: No such file or directory")
        self.assertIn("--min-coverage at least 0", self.refused("--min-coverage", "-1"))

    def test_a_program_that_counts_no_places(self) -> None:
        self.add("a", CLIENT, *tested(W01=2), *PASS)
        old = self.folder / "old"
        old.write_text(OLD)
        old.chmod(0o755)
        path = self.required("client W01 1")
        for words in (["--coverage"], ["--require-coverage", path], ["--min-coverage", "1"],
                      ["--write-coverage", self.folder / "written"]):
            self.assertEqual(self.refused(*words, program=old), f"{words[0]}: {old} doesn't count what logs test: its"
                             " check has no --coverage; build a newer one")
        self.assertFalse((self.folder / "old.began").exists() or (self.folder / "written").exists())


class Reports(Case):
    def test_lines_of_json(self) -> None:
        self.add_some()
        _, printed, errors = self.judged(self.logs, "--coverage", "--json", "--ignore", "S01")
        lines = [json.loads(line) for line in printed.splitlines()]
        self.assertEqual(lines[0]["coverage"][:2], [{"citation": "sec-1", "code": "W01", "places": 2},
                                                    {"citation": "sec-1", "code": "W09", "places": 0}])
        self.assertEqual(["coverage" in line for line in lines], [True, False, True])
        self.assertIn("tested: client 2 of 4 statements; never: W09 S01\n", errors)
        self.assertNotIn('"coverage"', self.judged(self.logs, "--json")[1])

    def test_junit(self) -> None:
        self.add_some()
        report = self.folder / "report.xml"
        self.judged(self.logs, "--require-coverage", self.required("server E7R 1", "client W01 1"), "--junit", report)
        (suite,) = ElementTree.parse(report).getroot()
        self.assertEqual((suite.get("tests"), suite.get("failures"), suite.get("errors")), ("4", "2", "0"))
        case = suite.findall("testcase")[-1]
        (failure,) = case
        said = (case.get("classname"), case.get("name"), failure.tag, failure.get("type"), failure.get("message"))
        self.assertEqual(said, ("coverage", "server E7R", "failure", "not tested", "0 places, 1 required"))
        lines = (suite.findtext("system-out") or "").splitlines()
        self.assertEqual(lines[:3], ["tested: client 3 of 4 statements; never: W09", "tested: server 1 of 4 statements;"
                                     " never: W09 S01 E7R", "not tested: server E7R: 0 places, 1 required"])

    def test_code_hosts(self) -> None:
        self.add_some()
        report, path = self.folder / "report.sarif", self.required("client W01 1", "server E7R 1")
        words = (self.logs, "--require-coverage", path, "--min-coverage", "2", "--sarif", report, "--github")
        printed = self.judged(*words)[1].splitlines()
        self.assertIn(f"::error file={path},line=2,title=not tested::server E7R: 0 places, 1 required", printed)
        self.assertIn("::error title=not tested::server: 1 statement, 2 required", printed)
        made = json.loads(report.read_text())
        self.assertEqual(problems(made), [])
        run = made["runs"][0]
        result = run["results"][-1]
        self.assertEqual(run["tool"]["driver"]["rules"][result["ruleIndex"]]["id"], result["ruleId"])
        self.assertEqual(result["message"]["text"], "not tested: server E7R: 0 places, 1 required")
        place = result["locations"][0]["physicalLocation"]
        self.assertEqual((place["region"], place["artifactLocation"]["uri"]), ({"startLine": 2}, f"file://{path}"))
        notices = run["invocations"][0]["toolExecutionNotifications"]
        notices = [(notice["level"], notice["message"]["text"]) for notice in notices]
        self.assertEqual(notices, [("note", "tested: client 3 of 4 statements; never: W09"),
                                   ("note", "tested: server 1 of 4 statements; never: W09 S01 E7R"),
                                   ("error", "not tested: server: 1 statement, 2 required")])


class Paged(Case):
    def page(self, *words: object) -> str:
        place = self.folder / "page.html"
        self.judged(self.logs, "--html", place, *words)
        return place.read_text()

    def test_a_matrix_for_each_end(self) -> None:
        self.add_some()
        page = self.page("--coverage")
        tables = re.findall(r"<div class=matrix.*?</table>", page)
        self.assertEqual(len(tables), 2)
        rows = [row.split("<td") for row in tables[0].split("<tr>")[1:]]
        self.assertEqual(re.findall(r"<th scope=col( class=v)?[^>]*><span>(\w+)", rows[0][0]),
                         [("", "W01"), (" class=v", "W09"), ("", "C02"), ("", "S01")])
        said = [[re.sub(r"<.*", "", cell).partition(">")[2] for cell in row[1:]] for row in rows[1:]]
        self.assertEqual(said, [["7", "", "2", "3"], ["5", "", "1", "3"], ["2", "", "1", ""]])  # the worst log first
        self.assertIn(' class=x title="S01: 3 places, 1 fault"', rows[2][4])
        self.assertEqual([row[2].partition(">")[0] for row in rows[1:]], [" class=v"] * 3)
        for number in re.findall(r'href="#(l\d+)"', "".join(tables)):
            self.assertRegex(page, rf'id="?{number}[ ">]')
        self.assertIn("<li><span class=code>E7R</span> It is so.", page)
        self.assertNotIn("<div class=matrix", self.page())

    def test_what_is_not_judged(self) -> None:
        gaps = ["unjudged sent lost event 14 record 9", "unjudged B01 B02 shared event 12 record 13", "unjudged answers no-rest"]
        for name, some in (("a", gaps), ("b", gaps[-1:]), ("c", gaps[-1:])):
            self.add(name, CLIENT, *tested(W01=2, S01=1), *some, *PASS)
        page = self.page("--coverage")
        self.assertEqual([page.count(f'<span class="way">{way}</span>') for way in ("sent lost", "answers no-rest", "no REST")],
                         [1, 0, 3])
        self.assertIn("<p class=note>Not judged: client answers no-rest in 3 of 3 logs, sent lost in 1 of 3 logs, ", page)

    def test_shades_go_by_the_logarithm(self) -> None:
        counts = (1, 2, 4, 16, 64, 256, 1_024, 4_096, 10**9)
        self.assertEqual([shade(count) for count in counts], [1, 1, 2, 3, 4, 5, 6, SHADES, SHADES])
        numbers = {7: "7", 999: "999", 1_000: "1k", 99_999: "99k", 100_000: ".1M", 999_999: ".9M", 4_200_000: "4M",
                   654_000_000: ".6G", 10**12: "1000G"}
        self.assertEqual({count: short(count) for count in numbers}, numbers)

    def test_it_is_no_pass_if_something_is_not_tested(self) -> None:
        self.add("a", CLIENT, *tested(W01=2), *PASS)
        page = self.page("--require-coverage", self.required("client W01 3"))
        self.assertIn('<h1 class="fail">the log passed; not all that is required was tested</h1>', page)
        self.assertEqual(page.count("<p class=remark>not tested: client W01: 2 places, 3 required</p>"), 1)
        self.assertIn('<h1 class="pass">the log passed</h1>', self.page("--coverage"))

    def test_names_of_logs_are_hostile(self) -> None:
        name = '"><img src=x onerror=alert(1)>\u202e'
        self.add(name, CLIENT, *tested(W01=2), *PASS)
        page = self.page("--coverage")
        self.assertNotIn("<img", page)
        self.assertNotIn("\u202e", page)
        (table,) = re.findall(r"<div class=matrix.*?</table>", page)
        self.assertIn("&lt;img src=x onerror=alert(1)&gt;", table)

    def test_very_many_logs(self) -> None:
        places = {"W01 sec-1": 1_000, "S01 sec-1": 1}
        verdicts = [Verdict(Path(f"{number}.log"), PASSED, last=PASS[0], places=places, end="client")
                    for number in range(250)]
        rows = [Row(number, f"{number}.log", "client", {"W01": 1_000, "S01": 1}) for number in range(250)]
        page = matrices(Coverage(verdicts, Demand()), rows)
        (table,) = re.findall(r"<div class=matrix.*?</table>", page)
        self.assertEqual(table.count("<tr>"), 2 + 200)
        self.assertIn(">All 250 logs<td", table)
        self.assertIn('title="W01: 250,000 places">.2M', table)
        self.assertIn("Rows are those of 200 logs, the worst ones first.", page)


class Silent(Case):
    """Of a log without a REST it is said that missing answers aren't judged."""

    def test_without_a_rest(self) -> None:
        self.add("a", CLIENT, *PASS)
        self.add("b", CLIENT, FAULT, *FAIL)
        self.add("c", CLIENT + record(1) + record(2, CONNECT) + record(3, CONNACK) + record(5), *PASS)
        self.add("d", CLIENT, "refused 7 Nested at 13", "2")
        report, page = self.folder / "report.xml", self.folder / "page.html"
        printed = self.judged(self.logs, "--junit", report, "--html", page)[1]
        self.assertIn("no REST in 2 of 3 logs: missing answers aren't judged there\n", printed)
        line = "no REST: missing answers aren't judged"
        said = [case.findtext("system-out") for case in ElementTree.parse(report).iter("testcase")]
        self.assertEqual(said, [line, line, None, None])
        text = page.read_text()
        said = f'<p class="remark">{html.escape(line)}</p>'
        self.assertEqual((text.count('<span class="way">no REST</span>'), text.count(said)), (2, 1))


@unittest.skipUnless(counts_places(judge_program()), "the judge counts no places")
class Judged(WithStandIn):
    """What the judge itself counts."""

    def test_an_example(self) -> None:
        log = TOP / "examples/pass.log"
        _, printed, _ = self.judged(log, "--coverage", program=judge_program())
        self.assertIn("tested: client 15 of 53 statements; never: W08 W10 ", printed)

    def test_each_line_of_json_has_what_the_program_says(self) -> None:
        log = TOP / "examples/sessions/server-window.log"
        command = [judge_program(), "check", "--coverage", "--json", str(log)]
        answer = subprocess.run(command, capture_output=True, text=True)
        line = json.loads(self.judged(log, "--coverage", "--json", program=judge_program())[1])
        wanted = json.loads(answer.stdout)
        self.assertEqual((line["coverage"], line["unjudged"]), (wanted["coverage"], wanted["unjudged"]))

    def test_what_is_written_is_met(self) -> None:
        (self.logs / "a.log").write_bytes(log(record(2, publish("a", 1)), record(4)))
        path = self.folder / "written"
        for option in ("--write-coverage", "--require-coverage"):
            self.assertEqual(self.judged(self.logs, option, path, program=judge_program())[0], 0)


if __name__ == "__main__":
    unittest.main()
