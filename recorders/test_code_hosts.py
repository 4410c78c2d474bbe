#!/usr/bin/env python3
"""Tests of SARIF and of the annotations that recorders/judge writes.

usage: recorders/test_code_hosts.py
"""
from __future__ import annotations

import json
import sys
import unittest
from pathlib import Path
from typing import Any

sys.dont_write_bytecode = True  # the repository stays as it is
sys.path.insert(0, str(Path(__file__).resolve().parent))
from exercising.evidence import binding
from made_logs import WithLogs, log, publish, reconnected, record, run
from sarif_schema import problems
from testing import TOP, needs_why

EXAMPLES = TOP / "examples/sessions"


class CodeHosts(WithLogs):
    def test_sarif(self) -> None:
        place = self.folder / "report.sarif"
        self.assertEqual(run(EXAMPLES, "--all", "--sarif", place, "--ignore", "E1R")[0], 1)
        report = json.loads(place.read_text())
        self.assertEqual(problems(report), [])
        (said,) = report["runs"]
        rules = said["tool"]["driver"]["rules"]
        found = [(result["ruleId"], result["properties"]["position"]) for result in said["results"]]
        wanted = [tuple(line.split()[2:0:-1]) for path in sorted(EXAMPLES.rglob("*.report"))
                  for line in path.read_text().splitlines() if line.startswith("fault ")]
        self.assertEqual(sorted((code, str(position)) for code, position in found), sorted(wanted))
        for result in said["results"]:
            self.assertEqual(rules[result["ruleIndex"]]["id"], result["ruleId"])
            self.assertEqual("suppressions" in result, result["ruleId"] == "E1R")
        for rule in rules:
            for is_server, words in ((False, "In a client"), (True, "In a server")):
                if rule["id"] in binding(is_server, is_of_all=True):
                    self.assertIn(words, rule["help"]["text"])

    def test_sarif_of_what_is_not_judged(self) -> None:
        (self.logs / "a, b%.log").write_bytes(log(record(1)))
        place = self.folder / "report.sarif"
        self.assertEqual(run(self.logs, "--sarif", place)[0], 2)
        report = json.loads(place.read_text())
        self.assertEqual((problems(report), report["runs"][0]["results"]), ([], []))
        (notice,) = report["runs"][0]["invocations"][0]["toolExecutionNotifications"]
        self.assertIn("refused 7 Nested", notice["message"]["text"])
        place_of = notice["locations"][0]["physicalLocation"]["artifactLocation"]
        self.assertTrue(place_of["uri"].endswith("/a%2C%20b%25.log"))

    def test_the_checker_of_sarif_finds_something(self) -> None:
        good: dict[str, Any] = {"version": "2.1.0", "runs": [{"tool": {"driver": {"name": "a"}}}]}
        self.assertEqual(problems(good), [])
        for bad in ({}, good | {"version": "2.0"}, good | {"more": 1}, good | {"runs": [{}]},
                    good | {"runs": [{"tool": {"driver": {"name": 1}}}]},
                    good | {"runs": [good["runs"][0] | {"results": [{"ruleId": "a"}]}]}):
            self.assertNotEqual(problems(bad), [], bad)

    def test_annotations(self) -> None:
        (self.logs / "a,b:%\n::error::.log").write_bytes(log(record(2, publish("a", 1)), record(2, publish("a", 1))))
        (self.logs / "refused.log").write_bytes(log(record(1)))
        status, printed, _ = run(self.logs, "--github")
        lines = [line for line in printed.splitlines() if line.lstrip().startswith("::")]
        name = f"{self.logs}/a%2Cb%3A%25%0A%3A%3Aerror%3A%3A.log"
        self.assertEqual(status, 2)
        self.assertEqual([line.partition("::")[2].partition("::")[0] for line in lines],
                         [f"error file={name},title=S01 MQTT-2.2.1-3",
                          f"error file={self.logs}/refused.log,title=the log is refused"])
        self.assertIn("::1 fault, the first at event 5: A new PUBLISH", lines[0])
        ignored = run(self.logs, "--github", "--ignore", "S01")[1]
        self.assertIn(f"::warning file={name},title=S01 MQTT-2.2.1-3::ignored by --ignore: 1 fault", ignored)

    @needs_why
    def test_a_publish_that_is_sent_again(self) -> None:
        sent = [record(2, publish(topic, number)) for number, topic in enumerate("abc", 1)]
        changed = [sent[0], record(2, publish("d", 2)), sent[2]]
        (self.logs / "a.log").write_bytes(reconnected(sent, changed))
        place = self.folder / "report.sarif"
        printed = run(self.logs, "--github", "--sarif", place)[1]
        (line,) = [line for line in printed.splitlines() if line.lstrip().startswith("::")]
        because = " Because of event {}: it holds the identifier."
        self.assertIn(f"that is in use.{because.format(4)} This looks like the PUBLISH of event 4 sent again: ", line)
        texts = [result["message"]["text"] for result in json.loads(place.read_text())["runs"][0]["results"]]
        said = [text.partition("in use.")[2].partition(" sent again")[0] for text in texts]
        words = " This looks like the PUBLISH of event "
        self.assertEqual(said, [f"{because.format(4)}{words}4", because.format(5), f"{because.format(6)}{words}6"])
        changed = [record(2, publish("d", 1)), *sent[1:]]  # the first fault is about another message
        (self.logs / "a.log").write_bytes(reconnected(sent, changed))
        self.assertIn(f"that is in use.{because.format(4)} Event 12 looks like the PUBLISH of event 5 sent again: ",
                      run(self.logs, "--github")[1])

    def test_a_place_that_cannot_be_written(self) -> None:
        for name in ("--html", "--sarif"):
            status, _, errors = run(EXAMPLES, name, self.folder / "none" / "file")
            self.assertEqual(status, 3)
            self.assertIn(f"judge: {name}: ", errors)


if __name__ == "__main__":
    unittest.main()
