#!/usr/bin/env python3
"""Tests the recipes of CI.md: the shell script as it stands there, and that the jobs run it with options that exist.

usage: recorders/test_ci.py
"""
from __future__ import annotations

import importlib.util
import os
import re
import subprocess
import sys
import tempfile
import unittest
from pathlib import Path
from typing import Any
from xml.etree import ElementTree

sys.dont_write_bytecode = True  # the repository stays as it is
HERE = Path(__file__).resolve().parent
sys.path.insert(0, str(HERE))
from judging.coverage import read_required
from judging.statements import statements_of
from testing import PATHS, PATIENCE, InFolder, broker, free_port, judge_program, missing

PAGE = (HERE / "CI.md").read_text()
TESTS = "mosquitto_pub -V 5 -p 1884 -i me -t hello -q 2 -m world\n"


def blocks(language: str) -> list[str]:
    return re.findall(rf"```{language}\n(.*?)```", PAGE, re.DOTALL)


@unittest.skipIf(missing("mosquitto", "mosquitto_pub"), missing("mosquitto", "mosquitto_pub"))
class Script(InFolder):
    def setUp(self) -> None:
        super().setUp()
        self.folder.chmod(0o755)  # mosquitto goes on as another user
        (self.script,) = blocks("sh")
        self.assertIn(TESTS, self.script)

    def run_script(self, port: int, *words: str, tests: str = TESTS) -> subprocess.CompletedProcess[str]:
        """Runs it with a broker on this port, and with tests in place of those that stand there."""
        script = self.script.replace(TESTS, tests)
        for named, other in ((1883, port), (1884, free_port())):
            script = re.sub(rf"\b{named}\b", str(other), script)
        (self.folder / "judge.sh").write_text(script.replace("sleep 2", "sleep 4"))
        (self.folder / "bin").mkdir(exist_ok=True)
        if not (self.folder / "bin/mqjudge").exists():
            (self.folder / "bin/mqjudge").symlink_to(judge_program())
        environment = os.environ | {"MQJUDGE": str(HERE.parent), "PATH": f"{self.folder}/bin:{PATHS}"}
        return subprocess.run(["sh", "judge.sh", *words], cwd=self.folder, env=environment, capture_output=True,
                              text=True, timeout=2 * PATIENCE)

    def test_it_passes_and_again_in_a_fresh_folder(self) -> None:
        with broker(self.folder) as (port, _):
            for count in (1, 2):
                answer = self.run_script(port)
                self.assertEqual(answer.returncode, 0, answer.stdout + answer.stderr)
                last = "2 logs: 2 pass, 0 fail, 0 refused, 0 failed, 0 too short"
                self.assertEqual(answer.stdout.splitlines()[-1], last)
                self.assertEqual(len([*self.folder.glob("recorded.*")]), count)
        self.assertEqual(ElementTree.parse(self.folder / "mqjudge.xml").getroot().get("tests"), "2")
        self.assertIn("</html>", (self.folder / "mqjudge.html").read_text())

    def test_it_fails_where_nothing_was_recorded(self) -> None:
        with broker(self.folder) as (port, _):
            answer = self.run_script(port, tests="true\n")
            self.assertEqual(answer.returncode, 4)
            self.assertIn("too few logs: 0, where --min-logs asks for 2", answer.stdout)
            answer = self.run_script(port, tests="false\n")
            self.assertEqual((answer.returncode, answer.stdout), (1, ""))
        self.assertNotEqual(self.run_script(free_port()).returncode, 0)


class Jobs(unittest.TestCase):
    def jobs(self) -> list[Any]:
        if importlib.util.find_spec("yaml") is None:
            self.skipTest("PyYAML isn't installed")
        import yaml

        return [yaml.safe_load(block) for block in blocks("yaml")]

    def test_they_run_the_script(self) -> None:
        github, gitlab, covering = self.jobs()
        steps = github["jobs"]["judge"]["steps"]
        self.assertTrue(any(step.get("run", "").startswith("sh judge.sh ") for step in steps))
        self.assertIn("sh judge.sh", gitlab["mqjudge"]["script"])
        self.assertEqual(gitlab["mqjudge"]["artifacts"]["reports"]["junit"], "mqjudge.xml")
        runs = [step["run"] for step in covering["jobs"]["coverage"]["steps"] if "run" in step]
        self.assertIn(" --require-coverage coverage.txt ", next(run for run in runs if run.startswith("sh judge.sh ")))

    def test_what_has_to_be_tested(self) -> None:
        """The file has lines that can be read, on statements that bind their ends."""
        (text,) = blocks("text")
        with tempfile.TemporaryDirectory() as folder:
            (Path(folder) / "coverage.txt").write_text(text)
            required = read_required(Path(folder) / "coverage.txt")
        statements = {one.code: one for one in statements_of(judge_program())}
        self.assertEqual(len(required), 4)
        for one in required if statements else ():
            self.assertTrue(statements[one.code].binds(one.end), one)

    def test_the_options_exist(self) -> None:
        known = "".join(
            subprocess.run([sys.executable, HERE / script, "--help"], capture_output=True, text=True).stdout
            for script in ("judge", "proxy")
        )
        named = set(re.findall(r"--[a-z][a-z-]+", PAGE))
        self.assertGreaterEqual(len(named), 9)
        for option in named:
            self.assertRegex(known, rf"{option}\b")


if __name__ == "__main__":
    unittest.main()
