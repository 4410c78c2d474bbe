#!/usr/bin/env python3
"""Tests of ./build, with a program of a few lines in place of `rt`, and four crates.

usage: recorders/test_build.py
"""
from __future__ import annotations

import os
import shutil
import subprocess
import sys
import unittest
from pathlib import Path

sys.dont_write_bytecode = True  # the repository stays as it is
sys.path.insert(0, str(Path(__file__).resolve().parent))
from testing import PATIENCE, TOP, InFolder

CRATES = {"mq_low": "std", "mq_mid": "mq_low", "mq_mid_tests": "mq_mid", "mq_cli": "mq_low mq_mid clap"}
PROGRAM = "#!/bin/sh\necho program \"$@\"\nexit 1\n"


class Build(InFolder):
    def setUp(self) -> None:
        super().setUp()
        shutil.copy(TOP / "build", self.folder / "build")
        (self.folder / "bin").mkdir()
        (self.folder / "crates.txt").write_text("# a comment\n" + "".join(f"{name}: {uses}\n" for name, uses in CRATES.items()))
        for name in CRATES:
            (self.folder / "crates" / name).mkdir(parents=True)

    def build(self, *words: str, failing: str = "none", jobs: str | None = "3") -> tuple[int, list[str], list[str]]:
        """The status, what was printed, and the calls of `rt`, each with its folder. It fails in one of them."""
        path = self.folder / "bin/rt"
        path.write_text(
            f'#!/bin/sh\nname=$(basename "$PWD")\necho "$name $*" >> "{self.folder}/calls"\n'
            f'test "$name" = {failing} && echo "it is not proved" && exit 1\n'
            f'test "$1" = run && printf %s \'{PROGRAM}\' > out/mq_cli && chmod +x out/mq_cli\nexit 0\n'
        )
        path.chmod(0o755)
        (self.folder / "calls").write_text("")
        paths = f"{self.folder / 'bin'}{os.pathsep}{os.environ.get('PATH', os.defpath)}"
        environment = {name: value for name, value in os.environ.items() if name != "JOBS"} | {"PATH": paths}
        if jobs is not None:
            environment["JOBS"] = jobs
        told = {"stdout": subprocess.PIPE, "stderr": subprocess.STDOUT, "text": True}
        answer = subprocess.run([self.folder / "build", *words], cwd="/", env=environment, timeout=PATIENCE, **told)
        lines = answer.stdout.splitlines()
        self.assertRegex(lines[0], r"\A[0-9]+ processors, [0-9]+ MB free: [1-9][0-9]* at once\Z")
        return answer.returncode, lines, (self.folder / "calls").read_text().splitlines()

    def test_it_builds_the_lowest_crates_first_and_then_runs_the_program(self) -> None:
        status, lines, calls = self.build("check", "a log")
        self.assertEqual(calls, ["mq_low lib --jobs 3", "mq_mid lib --jobs 3", "mq_cli run --jobs 3 -- --version"])
        self.assertEqual(lines[1:], [f"{name} is built (0 min)" for name in ("mq_low", "mq_mid", "mq_cli")] + ["program check a log"])
        self.assertEqual(status, 1)

    def test_without_words_it_runs_nothing(self) -> None:
        status, lines, _ = self.build()
        self.assertEqual((status, lines[-1]), (0, "mq_cli is built (0 min)"))

    def test_it_stops_at_a_crate_that_is_not_proved(self) -> None:
        status, lines, calls = self.build("check", failing="mq_mid")
        self.assertEqual((status, lines[1:]), (1, ["mq_low is built (0 min)", "it is not proved"]))
        self.assertEqual(len(calls), 2)

    def test_it_takes_no_more_jobs_than_processors(self) -> None:
        _, lines, calls = self.build(jobs=None)
        jobs = int(lines[0].split()[-3])
        self.assertIn(jobs, range(1, len(os.sched_getaffinity(0)) + 1))
        self.assertEqual(calls[0], f"mq_low lib --jobs {jobs}")

    def test_all_that_the_program_is_made_of_is_built(self) -> None:
        """Each crate of the repository's own list comes after those that it uses."""
        shutil.copy(TOP / "crates.txt", self.folder / "crates.txt")
        uses = {}
        for line in (TOP / "crates.txt").read_text().splitlines():
            name, _, used = line.partition(":")
            if used or line.endswith(":"):
                uses[name.split()[0]] = used.split()
                (self.folder / "crates" / name.split()[0]).mkdir(parents=True, exist_ok=True)
        status, _, calls = self.build()
        names = [call.split()[0] for call in calls]
        self.assertEqual((status, names[-1], len(names)), (0, "mq_cli", len(set(names))))
        for place, name in enumerate(names):
            self.assertLessEqual({it for it in uses[name] if it in uses}, set(names[:place]), name)


if __name__ == "__main__":
    unittest.main()
