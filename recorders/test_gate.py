#!/usr/bin/env python3
"""Tests of .ci/run, with programs of a few lines in place of `rt`, of recorders/test and of what tries the built program.

usage: recorders/test_gate.py
"""
from __future__ import annotations

import os
import re
import shutil
import subprocess
import sys
import unittest
from pathlib import Path

sys.dont_write_bytecode = True  # the repository stays as it is
sys.path.insert(0, str(Path(__file__).resolve().parent))
from testing import PATIENCE, TOP, InFolder

BUILT = "crates/mq_cli/out/mq_cli"
RUN = "recorders run"
CHECKED = [
    "bench/rules_table.py", "bench/places.py --self-test", "bench/because.py --self-test", "bench/further.py --self-test",
    "bench/suite.py --check", "bench/check_docs.py", "bench/wrong_bodies.py --check",
]
SIDE_BY_SIDE = [
    f"bench/program.py {BUILT}", f"bench/check_rows.py --mqjudge {BUILT}", f"bench/check_further.py --mqjudge {BUILT}",
    f"bench/suite.py --check --program {BUILT}", f"bench/check_convert.py --mqjudge {BUILT}", "bench/fuzz.py --self-test",
    f"bench/enduring.py --program {BUILT}", f"bench/reads.py --program {BUILT}", f"bench/terminal.py --program {BUILT}",
    f"bench/run.py --instructions --at-most bench/instructions.txt --mqjudge {BUILT}",
]
REFUSED = "bench/refusing.py"
BEFORE = [*SIDE_BY_SIDE, f"bench/check_forms.py {BUILT}"]
AFTER = ["bench/fuzz.py --seed 1 --count 20000"]
TRIED = [*BEFORE, REFUSED, *AFTER]
SCRIPTS = (
    "rules_table", "places", "because", "further", "check_docs", "wrong_bodies", "program", "check_rows", "check_further", "check_forms",
    "suite", "check_convert", "fuzz", "enduring", "reads", "terminal", "run",
)
NO_LIBRARY = "examples/live/test isn't run: it needs the library, which this builds: (cd crates/mq_ffi && rt lib)"
LIBRARY_FOLDERS = ("crates/mq_ffi/out", "crates/mq_trace/src", "crates/mq_tasks/src", "crates/mq_cli/src", "crates/mq_trace/out/src")


class Gate(InFolder):
    def setUp(self) -> None:
        super().setUp()
        for name in (".ci", "recorders", "bin", "bench", "crates/mq_cli/out", "examples/live", *LIBRARY_FOLDERS):
            (self.folder / name).mkdir(parents=True)
        shutil.copy(TOP / ".ci/run", self.folder / ".ci/run")

        self.aged("crates.txt", 10)
        self.aged("crates/mq_trace/src/lib.rt", 10)
        self.aged("crates/mq_ffi/out/libmq_ffi.a", 5)

    def aged(self, name: str, seconds: int) -> None:
        """A file that was last written so many seconds ago."""
        path = self.folder / name
        path.touch()
        os.utime(path, (path.stat().st_mtime - seconds,) * 2)

    def script(self, name: str, text: str) -> None:
        path = self.folder / name
        path.write_text(f"#!/bin/sh\n{text}\n")
        path.chmod(0o755)

    def bench(self, scripts: dict[str, int]) -> None:
        """The scripts of bench/ that need nothing else, with the statuses of those that don't end with 0."""
        for name in SCRIPTS:
            self.script(f"bench/{name}.py", f'echo "bench/{name}.py${{1:+ $*}}"\nexit {scripts.get(name, 0)}')

    def gate(
        self,
        said: str,
        status: int,
        missing: str = "",
        recorders: int = 0,
        refusing: int = 0,
        compiler: str = "",
        is_built: bool = True,
        live_missing: str = "",
        live: int = 0,
        **scripts: int,
    ) -> tuple[int, list[str]]:
        """The status and the lines of the gate, where `rt ci`, the recorders' tests and the others say this and end so.

        The scripts of bench/ that need nothing else end with 0, except for those that are named.
        """
        self.assertLessEqual(scripts.keys(), set(SCRIPTS))
        self.bench(scripts)
        lacks = f'test "$1" = --missing && echo "{compiler}" && exit 0'
        self.script("bench/refusing.py", f'{lacks}\necho "{REFUSED}"\nexit {refusing}')
        if is_built:
            self.script(BUILT, "exit 1")
        self.script("bin/rt", f'test "$*" = ci && pwd && echo "{said}"\nexit {status}')
        test = f'test "$1" = --missing && echo "{missing}" && exit 0\necho "recorders run"\nexit {recorders}'
        self.script("recorders/test", test)
        test = f'test "$1" = --missing && echo "{live_missing}" && exit 0\nexit {live}'
        self.script("examples/live/test", test)
        words = [self.folder / ".ci/run"]
        paths = f"{self.folder / 'bin'}{os.pathsep}{os.environ.get('PATH', os.defpath)}"
        answer = subprocess.run(
            words, cwd="/", env=os.environ | {"PATH": paths}, capture_output=True, text=True, timeout=PATIENCE
        )
        lines = answer.stdout.splitlines()
        begins = next(place for place, line in enumerate(lines) if re.fullmatch(r"[0-9]+ processors, [0-9]+ MB free", line))
        self.assertEqual(lines[begins + 1], str(self.folder.resolve()))
        return answer.returncode, lines[:begins] + lines[begins + 2 :] + answer.stderr.splitlines()

    def test_its_scripts_can_be_run(self) -> None:
        for name in set(re.findall(r"bench/\w+\.py", (TOP / ".ci/run").read_text())):
            self.assertTrue(os.access(TOP / name, os.X_OK), name)

    def test_all_pass(self) -> None:
        said = "14 passed, 0 failed"
        self.assertEqual(self.gate(said, 0), (0, [*CHECKED, said, RUN, *TRIED, said]))

    def test_the_recorders_fail(self) -> None:
        said = "14 passed, 0 failed"
        for status in (1, 2, 130):
            wanted = (1, [*CHECKED, said, RUN, *TRIED, "14 passed, 1 failed"])
            self.assertEqual(self.gate(said, 0, recorders=status), wanted)

    def test_the_library_fails(self) -> None:
        said = "14 passed, 0 failed"
        self.assertEqual(self.gate(said, 0, live=1), (1, [*CHECKED, said, RUN, *TRIED, "14 passed, 1 failed"]))
        self.assertEqual(self.gate(said, 0, recorders=1, live=1), (1, [*CHECKED, said, RUN, *TRIED, "14 passed, 2 failed"]))

    def test_without_what_the_library_needs(self) -> None:
        said = "14 passed, 0 failed"
        line = "examples/live/test isn't run: not installed: gcc"
        self.assertEqual(self.gate(said, 0, live_missing="gcc", live=1), (0, [*CHECKED, said, RUN, line, *TRIED, said]))

    def test_the_library_is_not_built(self) -> None:
        said = "14 passed, 0 failed"
        (self.folder / "crates/mq_ffi/out/libmq_ffi.a").unlink()
        self.assertEqual(self.gate(said, 0, live=1), (0, [*CHECKED, said, RUN, NO_LIBRARY, *TRIED, said]))

    def test_the_library_is_older_than_a_source(self) -> None:
        said = "14 passed, 0 failed"
        for name in ("crates/mq_trace/src/lib.rt", "crates.txt"):
            self.aged(name, 1)
            self.assertEqual(self.gate(said, 0, live=1), (0, [*CHECKED, said, RUN, NO_LIBRARY, *TRIED, said]))
            self.aged(name, 10)
            self.assertEqual(self.gate(said, 0), (0, [*CHECKED, said, RUN, *TRIED, said]))

    def test_the_library_is_older_than_what_it_is_not_built_of(self) -> None:
        said = "14 passed, 0 failed"
        for name in ("crates/mq_cli/src/main.rt", "crates/mq_tasks/src/lib.rt", "crates/mq_trace/out/src/lib.rt"):
            self.aged(name, 1)
        self.assertEqual(self.gate(said, 0, live=1), (1, [*CHECKED, said, RUN, *TRIED, "14 passed, 1 failed"]))

    def test_the_gate_fails(self) -> None:
        said = "12 passed, 2 failed"
        self.assertEqual(self.gate(said, 1), (1, [*CHECKED, said, RUN, *TRIED, said]))
        self.assertEqual(self.gate(said, 2), (2, [*CHECKED, said, RUN, *TRIED, said]))
        self.assertEqual(self.gate(said, 1, recorders=1), (1, [*CHECKED, said, RUN, *TRIED, "12 passed, 3 failed"]))

    def test_the_program_is_wrong(self) -> None:
        said = "14 passed, 0 failed"
        for name in set(SCRIPTS) - {"fuzz", "suite"}:
            self.assertEqual(self.gate(said, 0, **{name: 1}), (1, [*CHECKED, said, RUN, *TRIED, "14 passed, 1 failed"]))
        self.assertEqual(self.gate(said, 0, suite=1), (1, [*CHECKED, said, RUN, *TRIED, "14 passed, 2 failed"]))
        self.assertEqual(self.gate(said, 0, refusing=1), (1, [*CHECKED, said, RUN, *TRIED, "14 passed, 1 failed"]))
        self.assertEqual(self.gate(said, 0, fuzz=1), (1, [*CHECKED, said, RUN, *TRIED, "14 passed, 2 failed"]))
        self.assertEqual(self.gate(said, 0, recorders=1, suite=1, fuzz=1), (1, [*CHECKED, said, RUN, *TRIED, "14 passed, 5 failed"]))

    def test_without_a_compiler(self) -> None:
        said = "14 passed, 0 failed"
        line = f"{REFUSED} isn't run: not installed: cc"
        wanted = (0, [*CHECKED, said, RUN, *BEFORE, line, *AFTER, said])
        self.assertEqual(self.gate(said, 0, compiler="cc", refusing=1), wanted)

    def test_no_program_is_built(self) -> None:
        said = "12 passed, 2 failed"
        line = f"the program isn't tried by bench/: there is no {BUILT}"
        self.assertEqual(self.gate(said, 1, is_built=False), (1, [*CHECKED, said, RUN, line, said]))
        wanted = (1, [*CHECKED, said, RUN, line, "12 passed, 4 failed"])
        self.assertEqual(self.gate(said, 1, is_built=False, check_docs=1, suite=1), wanted)

    def test_an_old_python(self) -> None:
        said, missing = "14 passed, 0 failed", "Python 3.11 or later, tshark"
        unchecked = "what is checked by bench/ isn't: not installed: Python 3.11 or later"
        line = f"recorders/test isn't run: not installed: {missing}"
        self.assertEqual(self.gate(said, 0, missing=missing), (0, [unchecked, said, line, said]))

    def test_programs_that_are_not_there(self) -> None:
        line = "recorders/test isn't run: not installed: tshark, mosquitto"
        for said, status in (("14 passed, 0 failed", 0), ("12 passed, 2 failed", 1)):
            wanted = (status, [*CHECKED, said, line, *TRIED, said])
            self.assertEqual(self.gate(said, status, missing="tshark, mosquitto"), wanted)

    def test_a_gate_without_a_verdict(self) -> None:
        for status, wanted in ((0, 1), (1, 1), (2, 2), (137, 137)):
            line = f"rt ci ended with status {status}, and its last line is no verdict"
            self.assertEqual(self.gate("Killed", status), (wanted, [*CHECKED, "Killed", line]))

    def test_steps_say_how_long_it_has_run(self) -> None:
        said = "fn f: proved\nrt: mq_wire proved\n1 passed, 0 failed"
        verdict = "1 passed, 0 failed"
        lines = [*CHECKED, "fn f: proved", "rt: mq_wire proved (0 min)", verdict, RUN, *TRIED, verdict]
        self.assertEqual(self.gate(said, 0), (0, lines))

    def test_a_test_that_cannot_say_what_is_missing(self) -> None:
        """It is run all the same, and fails."""
        said = "14 passed, 0 failed"
        self.script("recorders/test", "exit 1")
        self.script("examples/live/test", "exit 0")
        self.bench({})
        self.script("bin/rt", f"pwd\necho {said}")
        paths = f"{self.folder / 'bin'}{os.pathsep}{os.environ.get('PATH', os.defpath)}"
        environment = os.environ | {"PATH": paths}
        answer = subprocess.run([self.folder / ".ci/run"], env=environment, capture_output=True, text=True)
        self.assertEqual((answer.returncode, answer.stdout.splitlines()[-1]), (1, "14 passed, 1 failed"))


if __name__ == "__main__":
    unittest.main()
