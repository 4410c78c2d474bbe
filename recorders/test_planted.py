#!/usr/bin/env python3
"""Tests how much recorders/exercise finds: each fault that is planted into what a right broker sends is reported.

A proxy (planting.py) breaks one statement, in one way and in one situation, between the small broker that keeps the
rules and the exerciser. `test_planted.py NAME ..` plants only those whose names begin so, and prints what is seen.

usage: recorders/test_planted.py [NAME ..]
"""
from __future__ import annotations

import contextlib
import os
import re
import shlex
import subprocess
import sys
import tempfile
import unittest
from concurrent.futures import ThreadPoolExecutor
from pathlib import Path

sys.dont_write_bytecode = True  # the repository stays as it is
HERE = Path(__file__).resolve().parent
sys.path.insert(0, str(HERE))
from exercising.evidence import FOREIGN, FURTHER, binding
from exercising.situations import Situation, situations
from judging.statements import ALL
from planting import Plant
from plants import all_plants
from testing import HOST, accepts, free_port, judge_program, process, wait_until

RUN_SECONDS = 400
OPTIONS = ("--rest", "0.05", "--jobs", "8", "--wrong-password", "wrong", "--denied", "denied/x")
QUICK, PATIENT = 0.4, 2.0  # seconds that an answer is waited for
AT_ONCE = 1 + (os.cpu_count() or 2)
LEAST = 150
AGAIN = 3  # times that a situation is looked for once more, with nothing beside
BROKEN_IN = re.compile(r"^(\w+) in .*\n    in \d+ of \d+ situations: (.*)$", re.MULTILINE)


def broken_by(plant: Plant, patience: float = QUICK) -> tuple[set[str], set[Situation], str]:
    """The statements that the exerciser reports as broken where this is planted, in which situations, and all that it
    prints."""
    broker, proxy = free_port(), free_port()
    planting = [sys.executable, str(HERE / "planting.py"), str(proxy), str(broker), plant.name]
    with tempfile.TemporaryDirectory() as folder, contextlib.ExitStack() as stack:
        options = [*OPTIONS, "--wait", str(patience), *(["--slow"] if plant.is_slow else [])]
        options += [ALL] if plant.code in FURTHER[True] else []
        if plant.dies:
            options += ["--start", shlex.join([*planting, f"{folder}/kept"])]
        else:
            stack.enter_context(process(sys.executable, HERE / "plain_broker.py", broker))
            wait_until(lambda: accepts(broker), "the plain broker listens")
            stack.enter_context(process(*planting))
            wait_until(lambda: accepts(proxy), "the proxy listens")
        command = [sys.executable, str(HERE / "exercise"), "broker", f"{HOST}:{proxy}", "--out", f"{folder}/logs",
                   "--program", judge_program(), "--only", plant.only, *options]
        answer = subprocess.run(command, capture_output=True, text=True, timeout=RUN_SECONDS)
    line = next((line for line in answer.stdout.splitlines() if line.startswith("  broken ")), "")
    broken = set(line.split()[2:])
    found = {Situation(code, ()) for code in broken}
    found |= {Situation(code, tuple(text.split())) for code, texts in BROKEN_IN.findall(answer.stdout)
              for text in texts.split(", ")}
    return broken, found, answer.stdout + answer.stderr


class Planted(unittest.TestCase):
    def test_there_is_one_for_each_statement_that_a_broker_can_break(self) -> None:
        plants = all_plants()
        self.assertEqual({plant.code for plant in plants.values()}, binding(True, True) - FOREIGN[True])
        self.assertGreaterEqual(len(plants), LEAST)

    def test_each_is_reported(self) -> None:
        plants = [*all_plants().values()]
        with ThreadPoolExecutor(AT_ONCE) as pool:
            seen = dict(zip(all_plants(), pool.map(broken_by, plants)))
        for plant in plants:
            if plant.code not in seen[plant.name][0]:  # on a busy machine an answer may have been late
                seen[plant.name] = broken_by(plant, PATIENT)
        missed = {plant.name: sorted(seen[plant.name][0]) for plant in plants if plant.code not in seen[plant.name][0]}
        reported = {one for plant in plants for one in seen[plant.name][1] if one.code == plant.code}
        left = set(situations(True)) - reported
        for plant in plants * AGAIN:  # how much comes at once depends on how busy the machine is
            if plant.code in {one.code for one in left}:
                left -= broken_by(plant, PATIENT)[1]
        empty = sorted(f"{one.code} {one.text}" for one in left)
        self.assertEqual(missed, {}, "planted, and not reported; beside each what was reported")
        self.assertEqual(empty, [], "situations in which no planted fault was reported")


def show(names: list[str]) -> int:
    """Plants some, and prints what is reported."""
    chosen = [plant for name, plant in all_plants().items() if name.startswith(tuple(names))]
    missed = 0
    with ThreadPoolExecutor(AT_ONCE) as pool:
        for plant, (broken, found, printed) in zip(chosen, pool.map(broken_by, chosen)):
            missed += plant.code not in broken
            word = "found" if plant.code in broken else "MISSED"
            own = ", ".join(sorted(one.text for one in found if one.code == plant.code and one.words))
            print(f"{word:6} {plant.name:24} {' '.join(sorted(broken))} | {own}", flush=True)
            if len(chosen) == 1:
                print(printed)
    return 1 if missed else 0


if __name__ == "__main__":
    sys.exit(show(sys.argv[1:])) if len(sys.argv) > 1 else unittest.main()
