"""Puts software to the test, several times: each run is one of recorders/exercise, with a folder of its own."""
from __future__ import annotations

import signal
import subprocess
import sys
import tempfile
import threading
import time
from collections.abc import Iterable
from concurrent.futures import ThreadPoolExecutor
from pathlib import Path

from judging.statements import ALL
from surveying.findings import TABLE, Run, Surveyed, read_run
from surveying.software import Missing, Software

EXERCISE = Path(__file__).resolve().parent.parent / "exercise"
PRINTED, PROGRESS = "printed.txt", "progress.txt"  # what a run said, in its folder
STOP_SECONDS = 300.0  # in which a run ends by itself, with what it has started


def say(line: str) -> None:
    print(line, file=sys.stderr, flush=True)


class Field:
    """Where runs are played: a folder for each software, and in it one for each run."""

    def __init__(self, out: Path, program: str, runs: int, is_of_all: bool = False) -> None:
        self._out, self._program, self._runs = out, program, runs
        self._all = [ALL] if is_of_all else []
        self._children: set[subprocess.Popen[bytes]] = set()
        self._lock = threading.Lock()
        self._is_over = False

    @staticmethod
    def missing(software: Software) -> str:
        """What isn't installed that a software takes; empty if all is."""
        with tempfile.TemporaryDirectory() as folder:
            try:
                software.prepare(Path(folder))
            except Missing as missing:
                return str(missing)
        return ""

    def play(self, chosen: Iterable[Software], jobs: int) -> list[Surveyed]:
        """All runs of all software, so many software at a time."""
        with ThreadPoolExecutor(jobs) as pool:
            try:
                return list(pool.map(self._play_all_of, chosen))
            except BaseException:
                self._stop()
                raise

    def _play_all_of(self, software: Software) -> Surveyed:
        found = Surveyed(software)
        for number in range(1, self._runs + 1):
            if self._is_over:
                break
            try:
                run, why = self._play_one(software, number)
            except Missing as missing:
                found.why = str(missing)
                say(f"{software.name}: left out, {missing}")
                break
            found.version = found.version or software.version
            if run is None:
                found.why = f"run {number}: {why}"
                say(f"{software.name}, {found.why}")
            else:
                found.runs.append(run)
                broken = " ".join(sorted(run.broken)) or "-"
                say(f"{software.name}, run {number}: {run.table['seconds']:.0f} s, broken: {broken}")
        return found

    def _play_one(self, software: Software, number: int) -> tuple[Run | None, str]:
        """A run; or none, and why."""
        folder = self._out / software.name / str(number)
        made = folder / "made"
        made.mkdir(parents=True, exist_ok=True)
        words = software.prepare(made)
        command = [sys.executable, str(EXERCISE), software.end, "--out", str(folder), "--write-table",
                   str(folder / TABLE), "--program", self._program, *self._all, *words]
        begun = time.monotonic()
        with (folder / PRINTED).open("wb") as printed, (folder / PROGRESS).open("wb") as progress:
            child = subprocess.Popen(command, stdin=subprocess.DEVNULL, stdout=printed, stderr=progress,
                                     start_new_session=True)
            with self._lock:
                self._children.add(child)
                if self._is_over:
                    child.terminate()
            status = child.wait()
            with self._lock:
                self._children.discard(child)
        run = read_run(folder)
        if run is not None and status in (0, 1, 2):
            return run, ""
        lines = (folder / PROGRESS).read_text("utf-8", "replace").splitlines()
        said = next((line for line in reversed(lines) if line.startswith("exercise: ")), "")
        said = said or f"recorders/exercise ended with status {status}"
        return None, f"{said}, after {time.monotonic() - begun:.0f} s"

    def _stop(self) -> None:
        """Ends what runs: each run ends what it has started itself."""
        with self._lock:
            self._is_over = True
            children = list(self._children)
        for child in children:
            child.send_signal(signal.SIGTERM)
        until = time.monotonic() + STOP_SECONDS
        for child in children:
            try:
                child.wait(max(0.1, until - time.monotonic()))
            except subprocess.TimeoutExpired:
                child.kill()
