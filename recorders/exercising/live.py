"""Judges both ends of each log while it is written, by the library for C, where that is built.

The module for it is examples/live/mqjudge.py, which stands beside recorders/ in the repository. Where it or the library
isn't there, all is judged by the program, after each scenario. What is judged are the bytes of the log's file, as they
are there: the verdict is the same. Logs without a fault aren't given to the program any more.
"""
from __future__ import annotations

import importlib.util
import os
import subprocess
import threading
from collections.abc import Callable
from pathlib import Path
from types import ModuleType
from typing import Any

from exercising.both_ends import BY_SILENCE, Fairness, Pieces, exchanged, in_the_log
from judging.program import Judge
from judging.story import Fault
from judging.verdict import PASSED, Verdict

MODULE = Path(__file__).resolve().parents[2] / "examples/live/mqjudge.py"
LIBRARY_VARIABLE = "MQJUDGE_LIBRARY"  # in the environment: the shared library
NO_LIBRARY = (OSError, ImportError, AttributeError, subprocess.SubprocessError)


def find_library() -> ModuleType | None:
    """The module for the library, if both are there and fit each other."""
    spec = importlib.util.spec_from_file_location("mqjudge_live", MODULE)
    if spec is None or spec.loader is None:
        return None
    module = importlib.util.module_from_spec(spec)
    try:
        spec.loader.exec_module(module)
        if LIBRARY_VARIABLE not in os.environ and not module.ARCHIVE.is_file():
            return None
        module.loaded()
    except NO_LIBRARY:
        return None
    return module


class LiveJudge(Judge):
    """Asks the program only about logs that weren't judged live, or that have faults."""

    def __init__(self, program: str, most: int, weigh: Callable[[Verdict], None], is_of_all: bool = False) -> None:
        super().__init__(program, most, weigh, keeps=True, is_of_all=is_of_all)
        self.passed: dict[Path, int] = {}  # logs that were judged live and have no fault, with their events

    def _ask(self, path: Path, log: Path) -> Verdict:
        if path not in self.passed:
            return super()._ask(path, log)
        verdict = Verdict(path, PASSED, keeps=True)
        verdict.take(f"pass {self.passed[path]} events", self._most)
        return verdict


class Ends:
    """Both ends of a log that grows, each with its judge."""

    def __init__(self, library: Any, path: Path) -> None:
        self._path, self._read_to, self._pieces = path, 0, Pieces()
        self.tested, self.own = library.Judge(), library.Judge()
        self.faults: list[Fault] = []  # of the tested end
        self.own_faults: list[Fault] = []

    def advance(self) -> None:
        """Takes in what the file has more. It raises the library's Trouble where that can't be judged."""
        with self._path.open("rb") as file:
            file.seek(self._read_to)
            data = file.read()
        self._read_to += len(data)
        pieces = [*self._pieces.feed(data)]
        for piece in pieces:
            if other := exchanged(piece):
                self.own.feed(other)
            self.tested.feed(piece)
        if pieces:
            self.own_faults += faults_of(self.own)
            self.faults += faults_of(self.tested)

    def finish(self) -> int:
        """Ends the log: the number of its events."""
        self.advance()
        self.own.finish()
        self.own_faults += faults_of(self.own)
        events = int(self.tested.finish())
        self.faults += faults_of(self.tested)
        return events

    def free(self) -> None:
        self.tested.free()
        self.own.free()


def faults_of(judge: Any) -> list[Fault]:
    """The faults that are known since the last time."""
    return [Fault(one.position, one.code, one.citation, one.decided, one.record, one.offset)
            for one in judge.new_faults()]


class Live:
    """What is judged live in a run."""

    def __init__(self, library: Any, judge: LiveJudge, fairness: Fairness, say: Callable[[str], None]) -> None:
        self._library, self.judge, self.fairness, self._say = library, judge, fairness, say
        self._said: set[str] = set()
        self._lock = threading.Lock()

    def watch(self, folder: Path) -> Watch:
        return Watch(self, self._library, folder)

    def tell(self, name: str, fault: Fault) -> None:
        """Says of each code once where it is broken, as soon as that is seen."""
        with self._lock:
            is_new = fault.code not in self._said
            self._said.add(fault.code)
        if is_new:
            self._say(f"{fault.code} in {name}, event {fault.position}")


class Watch:
    """What is judged live in a scenario: all logs in its folder."""

    def __init__(self, live: Live, library: Any, folder: Path) -> None:
        self._live, self._library, self._folder = live, library, folder
        self._logs: dict[Path, Ends] = {}
        self._is_over = False

    def advance(self) -> None:
        """Judges what the scenario has written so far. What can't be judged here is left to the program."""
        if self._is_over:
            return
        for path in self._folder.glob("*.log"):
            log = self._logs.setdefault(path, Ends(self._library, path))
            seen = len(log.faults)
            try:
                log.advance()
            except (OSError, self._library.Trouble):
                self._is_over = True
                return
            for fault in log.faults[seen:] if not log.own_faults else ():
                if fault.code not in BY_SILENCE:
                    self._live.tell(self._folder.name, fault)

    def finish(self) -> None:
        """Ends the logs. Those without a fault have passed; of all of them it is known what the exerciser broke."""
        self.advance()
        for path, log in self._logs.items():
            try:
                if self._is_over:
                    continue
                events = log.finish()
                own = [fault for fault in log.own_faults if fault.code not in BY_SILENCE]
                self._live.fairness.keep_own(path, in_the_log(path.read_bytes(), own))
                if not log.faults:
                    self._live.judge.passed[path] = events
            except (OSError, self._library.Trouble):
                continue
            finally:
                log.free()
