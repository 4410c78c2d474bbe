"""Plays scenarios, several at a time, within bounds: connections, time, and a tested end that may die."""
from __future__ import annotations

import sys
import threading
import time
from collections import Counter
from collections.abc import Callable, Iterable, Iterator
from concurrent.futures import FIRST_COMPLETED, Future, ThreadPoolExecutor, wait
from contextlib import contextmanager
from dataclasses import dataclass, field
from enum import Enum
from pathlib import Path

from exercising.both_ends import Fairness
from exercising.links import Gone, Tape
from exercising.live import Live
from exercising.situations import Situation, ending_of, met_at, met_by, reference
from exercising.stage import Silence, Stage, Target, Unfit, Unreachable
from exercising.started import Started
from exercising.table import Scenario
from exercising.verbs import CLIENTS, Vocabulary, play
from judging.places import find_logs
from judging.program import Judge
from judging.verdict import Verdict
from recording import End

CONNECTIONS_MOST = 64  # at a time, of all scenarios together
SCENARIO_SECONDS = 60.0
SLOW_SECONDS = 300.0  # for scenarios that need slow
LOOKS_AGAIN = 3  # before a tested end is called dead
LOOK_SECONDS = 0.5
PROGRESS_SECONDS = 5.0
MEETING_SECONDS = 90.0  # for all scenarios to come to the broker's death
AGAIN = "again"  # the folder of what is played once more
AGAIN_MARK = "a"  # in the Client Identifiers there, after the run's name
AGAIN_FACTOR = 10.0  # times the silence


class Fate(Enum):
    """What became of a scenario."""

    COMPLETED = "completed"
    ENDED = "ended early"  # the tested end closed, or refused
    UNFIT = "out of the tested end's limits"
    LEFT_OUT = "left out"


@dataclass
class Result:
    """What a scenario came to."""

    scenario: Scenario
    fate: Fate
    why: str = ""  # it wasn't completed
    observed: list[str] = field(default_factory=list)
    verdicts: list[Verdict] = field(default_factory=list)
    tested: frozenset[str] = frozenset()  # codes that its logs put to the test
    counts: Counter[str] = field(default_factory=Counter)  # at how many places, by the codes
    met: frozenset[Situation] = frozenset()  # what came about in its logs
    places: dict[tuple[Path, str, int], frozenset[Situation]] = field(default_factory=dict)  # of faults
    rest: float = 0.0  # the silence that counted as rest, in seconds
    seconds: float = 0.0

    @property
    def broken(self) -> set[str]:
        """The codes of the faults that count."""
        return {key.split()[0] for verdict in self.verdicts for key in verdict.faults}

    @property
    def broken_in(self) -> set[Situation]:
        """The situations in which faults that count came about."""
        counted = [(verdict.path, fault.code, fault.position) for verdict in self.verdicts for fault in verdict.found
                   if fault.code in self.broken and fault.code not in verdict.overlooked]
        return {one for place in counted for one in self.places.get(place, ())}


class Stopped(Gone):
    """The run is over: it was interrupted, the time is up, or the tested end is dead."""


class Places:
    """The connections that may be open at a time. A scenario takes as many as it may have open, or waits."""

    def __init__(self, most: int) -> None:
        self._left = self._most = most
        self._change = threading.Condition()

    @contextmanager
    def taken(self, count: int) -> Iterator[None]:
        count = min(count, self._most)
        with self._change:
            self._change.wait_for(lambda: self._left >= count)
            self._left -= count
        try:
            yield
        finally:
            with self._change:
                self._left += count
                self._change.notify_all()


class Meeting:
    """Scenarios that wait for each other: something is done once all of them are there, or have ended before."""

    def __init__(self, count: int, act: Callable[[], None] = lambda: None) -> None:
        self._missing, self._act = count, act
        self._change = threading.Condition()
        self._is_done = False
        self.error: Gone | None = None

    def wait(self) -> None:
        self.leave()
        with self._change:
            if not self._change.wait_for(lambda: self._is_done, MEETING_SECONDS):
                raise Gone("the other scenarios in which the broker dies didn't come as far")
        if self.error is not None:
            raise self.error

    def leave(self) -> None:
        """One scenario less to wait for."""
        with self._change:
            self._missing -= 1
            if self._missing == 0 and not self._is_done:
                try:
                    self._act()
                except Gone as error:
                    self.error = error
                self._is_done = True
                self._change.notify_all()


class Deathbed:
    """What a scenario has of the broker's death: it meets the others before it, and at it."""

    def __init__(self, ready: Meeting, death: Meeting) -> None:
        self._ahead = [ready, death]

    def meet(self) -> None:
        self._ahead.pop(0).wait()

    def leave(self) -> None:
        """The scenario is over: nobody waits for it any more."""
        for meeting in self._ahead:
            meeting.leave()
        self._ahead.clear()


class Runner:
    """Plays scenarios against a broker, has their logs judged, and says how far it is."""

    vocabulary: Vocabulary = CLIENTS
    tested: End = End.SERVER

    def __init__(self, target: Target, run: str, out: Path, silence: Silence, jobs: int, judge: Judge,
                 fairness: Fairness, started: Started | None = None, live: Live | None = None) -> None:
        self.target, self.run, self.out, self.silence, self.jobs = target, run, out, silence, jobs
        self._judge, self._fairness, self._started, self._live = judge, fairness, started, live
        self._places = Places(CONNECTIONS_MOST)
        self._numbers: dict[str, int] = {}
        self._lock = threading.Lock()
        self.results: list[Result] = []
        self.warnings: list[str] = []
        self.stop_reason = ""  # why nothing more is played
        self.is_dead = False

    # ---- all of them

    def play_all(self, scenarios: Iterable[Scenario], seconds: float | None) -> None:
        """Plays scenarios; after so many seconds no new one begins. Those in which the broker dies come last."""
        chosen = list(scenarios)
        for scenario in chosen:
            self._numbers.setdefault(scenario.name, len(self._numbers))
        until = None if seconds is None else time.monotonic() + seconds
        deadly = [scenario for scenario in chosen if scenario.has_verb("kill")]
        alone = [scenario for scenario in chosen if "alone" in scenario.needs]
        gentle = [scenario for scenario in chosen if scenario not in deadly and scenario not in alone]
        progress = Progress(len(chosen))
        useful = [*dict.fromkeys(reference(self.tested is End.SERVER).values())]
        self._play_side_by_side(in_turn(gentle, useful), until, progress, self.jobs)
        self._play_side_by_side(alone, until, progress, 1)
        for death in dict.fromkeys(map(death_of, deadly)):
            self._play_to_a_death([one for one in deadly if death_of(one) == death], death[0], until, progress)
        progress.end()

    def _play_side_by_side(self, scenarios: list[Scenario], until: float | None, progress: Progress, jobs: int) -> None:
        with ThreadPoolExecutor(jobs) as pool:
            waiting = {pool.submit(self._play_in_time, scenario, until) for scenario in scenarios}
            self._follow(waiting, progress)

    def _play_to_a_death(self, scenarios: list[Scenario], how: str, until: float | None, progress: Progress) -> None:
        """All sessions are prepared, then the broker dies once, and the scenarios go on."""
        started = self._started
        if started is None:
            return
        ready, death = Meeting(len(scenarios)), Meeting(len(scenarios), lambda: started.restart(how))
        with ThreadPoolExecutor(max(1, len(scenarios))) as pool:
            beds = [(scenario, Deathbed(ready, death)) for scenario in scenarios]
            self._follow({pool.submit(self._play_in_time, scenario, until, bed) for scenario, bed in beds}, progress)
        if death.error is not None:
            self._die(str(death.error))

    def _follow(self, waiting: set[Future[Result]], progress: Progress) -> None:
        """Takes in results as they come, and says how far it is."""
        while waiting:
            done, waiting = wait(waiting, timeout=PROGRESS_SECONDS, return_when=FIRST_COMPLETED)
            for one in done:
                self.results.append(one.result())
            progress.show(self.results)

    def _play_in_time(self, scenario: Scenario, until: float | None, bed: Deathbed | None = None) -> Result:
        try:
            if self.stop_reason or (until is not None and time.monotonic() > until):
                return Result(scenario, Fate.LEFT_OUT, self.stop_reason or "the time was up")
            folder = self.out / scenario.name
            if bed is not None:  # all of them have to be there at once
                stage = self._stage(scenario, folder, self.silence, self.run)
                stage.meet = stage.kill = bed.meet
                return self.play_one(stage)
            with self._places.taken(scenario.connections):
                return self.play_one(self._stage(scenario, folder, self.silence, self.run))
        finally:
            if bed is not None:
                bed.leave()

    # ---- one of them

    def play_again(self, result: Result) -> Result:
        """Plays a scenario alone, with ten times the silence that it had, and with other names."""
        scenario = result.scenario
        slow = Silence(max(self.silence.seconds, result.rest), AGAIN_FACTOR, self.silence.most * AGAIN_FACTOR)
        stage = self._stage(scenario, self.out / AGAIN / scenario.name, slow, f"{self.run}{AGAIN_MARK}")
        started = self._started
        if started is not None:
            stage.kill = lambda: started.restart(death_of(scenario)[0])
        return self.play_one(stage)

    def play_one(self, stage: Stage) -> Result:
        """Plays a scenario, and has its logs judged."""
        begun, scenario, folder = time.monotonic(), stage.scenario, stage.tape.folder
        result = Result(scenario, Fate.COMPLETED, observed=stage.observed)
        try:
            play(stage, self.vocabulary)
        except Unfit as unfit:
            result.fate, result.why = Fate.UNFIT, str(unfit)
        except Stopped as stopped:
            result.fate, result.why = Fate.LEFT_OUT, str(stopped)
        except Gone as gone:
            result.fate, result.why = Fate.ENDED, str(gone)
            if isinstance(gone, Unreachable):
                self._check_life(scenario, gone)
        except Exception as error:  # a mistake of the exerciser's own: the others are played all the same
            result.fate, result.why = Fate.ENDED, f"the exerciser failed: {error!r}"
        finally:
            stage.tape.finish()
            stage.judge_last()
            if not self.is_dead:
                stage.sweep()
        result.verdicts = [self._judge.judge(path) for path in find_logs([folder]).logs]
        for verdict in result.verdicts:
            self._take_evidence(result, verdict)
        result.rest, result.seconds = stage.longest_rest, time.monotonic() - begun
        return result

    def _take_evidence(self, result: Result, verdict: Verdict) -> None:
        """What a log puts to the test, and in which situations its faults are."""
        found = self._fairness.evidence(verdict, result.scenario.breaks_rules)
        ending = ending_of(result.scenario)
        result.tested |= found.tested
        result.counts.update(found.counts)
        result.met |= met_by(found, ending)
        places = [(fault.code, fault.position) for fault in verdict.found]
        result.places |= {(verdict.path, *place): where for place, where in met_at(found, ending, places).items()}

    def _stage(self, scenario: Scenario, folder: Path, silence: Silence, run: str) -> Stage:
        most = SLOW_SECONDS if "slow" in scenario.needs else SCENARIO_SECONDS * silence.factor
        until = time.monotonic() + most

        def check() -> None:
            if self.stop_reason:
                raise Stopped(self.stop_reason)
            if time.monotonic() > until:
                raise Gone(f"it took more than {most:.0f} s")

        tape = Tape(folder, self.tested, f"x{run}-{scenario.name}-", self.warnings.append)
        number = self._numbers.setdefault(scenario.name, len(self._numbers))
        stage = self._new_stage(scenario, run, number, tape, silence, check)
        if self._live is not None:
            watch = self._live.watch(folder)
            stage.judge_now, stage.judge_last = watch.advance, watch.finish
        return stage

    def _new_stage(self, scenario: Scenario, run: str, number: int, tape: Tape, silence: Silence,
                   check: Callable[[], None]) -> Stage:
        return Stage(scenario, self.target, run, number, tape, silence, check=check)

    def _check_life(self, scenario: Scenario, gone: Unreachable) -> None:
        """Whether the broker is dead: then nothing more is played."""
        for _ in range(LOOKS_AGAIN):
            try:
                self.target.reach().close()
                return
            except Unreachable:
                time.sleep(LOOK_SECONDS)
        ending = self._started.ending if self._started is not None else ""
        self._die(f"{gone}, in {scenario.name}" + (f"; {ending}" if ending else ""))

    def _die(self, why: str) -> None:
        with self._lock:
            if not self.is_dead:
                self.is_dead, self.stop_reason = True, f"the broker is gone: {why}"


def death_of(scenario: Scenario) -> tuple[str, ...]:
    """The signal by which the broker dies in a scenario, and the group of those who die with it."""
    return next(step.words for line in scenario.lines for step in line.steps if step.verb == "kill")


def in_turn(scenarios: list[Scenario], useful: list[str]) -> list[Scenario]:
    """First those that bring about the most situations; then the first variant of each paragraph, then the second ones,
    and so on: all kinds come early."""
    groups: dict[str, int] = Counter()
    places = {}
    ranks = {name: rank for rank, name in enumerate(useful)}
    for scenario in scenarios:
        places[scenario.name] = (ranks.get(scenario.name, len(ranks)), groups[scenario.place])
        groups[scenario.place] += 1
    return sorted(scenarios, key=lambda one: places[one.name])


class Progress:
    """Says on standard error how far a run is: on a terminal in one line, else in a line from time to time."""

    def __init__(self, count: int) -> None:
        self._count, self._begun, self._shown = count, time.monotonic(), 0.0
        self._is_terminal = sys.stderr.isatty()

    def show(self, results: list[Result]) -> None:
        now = time.monotonic()
        if now - self._shown < (0.1 if self._is_terminal else PROGRESS_SECONDS):
            return
        self._shown = now
        broken = sorted({code for result in results for code in result.broken})
        seen = f"; broken so far: {' '.join(broken)}" if broken else ""
        line = f"{len(results)} of {self._count} scenarios, {now - self._begun:.0f} s{seen}"
        print(f"\r{line}\x1b[K" if self._is_terminal else line, end="" if self._is_terminal else "\n",
              file=sys.stderr, flush=True)

    def end(self) -> None:
        if self._is_terminal:
            print("\r\x1b[K", end="", file=sys.stderr, flush=True)
