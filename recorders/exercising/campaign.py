"""A run of the exerciser from its first scenario to its status: plays, plays again, judges, and reports."""
from __future__ import annotations

import argparse
import secrets
import signal
import sys
import time
from collections import Counter
from collections.abc import Iterable, Mapping
from concurrent.futures import ThreadPoolExecutor
from dataclasses import dataclass
from pathlib import Path
from types import FrameType

from arguments import Parser, counted
from exercising.both_ends import BY_SILENCE, OF_ERRORS, ONCE, Fairness, take_out
from exercising.links import Gone
from exercising.live import Live, LiveJudge, find_library
from exercising.outcome import Outcome, silent_faults
from exercising.running import Result, Runner
from exercising.table import Scenario
from exercising.table_file import write_table
from judging.page import Gallery
from judging.policy import Policy, Weighing
from judging.program import Judge
from judging.report import last_line, print_verdict
from judging.reports import Places, write_reports
from judging.verdict import FAILED, FAULTS, PASSED, REFUSED, Verdict

RUN_BYTES = 2  # of the name that is this run's own
AGAIN_SECONDS = 60.0  # after which no more faults by silence are tried again
AGAIN_OF_A_CODE = 3  # scenarios of a code that are played again, until one of them shows it again
SIDE_BY_SIDE = 20  # scenarios that are played again at a time, where all of a code are
ENDED_MOST = 0.25  # of the scenarios, beyond which a run says too little
REACHABLE = "REACHABLE"


@dataclass(frozen=True)
class Plan:
    """What a run of the exerciser is to do, whatever it tests."""

    out: Path
    scenarios: list[Scenario]
    left_out: dict[str, str]  # why other scenarios aren't played, by their names
    seconds: float | None
    rest: float
    jobs: int
    require: frozenset[str]
    program: str
    most: int
    policy: Policy
    reports: Places
    table: Path | None = None  # where the last table is written for programs, if it is wanted
    is_of_all: bool = False  # the further statements are judged too


def choose(
    scenarios: list[Scenario], options: argparse.Namespace, parser: Parser, missing: Mapping[str, str]
) -> tuple[list[Scenario], dict[str, str]]:
    """The scenarios that are played, and why others aren't. Of each need that isn't met it is said what is missing."""
    chosen, left_out = [], {}
    for word in (*options.only, *options.skip):
        if not any(scenario.name.startswith(word) for scenario in scenarios):
            parser.error(f"no scenario's name begins with {word!r}: see `exercise list`")
    for scenario in scenarios:
        reasons = [missing[need] for need in sorted(scenario.needs) if need in missing]
        is_wanted = not options.only or scenario.name.startswith(tuple(options.only))
        if not is_wanted or (options.codes and not options.codes & set(scenario.aims)):
            continue
        if options.skip and scenario.name.startswith(tuple(options.skip)):
            left_out[scenario.name] = "--skip"
        elif reasons:
            left_out[scenario.name] = reasons[0]
        else:
            chosen.append(scenario)
    return chosen, left_out


def say(line: str) -> None:
    print(line, file=sys.stderr, flush=True)


class Campaign:
    """A run. What is tested, and how, is said by those who inherit."""

    is_server = True

    def __init__(self, plan: Plan, scenarios: list[Scenario]) -> None:
        self.plan, self.scenarios = plan, scenarios
        self.run = secrets.token_hex(RUN_BYTES)
        self.fairness = Fairness(is_of_all=plan.is_of_all)
        self.judge = LiveJudge(plan.program, plan.most, self.fairness.weigh, plan.is_of_all)
        self.fairness.judge = self.judge
        library = find_library() if not plan.is_of_all else None  # which judges by no further statement
        self.live = Live(library, self.judge, self.fairness, say) if library is not None else None

    # ---- what is tested

    @property
    def title(self) -> str:
        """What is tested, in words."""
        raise NotImplementedError

    def begin(self) -> Runner:
        """Makes contact. It raises Gone where there is none."""
        raise NotImplementedError

    def end(self) -> None:
        """Ends what was started."""

    def inside_verdicts(self) -> list[Verdict]:
        """The verdicts on logs that were recorded inside the tested end, in its own order."""
        return []

    # ---- the run

    def play(self) -> int:
        """Does it all. It gives the status."""
        plan, begun = self.plan, time.monotonic()
        signal.signal(signal.SIGTERM, signal.default_int_handler)  # what was started by then is ended, too
        try:
            runner = self.begin()
            say(f"judged {'live, by the library for C' if self.live else f'after each scenario, by {plan.program}'}")
            stop_at_signals(runner)
            runner.play_all(plan.scenarios, plan.seconds)
            again = {} if runner.stop_reason else self._play_again(runner)
        except Gone as gone:
            say(f"exercise: {gone}")
            return FAILED
        finally:
            self.end()
        outcome = Outcome(self.is_server, self.title, plan.out, runner.results, self.scenarios, again, plan.left_out,
                          time.monotonic() - begun, self.inside_verdicts(), is_of_all=plan.is_of_all)
        return self._conclude(runner, outcome)

    # ---- missing answers once more

    def _play_again(self, runner: Runner) -> dict[str, Result]:
        """Plays scenarios with missing answers again, with ten times the silence. What isn't seen again doesn't count."""
        suspects = [result for result in runner.results if silent_faults(result, BY_SILENCE)]
        again = play_alone(runner, suspects)
        again |= play_side_by_side(runner, [result for result in suspects if result.scenario.name not in again
                                            and silent_faults(result, OF_ERRORS)])
        for result in suspects:
            seen = again[result.scenario.name].broken if result.scenario.name in again else set()
            for verdict in result.verdicts:
                gone = [fault for fault in verdict.found if fault.code in BY_SILENCE and fault.code not in seen
                        and fault.code not in verdict.overlooked]
                take_out(verdict, gone, ONCE)
        return again

    # ---- what it came to

    def _conclude(self, runner: Runner, outcome: Outcome) -> int:
        plan = self.plan
        weighing = Weighing(plan.policy)
        verdicts = self._verdicts(outcome, weighing)
        for verdict in verdicts if plan.most else ():
            if verdict.status != PASSED:
                print_verdict(verdict)
        remarks = [*outcome.lines(self.fairness), *dict.fromkeys(runner.warnings)]
        remarks += plan.policy.gone(verdicts, weighing.found)
        if runner.stop_reason:
            remarks.append(f"it stopped early: {runner.stop_reason}")
        missing = self._unmet(outcome)
        if missing:
            remarks.append(f"required, and not tested: {' '.join(missing)}")
        if self._says_too_little(outcome):
            remarks.append(f"too many scenarios weren't completed: {len(outcome.ended)} of {len(outcome.results)}")
        remarks.append(last_line(verdicts, False))
        print("\n" + "\n".join(remarks))
        sys.stdout.flush()
        write_reports(self.judge, plan.reports, verdicts, remarks)
        if plan.table:
            write_table(outcome, self.fairness, plan.table)
        return self._status(runner, outcome, verdicts, missing)

    def _verdicts(self, outcome: Outcome, weighing: Weighing) -> list[Verdict]:
        """The verdicts for the reports: those with faults once more, with their stories where a page is wanted."""
        once = {verdict.path: [fault for fault in verdict.found if verdict.overlooked.get(fault.code) == ONCE]
                for verdict in outcome.verdicts}

        def weigh(verdict: Verdict) -> None:
            self.fairness.weigh(verdict)
            take_out(verdict, once.get(verdict.path, []), ONCE)
            weighing.weigh(verdict)

        judge = Judge(self.plan.program, self.plan.most, weigh, keeps=True, tells=bool(self.plan.reports.html),
                      is_of_all=self.plan.is_of_all)
        gallery = Gallery()
        verdicts = []
        for verdict in outcome.verdicts:
            new = judge.judge(verdict.path) if verdict.status != PASSED or verdict.ignored else verdict
            gallery.take(new)
            verdicts.append(new)
        return sorted(verdicts, key=lambda verdict: verdict.path)

    def _unmet(self, outcome: Outcome) -> list[str]:
        """What is required and wasn't tested."""
        wanted = set(self.plan.require - {REACHABLE})
        if REACHABLE in self.plan.require:
            wanted |= set(outcome.reachable)
        return sorted(wanted - outcome.tested - outcome.broken)

    @staticmethod
    def _says_too_little(outcome: Outcome) -> bool:
        return len(outcome.ended) > ENDED_MOST * len(outcome.results)

    def _status(self, runner: Runner, outcome: Outcome, verdicts: list[Verdict], missing: list[str]) -> int:
        """The worst that there is."""
        if runner.stop_reason or self._says_too_little(outcome) or not outcome.completed:
            return FAILED
        statuses = [verdict.status for verdict in verdicts]
        if FAILED in statuses or REFUSED in statuses:
            return max(statuses)
        return FAULTS if FAULTS in statuses or missing else PASSED


def play_alone(runner: Runner, suspects: Iterable[Result]) -> dict[str, Result]:
    """Plays scenarios again, one after the other, until each statement was seen broken again, or was tried often."""
    again: dict[str, Result] = {}
    until = time.monotonic() + AGAIN_SECONDS
    tried: Counter[str] = Counter()
    confirmed: set[str] = set()
    for result in sorted(suspects, key=lambda one: one.seconds):
        fresh = [code for code in silent_faults(result, BY_SILENCE)
                 if code not in confirmed and tried[code] < AGAIN_OF_A_CODE]
        if not fresh or time.monotonic() > until or runner.stop_reason:
            continue
        say(f"again, alone and with more time: {result.scenario.name} ({' '.join(sorted(fresh))})")
        again[result.scenario.name] = repeated = runner.play_again(result)
        tried.update(fresh)
        confirmed |= repeated.broken
    return again


def play_side_by_side(runner: Runner, suspects: list[Result]) -> dict[str, Result]:
    """Plays all of these again: each has another error of the client in it."""
    until = time.monotonic() + AGAIN_SECONDS

    def play(result: Result) -> Result | None:
        return None if time.monotonic() > until or runner.stop_reason else runner.play_again(result)

    if suspects:
        say(f"again, side by side and with more time: {counted(len(suspects), 'scenario')} ({' '.join(sorted(OF_ERRORS))})")
    with ThreadPoolExecutor(SIDE_BY_SIDE) as pool:
        played = zip(suspects, pool.map(play, suspects), strict=True)
        return {result.scenario.name: repeated for result, repeated in played if repeated is not None}


def stop_at_signals(runner: Runner) -> None:
    """Has a signal end the run as it is: what is played ends soon, and its logs stay whole. A second one ends all."""

    def stop(number: int, frame: FrameType | None) -> None:
        runner.stop_reason = runner.stop_reason or "it was interrupted"
        signal.signal(number, signal.default_int_handler)

    for number in (signal.SIGINT, signal.SIGTERM):
        signal.signal(number, stop)


def logs_in(folder: Path) -> str:
    """What is wrong with a folder for logs; empty if nothing is. It is made if it isn't there."""
    try:
        folder.mkdir(parents=True, exist_ok=True)
        if any(folder.rglob("*.log")):
            return f"{folder} has logs of an earlier run: name another folder, or remove it"
    except OSError as error:
        return f"{folder} can't be used: {error.strerror}"
    return ""
