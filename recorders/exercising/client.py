"""`recorders/exercise client`: what is its own in a run against a client, for which the exerciser plays the broker."""
from __future__ import annotations

import argparse
from collections.abc import Callable
from pathlib import Path

from exercising.campaign import Campaign, Plan
from exercising.client_verbs import DOES, HOSTS
from exercising.hosts import HOST, METHOD, ClientStage, Program
from exercising.links import Tape
from exercising.running import Runner
from exercising.stage import Silence, Stage, Target
from exercising.table import Scenario
from exercising.verbs import Vocabulary
from recording import End

NO_PORT = 0


def missing_needs(options: argparse.Namespace) -> dict[str, str]:
    """What scenarios may need and isn't there, with what is said of it."""
    missing = {need: f"the client doesn't do it (--does {options.does})" for need, ways in DOES.items()
               if options.does not in ways}
    if not any(METHOD in word for word in options.words):
        missing["method"] = f"the client's command has no {METHOD}"
    if not options.slow:
        missing["slow"] = "no --slow"
    return missing


class ClientRunner(Runner):
    """Plays scenarios against a client: each starts a process of its own, on a port of its own."""

    vocabulary: Vocabulary = HOSTS
    tested = End.CLIENT
    program: Program = Program((), "")
    output: Path = Path()

    def _new_stage(self, scenario: Scenario, run: str, number: int, tape: Tape, silence: Silence,
                   check: Callable[[], None]) -> Stage:
        return ClientStage(scenario, self.target, run, number, tape, silence, check=check, program=self.program,
                           output=self.output)


class ClientCampaign(Campaign):
    """A run against a client."""

    is_server = False

    def __init__(self, plan: Plan, scenarios: list[Scenario], program: Program) -> None:
        super().__init__(plan, scenarios)
        self.program = program

    @property
    def title(self) -> str:
        return f"client {self.program}"

    def begin(self) -> Runner:
        plan = self.plan
        runner = ClientRunner(Target(HOST, NO_PORT), self.run, plan.out, Silence(plan.rest), plan.jobs, self.judge,
                              self.fairness, live=self.live)
        runner.program, runner.output = self.program, plan.out / "client.txt"
        return runner
