"""`recorders/exercise broker`: what is its own in a run against a broker."""
from __future__ import annotations

import argparse
from pathlib import Path

from arguments import Parser
from exercising.campaign import Campaign, Plan, say
from exercising.hello import announced, greet, is_this_host
from exercising.running import AGAIN, AGAIN_MARK, Runner
from exercising.stage import Silence, Target
from exercising.started import Started
from exercising.table import Scenario
from judging.places import find_logs
from judging.verdict import Verdict

INSIDE = "inside"  # the folder of what was recorded inside the broker
LOCAL_HOSTS = "127.0.0.1, ::1 or localhost"


def missing_needs(options: argparse.Namespace) -> dict[str, str]:
    """What scenarios may need and isn't there, with what is said of it."""
    missing = {need: f"no --{need}" for need in ("start", "denied", "wrong-password")
               if getattr(options, need.replace("-", "_")) is None}
    if not options.slow:
        missing["slow"] = "no --slow"
    return missing


class BrokerCampaign(Campaign):
    """A run against a broker, which may be started by it."""

    def __init__(self, plan: Plan, scenarios: list[Scenario], target: Target, start: str | None, has_inside: bool
                 ) -> None:
        super().__init__(plan, scenarios)
        self.target = target
        self.inside = plan.out / INSIDE if has_inside else None
        self.started = Started(start, target, plan.out / "broker.txt", self.inside) if start is not None else None

    @property
    def title(self) -> str:
        return f"broker {self.target}"

    def begin(self) -> Runner:
        if self.started is not None:
            self.started.start()
        say(f"{self.target} announces {announced(greet(self.target, self.run))}")
        plan = self.plan
        return Runner(self.target, self.run, plan.out, Silence(plan.rest), plan.jobs, self.judge, self.fairness,
                      self.started, self.live)

    def end(self) -> None:
        if self.started is not None:
            self.started.stop()

    def inside_verdicts(self) -> list[Verdict]:
        if self.inside is None or not self.inside.is_dir():
            return []
        for path in find_logs([self.inside]).logs:
            self._rename(path)
        return [self.judge.judge(path) for path in find_logs([self.inside]).logs]

    def _rename(self, path: Path) -> None:
        """Takes the run out of a log's name, so that it is the same in each run."""
        for prefix, new in ((f"x{self.run}-", ""), (f"x{self.run}{AGAIN_MARK}-", f"{AGAIN}-")):
            if path.name.startswith(prefix):
                path.rename(path.with_name(new + path.name.removeprefix(prefix)))


def check_address(options: argparse.Namespace, parser: Parser) -> None:
    """Refuses an address that isn't of this host, unless it is asked for."""
    host, port = options.address
    if options.inside and not options.start:
        parser.error("--inside records inside a broker that --start starts")
    if options.remote and options.start:
        parser.error("--start starts a broker on this host, so --remote can't be meant")
    if not options.remote and not is_this_host(host, port):
        parser.error(f"{host} isn't this host ({LOCAL_HOSTS}): with --remote it is tested all the same")
