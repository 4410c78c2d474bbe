"""What a survey found: each software with its runs, what each statement came to, and the kinds of faults."""
from __future__ import annotations

import json
from collections.abc import Iterable, Mapping
from dataclasses import dataclass, field
from pathlib import Path
from typing import Any

from exercising.evidence import FOREIGN, FURTHER, binding
from exercising.table_file import BROKEN, FORM, KEPT, UNTESTED
from surveying.software import BROKER, SOFTWARE, Software

TABLE = "table.json"  # of a run, in its folder
ABOUT = "survey.json"  # what was surveyed, in the folder of all
PROVOKED, FOREIGN_SIGN, UNBOUND = "provoked", "out of reach", "unbound"
NEED_RELEASES = ("L1", "L2", "L3")
FAMILIES = "WCSELBPRFVDA"  # the order of reports
BESIDE = {"C24": "D"}  # those that stand there with another family


@dataclass(frozen=True)
class Cell:
    """What a statement came to in a software, over all runs."""

    fate: str  # kept, broken, provoked, not tested, out of reach or unbound
    places: int = 0
    faults: int = 0
    why: str = ""


@dataclass(frozen=True)
class Run:
    """A run of the exerciser, with the folder that its logs are in."""

    folder: Path
    table: dict[str, Any]

    @property
    def statements(self) -> dict[str, dict[str, Any]]:
        return dict(self.table["statements"])

    @property
    def broken(self) -> set[str]:
        return {code for code, said in self.statements.items() if said["fate"] == BROKEN}

    @property
    def is_of_all(self) -> bool:
        """The further statements were judged too."""
        return bool(self.table.get("all"))

    def is_provoked(self, code: str) -> bool:
        """A statement is broken only in scenarios in which the exerciser breaks rules."""
        return not self.statements[code]["scenarios"] and not self.statements[code]["faults inside"]

    def log(self, code: str) -> Path:
        """The smallest log in which a statement is broken, of those in which the exerciser keeps the rules if any."""
        return self.folder / str(self.statements[code]["logs"][0]["log"])


@dataclass
class Surveyed:
    """A software that was, or wasn't, surveyed."""

    software: Software
    version: str = ""
    runs: list[Run] = field(default_factory=list)
    why: str = ""  # it wasn't surveyed, or not in each run

    @property
    def is_server(self) -> bool:
        return self.software.end == BROKER

    @property
    def title(self) -> str:
        return f"{self.software.name} {self.version}".rstrip()

    @property
    def bound(self) -> frozenset[str]:
        """The statements that bind it, of those that were judged."""
        return binding(self.is_server, any(run.is_of_all for run in self.runs))

    def cell(self, code: str) -> Cell:
        """What a statement came to. What was kept in one run and not tested in another is kept."""
        if code in FOREIGN[self.is_server]:
            return Cell(FOREIGN_SIGN)
        if code not in self.bound:
            return Cell(UNBOUND)
        said = [run.statements[code] for run in self.runs if code in run.statements]
        places, faults = sum(one["places"] for one in said), sum(one.get("faults", 0) for one in said)
        if any(one["fate"] == BROKEN for one in said):
            is_provoked = all(run.is_provoked(code) for run in self.runs if code in run.broken)
            return Cell(PROVOKED if is_provoked else BROKEN, places, faults)
        if any(one["fate"] == KEPT for one in said):
            return Cell(KEPT, places)
        return Cell(UNTESTED, why=next((one["why"] for one in said if "why" in one), ""))

    def codes(self, fate: str) -> list[str]:
        return [code for code in sorted(self.bound, key=order_of) if self.cell(code).fate == fate]


@dataclass(frozen=True)
class Kind:
    """A statement that a software breaks, over its runs."""

    code: str
    software: Surveyed
    runs: tuple[Run, ...]  # those that show it

    @property
    def name(self) -> str:
        return f"{self.code} {self.software.software.name}"

    def is_steady(self, known: Mapping[str, frozenset[str]]) -> bool:
        """Each run shows it, or another statement that the same fault may break as well."""
        codes = known.get(self.name, frozenset()) | {self.code}
        return all(codes & run.broken for run in self.software.runs)

    @property
    def is_provoked(self) -> bool:
        return all(run.is_provoked(self.code) for run in self.runs)

    @property
    def faults(self) -> int:
        return sum(run.statements[self.code]["faults"] for run in self.runs)

    @property
    def log(self) -> Path:
        return min((run.log(self.code) for run in self.runs), key=lambda path: path.stat().st_size)

    def all_of(self, key: str) -> list[str]:
        """What the runs name together: scenarios, or situations."""
        return sorted({word for run in self.runs for word in run.statements[self.code][key]})


def kinds_of(surveyed: Iterable[Surveyed]) -> list[Kind]:
    """The kinds of faults: by statements, and those that answer a fault of the other end last."""
    found = []
    for one in surveyed:
        for code in sorted({code for run in one.runs for code in run.broken}):
            found.append(Kind(code, one, tuple(run for run in one.runs if code in run.broken)))
    return sorted(found, key=lambda kind: (kind.is_provoked, order_of(kind.code)))


def of_its_own(kinds: Iterable[Kind]) -> list[Kind]:
    """The kinds that no fault of the other end led to."""
    return [kind for kind in kinds if not kind.is_provoked]


def order_of(code: str) -> tuple[int, str]:
    """Where a statement stands in the order of reports."""
    return FAMILIES.index(BESIDE.get(code, code[0])), code


def every_code(surveyed: Iterable[Surveyed]) -> list[str]:
    """The statements that were judged, of either end."""
    is_of_all = any(run.is_of_all for one in surveyed for run in one.runs)
    return sorted({*binding(True, is_of_all), *binding(False, is_of_all), *NEED_RELEASES}, key=order_of)


def is_further(code: str) -> bool:
    """Whether a statement is judged on request alone."""
    return code in FURTHER[True] | FURTHER[False]


# ---- what an earlier survey left


def read_run(folder: Path) -> Run | None:
    """A run that was completed; None where there is no table of it."""
    try:
        table = json.loads((folder / TABLE).read_text("utf-8"))
    except (OSError, ValueError):
        return None
    return Run(folder, table) if isinstance(table, dict) and table.get("form") == FORM else None


def read_survey(folder: Path) -> tuple[list[Surveyed], dict[str, Any]]:
    """What a survey left in its folder, and what it says of itself.

    It raises OSError, ValueError, KeyError or TypeError where there is none.
    """
    about = json.loads((folder / ABOUT).read_text("utf-8"))
    found = []
    for software in SOFTWARE:
        said = about["software"].get(software.name)
        if said is None:
            continue
        runs = [read_run(folder / software.name / str(number)) for number in range(1, int(about["runs"]) + 1)]
        found.append(Surveyed(software, said["version"], [run for run in runs if run is not None], said["why"]))
    return found, about


def write_about(folder: Path, surveyed: Iterable[Surveyed], runs: int, about: dict[str, Any]) -> None:
    """Keeps what was surveyed, for those who read the folder later."""
    software = {one.software.name: {"version": one.version, "why": one.why} for one in surveyed}
    (folder / ABOUT).write_text(json.dumps(about | {"runs": runs, "software": software}, indent=1) + "\n", "utf-8")
