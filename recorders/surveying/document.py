"""docs/SURVEY.md: its words are written by hand, and what a survey found stands between marks, where it is replaced.

A mark is a line `<!-- survey PART WORDS -->`, and what follows it up to `<!-- end -->` is the part:

    about               when, where, and by which program
    software            the software, with versions, and what was left out
    matrix broker       statements by brokers; `matrix client` by clients
    kind S07 mosquitto  how often a kind of fault was seen, and where; `S06+S01` is one that breaks either
    events LOG 2-7 9    these events of a log in examples/sessions/survey, with the faults at them
    others              kinds that have no mark
"""
from __future__ import annotations

import re
import textwrap
from collections.abc import Callable, Collection, Mapping
from pathlib import Path

from arguments import counted
from exercising.table_file import BROKEN, KEPT, UNTESTED
from judging.excerpt import sentence_in, told
from judging.statements import ALL
from surveying.findings import PROVOKED, Cell, Kind, Surveyed, every_code, is_further

MARK = re.compile(r"<!-- survey (\w+)((?: [^ ]+)*) -->")
END = "<!-- end -->"
BETWEEN = "+"  # codes of one kind
NAMED = 6  # scenarios or situations that are named
WIDTH = 100  # of a line, in characters
TOP = Path(__file__).resolve().parents[2]
SESSIONS = "examples/sessions/survey"
RANGE = re.compile(r"[0-9]+(?:-[0-9]+)?")  # of positions
LEFT_OUT = ".."  # in place of events
SHOW = ("show", "--long", "--faults")  # the program's words
ON_REQUEST = "*On request:* "
TIME = re.compile(r" \(at [-0-9]+ [0-9:.]+ UTC\)$")  # of a fault, which its event has too


class DocumentError(Exception):
    """What is wrong with the page, in words."""


def known_kinds(text: str) -> dict[str, frozenset[str]]:
    """The kinds that a page speaks of, each as `S07 mosquitto`, with all statements that the same fault may break."""
    found: dict[str, frozenset[str]] = {}
    for line in text.splitlines():
        mark = MARK.fullmatch(line)
        if mark and mark[1] == "kind":
            word, *names = mark[2].split()
            codes = frozenset(word.split(BETWEEN))
            found |= {f"{code} {name}": codes for code in codes for name in names}
    return found


def filled(text: str, parts: Callable[[str, list[str]], list[str]]) -> str:
    """The page with all its parts made anew. It raises DocumentError where a part has no end."""
    lines, rest = [], iter(text.splitlines())
    for line in rest:
        lines.append(line)
        mark = MARK.fullmatch(line)
        if mark is None:
            continue
        if not any(END == inner for inner in rest):  # which takes the old part off
            raise DocumentError(f"no {END} comes after {line}")
        made = parts(mark[1], mark[2].split())
        lines += [*made, END]
    return "\n".join(lines) + "\n"


class Document:
    """The parts of the page, as a survey found them."""

    def __init__(self, surveyed: list[Surveyed], kinds: list[Kind], sentences: dict[str, str],
                 known: Collection[str], about: Mapping[str, object],
                 show: Callable[[Path, list[str]], str]) -> None:
        """`show` gives what the program shows of a log, with its faults, by these words."""
        self._surveyed, self._kinds, self._sentences, self._known = surveyed, kinds, sentences, known
        self._about, self._show = about, show

    def part(self, name: str, words: list[str]) -> list[str]:
        """The lines of a part. It raises DocumentError where there is no such part."""
        if name == "about" and not words:
            lines = (f"Made on {self._about['date']}, on {self._about['system']}.",
                     f"Judged by {self._about['judged by']}.")
            return [part for line in lines for part in in_width(line, "")]
        if name == "software" and not words:
            return self._software()
        if name == "matrix" and len(words) == 1:
            return self._matrix([one for one in self._surveyed if one.software.end == words[0] and one.runs])
        if name == "kind" and len(words) > 1:
            return self._kind(words[0], words[1:])
        if name == "events" and len(words) > 1 and all(map(RANGE.fullmatch, words[1:])):
            return self._events(words[0], words[1:])
        if name == "others" and not words:
            return self._others()
        raise DocumentError(f"no part is called {' '.join([name, *words])!r}")

    def _software(self) -> list[str]:
        lines = ["| | Version | Tested | Broken | Broken only after a fault of the other end | Kept | Not tested |",
                 "|---|---|---|---|---|---|---|"]
        for one in self._surveyed:
            if one.runs:
                scenarios = sum(run.table["scenarios"]["completed"] for run in one.runs)
                logs = sum(run.table["logs"] for run in one.runs)
                cells = [f"`{one.software.name}`: {one.software.what}", one.version,
                         f"{counted(len(one.runs), 'run')}, {scenarios} scenarios, {logs} logs",
                         " ".join(one.codes(BROKEN)) or "-", " ".join(one.codes(PROVOKED)) or "-",
                         str(len(one.codes(KEPT))), " ".join(one.codes(UNTESTED)) or "-"]
                lines.append(f"| {' | '.join(cells)} |")
        left = [f"- `{one.software.name}`: {one.why}" for one in self._surveyed if one.why]
        return [*lines, *(["", "Left out:", "", *left] if left else [])]

    def _matrix(self, surveyed: list[Surveyed]) -> list[str]:
        names = [f"`{one.software.name}`" for one in surveyed]
        lines = [f"| | {' | '.join(names)} | |", "|---|" + "---:|" * len(names) + "---|"]
        for code in every_code(surveyed):
            cells = [in_words(one.cell(code)) for one in surveyed]
            if any(cells):
                mark = ON_REQUEST if is_further(code) else ""
                lines.append(f"| {code} | {' | '.join(cells)} | {mark}{self._sentences.get(code, '')} |")
        return lines

    def _kind(self, word: str, names: list[str]) -> list[str]:
        kinds, codes = {one.name: one for one in self._kinds}, word.split(BETWEEN)
        lines = []
        for name in names:
            found = [kinds[f"{code} {name}"] for code in codes if f"{code} {name}" in kinds]
            lines += [seen(kind, len(codes) > 1) for kind in found] or [f"- `{name}`: not seen in this survey."]
        return [part for line in lines for part in in_width(line)]

    def _events(self, log: str, ranges: list[str]) -> list[str]:
        words = words_for(log)
        shown = events_in(self._show(TOP / SESSIONS / log, words),
                          {place for one in ranges for place in places_in(one)})
        if not any(line.startswith(" ") for line in shown):
            raise DocumentError(f"the program shows no fault at events {' '.join(ranges)} of {log}")
        return ["```", f"mqjudge {' '.join(words)} {SESSIONS}/{log}", *shown, "```"]

    def _others(self) -> list[str]:
        left = [kind for kind in self._kinds if kind.name not in self._known]
        return [f"- {kind.name}: {counted(kind.faults, 'fault')}, `{kind.log.name}` of `{kind.log.parent.name}`"
                for kind in left] or ["None."]


def words_for(log: str) -> list[str]:
    """What shows the faults of a log, which is named by the statement that it breaks."""
    code = Path(log).stem.rpartition("-")[2].upper()
    return [*SHOW, *([ALL] if is_further(code) else [])]


def places_in(words: str) -> range:
    """The positions from `2-7`, or from `9`."""
    first, _, last = words.partition("-")
    return range(int(first), int(last or first) + 1)


def events_in(shown: str, places: set[int]) -> list[str]:
    """The lines of some events, of all that the program shows of a log, with the faults at them; `..` is for others.

    What a statement says stands only at its first fault.
    """
    lines: list[str] = []
    said: set[str] = set()
    is_kept = False
    for line in shown.splitlines():
        fault = sentence_in(line)
        if fault is None:
            is_kept = int(line.split()[0]) in places
        if is_kept:
            lines.append(TIME.sub("", told(line, said)).rstrip())
            said |= {fault[0]} if fault else set()
        elif lines[-1:] != [LEFT_OUT]:
            lines.append(LEFT_OUT)
    return lines


def seen(kind: Kind, is_one_of_several: bool) -> str:
    """How often a kind of fault was seen, and where. One of several statements is named."""
    software, situations = kind.software, kind.all_of("broken in")
    scenarios = [*kind.all_of("scenarios"), *kind.all_of("scenarios that break rules")]
    where = f", in the situations {named(situations)}" if situations else ""
    code = f"{kind.code}: " if is_one_of_several else ""
    return (f"- {code}`{software.software.name}` {software.version}: in {len(kind.runs)} of"
            f" {counted(len(software.runs), 'run')}, {counted(kind.faults, 'time' if kind.is_provoked else 'fault')} at"
            f" {counted(software.cell(kind.code).places, 'place')}, in {counted(len(scenarios), 'scenario')}"
            f" ({named(scenarios)}){where}.")


def in_width(item: str, indent: str = "  ") -> list[str]:
    """An item of a list, or a sentence, in lines of the page."""
    return textwrap.wrap(item, WIDTH, subsequent_indent=indent, break_long_words=False, break_on_hyphens=False)


def named(names: list[str]) -> str:
    more = f" and {len(names) - NAMED} more" if len(names) > NAMED else ""
    return ", ".join(f"`{name}`" for name in names[:NAMED]) + more


def in_words(cell: Cell) -> str:
    """A cell of the matrix; empty where the statement doesn't bind such an end, or is out of its reach."""
    if cell.fate == BROKEN:
        return f"**{cell.faults} of {cell.places}**"
    if cell.fate == PROVOKED:
        return f"({cell.faults}) of {cell.places}"
    return str(cell.places) if cell.fate == KEPT else "-" if cell.fate == UNTESTED else ""
