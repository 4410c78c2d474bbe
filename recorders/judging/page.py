"""One page of HTML that needs nothing else: the verdicts on all logs, and a chart of each that isn't a pass."""
from __future__ import annotations

import base64
import hashlib
import os
from collections import Counter
from collections.abc import Callable
from dataclasses import dataclass, field, replace
from datetime import UTC, datetime
from pathlib import Path

from judging.card import Cards, advice
from judging.chart import FULL, LEAN, SHORT, Drawing, draw
from judging.coverage import Coverage
from judging.explain import Explanation
from judging.markup import attribute, counted, escaped, isolated, number
from judging.matrix import Row, matrices
from judging.refusals import refusal_of
from judging.story import Fault, Story, choose
from judging.verdict import FAILED, FAULTS, NO_REST, PASSED, REFUSED, TOO_SHORT, WORDS, Verdict
from log_format import time_text

HERE = Path(__file__).resolve().parent
LARGEST = 10_000_000  # bytes of a page
WITH_FOLDS = 4_000_000  # bytes of one with folds that can be opened
OF_PASSES = 2_000_000  # bytes of the charts of passes
FEW = 3  # from so many logs on there is a table of them, with filters
MANY_LOGS, MANY_FAULTS = 1_000, 10_000  # above that only the worst logs get charts
WORST = 200
SAMPLES = 20  # logs by which the size of a page is estimated
CODES = 8  # of a log that are listed beside it
ROWS = 10_000  # logs that are listed
LINES = 20  # of what the program said where it failed
ORDER = (FAILED, REFUSED, FAULTS, TOO_SHORT, PASSED)
MEANINGS = {
    FAILED: "The program failed on this log, so there is no verdict.",
    TOO_SHORT: "The log has too few events to say anything: look whether the recorder saw the session.",
}


@dataclass(frozen=True)
class Level:
    """How much is shown of a log, so that a page has its size."""

    detail: int  # below FULL, what to change stands only in the list of statements, and links lead there
    context: int  # events around a fault that are drawn
    events: int  # that are drawn at most
    folded: int  # others that a click shows
    cards: int  # faults that are shown at most with all that there is to say of them
    listed: int  # other faults of a code that are listed by their positions


LEVELS = (
    Level(FULL, 2, 1000, 600, 250, 2000),
    Level(FULL, 2, 1000, 0, 250, 2000),
    Level(LEAN, 2, 1000, 0, 250, 2000),
    Level(LEAN, 0, 400, 0, 100, 1000),
    Level(SHORT, 0, 200, 0, 50, 100),
    Level(SHORT, 0, 100, 0, 10, 100),
    Level(SHORT, 0, 40, 0, 4, 10),
)


@dataclass
class Entry:
    """A log in the page."""

    number: int  # counted from 1
    verdict: Verdict
    name: str
    digest: str = ""  # SHA-256 of its bytes, where they can be read
    is_listed: bool = True  # it is in a table
    ignored: Counter[str] = field(default_factory=Counter)  # faults of each code that don't count

    @property
    def codes(self) -> Counter[str]:
        """Faults of each code that count."""
        counts: Counter[str] = Counter()
        for key, count in self.verdict.faults.items():
            counts[key.split()[0]] += count
        return counts

    @property
    def has_section(self) -> bool:
        return not self.verdict.is_plain_pass

    @property
    def badness(self) -> tuple[int, int, int]:
        return self.verdict.faults.total(), -ORDER.index(self.verdict.status), self.ignored.total()


class Gallery:
    """The verdicts for a page. Of very many logs only the worst ones keep their stories, and the first passes."""

    def __init__(self) -> None:
        self._told: list[Verdict] = []
        self._most = MANY_LOGS
        self._passes = 0

    def take(self, verdict: Verdict) -> None:
        if verdict.story is None:
            return
        if verdict.is_plain_pass:
            self._passes += 1
            verdict.story = verdict.story if self._passes <= MANY_LOGS else None
            return
        self._told.append(verdict)
        if len(self._told) > self._most:
            self._most = 2 * WORST
            self._told.sort(key=lambda told: entry_of(0, told, "").badness, reverse=True)
            for milder in self._told[WORST:]:
                milder.story = None
            del self._told[WORST:]


@dataclass(frozen=True)
class Front:
    """What a page begins with in place of the verdict over all logs."""

    title: str
    html: str  # under the head


@dataclass
class Page:
    """What a page says beside the verdicts."""

    version: str  # what the program says of itself
    summary: str
    remarks: list[str]
    explanations: dict[str, Explanation]  # of each code that came
    coverage: Coverage | None = None  # what the logs test, if that is wanted
    date: datetime = field(default_factory=lambda: datetime.now(UTC))
    front: Front | None = None

    def write(self, verdicts: list[Verdict]) -> str:
        """The whole page, in as much detail as its size allows."""
        entries = entries_of(verdicts)
        pictured = [entry for entry in entries if entry.has_section]
        faults = sum(entry.codes.total() + entry.ignored.total() for entry in pictured)
        is_many = len(pictured) > MANY_LOGS or faults > MANY_FAULTS
        worst = sorted(pictured, key=lambda entry: entry.badness, reverse=True)[:WORST] if is_many else pictured
        charts = {entry.number for entry in worst}
        drawn = [entry for entry in entries if entry.number in charts]
        passed = "" if len(entries) >= FEW else "".join(map(pass_shown, plain_passes(entries)))
        foreign = foreign_places(entries[:ROWS])
        for level in LEVELS:
            places = foreign | (self._places(drawn) if level.detail == FULL else {})
            head, foot = self._head(entries, pictured, charts, places), self._statements(entries, places) + END
            foot = passed + foot
            room = LARGEST - len((head + foot).encode())
            sections = self._fill(drawn, level, min(room, WITH_FOLDS) if level.folded else room)
            if sections is not None:
                return head + sections + foot
        return self._head(entries, pictured, set(), foreign) + passed + self._statements(entries, foreign) + END

    def _places(self, drawn: list[Entry]) -> dict[str, str]:
        """Where what to change is said of a code: on the card of its first fault that has one."""
        places: dict[str, str] = {}
        for entry in drawn:
            story = entry.verdict.story
            for fault in choose(entry.verdict.found, entry.verdict.overlooked) if story and story.scenes else []:
                places.setdefault(fault.code, f"f{entry.number}-{fault.position}-{fault.code}")
        return places

    def _fill(self, entries: list[Entry], level: Level, room: int) -> str | None:
        """What is said of some logs at a level; None where it is too large, as is tried with some of them first."""
        step = max(1, len(entries) // SAMPLES)
        sample = entries[::step] if step > 1 else []
        size = sum(len(self._section(entry, level).encode()) for entry in sample)
        if size * len(entries) > room * len(sample):
            return None
        parts, size = [], 0
        for entry in entries:
            parts.append(self._section(entry, level))
            size += len(parts[-1].encode())
            if size > room:
                return None
        return "".join(parts)

    def _head(self, entries: list[Entry], pictured: list[Entry], charts: set[int], places: dict[str, str]) -> str:
        style, script = (HERE / "page.css").read_text(), (HERE / "page.js").read_text()
        policy = (f"default-src 'none'; img-src data:; style-src '{digest(style)}'; script-src '{digest(script)}';"
                  " base-uri 'none'; form-action 'none'")
        folder = common_folder([entry.verdict.path for entry in entries])
        notes = list(self.remarks)
        if left := len(pictured) - len(charts):
            notes.append(f"Charts are drawn of the worst {counted(len(charts), 'log')}; the other"
                         f" {counted(left, 'log')} that aren't a pass are rows only.")
        if len(entries) > ROWS:
            notes.append(f"Of {number(len(entries))} logs {number(ROWS)} are listed, the worst ones first.")
        worst = next((status for status in ORDER if any(entry.verdict.status == status for entry in entries)), FAILED)
        place = f", in <code>{escaped(folder)}</code>" if folder else ""
        kind = " class=many" if len(charts) > SAMPLES else ""
        is_untested = bool(self.coverage and self.coverage.shortfalls)
        title = headline(entries) + ("; not all that is required was tested" if is_untested else "")
        worst = FAULTS if is_untested and worst == PASSED else worst
        title, badge = (self.front.title, "") if self.front else (title, f' class="{class_of(worst)}"')
        front = self.front.html if self.front else ""
        logs = '<i id="logs"></i>'
        if len(entries) >= FEW:
            logs = self._rows(entries[:ROWS], charts) + passes(entries[:ROWS])
        return (
            f'<!DOCTYPE html>\n<html lang="en"><head><meta charset="utf-8">'
            f'<meta http-equiv="Content-Security-Policy" content="{policy}">'
            f'<meta name="viewport" content="width=device-width, initial-scale=1">'
            f'<meta name="color-scheme" content="light dark"><link rel="icon" href="data:,">'
            f"<title>mqjudge: {title}</title><style>{style}</style></head><body>{MARKERS}"
            f'<a class="skip" href="#logs">To the logs</a>'
            f'<header><h1{badge}>{title}</h1><p class="last">{escaped(self.summary)}</p>'
            f"{''.join(f'<p class=remark>{escaped(note)}</p>' for note in notes)}"
            f'<p class="version">Judged by {escaped(self.version or "mqjudge")} on'
            f" {self.date:%Y-%m-%d %H:%M} UTC{place}.</p>{LEGEND}</header><main{kind}>{front}{self._codes(entries, places)}"
            f"{self._tested(entries[:ROWS])}{logs}<script>{script}</script>"
        )

    def _codes(self, entries: list[Entry], places: dict[str, str]) -> str:
        """A table of the codes: faults and logs of each, and what doesn't count."""
        faults = sum((entry.codes for entry in entries), Counter())
        logs = Counter(code for entry in entries for code in entry.codes)
        ignored = sum((entry.ignored for entry in entries), Counter())
        if not faults and not ignored:
            return ""
        heads = table_heads("Statement", ".Faults", ".Logs", *([".Ignored"] if ignored else []), "What it says")
        rows = []
        for code in sorted(faults | ignored):
            kind = "" if faults[code] else ' class="ignored"'
            cell = f"<td class=num data-u=ignored>{number(ignored[code])}" if ignored[code] else "<td class=num>–"
            cell = cell if ignored else ""
            rows.append(f'<tr{kind}><th scope=row><a class="code" href="#{places.get(code, f"r-{code}")}">{code}</a>'
                        f'<td class=num{unit("fault", faults[code])}>{number(faults[code])}'
                        f'<td class=num{unit("log", logs[code])}>{number(logs[code])}{cell}'
                        f"<td>{escaped(self.explanations[code].sentence)}")
        return f'<h2 id="codes">Faults by statement</h2><table class="codes">{heads}<tbody>{"".join(rows)}</table>'

    def _tested(self, entries: list[Entry]) -> str:
        """How often the logs test each statement."""
        if self.coverage is None:
            return ""
        counting = (entry for entry in entries if not entry.verdict.why_no_places)
        return matrices(self.coverage, map(row_of, counting))

    def _rows(self, entries: list[Entry], charts: set[int]) -> str:
        """A row for each log that isn't just a pass, the worst ones first, and what chooses among all."""
        words = {class_of(entry.verdict.status): WORDS[entry.verdict.status] for entry in entries}
        verdicts = choice("Verdict", "verdict", words, len(words) > 1)
        codes = choice("Statement", "code", {code: code for code in self.explanations}, bool(self.explanations))
        lines = "".join(row(entry, entry.number in charts) for entry in entries if entry.has_section)
        heads = table_heads("Log", "Tested end", ".Events", "Verdict", "Statements", "SHA-256")
        table = f'<table class="logs">{heads}<tbody>{lines}</table>' if lines else ""
        return (
            '<h2 id="logs">Logs</h2><form id="filter" hidden aria-label="Choose logs">'
            f'{verdicts}{codes}<label>Name <input id="name" type="search" autocomplete="off"></label>'
            f'<output id="count" aria-live="polite">{counted(len(entries), "log")}</output></form>{table}'
        )

    def _section(self, entry: Entry, level: Level) -> str:
        """All that is said of a log."""
        verdict, story = entry.verdict, entry.verdict.story
        codes = " ".join(sorted({*entry.codes, *entry.ignored}))
        notes = "".join(f'<p class="remark">{escaped(note)}</p>' for note in notes_of(verdict))
        kind = class_of(verdict.status)
        head = (f'<section class=log id=l{entry.number} data-c="{codes}" data-v={kind}'
                f' data-n="{attribute(entry.name)}" data-end="{end_of(verdict)}">'
                f"{heading(entry)}<p class=about>{about(entry)}</p>{hash_line(entry)}{notes}")
        if verdict.is_foreign:
            head += f"<p class=foreign>{escaped(verdict.foreign[:1].upper() + verdict.foreign[1:])}</p>"
        elif verdict.last.startswith("refused "):
            head += refused(verdict)
        elif verdict.status in MEANINGS:
            lines = "\n".join(verdict.first[-LINES:]) if verdict.status == FAILED else ""
            head += f"<p>{MEANINGS[verdict.status]}</p>" + (f"<pre>{escaped_lines(lines)}</pre>" if lines else "")
        if story is None or not story.scenes:
            return f"{head}</section>"
        return f"{head}{self._shown(entry, story, level)}</section>"

    def _shown(self, entry: Entry, story: Story, level: Level) -> str:
        """The chart of a log, and its faults beside it."""
        verdict = entry.verdict
        told = choose(verdict.found, verdict.overlooked, level.cards)
        shown = story.opened(told) if level.folded else replace(story, told=told)
        drawing = Drawing(entry.number, entry.name, shown, verdict.overlooked, level.context, level.events,
                          level.folded, level.detail)
        cards = Cards(drawing, self.explanations, verdict.resent)
        said = cards.cards()
        if told:
            left = others(verdict.found, told, level.listed, lambda code: cards.place(code) or f"r-{code}")
            said = f"<div class=faults>{said}{left}</div>"
        return f"<div class=both>{picture(drawing)}{said}</div>"

    def _statements(self, entries: list[Entry], places: dict[str, str]) -> str:
        """The statements that were broken, with what explains them, of those that no card explains."""
        ends = {entry.verdict.story.end for entry in entries if entry.verdict.story} & {"client", "server"}
        parts = []
        for code, explanation in self.explanations.items():
            if code in places:
                continue
            texts = [advice(explanation, end) for end in sorted(ends)] or [advice(explanation, "")]
            words = "".join(f'<div data-end="{end}">{text}</div>' for end, text in zip(sorted(ends) or [""], texts))
            parts.append(f'<section class="statement" id="r-{code}"><h3><span class="code">{code}</span>'
                         f' {escaped(explanation.sentence)}</h3><p class="cite">{escaped(explanation.citation)}</p>'
                         f"{words}</section>")
        return f'<h2 id="statements">The statements that were broken</h2>{"".join(parts)}' if parts else ""


MARKERS = (
    '<svg class="defs" width="0" height="0" aria-hidden="true"><defs>'
    + "".join(
        f'<marker id="{name}" viewBox="0 0 10 10" refX="10" refY="5" markerWidth="9" markerHeight="9"'
        ' markerUnits="userSpaceOnUse" orient="auto"><path d="M0 1L10 5L0 9z"/></marker>'
        for name in ("a", "af", "ai", "al", "ab")
    )
    + "</defs></svg>"
)
LEGEND = (
    "<details><summary>How to read the charts</summary><ul>"
    "<li>Time runs downwards. On the left is the end that was tested, on the right its peer. Each arrow is a packet;"
    " the number beside it is the position of the event in the log, counted from 1. Where the log has times, that of"
    " the event is beside its number, and under it how long after the one before it came."
    "<li>A band is a network connection. On it the server began a new session, or resumed the one from before; it is"
    " void if the server refused it or it was closed without a CONNACK, and undecided if the log ends before that."
    "<li>REST says that the tested end had sent all that it was going to send: what is missing then never came. RELEASE"
    " says that it passed a QoS 2 message on."
    "<li>A red arrow breaks a statement: the code under it leads to what that says and what to change. A thin red line"
    " leads to a later event that shows the fault; a dashed line leads to the event that the fault conflicts with, such"
    " as the packet that announced a limit or that holds the identifier. What is ignored is grey."
    "<li>Choose a fault, in the chart or by its card, and all events under its Packet Identifier in the session are"
    " lit: those of the same exchange with whole lines, those in which the other end chose the number with dashed ones; and"
    " so is the event that the fault conflicts with, or that set the Topic Alias.</ul></details>"
)
END = "</main></body></html>\n"


def digest(text: str) -> str:
    """How a policy names what may run."""
    return f"sha256-{base64.b64encode(hashlib.sha256(text.encode()).digest()).decode()}"


def digest_of(path: Path) -> str:
    """SHA-256 of a log, so that a page says which bytes were judged; empty where it is no file that can be read."""
    try:
        if not path.is_file():
            return ""
        with path.open("rb") as file:
            return hashlib.file_digest(file, "sha256").hexdigest()
    except OSError:
        return ""


def entries_of(verdicts: list[Verdict]) -> list[Entry]:
    """The logs in the order of the page: the worst verdicts first."""
    folder = common_folder([verdict.path for verdict in verdicts])
    ranked = sorted(verdicts, key=lambda verdict: (ORDER.index(verdict.status), not verdict.ignored))
    entries = [entry_of(place, verdict, folder) for place, verdict in enumerate(ranked, 1)]
    for entry in entries[:ROWS]:
        entry.digest, entry.is_listed = digest_of(entry.verdict.path), len(entries) >= FEW
    return entries


def foreign_places(entries: list[Entry]) -> dict[str, str]:
    """Where codes lead to that came only in logs without MQTT: to what is said of the first, in place of advice."""
    others = {code for entry in entries if not entry.verdict.is_foreign for code in {*entry.codes, *entry.ignored}}
    places: dict[str, str] = {}
    for entry in entries:
        for code in ({*entry.codes, *entry.ignored} - others) if entry.verdict.is_foreign else ():
            places.setdefault(code, f"l{entry.number}")
    return places


def entry_of(place: int, verdict: Verdict, folder: str) -> Entry:
    ignored: Counter[str] = Counter()
    for text in verdict.ignored:
        words = text.split()
        if words[0] != "refused":
            ignored[words[0]] += int(words[1])
    name = os.path.relpath(verdict.path, folder) if folder else str(verdict.path)
    return Entry(place, verdict, name, ignored=ignored)


def common_folder(paths: list[Path]) -> str:
    """The folder that all logs are in; empty where that is none or the current one."""
    try:
        folder = os.path.commonpath([path.parent for path in paths])
    except ValueError:
        return ""
    return folder if folder not in ("", ".") else ""


def end_of(verdict: Verdict) -> str:
    """Which end is tested; empty where that isn't known."""
    return verdict.story.end if verdict.story else verdict.end


def class_of(status: int) -> str:
    return WORDS[status].replace(" ", "-")


def headline(entries: list[Entry]) -> str:
    """The verdict over all logs."""
    bad = sum(entry.verdict.status != PASSED for entry in entries)
    if not entries:
        return "no logs were judged"
    if not bad:
        return f"{counted(len(entries), 'log')}, all passed" if len(entries) > 1 else "the log passed"
    is_plain = all(entry.verdict.status in (PASSED, FAULTS) for entry in entries)
    if len(entries) == 1:
        return "the log has faults" if is_plain else f"the log is {WORDS[entries[0].verdict.status]}"
    verb = ("has" if bad == 1 else "have") if is_plain else ("isn't" if bad == 1 else "aren't")
    return f"{number(bad)} of {counted(len(entries), 'log')} {verb} {'faults' if is_plain else 'a pass'}"


def what_came(entry: Entry) -> str:
    """A verdict in a few words."""
    verdict = entry.verdict
    if verdict.status == FAULTS:
        return counted(verdict.faults.total(), "fault")
    return "refused" if verdict.status == REFUSED else WORDS[verdict.status]


def choice(name: str, place: str, words: dict[str, str], is_useful: bool) -> str:
    """What logs are chosen by. It is hidden where they don't differ in it."""
    options = "".join(f'<option value="{value}">{word}</option>' for value, word in words.items())
    return (f'<label{"" if is_useful else " hidden"}>{name} <select id="{place}"><option value="">all</option>{options}'
            "</select></label>")


def table_heads(*names: str) -> str:
    """The heads of a table: those with a dot before them are of columns of numbers."""
    heads = "".join(f"<th scope=col{' class=num' if name[0] == '.' else ''}>{name.lstrip('.')}" for name in names)
    return f"<thead><tr>{heads}"


def row(entry: Entry, has_section: bool) -> str:
    """A log in the table of those that aren't just a pass."""
    verdict = entry.verdict
    kind = class_of(verdict.status)
    counts = sorted(entry.codes.items())
    codes = " ".join(f"{code}&nbsp;×{number(count)}" for code, count in counts[:CODES])
    codes += f" and {len(counts) - CODES} more" if len(counts) > CODES else ""
    if verdict.last.startswith("refused "):
        codes = escaped(verdict.refusal) + (' <span class="way">ignored</span>' if verdict.ignored else "")
    ignored = f' <span class="way">{number(entry.ignored.total())} ignored</span>' if entry.ignored else ""
    ignored += ' <span class="way">not MQTT</span>' if verdict.is_foreign else ""
    said = f'<td class="badge {kind}">{what_came(entry)}<td>{codes}{ignored}'
    return f"{cells(entry, has_section)}{said}{hash_cell(entry)}"


def row_of(entry: Entry) -> Row:
    """A log in the matrix of what is tested."""
    places = {key.split()[0]: count for key, count in entry.verdict.places.items()}
    return Row(entry.number, entry.name, entry.verdict.end, places, entry.codes)


def cells(entry: Entry, has_section: bool) -> str:
    """What begins a row: the name, a link where there is more to see, the tested end, and the number of events."""
    verdict = entry.verdict
    name = isolated(entry.name)
    words = f'<a href="#l{entry.number}">{name}</a>' if has_section else name
    words += ' <span class="way">no REST</span>' if verdict.silence else ""
    words += "".join(f' <span class="way">{escaped(gap)}</span>' for gap in verdict.gaps if gap != NO_REST)
    place = "" if has_section else f' id="l{entry.number}"'
    events = number(verdict.events) if verdict.events is not None else ""
    codes = " ".join(sorted({*entry.codes, *entry.ignored}))
    return (f'<tr{place} data-v="{class_of(verdict.status)}" data-c="{codes}"><th scope=row>{words}'
            f"<td class=end>{end_of(verdict)}<td class=num{unit('event', verdict.events)}>{events}")


def hash_cell(entry: Entry) -> str:
    return f"<td class=hash>{entry.digest}"


def unit(thing: str, count: int | None) -> str:
    """What a number counts, which stands beside it where there is no room for the table's head."""
    return f" data-u={thing}{'' if count == 1 else 's'}"


def heading(entry: Entry) -> str:
    kind = class_of(entry.verdict.status)
    return f'<h3><span class="badge {kind}">{WORDS[entry.verdict.status]}</span> {isolated(entry.name)}</h3>'


def picture(drawing: Drawing) -> str:
    """The chart of a log, in what scrolls where it is long."""
    name = attribute(drawing.name)
    return f'<div class=picture tabindex=0 role=region aria-label="Chart of {name}">{draw(drawing)}</div>'


def plain_passes(entries: list[Entry]) -> list[Entry]:
    return [entry for entry in entries if not entry.has_section]


def passes(entries: list[Entry]) -> str:
    """The logs that passed, in a fold of their own: a table of them, and folded charts, as far as there is room."""
    passed = plain_passes(entries)
    if not passed:
        return ""
    folds: dict[int, str] = {}
    room = OF_PASSES
    for entry in passed:
        if entry.verdict.story and entry.verdict.story.scenes:
            fold = pass_shown(entry)
            room -= len(fold.encode())
            if room < 0:
                break
            folds[entry.number] = fold
    heads = table_heads("Log", "Tested end", ".Events", "SHA-256")
    rows = "".join(cells(entry, entry.number in folds) + hash_cell(entry) for entry in passed)
    left = len(passed) - len(folds)
    note = f"<p class=note>{counted(left, 'log')} more without a chart.</p>" if left and folds else ""
    return (f'<details class="passes"><summary>{counted(len(passed), "log")} passed</summary>'
            f'<table class="logs">{heads}<tbody>{rows}</table>{"".join(folds.values())}{note}</details>')


def pass_shown(entry: Entry) -> str:
    """A log that passed: what it has, and how it began. It is folded where it is one of many."""
    verdict, story = entry.verdict, entry.verdict.story
    notes = "".join(f'<p class="remark">{escaped(note)}</p>' for note in notes_of(verdict))
    chart = picture(Drawing(entry.number, entry.name, story, detail=SHORT)) if story and story.scenes else ""
    counts = f"<p class=about>{what_it_has(story)}</p>" if story else ""
    return (f'<details class=log id=l{entry.number} data-v=pass data-c="" data-n="{attribute(entry.name)}"'
            f"{'' if entry.is_listed else ' open'}><summary>{heading(entry)}</summary><p class=about>{about(entry)}</p>"
            f"{counts}{hash_line(entry)}{notes}{chart}</details>")


def what_it_has(story: Story) -> str:
    """How often each packet went each way."""
    ways = []
    for kind, word in (("SENT", "sent"), ("RECV", "received")):
        counts = [f"{number(count)} {key.split()[1]}" for key, count in story.counts.items() if key.startswith(kind)]
        ways += [f"{word}: {', '.join(counts)}"] if counts else []
    words = "; ".join(ways)
    return escaped(words[:1].upper() + words[1:])


def hash_line(entry: Entry) -> str:
    """The hash of a log that is in no table."""
    is_shown = entry.digest and not entry.is_listed
    return f"<p class=about>SHA-256 <span class=hash>{entry.digest}</span></p>" if is_shown else ""


def about(entry: Entry) -> str:
    """What a log is."""
    verdict, story = entry.verdict, entry.verdict.story
    end = end_of(verdict)
    words = [f"The tested end is a {end}" if end else "", counted(verdict.events, "event") if verdict.events else "",
             what_came(entry) if verdict.status == FAULTS else "",
             counted(entry.ignored.total(), "fault") + " ignored" if entry.ignored else "",
             recorded(story.span) if story and story.span else ""]
    return ", ".join(word for word in words if word)


def recorded(span: tuple[int, int]) -> str:
    """When a log was recorded, by its first moment and its last one; empty where they are no times."""
    first, last = (time_text(moment)[:19] for moment in span)
    return f"recorded from {first} to {last[11:] if last[:10] == first[:10] else last} UTC" if first and last else ""


def notes_of(verdict: Verdict) -> list[str]:
    own = verdict.foreign if verdict.is_foreign else ""  # it has a paragraph of its own
    notes = [*(f"ignored: {text}" for text in verdict.ignored), *(note for note in verdict.notes if note != own)]
    if verdict.whole is not None:
        notes.append(f"The log ends inside a record: judged are its first {number(verdict.whole)} bytes.")
    return notes + ([verdict.silence] if verdict.silence else [])


def refused(verdict: Verdict) -> str:
    """The line of a refused log, what it means, and what to do."""
    meaning = refusal_of(verdict.last)
    text = f"<p>{meaning.meaning} <b>What to do:</b> {meaning.advice}</p>" if meaning else ""
    return f'<p class="line"><code>{escaped(verdict.last)}</code></p>{text}<p class="note">{REFUSED_NOTE}</p>'


REFUSED_NOTE = "A log that can't be judged has no verdict: neither a pass nor faults. The last number is an offset."


def escaped_lines(text: str) -> str:
    return "\n".join(escaped(line) for line in text.splitlines())


def others(found: list[Fault], told: list[Fault], most: int, place: Callable[[str], str]) -> str:
    """The faults that are only listed, by their codes."""
    left = set(found) - set(told)
    if not left:
        return ""
    places: dict[str, list[int]] = {}
    for fault in found:
        if fault in left:
            places.setdefault(fault.code, []).append(fault.position)
    parts = []
    for code, positions in sorted(places.items()):
        more = f" and {number(len(positions) - most)} more" if len(positions) > most else ""
        parts.append(f'<p><a class="code" href="#{place(code)}">{code}</a> at events'
                     f" {', '.join(map(str, positions[:most]))}{more}</p>")
    return f'<div class="others"><h4>{counted(len(left), "other fault")}</h4>{"".join(parts)}</div>'
