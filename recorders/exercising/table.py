"""Scenarios as a table of steps: the language of the files `*.scenarios`, and its parser.

A scenario is a paragraph. Its first line begins at the margin: the name, values for variants, and after bars what it
aims at, what it needs, and whether the exerciser breaks a rule in it. The lines under it are indented: steps with
semicolons between them, each the actor, the verb and its words.

    outbound-{end}-q{qos}  end={drop bye}  qos={1 2}    | aims S02 S06
      b connect ; a connect clean expiry=300 ; a subscribe T qos=2
      b publish T qos={qos} x4 ; a await PUBLISH x4 ; a rest ; a {end}
      a connect resume expiry=300 ; a rest ; a serve ; a bye

`{qos}` stands for the variant's value, so these are four scenarios. `step,qos={0,1 0,2 1,2}` gives values together. For
many values, or some with spaces, there are lines `each name bytes`, with a line for each variant under it, of which the
last column takes the rest. `x4` at a step's end repeats the step, and `x4` at a line's beginning the line; inside both
`{n}` is the number of the repetition, from 0, and an option `qos=0|1|2` takes its values in turn. A line that begins
with `try` ends without a fuss where the tested end has closed the connection. `#` at a line's beginning is a comment.
"""
from __future__ import annotations

import itertools
import re
from collections.abc import Iterator, Mapping
from dataclasses import dataclass
from pathlib import Path

NAME = re.compile(r"[a-z0-9][a-z0-9-]*")
PARAMETER = re.compile(r"([a-z][a-z,-]*)=\{([^{}]*)\}")
BRACE = re.compile(r"\{([a-z-]+)\}")
CODE = re.compile(r"[A-Z]\d[0-9ARO]")
TIMES = re.compile(r"x([1-9]\d{0,5})")
REPETITION = "n"  # {n} stays until a step is done
COMMENT = "#"
BREAKS = "breaks the rules"


class TableError(Exception):
    """A scenario that can't be read. The text says where and why."""


@dataclass(frozen=True)
class Shape:
    """Which words a verb may have after it."""

    least: int = 0  # plain words that it has at least, and at most
    most: int = 0
    flags: frozenset[str] = frozenset()
    options: frozenset[str] = frozenset()
    is_raw: bool = False  # the rest of the step is the verb's own
    counts: bool = False  # `x4` isn't a repetition of the verb, but a number that it has


@dataclass(frozen=True)
class Step:
    """Something that an actor does."""

    actor: str
    verb: str
    words: tuple[str, ...]
    flags: frozenset[str]
    options: Mapping[str, str]
    raw: str  # all that is written after the verb
    times: int
    place: str  # FILE:LINE


@dataclass(frozen=True)
class Line:
    """Steps that are written together."""

    steps: tuple[Step, ...]
    times: int = 1
    may_end: bool = False  # the tested end may close the connection here


@dataclass(frozen=True)
class Scenario:
    """What the exerciser does in one go, with one log or several."""

    name: str
    aims: tuple[str, ...]  # codes of statements
    needs: frozenset[str]
    breaks_rules: bool
    lines: tuple[Line, ...]
    place: str

    @property
    def actors(self) -> tuple[str, ...]:
        """Who acts in it, in the order of appearance."""
        return tuple(dict.fromkeys(step.actor for line in self.lines for step in line.steps))

    @property
    def connections(self) -> int:
        """How many it has open at most: one for each who acts, and the old one during a takeover."""
        return len(self.actors) + self.has_verb("takeover")

    def has_verb(self, verb: str) -> bool:
        return any(step.verb == verb for line in self.lines for step in line.steps)


@dataclass(frozen=True)
class Row:
    """A line of a file, without what is around it."""

    text: str
    indent: int
    place: str


Values = Mapping[str, str]


def read_scenarios(path: Path, verbs: Mapping[str, Shape], needs: frozenset[str]) -> list[Scenario]:
    """The scenarios of a file, each variant by itself. It raises a TableError, or an OSError where it can't be read."""
    return parse(path.read_text("utf-8"), path.name, verbs, needs)


def parse(source: str, file: str, verbs: Mapping[str, Shape], needs: frozenset[str]) -> list[Scenario]:
    """The scenarios in a text. Verbs are those that a step may have, and needs what a scenario may ask for."""
    found: dict[str, Scenario] = {}
    for paragraph in paragraphs(source, file):
        for scenario in variants(paragraph, verbs, needs):
            if scenario.name in found:
                raise TableError(f"{scenario.place}: {scenario.name} is also at {found[scenario.name].place}")
            found[scenario.name] = scenario
    return list(found.values())


def paragraphs(source: str, file: str) -> Iterator[list[Row]]:
    """The rows of each scenario: the first one, and those under it."""
    paragraph: list[Row] = []
    for number, text in enumerate(source.splitlines(), 1):
        stripped = text.strip()
        if not stripped or stripped.startswith(COMMENT):
            continue
        row = Row(stripped, len(text) - len(text.lstrip()), f"{file}:{number}")
        if row.indent == 0:
            if paragraph:
                yield paragraph
            paragraph = [row]
        elif not paragraph:
            raise TableError(f"{row.place}: a step before the first scenario")
        else:
            paragraph.append(row)
    if paragraph:
        yield paragraph


def variants(rows: list[Row], verbs: Mapping[str, Shape], needs: frozenset[str]) -> Iterator[Scenario]:
    """The scenarios that a paragraph says."""
    head, *body = rows
    heading, *remarks = (part.strip() for part in head.text.split("|"))
    name, _, rest = heading.partition(" ")
    if PARAMETER.sub("", rest).strip():
        raise TableError(f"{head.place}: {PARAMETER.sub('', rest).strip()!r} isn't NAME={{VALUE VALUE}}")
    columns = [parameter(found, head.place) for found in PARAMETER.finditer(rest)]
    body = take_each(body, columns)
    if not body:
        raise TableError(f"{head.place}: {name} has no steps")
    for choice in itertools.product(*columns):
        values = {key: value for part in choice for key, value in part.items()}
        yield scenario_of(name, remarks, head.place, body, values, verbs, needs)


def parameter(found: re.Match[str], place: str) -> list[Values]:
    """The values of a parameter, or of several together."""
    keys = found[1].split(",")
    rows = [word.split(",") for word in found[2].split()]
    if not rows or any(len(row) != len(keys) for row in rows):
        raise TableError(f"{place}: each value of {found[1]} must be {counted_words(len(keys))}")
    return [dict(zip(keys, row)) for row in rows]


def counted_words(count: int) -> str:
    return "a word" if count == 1 else f"{count} words with commas between them"


def take_each(rows: list[Row], columns: list[list[Values]]) -> list[Row]:
    """Takes lines `each ..`, with what is under them, as values. It gives the other rows."""
    kept, at = [], 0
    while at < len(rows):
        row = rows[at]
        at += 1
        if row.text.split()[0] != "each":
            kept.append(row)
            continue
        keys = row.text.split()[1:]
        values: list[Values] = []
        while at < len(rows) and rows[at].indent > row.indent:
            words = rows[at].text.split(None, max(0, len(keys) - 1))
            if len(words) != len(keys):
                raise TableError(f"{rows[at].place}: {len(keys)} columns are wanted here: {' '.join(keys)}")
            values.append(dict(zip(keys, words)))
            at += 1
        if not keys or not values:
            raise TableError(f"{row.place}: `each` needs names, and lines of values under it")
        columns.append(values)
    return kept


def filled(text: str, values: Values, place: str) -> str:
    """A text with the variant's values in it."""

    def value(found: re.Match[str]) -> str:
        if found[1] == REPETITION:
            return found[0]
        if found[1] not in values:
            raise TableError(f"{place}: there is no value {found[0]}")
        return values[found[1]]

    return BRACE.sub(value, text)


def scenario_of(name: str, remarks: list[str], place: str, body: list[Row], values: Values,
                verbs: Mapping[str, Shape], needs: frozenset[str]) -> Scenario:
    full = filled(name, values, place)
    if not NAME.fullmatch(full):
        raise TableError(f"{place}: {full!r} is no name: small letters, digits and `-`")
    aims: tuple[str, ...] = ()
    wanted: frozenset[str] = frozenset()
    breaks = False
    for remark in remarks:
        word, *others = filled(remark, values, place).split()
        if word == "aims" and others and all(CODE.fullmatch(code) for code in others):
            aims = tuple(dict.fromkeys(others))
        elif word == "needs" and others and needs.issuperset(others):
            wanted = frozenset(others)
        elif remark == BREAKS:
            breaks = True
        else:
            raise TableError(f"{place}: {remark!r} is neither `aims CODE ..`, nor `needs` with some of"
                             f" {' '.join(sorted(needs))}, nor `{BREAKS}`")
    if not aims:
        raise TableError(f"{place}: {full} aims at nothing")
    lines = tuple(line_of(row, values, verbs) for row in body)
    return Scenario(full, aims, wanted, breaks, lines, place)


def line_of(row: Row, values: Values, verbs: Mapping[str, Shape]) -> Line:
    text = filled(row.text, values, row.place)
    times, may_end = 1, False
    while (first := text.split(None, 1)) and (first[0] == "try" or TIMES.fullmatch(first[0])):
        if len(first) == 1:
            raise TableError(f"{row.place}: nothing comes after {first[0]!r}")
        if first[0] == "try":
            may_end = True
        else:
            times = int(first[0][1:])
        text = first[1]
    pieces = [piece.strip() for piece in split_steps(text)]
    return Line(tuple(step_of(piece, row.place, verbs) for piece in pieces if piece), times, may_end)


def split_steps(text: str) -> Iterator[str]:
    """The parts between semicolons that aren't in a text."""
    quote, start = "", 0
    for at, sign in enumerate(text):
        if quote:
            quote = "" if sign == quote else quote
        elif sign in "\"'":
            quote = sign
        elif sign == ";":
            yield text[start:at]
            start = at + 1
    yield text[start:]


def step_of(text: str, place: str, verbs: Mapping[str, Shape]) -> Step:
    words = text.split()
    if len(words) < 2:
        raise TableError(f"{place}: {text!r} isn't ACTOR VERB ..")
    actor, verb, *rest = words
    shape = verbs.get(verb)
    if shape is None:
        raise TableError(f"{place}: no such verb: {verb!r}; there are {' '.join(sorted(verbs))}")
    times = 1
    if rest and TIMES.fullmatch(rest[-1]):
        times = int(rest.pop()[1:])
    raw = text.split(None, 2)[2] if len(words) > 2 else ""
    raw = re.sub(rf"\s*\bx{times}$", "", raw) if times > 1 else raw
    if shape.is_raw:
        return Step(actor, verb, tuple(rest), frozenset(), {}, raw, times, place)
    plain, flags, options = sort_words(rest, shape)
    for key in options:
        if key not in shape.options:
            raise TableError(f"{place}: {verb} has no {key}=; it has {listed(shape.options, '=')}")
    if not shape.least <= len(plain) <= shape.most:
        extra = f"; it may have {listed(shape.flags)}" if shape.flags else ""
        raise TableError(f"{place}: {verb} has {len(plain)} words after it, and should have"
                         f" {shape.least} to {shape.most}: {' '.join(plain)!r}{extra}")
    return Step(actor, verb, plain, flags, options, raw, times, place)


def sort_words(words: list[str], shape: Shape) -> tuple[tuple[str, ...], frozenset[str], dict[str, str]]:
    """A step's plain words, flags and options."""
    plain: list[str] = []
    flags: set[str] = set()
    options: dict[str, str] = {}
    for word in words:
        key, sign, value = word.partition("=")
        if sign and re.fullmatch("[a-z-]+", key):
            options[key] = value
        elif word in shape.flags:
            flags.add(word)
        else:
            plain.append(word)
    return tuple(plain), frozenset(flags), options


def listed(words: frozenset[str], end: str = "") -> str:
    return " ".join(f"{word}{end}" for word in sorted(words)) or "none"
