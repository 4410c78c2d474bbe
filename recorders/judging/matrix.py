"""What the logs test, on a page: for each end a matrix of its logs by statements."""
from __future__ import annotations

from collections import Counter
from collections.abc import Iterable
from dataclasses import dataclass, field

from judging.coverage import Coverage, OfEnd
from judging.markup import attribute, counted, escaped, isolated, number

MOST = 200  # logs of an end that have a row
SHADES = 7
UNITS = {"k": 1_000, "M": 1_000_000, "G": 1_000_000_000}
THOUSAND, HUNDRED = 1_000, 100
HOW = ("A number says at how many events a log puts the statement to the test; 2k is 2,000 or more, and .5M half a"
       " million. The darker a cell, the more: each shade begins at four times the number of the one before. Where the"
       " log has faults of the statement the cell is red, and where no log tests it the column is marked.")


@dataclass(frozen=True)
class Row:
    """A log in the matrix."""

    number: int  # of the log in the page
    name: str
    end: str
    places: dict[str, int]  # by the codes of the statements
    faults: Counter[str] = field(default_factory=Counter)  # that count


def matrices(coverage: Coverage, rows: Iterable[Row]) -> str:
    """A matrix for each end that has logs which count, and what isn't tested. The rows are those of such logs."""
    notes = [*coverage.untested, *([coverage.note] if coverage.note else [])]
    kept = [*rows]
    parts = [matrix(one, [row for row in kept if row.end == one.end], coverage.sentences)
             for one in coverage.ends.values()]
    how = f"<p class=note>{HOW}</p>" if parts else ""
    said = "".join(f"<p class=remark>{escaped(note)}</p>" for note in notes)
    return (f'<section class=tested><h2 id="coverage">How often the logs test each statement</h2>{said}{how}'
            f"{''.join(parts)}</section>")


def matrix(one: OfEnd, rows: list[Row], sentences: dict[str, str]) -> str:
    """The logs of an end, each with the places of each statement, and their sums above them."""
    never = set(one.never)
    heads = "".join(head(code, code in never, sentences) for code in one.places)
    sums = Row(0, f"All {counted(one.logs, 'log')}", one.end, one.places)
    lines = "".join(line(row, f'<a href="#l{row.number}">{isolated(row.name)}</a>', one.places, never)
                    for row in rows[:MOST])
    left = f"<p class=note>Rows are those of {number(MOST)} logs, the worst ones first.</p>" if len(rows) > MOST else ""
    gaps = f"<p class=note>{escaped(one.gaps[0].upper() + one.gaps[1:])}</p>" if one.gaps else ""
    return (f"<h3>{one.end.capitalize()}: {one.amount}</h3>{gaps}"
            f'<div class=matrix tabindex=0 role=region aria-label="Logs of a {one.end} by statements"><table>'
            f"<thead><tr><th scope=col>Log{heads}{line(sums, sums.name, one.places, never)}<tbody>{lines}</table></div>"
            f"{left}{untested(one.never, sentences)}")


def head(code: str, is_never: bool, sentences: dict[str, str]) -> str:
    says = f' title="{attribute(sentences[code])}"' if code in sentences else ""
    return f"<th scope=col{' class=v' if is_never else ''}{says}><span>{escaped(code)}</span>"


def line(row: Row, name: str, codes: Iterable[str], never: set[str]) -> str:
    """A row, by the name of the log in HTML."""
    cells = "".join(cell(code, row, code in never) for code in codes)
    return f'<tr><th scope=row title="{attribute(row.name)}">{name}{cells}'


def cell(code: str, row: Row, is_never: bool) -> str:
    """How often a log tests a statement; empty if it doesn't."""
    count, faults = row.places.get(code, 0), row.faults[code]
    if not count and not faults:
        return "<td class=v>" if is_never else "<td>"
    kind = "x" if faults else f"g{shade(count)}"
    says = f"{code}: {counted(count, 'place')}" + (f", {counted(faults, 'fault')}" if faults else "")
    return f'<td class={kind} title="{escaped(says)}">{short(count)}'


def shade(count: int) -> int:
    """Which of the shades a number of places above 0 has: they go by its logarithm, to the base of 4."""
    return min(SHADES, (count.bit_length() + 1) // 2)


def short(count: int) -> str:
    """A number in three signs, rounded down: 999, 99k, .1M."""
    if count < THOUSAND:
        return str(count)
    letter, unit = next(((letter, unit) for letter, unit in UNITS.items() if count < HUNDRED * unit), ("G", UNITS["G"]))
    return f"{count // unit}{letter}" if count >= unit else f".{10 * count // unit}{letter}"


def untested(codes: list[str], sentences: dict[str, str]) -> str:
    """The statements that no log tests, with what they say."""
    if not codes:
        return ""
    lines = "".join(f"<li><span class=code>{escaped(code)}</span> {escaped(sentences.get(code, ''))}" for code in codes)
    return (f"<details class=never><summary>Never tested: {counted(len(codes), 'statement')}</summary>"
            f"<ul>{lines}</ul></details>")
