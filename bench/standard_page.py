"""What is wrong in docs/STANDARD.md, which has a row for each demand of the standard and says which statements judge it.

It is a part of rules_table.py, which knows the statements and their citations. Whether a row says the truth of its demand is for its
reader. What is compared are names and numbers: a statement has a row that it judges; each of its citations has a row that names it; no row
names a statement that isn't there; and the numbers at the page's top, and those in README.md, are those of its rows. A row is judged
on request if further statements alone judge it, with times if these are on times. Another row names one after these words: `B01; on
request B08`.

`unfound` alters the page in many ways, each of which has to be found: it is the self-test of all this.
"""
import re
from collections import Counter
from collections.abc import Iterator
from typing import NamedTuple

from further_table import TIMED, UNTIMED

BEGIN, END = "<!-- counts -->\n", "<!-- /counts -->\n"
HEAD = ("| Demand | What it asks | Of | Here | By which statements, or why not |", "|---|---|---|---|---|")
CELL = re.compile(r" *\| *")
CITATION = re.compile(r"(?:MQTT-\d+\.\d+\.\d+-\d+|sec-\d+(?:\.\d+)*)(?: \?)?")
NAMED = re.compile(r"MQTT-[\d.]+-\d+|sec-[\d.]*\d")
CODE = re.compile(r"(?<![\w.])(?:[A-Z]\d\d|E\d[A-Z]|L\d)(?!\w)")
ENDS = ("client", "server", "both")
JUDGED, IN_PART, ON_REQUEST, WITH_TIMES, SEE = "judged", "in part", "on request", "with times", "see"
WORDS = (JUDGED, IN_PART, ON_REQUEST, WITH_TIMES, "not yet", "unseen", "nothing")  # those that are counted
NAMING = (JUDGED, IN_PART, ON_REQUEST, WITH_TIMES, SEE)  # the rows that name statements
ASKED = {ON_REQUEST: UNTIMED, WITH_TIMES: TIMED}  # the further statements, which other rows name only after these words
SENTENCE = re.compile(
    r"Of the (\d+) numbered demands of the standard (\d+) are judged, (\d+) in part, (\d+) on request, and (\d+) with times"
)

Statements = dict[str, set[str]]  # the citations of each, by its code


def named_after(word: str, why: str) -> set[str]:
    """The statements that stand after this word in a row's last cell, one after the other."""
    lists = re.findall(rf"\b{word} ((?:{CODE.pattern}(?:, | and )?)+)", why)
    return {code for one in lists for code in CODE.findall(one)}


class Row(NamedTuple):
    citation: str
    demand: str
    of: str
    here: str
    why: str
    codes: frozenset[str]  # the statements that it names

    @property
    def is_numbered(self) -> bool:
        return self.citation.startswith("MQTT-")


def lines_of_rows(page: str) -> Iterator[str]:
    """The lines of the tables below the counts, without the heads."""
    below = page.partition(END)[2]
    yield from (line for line in below.splitlines() if line.startswith("|") and line not in HEAD)


def rows(page: str) -> list[Row]:
    """The rows that are whole."""
    cells = (CELL.split(line)[1:-1] for line in lines_of_rows(page))
    return [Row(first.removesuffix(" ?"), *others, frozenset(CODE.findall(others[-1]))) for first, *others in cells if len(others) == 4]


def counts(all_rows: list[Row]) -> str:
    """The table of how many rows there are of each kind, with its head."""
    counted = [row for row in all_rows if row.here in WORDS]
    lines = ["| Here | With a number | By section | Together |", "|---|---|---|---|"]
    for word in (*WORDS, "together"):
        alike = [row.is_numbered for row in counted if word in (row.here, "together")]
        lines.append(f"| {word} | {sum(alike)} | {len(alike) - sum(alike)} | {len(alike)} |")
    return "\n".join(lines) + "\n"


def with_counts(page: str) -> str:
    before, _, rest = page.partition(BEGIN)
    return before + BEGIN + counts(rows(page)) + END + rest.partition(END)[2]


def wrong_shapes(page: str, all_rows: list[Row]) -> Iterator[str]:
    for line in lines_of_rows(page):
        cells = CELL.split(line)[1:-1]
        if len(cells) != 5 or not all(cells):
            yield f"this row hasn't five cells: {line}"
        elif not CITATION.fullmatch(cells[0]) or cells[2] not in ENDS or cells[3] not in (*WORDS, SEE):
            yield f"this row has no citation, no end or no word of the list: {line}"
    numbered = Counter(row.citation for row in all_rows if row.is_numbered)
    yield from (f"{one} has {number} rows" for one, number in numbered.items() if number > 1)


def wrong_names(page: str, all_rows: list[Row], statements: Statements) -> Iterator[str]:
    """Rows that name no statement, or ones that they may not."""
    yield from (f"there is no statement {code}" for code in sorted(set(CODE.findall(page)) - set(statements)))
    for row in all_rows:
        if (row.here in NAMING) != bool(row.codes):
            yield f"{row.citation} ({row.here}) names {'a' if row.codes else 'no'} statement"
        for word, codes in ASKED.items():
            wanted = row.codes if row.here == word else named_after(word, row.why)
            if wanted != row.codes.intersection(codes):
                yield f"{row.citation} ({row.here}) names a statement that is judged {word}, or isn't"
        if row.here == SEE:
            yield from wrong_pointer(row, all_rows)


def wrong_pointer(row: Row, all_rows: list[Row]) -> Iterator[str]:
    """What is wrong in a row that names others: each has to be there, and to name its statements."""
    others = NAMED.findall(row.why)
    if not others:
        yield f"{row.citation} ({row.here}) names no other row"
    for other in others:
        named = {code for one in all_rows if one.citation == other and one.here != SEE for code in one.codes}
        yield from (f"{row.citation} names {other}, which has no row with {code}" for code in sorted(row.codes - named))


def missing(all_rows: list[Row], statements: Statements) -> Iterator[str]:
    """The statements that no row says to judge anything, and the citations without a row that names their statement."""
    judging = {code for row in all_rows if row.here != SEE for code in row.codes}
    yield from (f"no row says that {code} judges it" for code in statements if code not in judging)
    for code, citations in statements.items():
        named = {row.citation for row in all_rows if code in row.codes}
        yield from (f"{citation}, which {code} cites, has no row with {code}" for citation in sorted(citations - named))


def wrong_counts(page: str, all_rows: list[Row], readme: str) -> Iterator[str]:
    if page.count(BEGIN) != 1 or page.count(END) != 1:
        yield "the page must have one place for its counts"
    elif page.partition(BEGIN)[2].partition(END)[0] != counts(all_rows):
        yield "the counts aren't those of the rows: bench/rules_table.py --write writes them"
    numbered = [row.here for row in all_rows if row.is_numbered]
    right = (str(len(numbered)), *(str(numbered.count(word)) for word in (JUDGED, IN_PART, ON_REQUEST, WITH_TIMES)))
    said = SENTENCE.findall(" ".join(readme.split()))
    if said != [right]:
        counted = f"of {right[0]}, {right[1]} are, {right[2]} in part, {right[3]} on request, and {right[4]} with times"
        yield f"README.md has to say once how many demands are judged: {counted}"


def wrong(page: str, readme: str, statements: Statements) -> list[str]:
    all_rows = rows(page)
    found = [*wrong_shapes(page, all_rows), *wrong_names(page, all_rows, statements), *missing(all_rows, statements)]
    return [f"docs/STANDARD.md: {line}" for line in (*found, *wrong_counts(page, all_rows, readme))]


# ---- the self-test


def renamed(page: str, code: str, other: str) -> str:
    """The page with another code in place of this one."""
    return re.sub(rf"(?<!\w){code}(?!\w)", other, page)


def without(page: str, citation: str) -> str:
    """The page without the rows of the citation, with its counts made anew."""
    lines = (line for line in page.splitlines(keepends=True) if not re.match(rf"\| {re.escape(citation)} (?:\? )?\|", line))
    return with_counts("".join(lines))


def flawed(page: str, readme: str, statements: Statements) -> Iterator[tuple[str, str, str, str]]:
    """Each flaw, a page and a README.md that have it, and what has to be said of them."""
    codes = list(statements)
    for code, other in zip(codes, codes[1:] + codes[:1]):
        yield f"{other} for {code}", with_counts(renamed(page, code, other)), readme, f"no row says that {code} judges it"
        yield f"no such {code}", renamed(page, code, "Z99"), readme, "there is no statement Z99"
    for citation in sorted(set().union(*statements.values())):
        yield f"no {citation}", without(page, citation), readme, f"{citation}, which "
    top, end, below = page.partition(END)
    before, begin, counted = top.partition(BEGIN)
    for number in re.finditer(r"\d+", counted):
        other = f"{counted[:number.start()]}9{counted[number.start():]}"
        yield f"9{number[0]} for {number[0]}", before + begin + other + end + below, readme, "the counts aren't those of the rows"
    first, pointer = next(lines_of_rows(page)), next(row for row in rows(page) if row.here == SEE)
    there, astray = f"| {SEE} | {pointer.why} |", pointer.why.replace(NAMED.findall(pointer.why)[0], rows(page)[0].citation)
    yield "no place for counts", page.replace(BEGIN, ""), readme, "must have one place for its counts"
    for old, new, said in (
        (first, f"{first}\n{first}", "has 2 rows"),
        (first, first.rpartition(" | ")[0] + " |", "hasn't five cells"),
        (f"| {JUDGED} | W", "| known | W", "no word of the list"),
        (f"| {JUDGED} | W", "| unseen | W", "names a statement"),
        (f"| {JUDGED} | W", f"| {IN_PART} | W", "the counts aren't those of the rows"),
        (f"| {ON_REQUEST} | ", f"| {JUDGED} | ", "names a statement that is judged on request"),
        (f"; {ON_REQUEST} B", "; B", "names a statement that is judged on request"),
        (f"| {IN_PART} | B", f"| {IN_PART} | {ON_REQUEST} B", "names a statement that is judged on request"),
        (f"| {JUDGED} | W", f"| {ON_REQUEST} | W", "names a statement that is judged on request"),
        (f"| {WITH_TIMES} | ", f"| {ON_REQUEST} | ", "names a statement that is judged with times"),
        (f"| {ON_REQUEST} | ", f"| {WITH_TIMES} | ", "names a statement that is judged with times"),
        ("| unseen | ", f"| {JUDGED} | ", "names no statement"),
        (there, f"| {SEE} | {astray} |", "which has no row with"),
        (there, f"| {SEE} | {' '.join(pointer.codes)} |", "names no other row"),
    ):
        yield new, top + end + below.replace(old, new, 1), readme, said
    sentence = SENTENCE.search(" ".join(readme.split()))
    for number in re.findall(r"\d+", sentence[0]) if sentence else ():
        yield f"{number} in README.md", page, readme.replace(number, f"9{number}"), "README.md has to say once"


def unfound(page: str, readme: str, statements: Statements) -> list[str]:
    """The flaws that aren't found in a page that has one, if it has no others."""
    return [
        f"a page with this flaw isn't refused: {name}"
        for name, changed, beside, said in flawed(page, readme, statements)
        if not any(said in line for line in wrong(changed, beside, statements))
    ]
