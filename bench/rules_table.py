#!/usr/bin/env python3
"""Checks that the tables of statements in docs/STATEMENTS.md are those that the program has, that the number of statements in
README.md and docs/STATEMENTS.md is the number of those that are always judged, that docs/STANDARD.md names the statements where it
should, that the second opinion has the same further statements, in the same words, and that no line of what `explain` prints has more
than 80 bytes.

The rows are those of `TABLE` in crates/mq_rules/src/table.rt, and what each statement says is its doc comment in
crates/mq_rules/src/rule.rt, which is also its sentence in `Rule::sentence` of crates/mq_rules/src/naming.rt. In the document the table
is between the lines `<!-- rules -->` and `<!-- /rules -->`, and that of the further statements, which are judged on request, those on
times too, between `<!-- further -->` and `<!-- /further -->`. If one differs, the first line that does is printed, and the status is 1;
with --write the tables are written instead. The two pages are the only ones that say how many statements there are: each has to say it,
and nowhere another number, or the status is 1, with --write too. What is asked of docs/STANDARD.md is in standard_page.py; --write
writes the numbers of its rows into it. Each run without --write first looks whether flaws in it would be found.

usage: bench/rules_table.py [--write]
"""
import argparse
import re
import sys
from pathlib import Path

sys.dont_write_bytecode = True  # the repository stays as it is
import further_table
import standard_page

TOP = Path(__file__).resolve().parent.parent
README = TOP / "README.md"
DOCUMENT = TOP / "docs" / "STATEMENTS.md"
STANDARD = TOP / "docs" / "STANDARD.md"
COUNTING = (README, DOCUMENT)
COUNT = re.compile(r"\b(\d+)\s+(?:statements|rules)\b")
SOURCES = TOP / "crates" / "mq_rules" / "src"
RULES, FURTHER = "rules", "further"  # the names of the two tables in the document
ON_REQUEST, ON_TIMES, WITH_RELEASES = "OnRequest", "OnTimes", "WithReleases"
HEAD = ["| Code | A statement of the tested end | Citation for a client | For a server |", "|---|---|---|---|"]
ROW = re.compile(r'\(\s*(\w+),\s*"(\w+)",\s*(\w+),\s*"([^"]*)",\s*"([^"]*)",\s*(Always|WithReleases|OnRequest|OnTimes),?\s*\)')
SENTENCE = re.compile(r'Rule::(\w+) =>\s*"([^"]*)",')
VALUE = re.compile(r"((?:^ +///.*\n)+)^ +(\w+),$", re.MULTILINE)
EXPLANATIONS = TOP / "crates" / "mq_explain" / "src" / "explanations"
EXPLANATION = re.compile(r'pub const (\w+): &str = "(.*?)";', re.DOTALL)
WIDEST = 80  # bytes of a line that `explain` prints
SECTION = re.compile(r" \(MQTT 5\.0, sections? [^()]*\)\.$")


def sentences() -> dict[str, str]:
    """What each statement says, by its name in the source: its doc comment without the section of the standard."""
    enum = re.search(r"pub enum Rule \{\n(.*?)^\}", (SOURCES / "rule.rt").read_text(), re.DOTALL | re.MULTILINE)
    if enum is None:
        sys.exit("rules_table.py: rule.rt has no enum of rules")
    said = {}
    for comment, name in VALUE.findall(enum[1]):
        text = " ".join(line.strip().removeprefix("///").strip() for line in comment.splitlines())
        if not SECTION.search(text):
            sys.exit(f"rules_table.py: the comment of {name} ends with no section of the standard")
        said[name] = SECTION.sub("", text)
    return said


def tables() -> dict[str, str]:
    """The table of the statements that are always judged, and that of the further ones."""
    source = (SOURCES / "table.rt").read_text()
    size = re.search(r"pub const TABLE: \[Row; (\d+)\]", source)
    rows = ROW.findall(source)
    said = sentences()
    if size is None or int(size[1]) != len(rows) or [row[0] for row in rows] != list(said):
        sys.exit("rules_table.py: the rows of the table aren't the values of the enum, in their order")
    printed = SENTENCE.findall((SOURCES / "naming.rt").read_text())
    if printed != [(name, text + ".") for name, text in said.items()]:
        sys.exit("rules_table.py: the sentences aren't the comments of the enum's values, in their order")
    lines = {RULES: HEAD.copy(), FURTHER: HEAD.copy()}
    for name, code, _, client, server, when in rows:
        condition = ", if the log records releases" if when == WITH_RELEASES else ""
        row = f"| {code} | {said[name]}{condition} | {client or '-'} | {server or '-'} |"
        lines[FURTHER if when in (ON_REQUEST, ON_TIMES) else RULES].append(row)
    return {name: "\n".join(rows) + "\n" for name, rows in lines.items()}


def unlike_further(table: str) -> list[str]:
    """What the second opinion says otherwise of the further statements, and of which of them look at times."""
    timed = tuple(code for _, code, *_, when in ROW.findall((SOURCES / "table.rt").read_text()) if when == ON_TIMES)
    if timed != further_table.TIMED:
        return [f"bench/further_table.py has {further_table.TIMED} on times, the program has {timed}"]
    lines = HEAD.copy()
    for code in further_table.JUDGED:
        cited = [further_table.CITATIONS[code].get(role, "-") for role in ("client", "server")]
        lines.append(f"| {code} | {further_table.SENTENCES[code]} | {' | '.join(cited)} |")
    return difference("bench/further_table.py", "\n".join(lines) + "\n", table)


def difference(who: str, there: str, wanted: str) -> list[str]:
    """The first line in which a table isn't the program's."""
    pairs = zip([*there.splitlines(), ""], [*wanted.splitlines(), ""])
    return next(([f"{who} has:  {have}", f"the program has:   {want}"] for have, want in pairs if have != want), [])


def citations() -> standard_page.Statements:
    """The citations of each statement, whomever it binds, by its code."""
    rows = ROW.findall((SOURCES / "table.rt").read_text())
    return {code: {one for cited in (client, server) for one in cited.split(",") if one} for _, code, _, client, server, _ in rows}


def on_the_standard(write: bool) -> list[str]:
    """What is wrong with docs/STANDARD.md, once its numbers are written if they are to be; else with finding that, too."""
    page, readme, statements = STANDARD.read_text(), README.read_text(), citations()
    if not write:
        return standard_page.wrong(page, readme, statements) or standard_page.unfound(page, readme, statements)
    STANDARD.write_text(standard_page.with_counts(page))
    return standard_page.wrong(STANDARD.read_text(), readme, statements)


def miscounted(page: Path, count: int) -> list[str]:
    """What is wrong with the numbers of statements that a page says, where there are so many."""
    name = page.relative_to(TOP)
    said = COUNT.findall(page.read_text())
    if not said:
        return [f"{name} doesn't say how many statements there are: {count}"]
    return [f"{name} says that there are {number} statements: there are {count}" for number in said if int(number) != count]


def too_wide() -> list[str]:
    """What is too wide of what `explain` prints, where a line of the source that ends in a backslash goes on in the next one."""
    return [
        f"what explains {code} has a line of more than {WIDEST} bytes: {line}"
        for source in sorted(EXPLANATIONS.iterdir())
        for code, text in EXPLANATION.findall(source.read_text())
        for line in re.sub(r"\\\n *", "", text).replace('\\"', '"').split("\\n")
        if len(line.encode()) > WIDEST
    ]


def in_document(name: str, wanted: str, write: bool) -> list[str]:
    """In what the document's table of this name isn't the wanted one, unless that is written."""
    document, begin, end = DOCUMENT.read_text(), f"<!-- {name} -->\n", f"<!-- /{name} -->\n"
    if document.count(begin) != 1 or document.count(end) != 1:
        sys.exit(f"rules_table.py: the document must have one place for the table of {name}")
    before, rest = document.split(begin)
    there, after = rest.split(end)
    if not write:
        return difference("the document", there, wanted)
    DOCUMENT.write_text(before + begin + wanted + end + after)
    return []


def main() -> None:
    options = argparse.ArgumentParser(description="Checks the tables in docs/STATEMENTS.md and docs/STANDARD.md.")
    options.add_argument("--write", action="store_true", help="write the tables and the numbers into the documents")
    write = options.parse_args().write
    found = tables()
    wrong = [line for page in COUNTING for line in miscounted(page, found[RULES].count("\n") - len(HEAD))]
    wrong += [line for name, table in found.items() for line in in_document(name, table, write)]
    wrong += unlike_further(found[FURTHER])
    wrong += on_the_standard(write)
    wrong += too_wide()
    for line in wrong:
        print(line)
    sys.exit(1 if wrong else 0)


if __name__ == "__main__":
    main()
