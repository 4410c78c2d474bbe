#!/usr/bin/env python3
"""Checks that what CONTRIBUTING.md and six pages in docs/ name is there, and all links.

Each word in backticks has to be a word of the sources, or the name of a file; but for the made up names in CONTRIBUTING.md, and commands
of other programs. In the tables of PROVED.md each function in the column Call has to be one, and each clause one in the contract of a
function of its row; if none of these has a name, a field of a definition. In those tables of ARCHITECTURE.md that are about the inside of
a crate, each module, each name of definitions and each name of laws has to be that of a file. Only names are compared: that a row says
what its clauses say is for its reader. In all pages each link to a file of the repository, or to a heading, has to lead there, and the
list at the beginning of DECISIONS.md has to have all its sections.

usage: bench/check_docs.py
"""
import re
import sys
from collections.abc import Iterator
from pathlib import Path

TOP = Path(__file__).resolve().parent.parent
DOCS = [TOP / name for name in ("docs/PROVED.md", "docs/ARCHITECTURE.md", "docs/DECISIONS.md", "docs/WRONG_BODIES.md", "docs/GLOSSARY.md")]
DOCS += [TOP / "docs/SPEED.md", TOP / "CONTRIBUTING.md"]
PROVED, MAP, DECISIONS, *_ = DOCS
CRATES = TOP / "crates"
PARTS = ("src", "specs", "proofs", "must-fail")
FOLDERS = [crate / part for crate in CRATES.iterdir() for part in PARTS]
FOLDERS += [TOP / name for name in ("bench", "docs", "recorders", "examples", "include", ".ci")]
TEXTS = {".rt", ".antt", ".py", ".c", ".h", ".scenarios", ".css", ".js", ".edit", ".txt", ".rs", ""}
WORD = re.compile(r"\w+\.(?:antt|c|css|h|js|md|py|rs|rt|scenarios|txt)\b|\w+(?:-\w+)*")  # the name of a file, or any other word
QUOTED = re.compile(r"`([^`]+)`")
NAME = re.compile(r"\w+(?:::\w+)*")
FUNCTION = re.compile(r'^\s*(?:pub(?:\(crate\))? )?(?:const )?(?:extern "C" )?fn (\w+)')
CLAUSE = re.compile(r"\bensures (\w*) ?\{")
FIELD = re.compile(r"^ +pub (\w+) :", re.MULTILINE)
NO_NAME = re.compile(r"(^| )--?(?=\w)|[\w.]*\*[\w.]*")  # an option's first bytes; a pattern of names
CELL = re.compile(r" *(?<!\\)\| *")
LINK = re.compile(r"\]\(([^)\s]+)\)")
HEADING = re.compile(r"^(#+) (.*)$", re.MULTILINE)
NOT_IN_ANCHOR = re.compile(r"[^\w -]")
OTHER_PROGRAM = re.compile(r"(apt-get|git|grep)\b")
MADE_UP = re.compile(r"S08|C25|\bx\.rt\b")  # the statements, and the file, that CONTRIBUTING.md supposes
MADE = {"filters-1000"}  # names that a program makes of parts
UNNAMED = ""  # the only clause of a contract has no name

Contracts = dict[str, set[str]]  # the clauses of each function


def files() -> Iterator[Path]:
    for folder in FOLDERS:
        yield from (path for path in folder.rglob("*") if path.is_file() and "__pycache__" not in path.parts)


def words() -> set[str]:
    """All words of the sources, and the names of their files and folders."""
    found = {path.name for path in (*CRATES.iterdir(), *TOP.iterdir())} | MADE
    for path in files():
        found.update({path.stem, *WORD.findall(str(path.relative_to(TOP)))})
        if path.suffix in TEXTS:
            found.update(WORD.findall(path.read_text(errors="replace")))
    return found


def contracts(crate: Path) -> Contracts:
    """The clauses of each function of the crate. Functions of one name are taken together."""
    found: Contracts = {}
    for path in (crate / "src").rglob("*.rt"):
        name = None
        for line in path.read_text().splitlines():
            if begun := FUNCTION.match(line):
                name = begun[1]
                found.setdefault(name, set())
            elif line.strip() == "{":
                name = None
            if name is not None:
                found[name].update(CLAUSE.findall(line))
    return found


def together(all_contracts: dict[str, Contracts]) -> Contracts:
    found: Contracts = {}
    for one in all_contracts.values():
        for name, clauses in one.items():
            found.setdefault(name, set()).update(clauses)
    return found


def sections(text: str) -> Iterator[tuple[str, list[list[str]]]]:
    """The crate that the heading of each section names, or nothing, and the rows of its tables, by cells."""
    for section in text.split("\n## ")[1:]:
        head, _, body = section.partition("\n")
        crate = re.search(r"`(mq_\w+)`", head)
        yield crate[1] if crate else "", [CELL.split(line)[1:-1] for line in body.splitlines() if line.startswith("| ")][1:]


def wrong_words(known: set[str]) -> Iterator[str]:
    for doc in DOCS:
        for quoted in QUOTED.findall(re.sub(r"```.*?```", "", doc.read_text(), flags=re.DOTALL)):
            named = [] if OTHER_PROGRAM.match(quoted) else WORD.findall(NO_NAME.sub(" ", quoted))
            wrong = [word for word in named if word not in known and not MADE_UP.search(word)]
            yield from (f"{doc.name}: there is no {word} (`{quoted}`)" for word in wrong)


def fields(crate: str) -> set[str]:
    """The fields of the crate's definitions."""
    return {name for path in (CRATES / crate / "specs").rglob("*.antt") for name in FIELD.findall(path.read_text())}


def wrong_row(crate: str, clauses: str, there: Contracts) -> Iterator[str]:
    """What is wrong in a row on these functions, of which these are the clauses."""
    all_there = set().union(*there.values())
    if all_there <= {UNNAMED}:
        all_there |= fields(crate)
    for word in QUOTED.findall(clauses):
        name, _, clause = word.rpartition(".")
        having = there.get(name, set()) if name else all_there
        if clause.islower() and clause not in having and word not in there:
            yield f"PROVED.md: {crate}: no clause {word} of {', '.join(there)}"
    if clauses in ("one clause", "one clause each"):
        yield from (f"PROVED.md: {crate}: {name} has named clauses" for name, having in there.items() if UNNAMED not in having)


def wrong_clauses() -> Iterator[str]:
    by_crate = {path.name: contracts(path) for path in CRATES.iterdir()}
    of_all = together(by_crate)
    modules = {path.stem for crate in by_crate for path in (CRATES / crate / "src").rglob("*")}
    functions: list[str] = []
    for of_section, rows in sections(PROVED.read_text()):
        for call, _, clauses, _ in (row for row in rows if len(row) == 4):
            words = QUOTED.findall(call)
            crate = next((word for word in words if word in by_crate), of_section)
            named = [word.rpartition("::")[2] for word in words if NAME.fullmatch(word) and word != crate]
            yield from (f"PROVED.md: {crate}: no function {word}" for word in named if word.islower() and word not in {*of_all, *modules})
            # A row on "the same" is on the functions of the row before it.
            functions = [word for word in named if word in of_all] or functions
            # A method of a trait has the trait's contract, which may be in a crate below.
            there = {name: by_crate[crate].get(name) or of_all[name] for name in functions}
            yield from wrong_row(crate, clauses, there)


def names_in(cell: str) -> list[str]:
    """The names that a cell explains: those before the colon of each of its parts. What another crate has isn't among them."""
    parts = (part.partition(": ")[0] for part in cell.split("; ") if " of `mq_" not in part)
    return [name.rpartition("::")[2] for part in parts for name in QUOTED.findall(part)]


def wrong_files() -> Iterator[str]:
    for crate, rows in sections(MAP.read_text()):
        for modules, _, *others in rows if crate else ():
            for part, cell in zip(PARTS, (modules, *others)):
                stems = {path.stem for path in (CRATES / crate / part).rglob("*")}
                yield from (f"ARCHITECTURE.md: {crate}/{part} has no {name}" for name in names_in(cell) if name not in stems)


def pages() -> Iterator[Path]:
    yield from TOP.glob("*.md")
    for name in ("docs", "recorders", "examples"):
        yield from (TOP / name).rglob("*.md")


def anchors(page: Path, least: str = "#") -> set[str]:
    """What links to the headings of a page are called: those of this level, or of any level below it."""
    heads = (head for marks, head in HEADING.findall(page.read_text()) if marks.startswith(least))
    return {NOT_IN_ANCHOR.sub("", head.lower()).replace(" ", "-") for head in heads}


def wrong_links() -> Iterator[str]:
    for page in pages():
        for link in LINK.findall(page.read_text()):
            name, _, anchor = link.partition("#")
            there = page.parent / name if name else page
            if "://" in link:
                continue
            if not there.exists() or (anchor and anchor not in anchors(there)):
                yield f"{page.name}: {link} leads nowhere"
    listed = {link[1:] for link in LINK.findall(DECISIONS.read_text().partition("\n## ")[0]) if link.startswith("#")}
    yield from (f"DECISIONS.md: its list has no {name}" for name in sorted(anchors(DECISIONS, "##") - listed))


def main() -> int:
    wrong = [*wrong_words(words()), *wrong_clauses(), *wrong_files(), *wrong_links()]
    for line in wrong:
        print(line)
    print(f"documents: {len(wrong)} names wrong")
    return 1 if wrong else 0


if __name__ == "__main__":
    sys.exit(main())
