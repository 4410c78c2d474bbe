#!/usr/bin/env python3
"""Tries all wrong bodies of some crates: those that the gate tries, and those in must-fail/further/.

usage: bench/wrong_bodies.py [--check] [CRATE ..]

A file must-fail/further/NAME.md is a must-fail edit that the gate leaves out, since each one costs it up to half a minute. The
prover has to refuse it all the same. Without CRATE all crates that have wrong bodies are tried. The status is that of
`rt must-fail`, or of `rt lib` if a library that the crate uses isn't proved.

With --check nothing is proved, and `rt` isn't needed: it says only which edits no longer apply to the source, and the status is 1 if
one doesn't. Each pair's old text has to be in its file exactly once, after the pairs before it, and the edit has to change something.

First `rt lib` proves, here, the libraries that the crate uses: what it finds is kept in their out folders. The edits are tried in
a copy of the crates, in a temporary folder, which has these libraries by hard links (rt replaces them whole, and never writes into
them). So nothing is left here if this is killed.
"""
import argparse
import os
import re
import shutil
import subprocess
import sys
import tempfile
from pathlib import Path

sys.dont_write_bytecode = True  # the repository stays as it is
TOP = Path(__file__).resolve().parent.parent
LIBRARY = Path("out") / "rlib"
LINE = re.compile(r"^(\w+)(?: staticlib)?:(.*)$", re.MULTILINE)


def linked(source: str, target: str) -> None:
    """A file a second time: a hard link or, on another file system, a copy."""
    try:
        os.link(source, target)
    except OSError:
        shutil.copy2(source, target)


def used_by(crate: str) -> list[str]:
    """The crates of the repository that this one names in crates.txt."""
    lines = dict(LINE.findall((TOP / "crates.txt").read_text()))
    return [name for name in lines.get(crate, "").split() if name in lines]


def prove_libraries(crate: str) -> int:
    """The status of `rt lib` in the crates that this one uses. Each proves those below it too, as far as that isn't done."""
    for name in used_by(crate):
        status = subprocess.run(["rt", "lib"], cwd=TOP / "crates" / name).returncode
        if status:
            return status
    return 0


def copy_crates(folder: Path) -> None:
    """Copies what rt reads, and links the libraries that are proved."""
    for name in ("crates.txt", "HANDLES"):
        shutil.copy2(TOP / name, folder / name)
    shutil.copytree(TOP / "crates", folder / "crates", ignore=shutil.ignore_patterns("out"))
    for crate in (TOP / "crates").iterdir():
        if (crate / LIBRARY).is_dir():
            shutil.copytree(crate / LIBRARY, folder / "crates" / crate.name / LIBRARY, copy_function=linked)


def take_further(edits: Path) -> None:
    """Puts the further edits beside those of the gate."""
    for further in sorted((edits / "further").glob("*.md")):
        edit = edits / f"{further.stem}.edit"
        if edit.exists():
            sys.exit(f"{further.stem} is in must-fail/ and in must-fail/further/")
        shutil.copyfile(further, edit)


def tried(crate: str) -> int:
    """The status of trying all wrong bodies of the crate."""
    status = prove_libraries(crate)
    if status:
        return status
    with tempfile.TemporaryDirectory(prefix="wrong-bodies-") as name:
        folder = Path(name)
        copy_crates(folder)
        take_further(folder / "crates" / crate / "must-fail")
        return subprocess.run(["rt", "must-fail", crate], cwd=folder).returncode


def edits_of(crate: str) -> list[Path]:
    """All edits of the crate: those of the gate, and the further ones."""
    edits = TOP / "crates" / crate / "must-fail"
    return sorted([*edits.glob("*.edit"), *(edits / "further").glob("*.md")])


def why_not(edit: Path, crate: Path) -> str | None:
    """Why an edit doesn't apply to the crate, if it doesn't."""
    before: dict[str, str] = {}
    after: dict[str, str] = {}
    name = old = ""
    for line in edit.read_text().splitlines():
        word, _, text = line.partition(": ")
        if word == "file":
            name, old = text.strip(), ""
            if not (crate / name).is_file():
                return f"there is no {name}"
            before.setdefault(name, (crate / name).read_text())
            after.setdefault(name, before[name])
        elif word == "old":
            old = text
        elif word.rstrip(":") == "new":
            if not name or not old:
                return "a new text has no file or no old text before it"
            if (found := after[name].count(old)) != 1:
                return f"in {name} this is {found} times, and not once: {old}"
            after[name] = after[name].replace(old, text)
            old = ""
    return "it changes nothing" if before == after else None


def checked(crate: str) -> tuple[int, list[str]]:
    """How many edits the crate has, and what is wrong with those that don't apply."""
    edits = edits_of(crate)
    reasons = ((edit, why_not(edit, TOP / "crates" / crate)) for edit in edits)
    return len(edits), [f"{edit.relative_to(TOP)}: {reason}" for edit, reason in reasons if reason]


def check(names: list[str]) -> int:
    """Says which edits of the crates don't apply. The status is 1 if one doesn't."""
    found = [checked(name) for name in names]
    wrong = [line for _, lines in found for line in lines]
    for line in wrong:
        print(f"{line:.1000}")
    print(f"{sum(count for count, _ in found)} wrong bodies, {len(wrong)} don't apply")
    return 1 if wrong else 0


def main() -> int:
    arguments = argparse.ArgumentParser(description="Tries all wrong bodies of some crates.")
    arguments.add_argument("--check", action="store_true", help="only say which no longer apply")
    arguments.add_argument("crates", metavar="CRATE", nargs="*", help="all that have wrong bodies, if there is none")
    given = arguments.parse_args()
    having = sorted(folder.parent.name for folder in (TOP / "crates").glob("*/must-fail"))
    absent = [name for name in given.crates if name not in having]
    if absent:
        print(f"no wrong bodies: {', '.join(absent)}", file=sys.stderr)
        return 2
    names = given.crates or having
    return check(names) if given.check else max(tried(name) for name in names)


if __name__ == "__main__":
    sys.exit(main())
