"""The statements that a program judges by, as its `rules` lists them, and those that it judges on request."""
from __future__ import annotations

import re
import subprocess
from dataclasses import dataclass, replace

CLIENT, SERVER = "client", "server"
ENDS = (CLIENT, SERVER)
BOTH = "both"
CODE = re.compile("[A-Z][0-9A-Z]{1,3}")
# The options that ask for the further statements too: for those that need no times, and for all.
ALL, TIMES = "--all", "--times"
SECONDS = 60


@dataclass(frozen=True)
class Statement:
    """A line of `rules`."""

    code: str
    ends: str  # which it binds: client, server or both
    sentence: str = ""
    asked_by: str = ""  # the option without which it isn't judged; none of one that always is

    @property
    def is_further(self) -> bool:
        return bool(self.asked_by)

    def is_judged(self, asked: str) -> bool:
        """Whether it is judged if the further statements are asked for by this option, or by none."""
        return self.asked_by in {TIMES: ("", ALL, TIMES), ALL: ("", ALL)}.get(asked, ("",))

    def binds(self, end: str) -> bool:
        return self.ends in (end, BOTH)


def statements_of(program: str, *words: str) -> list[Statement]:
    """The statements that the program judges by; none where it doesn't list them. The words are options of `rules`."""
    command = [program, "rules", *words]
    try:
        answer = subprocess.run(command, stdin=subprocess.DEVNULL, capture_output=True, timeout=SECONDS)
    except (OSError, subprocess.TimeoutExpired):
        return []
    lines = [line.split(None, 3) for line in answer.stdout.decode("utf-8", "replace").splitlines() if line.split()]
    if answer.returncode != 0 or not all(CODE.fullmatch(words[0]) for words in lines):
        return []
    return [Statement(words[0], "".join(words[1:2]), "".join(words[3:4])) for words in lines]


def every_statement_of(program: str) -> list[Statement]:
    """The same, and after them the further ones, if the program knows any, those on times last."""
    found = statements_of(program)
    for option in (ALL, TIMES) if found else ():
        codes = {one.code for one in found}
        found += [replace(one, asked_by=option) for one in statements_of(program, option) if one.code not in codes]
    return found


def counts_places(program: str) -> bool:
    return knows(program, "--coverage")


def judges_further(program: str, option: str = ALL) -> bool:
    return knows(program, option)


def knows(program: str, option: str) -> bool:
    """Whether the program's `check` knows an option: then it refuses an empty log, and doesn't call it misuse."""
    command = [program, "check", option]
    try:
        answer = subprocess.run(command, stdin=subprocess.DEVNULL, capture_output=True, timeout=SECONDS)
    except (OSError, subprocess.TimeoutExpired):
        return False
    return answer.stdout.startswith(b"refused ")
