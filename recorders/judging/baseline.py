"""Known faults, as `--expect FILE` lists them, and the names by which a log is found there."""
from __future__ import annotations

import os
from collections import defaultdict
from collections.abc import Iterable
from dataclasses import dataclass, field
from fnmatch import fnmatchcase
from pathlib import Path

from judging.verdict import one_line, show

SIGNS = "*?["  # a name with one of them is a pattern


class PolicyError(Exception):
    """A file of known faults that can't be used. The text says why."""


@dataclass(frozen=True)
class Known:
    """A line of the file: each log of this name may have so many faults of a code."""

    name: str
    code: str
    count: int
    line: int = field(default=0, compare=False)  # where it stands in the file

    @property
    def is_pattern(self) -> bool:
        return any(sign in self.name for sign in SIGNS)

    def fits(self, names: frozenset[str]) -> bool:
        """Whether it is about the log that has these names. A pattern's `*` stands for any characters, `/` too."""
        return self.name in names or (self.is_pattern and any(fnmatchcase(name, self.name) for name in names))


class Baseline:
    """The lines of the file."""

    def __init__(self, lines: Iterable[Known] = ()) -> None:
        self.lines = sorted(set(lines), key=lambda known: (known.name, known.code, known.count))
        self._plain: dict[tuple[str, str], int] = defaultdict(int)
        self._patterns: dict[str, list[Known]] = defaultdict(list)
        for known in self.lines:
            key = known.name, known.code
            self._plain[key] = max(self._plain[key], known.count)
            if known.is_pattern:
                self._patterns[known.code].append(known)

    def count(self, names: frozenset[str], code: str) -> int:
        """How many faults of a code are known of a log: the most that any of its lines says."""
        plain = max((self._plain.get((name, code), 0) for name in names), default=0)
        return max([plain, *(known.count for known in self._patterns.get(code, ()) if known.fits(names))])


def names_of(log: Path, folder: Path) -> frozenset[str]:
    """The names of a log that was found in a folder, or was named with it: each as it is, and as it is printed.

    They are its path in the folder, the same with the folder's own name before it, its path from where the call was
    made, and its absolute path.
    """
    whole, place = os.path.abspath(log), os.path.abspath(folder)
    inside = os.path.relpath(whole, place)
    names = (inside, os.path.join(os.path.basename(place), inside), os.path.relpath(whole), whole)
    return frozenset(text for name in names for text in (show(name), one_line(name)))


def read_expected(path: Path) -> Baseline:
    """Reads lines `LOG CODE COUNT`, codes also in small letters. Empty lines, and those with # first, don't count."""
    lines = []
    try:
        text = path.read_text("utf-8")
    except (OSError, UnicodeDecodeError) as error:
        raise PolicyError(f"--expect: {path} can't be read: {getattr(error, 'strerror', None) or error}") from None
    for number, line in enumerate(text.splitlines(), 1):
        words = line.rsplit(None, 2)
        if not words or line.startswith("#"):
            continue
        if len(words) != 3 or not words[2].isdecimal():
            raise PolicyError(f"--expect: {path}, line {number} isn't LOG CODE COUNT")
        lines.append(Known(os.path.normpath(words[0].strip()), words[1].upper(), int(words[2]), number))
    return Baseline(lines)
