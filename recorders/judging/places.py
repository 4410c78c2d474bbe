"""Which logs are meant by the files and folders that a user names."""
from __future__ import annotations

import os
from collections.abc import Iterable
from dataclasses import dataclass, field
from pathlib import Path

from judging.baseline import names_of
from log_format import MARK

STANDARD_INPUT = Path("-")
CAPTURE = "it is a capture: recorders/from-capture makes logs of it"
COMPRESSED = "it is compressed by gzip: unpack it first"
OTHERS = {  # what else a file may be, by its first bytes
    b"\xd4\xc3\xb2\xa1": CAPTURE,
    b"\xa1\xb2\xc3\xd4": CAPTURE,
    b"\x4d\x3c\xb2\xa1": CAPTURE,
    b"\xa1\xb2\x3c\x4d": CAPTURE,
    b"\x0a\x0d\x0d\x0a": CAPTURE,
    b"\x1f\x8b": COMPRESSED,
}


@dataclass
class Found:
    """The logs of some places."""

    logs: list[Path] = field(default_factory=list)  # each once
    empty: list[Path] = field(default_factory=list)  # folders that have none
    left_out: int = 0  # files of the folders that are no logs, whatever they are called
    folders: dict[Path, Path] = field(default_factory=dict)  # of each log: the one that was named, or that it is in

    def names_of(self, log: Path) -> frozenset[str]:
        return names_of(log, self.folders.get(log, log.parent))


def place_of(text: str) -> Path:
    """The place that a word on the command line means; `-` is standard input, and `./-` a file of that name."""
    place = Path(text)
    return Path(os.path.abspath(text)) if place == STANDARD_INPUT and text != str(STANDARD_INPUT) else place


def is_log(path: Path) -> bool:
    """A file that begins as a log does. One that can't be read may be one: the program says what is wrong with it."""
    try:
        with path.open("rb") as file:
            return file.read(len(MARK)) == MARK
    except OSError:
        return True


def what_else(path: Path) -> str | None:
    """What a file is that isn't a log, and what to do with it, where its first bytes tell."""
    try:
        with path.open("rb") as file:
            first = file.read(len(MARK))
    except OSError:
        return None
    return next((text for mark, text in OTHERS.items() if first.startswith(mark)), None)


def find_logs(places: Iterable[Path]) -> Found:
    """The files that are named, and the logs in the folders that are named."""
    logs: dict[Path, None] = {}
    others: set[Path] = set()
    found = Found()
    for place in places:
        inside = [place]
        if place != STANDARD_INPUT and place.is_dir():
            files = sorted(path for path in place.rglob("*.log") if path.is_file())
            inside = [path for path in files if is_log(path)]
            others.update(set(files) - set(inside))
            found.empty += [] if inside else [place]
            found.folders |= {path: place for path in inside if path not in found.folders}
        logs.update(dict.fromkeys(inside))
    found.logs, found.left_out = list(logs), len(others - set(logs))
    return found
