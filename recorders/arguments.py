"""What the recorders' command lines have in common: one status for misuse, silence that is rest, the logs' version."""
from __future__ import annotations

import argparse
import contextlib
import sys
from collections.abc import Iterator
from dataclasses import dataclass
from pathlib import Path
from typing import NoReturn

from log_format import NEWEST, VERSIONS

MISUSE = 3  # as `mqjudge` has it
BEFORE_CONNACK_SECONDS = 30.0


@dataclass(frozen=True)
class Rests:
    """After how many seconds of silence an end is at rest. None: silence says nothing."""

    after: float | None
    before_connack: float | None  # of a server without a CONNACK, which may be asking another service

    @classmethod
    def of(cls, options: argparse.Namespace) -> Rests:
        """What the options of `add_rests` say."""
        after, longer = options.rest, options.rest_before_connack
        if after is None or longer is not None:
            return cls(after, longer)
        return cls(after, max(after, BEFORE_CONNACK_SECONDS))


class Parser(argparse.ArgumentParser):
    """A parser whose misuse has the status that `mqjudge` has for it."""

    def add_rests(self, help: str) -> None:
        """Adds the options that say which silence is rest; `help` is that of the first one."""
        self.add_argument("--rest", type=seconds, metavar="SECONDS", help=help)
        self.add_argument("--rest-before-connack", type=seconds, metavar="SECONDS",
                          help="the same for a server that hasn't sent a CONNACK: longer than it ever takes to let a"
                               f" client in; {BEFORE_CONNACK_SECONDS:.0f}, or as long as --rest if that is longer")

    def check_rests(self, options: argparse.Namespace) -> None:
        """Refuses what these options can't say together."""
        after, longer = options.rest, options.rest_before_connack
        if longer is not None and after is None:
            self.error("--rest-before-connack needs --rest")
        if longer is not None and longer < after:
            self.error("--rest-before-connack is shorter than --rest: before the CONNACK a server may take longer")

    def add_log_version(self) -> None:
        """Adds the option that says which version of the format the logs have."""
        self.add_argument("--log-version", type=int, choices=VERSIONS, default=NEWEST,
                          help=f"which version of the format the logs have: {NEWEST}, which has times, or 1 for old"
                               " readers")

    def error(self, message: str) -> NoReturn:
        self.print_usage(sys.stderr)
        self.exit(MISUSE, f"{self.prog}: {message}\n")


def seconds(text: str) -> float:
    """A number of seconds above 0."""
    try:
        number = float(text)
    except ValueError:
        number = -1.0
    if not 0 < number < 1e9:
        raise argparse.ArgumentTypeError(f"{text!r} isn't a number of seconds above 0")
    return number


def why(error: Exception, place: str = "") -> str:
    """What failed in words, after the file that the error names or else a place: `a.xml: No space left on device`.

    An error that isn't the system's says all itself.
    """
    if not isinstance(error, OSError):
        return str(error) or type(error).__name__
    name = place if error.filename is None else str(error.filename)
    reason = error.strerror or str(error)
    return f"{name}: {reason}" if name else reason


@contextlib.contextmanager
def naming(file: Path) -> Iterator[None]:
    """Has the errors inside name a file, as those of writing and of closing don't."""
    try:
        yield
    except OSError as error:
        if error.filename is not None:
            raise
        raise OSError(error.errno, error.strerror, str(file)) from None


@contextlib.contextmanager
def writing(file: Path) -> Iterator[None]:
    """Has a new file removed if what is inside fails or is interrupted. One that was there before stays."""
    was_there = file.exists()
    try:
        with naming(file):
            yield
    except BaseException:
        if not was_there:
            file.unlink(missing_ok=True)
        raise


def counted(count: int, thing: str) -> str:
    """A number of things in words: `1 log`, `2 logs`."""
    return f"{count} {thing}{'' if count == 1 else 's'}"
