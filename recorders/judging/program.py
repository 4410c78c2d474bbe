"""Has logs judged by `mqjudge`, by several threads at a time."""
from __future__ import annotations

import contextlib
import os
import re
import subprocess
import tempfile
import threading
import time
from collections.abc import Callable, Iterator
from pathlib import Path
from typing import BinaryIO

from arguments import naming, why
from judging.causes import Causes, Evidence, Key, read_because
from judging.excerpt import AROUND, GAP, sentence_in
from judging.looking import look_at
from judging.places import what_else
from judging.resends import TAKEN, Resends
from judging.statements import ALL, TIMES
from judging.story import Teller, choose, end_of, is_brief
from judging.texts import mark_texts
from judging.verdict import FAILED, FAULTS, REFUSED, TOO_SHORT, Verdict, show
from log_format import HEADER_SIZE, body_size, version_of

STATUSES = (0, 1, 2, 4)
MISUSE = 3
CUT = "refused 10 Cut "
NO_LOG = "refused 1 Header "
HINT = "mqjudge: it is "  # what the program says beside that of some files: `what_else` says it of them
STANDARD_INPUT_FILE = "/dev/stdin"
CHUNK = 1 << 20
IDENTIFIER = re.compile(
    r"\d+ record \d+(?: moment \d+)? (?:(?:SENT|RECV) \S+ size \d+(?: qos \d dup \d)? id|RELEASE) (\d+)"
)
MOMENT = re.compile(r"\d+ record \d+ moment (\d+) ")


class Judge:
    """Has logs judged by a program, and what it says weighed by a policy."""

    def __init__(
        self, program: str, most: int, weigh: Callable[[Verdict], None], keeps: bool = False, tells: bool = False,
        covers: bool = False, is_of_all: bool = False, is_of_times: bool = False,
    ) -> None:
        """Of each log at most so many lines are kept; and each fault, and a story of what happened, if it is wanted.

        So is how often each statement was tested, and whether logs are judged by the further statements too, or even
        by those on times. The program has to know the options for that.
        """
        self._program, self._most, self._weigh = program, most, weigh
        self._keeps, self._tells, self._covers = keeps, tells, covers
        self._all = [TIMES] if is_of_times else [ALL] if is_of_all else []
        self._says_why = True  # until the program doesn't know that option
        self._running: set[subprocess.Popen[bytes]] = set()
        self._lock = threading.Lock()  # for what runs
        self.copies: dict[Path, Path] = {}  # files that stand for logs which can't be read twice
        self.is_stopped = False

    def judge(self, path: Path) -> Verdict:
        """Has a log judged, and one that ends inside a record up to its last whole one."""
        begun = time.monotonic()
        log = self.copies.get(path, path)
        verdict = self._ask(path, log)
        if verdict.status == REFUSED and verdict.last.startswith(CUT):
            try:
                verdict = self._judge_whole_records(path, log) or verdict
            except OSError as error:
                verdict = Verdict(path, FAILED, [why(error)], why(error), 1)
        else:
            self._finish(verdict, log)
        verdict.seconds = time.monotonic() - begun
        return verdict

    def stop(self) -> None:
        """Ends what runs. Nothing more is started."""
        with self._lock:
            self.is_stopped = True
            for child in self._running:
                child.kill()

    def _judge_whole_records(self, path: Path, log: Path) -> Verdict | None:
        """Has a copy of a log judged that ends at its last whole record; None where there is nothing to judge."""
        with tempfile.TemporaryDirectory() as folder:
            copy = Path(folder) / "log"
            with naming(copy), copy.open("wb") as room:
                whole = copy_whole_records(log, room)
            if not whole:
                return None
            verdict = self._ask(path, copy)
            verdict.whole = whole
            self._finish(verdict, copy)
            return verdict

    def _finish(self, verdict: Verdict, log: Path) -> None:
        """Weighs a verdict, and has its faults explained, or says what a file is that isn't a log."""
        verdict.evidence = self._reasons(verdict, log)
        self._weigh(verdict)
        verdict.is_foreign = self._look(verdict, log)
        if verdict.status == REFUSED and verdict.last.startswith(NO_LOG) and (note := what_else(log)):
            verdict.notes.append(note)
        identifiers: dict[int, int] = {}
        has_times = bool(verdict.shown) and has_moments(log)
        if (verdict.status == FAULTS and verdict.positions) or (self._tells and verdict.found) or has_times:
            identifiers = self._explain(verdict, log)
        if verdict.is_foreign:
            verdict.excerpts = {}  # what is spoken says more than its bytes do
        if self._keeps or self._covers:
            verdict.end = end_of(header_of(log))
        finders = resends, causes = Resends(holders_in(verdict)), causes_in(verdict)
        if self._is_told(verdict):
            self._tell(verdict, log, identifiers, finders)
        else:
            self._find(log, finders)
        verdict.resent, verdict.causes = resends.confirmed(log), causes.lines
        mark_texts(verdict.excerpts, verdict.story, log)

    def _is_told(self, verdict: Verdict) -> bool:
        """Whether there is to be a story of a log, which a picture needs."""
        is_short = verdict.status in (REFUSED, TOO_SHORT) or is_brief(verdict.events)
        return self._tells and not verdict.is_foreign and (bool(verdict.found) or is_short)

    def _look(self, verdict: Verdict, log: Path) -> bool:
        """Says in the verdict what can be seen without judging. It gives whether the log has nothing of MQTT."""
        try:
            looked = look_at(log)
        except OSError:
            return False
        verdict.has_rest, verdict.foreign = looked.has_rest, looked.foreign
        verdict.notes += [looked.foreign] if looked.foreign else []
        return bool(looked.foreign) and looked.is_only

    def _ask(self, path: Path, log: Path) -> Verdict:
        """What the program says of a log, under the name that it has. It has failed where it ends oddly."""
        verdict = Verdict(path, keeps=self._keeps, is_of_all=bool(self._all), is_of_times=TIMES in self._all)
        words = ["check", *(["--coverage"] if self._covers else []), *self._all]

        def take(line: str) -> None:
            if not line.startswith(HINT):
                verdict.take(line, self._most)

        try:
            verdict.status = self._read(take, *words, log=log, errors=subprocess.STDOUT)
        except OSError as error:
            verdict.take(why(error), self._most)
        if verdict.status not in STATUSES or (verdict.status == FAULTS) != verdict.last.startswith("fail "):
            verdict.take(f"the program ended with status {verdict.status}", len(verdict.first) + 1)
            verdict.status = FAILED
            verdict.found.clear()
        return verdict

    def _reasons(self, verdict: Verdict, log: Path) -> dict[Key, Evidence]:
        """Asks what the faults conflict with that are said; nothing of a log that can't be read again, such as a pipe.

        A program that doesn't know the option isn't asked again. What it says of other faults is left out.
        """
        found: dict[Key, Evidence] = {}
        if verdict.status != FAULTS or not self._says_why or not log.is_file():
            return found
        wanted, last = verdict.explained, ""

        def take(line: str) -> None:
            nonlocal last
            last = line
            if (because := read_because(line)) and because[0] in wanted:
                found.setdefault(*because)

        try:
            status = self._read(take, "check", "--why", *self._all, log=log)
        except OSError:
            return {}
        if status == MISUSE:
            self._says_why = False
        return found if status == FAULTS and last == verdict.last else {}

    def _explain(self, verdict: Verdict, log: Path) -> dict[int, int]:
        """Asks what happened around the first fault of each code, and when each that is shown happened.

        It gives the Packet Identifiers of the events at fault, by their positions. A program that can't say all this
        explains nothing.
        """
        wanted = {code: verdict.positions[code] for code in sorted(verdict.positions)}
        excerpts: dict[str, list[str]] = {code: [] for code in wanted}
        at_fault, moments = verdict.shown, verdict.moments
        identifiers: dict[int, int] = {}
        at = 0

        def take(line: str) -> None:
            nonlocal at
            number = line.partition(" ")[0]
            at = int(number) if number.isdecimal() else at
            if said := sentence_in(line):
                verdict.sentences.setdefault(*said)
            if at in at_fault and (identifier := IDENTIFIER.match(line)):
                identifiers[at] = int(identifier[1])
            if at in at_fault and (moment := MOMENT.match(line)):
                moments[at] = int(moment[1])
            for code, position in wanted.items():
                if at and abs(at - position) <= AROUND and line != GAP:
                    excerpts[code].append(line)

        try:
            status = self._read(take, "show", "--long", "--faults", "--around", str(AROUND), *self._all, log=log)
        except OSError:
            return {}
        if status == 0:
            verdict.excerpts = excerpts
        return identifiers

    def _tell(
        self, verdict: Verdict, log: Path, identifiers: dict[int, int], others: tuple[Resends | Causes, ...]
    ) -> None:
        """Asks what happened, for the faults that are told of."""
        told = choose(verdict.found, verdict.overlooked)
        places = {fault.position for fault in told}
        known = {place: identifiers[place] for place in places & identifiers.keys()}
        teller = Teller(verdict.end, told, known, verdict.evidence)

        def take(line: str) -> None:
            teller.take(line)
            for other in others:
                if not other.is_done:
                    other.take(line)

        try:
            self._read(take, "show", "--long", log=log)
        except OSError:
            return
        verdict.story = teller.story()

    def _find(self, log: Path, finders: tuple[Resends | Causes, ...]) -> None:
        """Asks what happened, as far as is needed: up to what a fault conflicts with, or to what may be sent again."""
        def is_enough() -> bool:
            return all(finder.is_done for finder in finders)

        def take(line: str) -> None:
            for finder in finders:
                if not finder.is_done:
                    finder.take(line)

        with contextlib.suppress(OSError):
            if not is_enough():
                self._read(take, "show", "--long", log=log, is_enough=is_enough)

    def ask(self, *words: str) -> str:
        """What the program prints for some words; nothing where it can't be run."""
        lines: list[str] = []
        try:
            self._read(lines.append, *words)
        except OSError:
            return ""
        return "".join(f"{line}\n" for line in lines)

    def _read(
        self, take: Callable[[str], None], *words: str, log: Path | None = None, errors: int = subprocess.DEVNULL,
        is_enough: Callable[[], bool] = lambda: False,
    ) -> int:
        """Runs the program, and has each line that it prints taken in, until it is enough. It gives the status."""
        with opened(log) as (name, given):
            child = self._start([*words, *name], given, errors)
            with child:
                assert child.stdout is not None
                for raw in child.stdout:
                    take(raw.decode("utf-8", "replace").rstrip("\r\n"))
                    if is_enough():
                        break
        self._ended(child)
        return child.returncode

    def _start(self, words: list[str], given: int, errors: int) -> subprocess.Popen[bytes]:
        with self._lock:
            if self.is_stopped:
                raise InterruptedError("it was stopped")
            child = subprocess.Popen([self._program, *words], stdin=given, stdout=subprocess.PIPE, stderr=errors)
            self._running.add(child)
        return child

    def _ended(self, child: subprocess.Popen[bytes]) -> None:
        with self._lock:
            self._running.discard(child)


def holders_in(verdict: Verdict) -> dict[int, int]:
    """The events that hold the identifiers of PUBLISHes at fault, by the positions of these."""
    return {position: reason.because for (position, code), reason in verdict.evidence.items()
            if code == TAKEN and reason.because is not None}


def causes_in(verdict: Verdict) -> Causes:
    """What finds the events that the first fault of each code conflicts with."""
    first = (verdict.evidence.get((position, code)) for code, position in verdict.positions.items())
    return Causes(reason.because for reason in first if reason and reason.because is not None)


@contextlib.contextmanager
def opened(log: Path | None) -> Iterator[tuple[list[str], int]]:
    """The word that names a log to the program, and what it has as standard input.

    The program opens no name that isn't UTF-8: such a log is its standard input, by the name that this has, since it
    reads some logs twice.
    """
    name = os.path.abspath(log) if log is not None else ""
    if name == show(name):
        yield [name] if name else [], subprocess.DEVNULL
        return
    with open(name, "rb") as file:
        yield [STANDARD_INPUT_FILE], file.fileno()


def header_of(log: Path) -> bytes:
    """A log's header, as far as there is one."""
    try:
        with log.open("rb") as file:
            return file.read(HEADER_SIZE)
    except OSError:
        return b""


def has_moments(log: Path) -> bool:
    version = version_of(header_of(log))
    return version is not None and version.has_moments


def copy_whole_records(path: Path, room: BinaryIO) -> int:
    """Copies a log up to its last whole record, and gives the number of bytes; 0 where not even its header is whole."""
    with path.open("rb") as log:
        left = whole = size_of_whole_records(log, path.stat().st_size)
        log.seek(0)
        while left and (piece := log.read(min(left, CHUNK))):
            room.write(piece)
            left -= len(piece)
    return whole


def size_of_whole_records(log: BinaryIO, size: int) -> int:
    """How many bytes of a log of this size are its header and whole records; 0 where not even its header is whole."""
    version = version_of(log.read(HEADER_SIZE))
    if version is None:
        return 0
    at = HEADER_SIZE
    while at + version.head_size <= size:
        log.seek(at)
        end = at + version.head_size + body_size(log.read(version.head_size))
        if end > size:
            break
        at = end
    return at
