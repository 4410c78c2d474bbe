#!/usr/bin/env python3
"""Looks for logs on which the built program isn't right: makes logs by a seed, and compares what the program answers with what
others do.

The logs are those of hostile_logs.py: sessions in which the tested end does right, others, the same changed, and garbage; a third
of them are of version 2, with moments of any kind, and records that are cut inside their heads. `check`, as text and as JSON, is
compared with reference.py; `check --coverage`, on a third of the logs, with occasions.py; `check --why`, on another third, with
because.py; `check --all` with reference.py and further.py, on a sixth of them with --coverage, and on another with --why; of half of the
logs of version 2 all that is asked with --times instead; `show` and `packet` with reference.py's reading and, where there is rustc, with
the plain program of this folder. A log in which the tested end does right must pass, also with --all, and with --times if it does right
by its moments. A divergence is printed with its seed, its number, and a log that is made as short as it can
be, which is also written to a file. The last lines say how many logs put each further statement to the test, how many divergences
there were, and how many logs it tried a minute.

With --seconds it ends after that time, and says how many logs it has tried; with --only it tries the log of one number.
--self-test tries programs, and plain ones, that each have one flaw, and checks that it is found.

usage: bench/fuzz.py [--seed 1] [--count 20000] [--seconds N] [--only NUMBER] [--program PATH] [--jobs N] [--out FOLDER]
       bench/fuzz.py --self-test [--program PATH]
"""
import argparse
import io
import os
import shlex
import shutil
import signal
import sys
import tempfile
import time
from collections import Counter
from collections.abc import Iterator
from concurrent.futures import ProcessPoolExecutor
from contextlib import redirect_stdout
from dataclasses import dataclass, field, replace
from functools import lru_cache
from multiprocessing import Value
from multiprocessing.sharedctypes import Synchronized
from pathlib import Path

sys.dont_write_bytecode = True  # the repository stays as it is
import check_forms
import further
import hostile_logs
import occasions
import on_request
import reference
import showing
from asking import Answer, Memory, Runner, Server
from further_table import ALL, ALWAYS, JUDGED, TIMES
from hostile_logs import Made
from judges import BUILT, STATUSES
from program_runs import CAPTURE_HINT, GZIP_HINT
from reading import Recording
from run import build_baseline
from shortening import shortest, shortest_packet, words
from versions import version_of

PATIENCE = 60  # seconds that the programs have for one log
MOST_FOUND = 3  # divergences after which all workers end
BATCH = 100  # logs that a worker gets at once, at most
PORTION = 10_000  # logs after which it says how many there were
HERE = Path(__file__).resolve().parent
FOUND = Path(tempfile.gettempdir()) / "mqjudge-fuzz"
CHECK_ALL = f"check {ALL}"
LOG_TASKS = ("check", CHECK_ALL, "check --json", "show")
COVERAGE, WHY = "check --coverage", "check --why"
ALL_COVERAGE, ALL_WHY = f"check --coverage {ALL}", f"check {ALL} --why"
# In turn: what was tested, and what faults conflict with. Of the further statements too it is every sixth log.
SELDOM = (COVERAGE, WHY, ALL_COVERAGE, COVERAGE, WHY, ALL_WHY)
ON_TIMES = {task: task.replace(ALL, TIMES) for task in (CHECK_ALL, ALL_COVERAGE, ALL_WHY)}
MOST_SELDOM = 10_000  # bytes of such a log, since occasions.py and because.py take time by the square of it
PACKET = "packet"
# The logs in which the tested end does right, and how much may be asked of them.
RIGHT_BY = {hostile_logs.HONEST: TIMES, hostile_logs.AT_ANY_TIME: ALL}
# The bytes that captures begin with (pcap in microseconds and nanoseconds, of both byte orders, and pcapng), and those of gzip.
CAPTURES = (b"\xd4\xc3\xb2\xa1", b"\xa1\xb2\xc3\xd4", b"\x4d\x3c\xb2\xa1", b"\xa1\xb2\x3c\x4d", b"\x0a\x0d\x0d\x0a")
GZIP = b"\x1f\x8b"


@dataclass(frozen=True)
class Divergence:
    task: str
    by: str  # who says otherwise
    wanted: Answer
    got: Answer


def hint(log: bytes) -> str:
    """What the program says of a file that is no log."""
    return CAPTURE_HINT if log[:4] in CAPTURES else GZIP_HINT if log[:2] == GZIP else ""


@lru_cache(maxsize=2)
def read(log: bytes) -> Recording:
    return Recording(log)


@lru_cache(maxsize=6)
def report_of(log: bytes, asked: str = ALWAYS) -> str:
    return on_request.with_further(report_of(log), read(log), asked) if asked else reference.reported(read(log))


def asked_by(task: str) -> str:
    """For how much the program is asked by the words of a task."""
    return next((option for option in (TIMES, ALL) if option in task), ALWAYS)


def by_reference(task: str, data: bytes) -> Answer:
    """What reference.py wants the program to answer for a log, or for a packet."""
    if task == PACKET:
        return (*showing.packet(data), "")
    if task == "show":
        return (*showing.shown(read(data)), hint(data))
    asked = asked_by(task)
    text = report_of(data, asked)
    if "--coverage" in task:
        text = occasions.covering(text, on_request.tested(read(data), asked))
    if "--why" in task and verdict(text) == "fail":
        text = check_forms.reasoned(read(data), asked)
    return STATUSES[verdict(text)], check_forms.as_json(text) if "--json" in task else text, hint(data)


def verdict(report: str) -> str:
    return report.splitlines()[-1].split(" ", 1)[0]


class Programs:
    """The program, and the plain one if there is one."""

    def __init__(self, program: Path, plain: Path | None):
        self.program, self.plain = str(program), Server(plain) if plain else None
        self.log = Memory("log")
        self.runners = {task: Runner() for task in (*LOG_TASKS, *SELDOM, *ON_TIMES.values(), PACKET)}
        signal.signal(signal.SIGALRM, lambda *_: self.kill())

    def command(self, task: str, packet: bytes) -> list[str]:
        return [self.program, *task.split(), packet.hex() if task == PACKET else self.log.path]

    def divergences(self, tasks: tuple[str, ...], log: bytes, packet: bytes) -> list[Divergence]:
        """What differs in these tasks. All programs run while reference.py judges. One that hangs is ended, and has the status of a
        signal."""
        self.log.put(log)
        data = {task: packet if task == PACKET else log for task in tasks}
        doubled = [task for task in tasks if self.plain and task in ("show", PACKET)]
        signal.setitimer(signal.ITIMER_REAL, PATIENCE, PATIENCE)
        for task in tasks:
            self.runners[task].start(self.command(task, packet))
        if doubled:
            self.plain.ask([("p" if task == PACKET else "l", data[task]) for task in doubled])
        wanted = {task: by_reference(task, data[task]) for task in tasks}
        got = {task: self.runners[task].answer() for task in tasks}
        plain = dict(zip(doubled, self.plain.answers(), strict=True)) if doubled else {}
        signal.setitimer(signal.ITIMER_REAL, 0)
        return list(differing(wanted, got, plain))

    def kill(self) -> None:
        for one in (*self.runners.values(), *([self.plain] if self.plain else [])):
            one.kill()


def differing(wanted: dict[str, Answer], got: dict[str, Answer], plain: dict[str, Answer]) -> Iterator[Divergence]:
    for task, answer in got.items():
        if answer != wanted[task]:
            yield Divergence(task, "reference.py", wanted[task], answer)
        if task in plain and plain[task][:2] != answer[:2]:
            yield Divergence(task, "the plain program", plain[task], answer)


@lru_cache(maxsize=1)
def programs_of(program: Path, plain: Path | None) -> Programs:
    """Those of this process."""
    return Programs(program, plain)


# ---- what is found


@dataclass
class Tally:
    logs: int = 0
    seconds: float = 0  # of the run
    files: list[Path] = field(default_factory=list)  # of the divergences
    verdicts: Counter[str] = field(default_factory=Counter)
    tested: Counter[str] = field(default_factory=Counter)  # the further statements, of those logs of which that is found

    def add(self, other: "Tally") -> None:
        self.logs += other.logs
        self.files += other.files
        self.verdicts += other.verdicts
        self.tested += other.tested


@dataclass(frozen=True)
class Plan:
    """What a worker does at once."""

    seed: int
    numbers: range  # of the logs
    until: float  # the time at which it ends
    program: Path
    plain: Path | None
    out: Path
    most: int = MOST_FOUND


found_by_all: Synchronized = Value("i", 0)  # how many divergences all workers have found


def share(found: Synchronized) -> None:
    """Counts with the other workers from now on."""
    global found_by_all
    found_by_all = found


def work(plan: Plan) -> Tally:
    tally, programs = Tally(), programs_of(plan.program, plan.plain)
    for number in plan.numbers:
        if time.monotonic() > plan.until or found_by_all.value >= plan.most:
            break
        made = hostile_logs.made(plan.seed, number)
        tally.logs += 1
        found = programs.divergences(tasks_of(number, made.log), made.log, made.packet)
        tally.verdicts[verdict(report_of(made.log))] += 1
        if len(made.log) < MOST_SELDOM:
            tally.tested.update(tested_further(made.log))
        most = RIGHT_BY.get(made.kind)
        is_unpassed = most is not None and verdict(report_of(made.log, most)) != "pass"
        if found or is_unpassed:
            with found_by_all:
                found_by_all.value += 1
            tally.files.append(tell(plan, programs, number, made, found) if found else tell_unpassed(plan, number, made.log, most or ALL))
    return tally


def tasks_of(number: int, log: bytes) -> tuple[str, ...]:
    """What the program is asked of the log of this number."""
    seldom = [SELDOM[number % len(SELDOM)]] if len(log) < MOST_SELDOM else []
    tasks = (*LOG_TASKS, *seldom, PACKET)
    is_timed = version_of(log) == 2 and number // len(SELDOM) % 2 == 0
    return tuple(ON_TIMES.get(task, task) for task in tasks) if is_timed else tasks


def tested_further(log: bytes) -> list[str]:
    """The further statements that a log puts to the test."""
    events = further.log_of(read(log))
    return [code for code in JUDGED if further.places(events, code)]


def tell_unpassed(plan: Plan, number: int, log: bytes, asked: str) -> Path:
    """Prints a log that should pass, and writes it to a file."""
    path = plan.out / f"{plan.seed}-{number}.log"
    path.write_bytes(log)
    lines = [f"{words(log):.2000}", f"in {path}", *report_of(log, asked).splitlines()]
    said = f"seed {plan.seed}, log {number}: the tested end does right, and the log doesn't pass"
    print("\n  ".join([said, *lines]), flush=True)
    return path


def tell(plan: Plan, programs: Programs, number: int, made: Made, found: list[Divergence]) -> Path:
    """Prints what differs, makes it short, and writes it to a file."""
    first, task = found[0], found[0].task
    least = shortened(programs, first, made)
    again = next((one for one in programs.divergences((task,), least, least) if one.by == first.by), first)
    path = plan.out / f"{plan.seed}-{number}.{'packet' if task == PACKET else 'log'}"
    path.write_bytes(least)
    lines = [f"seed {plan.seed}, log {number} ({made.kind}): {'; '.join(f'{one.task}, by {one.by}' for one in found)}"]
    lines.append(f"  shortened: {least.hex() if task == PACKET else words(least):.2000}")
    lines.append(f"  in {path}")
    lines += [f"  {task}, {who}: {answer_text(said)}" for who, said in ((first.by, again.wanted), ("the program", again.got))]
    print("\n".join(lines), flush=True)
    return path


def shortened(programs: Programs, first: Divergence, made: Made) -> bytes:
    def differs(data: bytes) -> bool:
        return any(one.by == first.by for one in programs.divergences((first.task,), data, data))

    return shortest_packet(made.packet, differs) if first.task == PACKET else shortest(made.log, differs)


def answer_text(answer: Answer) -> str:
    status, *texts = answer
    return " | ".join([f"status {status}", *(f"{'; '.join(text.splitlines()):.1500}" for text in texts if text)])


# ---- the run


def plain_program(folder: Path) -> Path | None:
    if shutil.which("rustc") is None:
        print("no rustc: the plain program is left out", flush=True)
        return None
    return build_baseline(folder)


def run(given: argparse.Namespace) -> Tally:
    """Tries all logs, by as many workers as there are jobs."""
    numbers = range(given.count) if given.only is None else range(given.only, given.only + 1)
    until = time.monotonic() + given.seconds if given.seconds is not None else float("inf")
    total, portions = Tally(), 0
    given.out.mkdir(parents=True, exist_ok=True)
    with tempfile.TemporaryDirectory(prefix="mqjudge-fuzz-") as name:
        plan = Plan(given.seed, numbers, until, given.program, plain_program(Path(name)), given.out)
        size = max(1, min(BATCH, len(numbers) // (4 * given.jobs)))
        batches = (numbers[begin : begin + size] for begin in range(0, len(numbers), size))
        begun = time.monotonic()
        with ProcessPoolExecutor(given.jobs, initializer=share, initargs=(Value("i", 0),)) as pool:
            for tally in pool.map(work, [replace(plan, numbers=batch) for batch in batches]):
                total.add(tally)
                if total.logs // PORTION > portions and total.logs < len(numbers):
                    portions = total.logs // PORTION
                    print(f"{total.logs} logs, {len(total.files)} divergences so far", file=sys.stderr, flush=True)
        total.seconds = time.monotonic() - begun
    return total


# ---- the self-test

# What is wrong in a program, as sed sees its answer, and how long the log that shows it may be, in bytes.
FLAWS = {
    "a fault that isn't reported": ("/ S01 /d", 120),
    "a further fault that isn't reported": ("/^fault .* F05 /d", 120),
    "a further fault at another place": (r"s/^fault \([0-9]*\) A02 /fault \11 A02 /", 120),
    "a place of a further statement too many": (r"s/^\(tested F06 .* places\) 0$/\1 1/", 40),
    "a further fault's event": (r"s/^\(because .* A02 event\) 2$/\1 1/", 120),
    "a foreign Subscription Identifier that isn't reported": ("/^fault .* P01 /d", 120),
    "a silence that isn't reported": ("/^fault .* K0[12] /d", 160),
    "a silence of another length": (r"s/^\(because .* K0[12] .* numbers \)/\11/", 120),
    "a place of a statement on times too many": (r"s/^\(tested K0[12] .* places\) 0$/\1 1/", 60),
    "a decided position in JSON": (r's/"decided":\([0-9]*\),/"decided":1\1,/', 40),
    "DUP as it is shown": ("s/dup 1/dup 0/", 40),
    "a place too many": (r"s/^\(tested .* places\) 1$/\1 2/", 40),
    "an event that a fault conflicts with": (r"s/^\(because .* event\) \([0-9]\)/\1 1\2/", 70),
    "an offset of a packet": ("s/^BAD W13 offset 2/BAD W13 offset 3/", 12),
    "a moment as it is shown": (r"s/ moment \([0-9]*\) / moment 1\1 /", 40),
    "a refusal's byte": (r"s/^refused 5 Kind at \(.*\)/refused 5 Kind at 1\1/", 40),
}
# The same of the plain program, by what Python makes of its answer.
FLAWS_OF_PLAIN = {
    "a RELEASE that the plain program shows otherwise": ("text = text.replace('RELEASE', 'REST')", 40),
    "a plain program that ends at a PINGREQ": ("text == 'PINGREQ size 2\\n' and sys.exit(7)", 3),
}
PLAIN = """\
#!/usr/bin/env python3
import sys
sys.path.insert(0, {folder!r})
sys.dont_write_bytecode = True
import showing
while head := sys.stdin.buffer.read(5):
    data = sys.stdin.buffer.read(int.from_bytes(head[1:], "big"))
    status, text = showing.packet(data) if head[:1] == b"p" else showing.show(data)
    {flaw}
    sys.stdout.buffer.write(bytes([status]) + len(text).to_bytes(4, "big") + text.encode())
    sys.stdout.buffer.flush()
"""


def wrong_program(program: Path, path: Path, flaw: str) -> Path:
    """A program that alters what this one says."""
    lines = [f"said=$({shlex.quote(str(program))} \"$@\")", "status=$?"]
    lines += [f"[ -z \"$said\" ] || printf '%s\\n' \"$said\" | sed {shlex.quote(flaw)}", "exit $status"]
    return script(path, "\n".join(["#!/bin/sh", *lines, ""]))


def script(path: Path, text: str) -> Path:
    path.write_text(text)
    path.chmod(0o755)
    return path


def is_found(what: str, program: Path, plain: Path | None, seed: int, most: int) -> bool:
    """Whether these programs' flaw is found, with a log of so many bytes at most that shows it."""
    with tempfile.TemporaryDirectory(prefix="mqjudge-fuzz-test-") as name, redirect_stdout(io.StringIO()) as said:
        share(Value("i", 0))
        tally = work(Plan(seed, range(2_000), float("inf"), program, plain, Path(name), most=1))
        size = tally.files[0].stat().st_size if tally.files else 0
        found = 0 < size <= most and str(tally.files[0]) in said.getvalue()
    print(f"{'found' if found else 'NOT FOUND'}: {what}, in {tally.logs} logs, shortened to {size} bytes", file=sys.stderr, flush=True)
    return found


def self_test(program: Path, seed: int) -> int:
    """Whether each flaw is found."""
    found = []
    with tempfile.TemporaryDirectory(prefix="mqjudge-fuzz-test-") as name:
        wrong = Path(name) / "wrong"
        for what, (flaw, most) in FLAWS.items():
            found.append(is_found(what, wrong_program(program, wrong, flaw), None, seed, most))
        for number, (what, (flaw, most)) in enumerate(FLAWS_OF_PLAIN.items()):
            plain = script(Path(name) / f"plain-{number}", PLAIN.format(folder=str(HERE), flaw=flaw))
            found.append(is_found(what, program, plain, seed, most))
    print(f"{len(found)} flaws, {found.count(False)} not found")
    return 0 if all(found) else 1


def main() -> int:
    arguments = argparse.ArgumentParser(description="Compares a built mqjudge with other readers of logs on many logs.")
    arguments.add_argument("--seed", type=int, default=1)
    arguments.add_argument("--count", type=int, default=20_000, help="how many logs (default 20000)")
    arguments.add_argument("--seconds", type=float, help="after which it ends")
    arguments.add_argument("--only", type=int, metavar="NUMBER", help="the log of this number alone")
    arguments.add_argument("--program", type=Path, default=BUILT)
    jobs = len(os.sched_getaffinity(0))
    arguments.add_argument("--jobs", type=int, default=jobs, help="how many logs at once (default: one a processor)")
    arguments.add_argument("--out", type=Path, default=FOUND, help=f"the folder of what is found (default {FOUND})")
    arguments.add_argument("--self-test", action="store_true", help="look whether flaws are found")
    given = arguments.parse_args()
    given.program = given.program.absolute()
    if not given.program.is_file():
        arguments.error(f"there is no program at {given.program}")
    if given.self_test:
        return self_test(given.program, given.seed)
    tally = run(given)
    verdicts = ", ".join(f"{count} {word}" for word, count in sorted(tally.verdicts.items()))
    print("logs with a place of further statements:", ", ".join(f"{code} {tally.tested[code]}" for code in JUDGED))
    speed = f"{tally.logs} logs in {tally.seconds:.0f} s, {tally.logs / tally.seconds * 60:.0f} a minute"
    print(f"seed {given.seed}: {speed} ({verdicts}), {len(tally.files)} divergences")
    return 1 if tally.files else 0


if __name__ == "__main__":
    sys.exit(main())
