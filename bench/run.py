#!/usr/bin/env python3
"""Measures `mqjudge show` and `mqjudge check` beside a plain Rust program and sha256sum, over logs of several kinds.

The logs and the plain program are made in a temporary folder. Output goes to /dev/null, but for the report of `check`. MB/s
(1,000,000 bytes) and events/s are by processor time, user and system, so that a busy machine spoils them less; `ratio` is that
time over the plain program's; `peak` is the most memory that was resident, as GNU time reports it.

With --instructions it counts instead how many instructions an event takes, for each kind of log and each command: those of a log
of some messages less those of a log of half as many, so that what a program does once isn't among them. The figures don't depend
on what else the machine does. Of the kinds of session_logs.py, each event counts as a message.

With --growth it shows for each kind of log, also those of session_logs.py, whether `check` is linear in the events: what an event
costs in a log of some events, and in one of four times as many, and the ratio. The status is 1 if one doesn't pass, or isn't
linear.

With --versions it shows how many instructions an event takes `check` and `show` in version 2 of the log, beside version 1 of the
same events; the status is 1 if one takes more than 1.05 times as many. With --convert it shows what `convert` of a log of small
records takes beside `show` of it; the status is 1 if that is more than twice the time, or its memory grows with the log. With
--coverage it shows how many instructions an event takes `check --coverage`, beside `check`; with --why how many one of a log with
faults takes `check --why` and `show --faults`, beside `check` and `show`.

usage: bench/run.py [--mqjudge PATH] [--megabytes 200] [--rounds 1]
       bench/run.py --instructions [--mqjudge PATH] [--messages 4000] [--at-most TABLE]
       bench/run.py --growth [--mqjudge PATH] [--events 66000] [--by-time]
       bench/run.py --versions [--mqjudge PATH] [--messages 4000]
       bench/run.py --coverage [--mqjudge PATH] [--messages 4000]
       bench/run.py --why [--mqjudge PATH] [--messages 4000]
       bench/run.py --convert [--mqjudge PATH] [--megabytes 200] [--rounds 1]
"""
import argparse
import shutil
import signal
import subprocess
import sys
import tempfile
from pathlib import Path

sys.dont_write_bytecode = True  # the repository stays as it is
import kinds
import make_log
from costs import print_bounded, print_convert, print_coverage, print_versions, print_why, quickest
from growth import print_growth
from measuring import Bounds, Measure, counter, instructions

HERE = Path(__file__).resolve().parent
COLUMNS = "{:<24} {:<15} {:>9} {:>9} {:>8} {:>12} {:>7} {:>9}  {}"


def build_baseline(folder: Path) -> Path:
    program = folder / "baseline"
    source = HERE / "baseline.rs"
    subprocess.run(["rustc", "-O", "--edition", "2021", "-o", str(program), str(source)], check=True)
    return program


def make(kind: str, megabytes: float, folder: Path) -> tuple[Path, int]:
    """A log, and how many events it has."""
    path, amount = folder / f"{kind}.log", kinds.amount_for_bytes(kind, int(megabytes * 1_000_000))
    kinds.write(path, kind, amount)
    return path, kinds.events(kind, amount)


def count_instructions(kind: str, program: str, command: list[str], amount: int, folder: Path, bounds: Bounds) -> None:
    """Prints how many instructions an event of this kind of log takes."""
    counts, halves = [], (amount // 2, amount)
    for number in halves:
        log = folder / f"{kind}-{number}.log"
        if not log.exists():
            kinds.write(log, kind, number)
        counts.append(instructions([*command, str(log)], folder, bounds)[0])
    if None in counts:
        print(f"{kind:<24} {program:<15} {'-':>12}", flush=True)
        return
    events = kinds.events(kind, halves[1]) - kinds.events(kind, halves[0])
    print(f"{kind:<24} {program:<15} {(counts[1] - counts[0]) / events:>12,.0f}", flush=True)


def print_instructions(chosen: list[str], mqjudge: Path, messages: int, bounds: Bounds) -> None:
    """Prints how many instructions an event takes, of each kind of log and by each command."""
    if counter() is None:
        print("instructions can't be counted: perf can't, and there is no valgrind")
        return
    tasks = mqjudge_tasks(mqjudge)
    with tempfile.TemporaryDirectory(prefix="mqjudge-bench-") as name:
        folder = Path(name)
        baseline = str(build_baseline(folder))
        programs = {"baseline": [baseline], "baseline count": [baseline, "count"]} | {f"mqjudge {task}": [str(mqjudge), task] for task in tasks}
        print(f"{'log':<24} {'program':<15} {'instructions':>12}", flush=True)
        for kind in chosen:
            for program, command in programs.items():
                count_instructions(kind, program, command, min(messages, 8) if kind == "large" else messages, folder, bounds)


def mqjudge_tasks(mqjudge: Path) -> list[str]:
    """Which tasks to measure; says where there is no program."""
    if not shutil.which(mqjudge):
        print(f"no program at {mqjudge}: build it (see README.md), or name it with --mqjudge")
        return []
    return ["show", "check"]


def print_measure(kind: str, name: str, size: int, events: int, found: Measure, baseline: float) -> None:
    if found.status != "status 0":
        print(COLUMNS.format(kind, name, *["-"] * 6, f"{found.status} {found.report}"), flush=True)
        return
    processor = max(found.processor, 1e-6)
    print(
        COLUMNS.format(
            kind,
            name,
            f"{found.wall:.2f} s",
            f"{processor:.2f} s",
            f"{size / processor / 1e6:.0f}",
            "-" if name == "sha256sum" else f"{events / processor:,.0f}",
            f"{processor / baseline:.2f}",
            f"{found.peak_kib / 1024:.1f} MiB",
            found.report,
        ),
        flush=True,
    )


def print_speed(chosen: list[str], mqjudge: Path, megabytes: float, rounds: int, bounds: Bounds) -> None:
    """Prints what each program takes for each kind of log."""
    tasks = mqjudge_tasks(mqjudge)
    with tempfile.TemporaryDirectory(prefix="mqjudge-bench-") as name:
        folder = Path(name)
        baseline = build_baseline(folder)
        print(COLUMNS.format("log", "program", "wall", "processor", "MB/s", "events/s", "ratio", "peak", ""), flush=True)
        for kind in chosen:
            log, events = make(kind, megabytes, folder)
            size = log.stat().st_size
            commands = {"baseline": [str(baseline), str(log)], "baseline count": [str(baseline), "count", str(log)]}
            for task in tasks:
                commands[f"mqjudge {task}"] = [str(mqjudge), task, str(log)]
            commands["sha256sum"] = ["sha256sum", str(log)]
            yardsticks = {}
            for program, command in commands.items():
                found = quickest(command, rounds, folder, bounds)
                # (`check` prints no line for each event, and nor does `baseline count`)
                yardstick = "baseline count" if program.endswith(("count", "check")) else "baseline"
                yardsticks.setdefault(program, max(found.processor, 1e-6))
                print_measure(kind, program, size, events, found, yardsticks[yardstick])
            log.unlink()


def parse() -> argparse.Namespace:
    words = argparse.ArgumentParser(description="Measures mqjudge beside a plain program and sha256sum.")
    words.add_argument("--mqjudge", type=Path, default=HERE.parent / "crates/mq_cli/out/mq_cli")
    words.add_argument("--megabytes", type=float, default=200, help="of each log (default 200)")
    words.add_argument("--kinds", nargs="+", choices=kinds.KINDS, metavar="KIND", help=", ".join(kinds.KINDS))
    words.add_argument("--rounds", type=int, default=1, help="the quickest of this many runs counts")
    words.add_argument("--seconds", type=int, default=600, help="after which a program is stopped")
    words.add_argument("--gigabytes", type=int, default=8, help="of memory that a program may have")
    words.add_argument("--instructions", action="store_true", help="count instructions an event instead")
    words.add_argument("--at-most", type=Path, metavar="TABLE", help="with --instructions, compare them with the bounds of this table")
    words.add_argument("--messages", type=int, default=4_000, help="of each log whose instructions are counted (default 4000)")
    words.add_argument("--growth", action="store_true", help="show instead whether `check` is linear in the events")
    words.add_argument("--events", type=int, default=66_000, help="with --growth, of the shorter log of each kind (default 66000)")
    words.add_argument("--by-time", action="store_true", help="with --growth, measure processor time, and count no instructions")
    words.add_argument("--versions", action="store_true", help="show instead what version 2 of the log costs")
    words.add_argument("--coverage", action="store_true", help="show instead what `--coverage` costs `check`")
    words.add_argument("--why", action="store_true", help="show instead what `--why` costs `check`, and `--faults` costs `show`")
    words.add_argument("--convert", action="store_true", help="show instead what `convert` costs")
    return words.parse_args()


def main() -> int:
    given = parse()
    signal.signal(signal.SIGTERM, lambda *_: sys.exit(143))
    mqjudge, bounds = given.mqjudge.absolute(), Bounds(given.seconds, given.gigabytes)
    if given.growth:
        # (One of its messages is as long as many logs, and all of them take no more than their copies.)
        chosen = given.kinds or [kind for kind in kinds.KINDS if kind != "large"]
        return 0 if mqjudge_tasks(mqjudge) and print_growth(mqjudge, chosen, given.events, bounds, given.by_time) else 1
    if given.instructions and given.at_most:
        return 0 if mqjudge_tasks(mqjudge) and print_bounded(mqjudge, given.at_most, given.messages, bounds) else 1
    chosen = given.kinds or list(make_log.KINDS)
    if given.versions:
        return 0 if mqjudge_tasks(mqjudge) and print_versions(mqjudge, chosen, given.messages, bounds) else 1
    if given.coverage:
        return 0 if mqjudge_tasks(mqjudge) and print_coverage(mqjudge, chosen, given.messages, bounds) else 1
    if given.why:
        return 0 if mqjudge_tasks(mqjudge) and print_why(mqjudge, chosen, given.messages, bounds) else 1
    if given.convert:
        return 0 if mqjudge_tasks(mqjudge) and print_convert(mqjudge, given.megabytes, given.rounds, bounds) else 1
    if given.instructions:
        print_instructions(chosen, mqjudge, given.messages, bounds)
    else:
        print_speed(chosen, mqjudge, given.megabytes, given.rounds, bounds)
    return 0


if __name__ == "__main__":
    sys.exit(main())
