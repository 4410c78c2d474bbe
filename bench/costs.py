"""What version 2 of the log costs `check` and `show`, what `--coverage` and `--why` cost `check`, what `convert` costs, and whether an
event takes more instructions than it may.
"""
import tempfile
from collections.abc import Iterator
from pathlib import Path

import kinds
from measuring import GNU_TIME, Bounds, Measure, counter, instructions, measure

MOST_OF_VERSION_2 = 1.05  # instructions an event over those in version 1
MOST_OF_CONVERT = 2.0  # its time over that of `show`
MOST_GROWTH = 1.1  # its memory on a log of four times the size over that on the shorter one
FACTOR = 4
SHOWN = "small"  # the kind of log that is converted: each packet in a record of its own
WITH_FAULTS = "why", "faults"  # the tasks that are measured on logs with faults, before the last of them
COLUMNS = "{:<24} {:<6} {:>12} {:>12} {:>6}  {}"


def words_for(mqjudge: Path, task: str, log: Path) -> list[str]:
    """The command that does a task with a log: `coverage` and `why` are a `check` with that, `faults` is a `show` with that."""
    match task:
        case "convert":
            return [str(mqjudge), task, "--force", str(log), str(log.with_suffix(".out"))]
        case "coverage":
            return [str(mqjudge), "check", "--coverage", str(log)]
        case "why":
            return [str(mqjudge), "check", "--why", str(log)]
        case "faults":
            return [str(mqjudge), "show", "--faults", str(log)]
    return [str(mqjudge), task, str(log)]


def cost(kind: str, version: int, mqjudge: Path, task: str, amount: int, folder: Path, bounds: Bounds) -> float | None:
    """How many instructions an event takes: those of a log less those of half of it. None where they aren't known."""
    counts, halves = [], (amount // 2, amount)
    for number in halves:
        log = folder / f"{kind}-{number}-{version}.log"
        if not log.exists():
            kinds.write(log, kind, number, version)
        counts.append(instructions(words_for(mqjudge, task, log), folder, bounds)[0])
    return an_event(kind, counts, halves)


def cost_with_faults(
    kind: str, mqjudge: Path, task: str, also_last: bool, amount: int, folder: Path, bounds: Bounds
) -> float | None:
    """The same of a log of version 1 that has two faults before the events that are counted, and maybe more after them."""
    counts, halves = [], (amount // 2, amount)
    for number in halves:
        log = folder / f"{kind}-{number}-{'last' if also_last else 'first'}-faulty.log"
        if not log.exists():
            kinds.write_faulty(log, kind, number, also_last)
        counts.append(instructions(words_for(mqjudge, task, log), folder, bounds, 0 if task in ("show", "faults") else 1)[0])
    return an_event(kind, counts, halves)


def an_event(kind: str, counts: list[int | None], amounts: tuple[int, int]) -> float | None:
    """How many instructions an event takes, by those of a log and of a longer one."""
    if None in counts:
        return None
    return (counts[1] - counts[0]) / (kinds.events(kind, amounts[1]) - kinds.events(kind, amounts[0]))


def most_allowed(table: Path) -> Iterator[tuple[str, str, int]]:
    """The kinds of logs, the commands and the bounds of a table. What is after a `#` isn't read."""
    for line in table.read_text().splitlines():
        if words := line.partition("#")[0].split():
            kind, task, most = words
            yield kind, task, int(most)


def print_bounded(mqjudge: Path, table: Path, messages: int, bounds: Bounds) -> bool:
    """Prints how many instructions an event takes beside how many it may take, and says whether it never takes more. Where they can't
    be counted it says so, and that nothing takes more."""
    if counter() is None or not Path(GNU_TIME).exists():
        print(f"{table.name} isn't compared: not installed: GNU time, or valgrind where perf can't count instructions")
        return True
    above = count = 0
    print(f"{'log':<24} {'task':<8} {'at most':>9} {'takes':>9}  instructions an event, by {counter()}", flush=True)
    with tempfile.TemporaryDirectory(prefix="mqjudge-bench-") as name:
        for kind, task, most in most_allowed(table):
            if task in WITH_FAULTS:
                takes = cost_with_faults(kind, mqjudge, task, True, messages, Path(name), bounds)
            else:
                takes = cost(kind, 1, mqjudge, task, messages, Path(name), bounds)
            is_above = takes is None or takes > most
            above, count = above + is_above, count + 1
            figure = "-" if takes is None else f"{takes:,.0f}"
            print(f"{kind:<24} {task:<8} {most:>9,} {figure:>9}  {'more than it may' if is_above else ''}".rstrip(), flush=True)
    print(f"{count} counted, {above} above the bounds")
    return above == 0


def can_count() -> bool:
    """Whether instructions can be counted. Where they can't, it says so."""
    if counter() is None:
        print("instructions can't be counted: perf can't, and there is no valgrind")
        return False
    return True


def print_versions(mqjudge: Path, chosen: list[str], messages: int, bounds: Bounds) -> bool:
    """Prints how many instructions an event takes in both versions, and says whether version 2 costs no more than it may."""
    if not can_count():
        return False
    above = 0
    print(COLUMNS.format("log", "task", "version 1", "version 2", "ratio", f"instructions an event, by {counter()}"), flush=True)
    with tempfile.TemporaryDirectory(prefix="mqjudge-bench-") as name:
        for kind in chosen:
            for task in ("check", "show"):
                amount = min(messages, 8) if kind == "large" else messages
                costs = [cost(kind, version, mqjudge, task, amount, Path(name), bounds) for version in (1, 2)]
                ratio = None if None in costs else costs[1] / max(costs[0], 1e-9)
                is_above = ratio is None or ratio > MOST_OF_VERSION_2
                above += is_above
                figures = ["-" if one is None else f"{one:,.0f}" for one in costs] + ["-" if ratio is None else f"{ratio:.3f}"]
                print(COLUMNS.format(kind, task, *figures, f"more than {MOST_OF_VERSION_2}" if is_above else "").rstrip(), flush=True)
    print(f"{above} above {MOST_OF_VERSION_2}")
    return above == 0


def print_coverage(mqjudge: Path, chosen: list[str], messages: int, bounds: Bounds) -> bool:
    """Prints how many instructions an event takes `check` and `check --coverage`, and says whether they could be counted."""
    if not can_count():
        return False
    unknown, columns = 0, "{:<24} {:>12} {:>12} {:>6}  {}"
    print(columns.format("log", "check", "--coverage", "ratio", f"instructions an event, by {counter()}"), flush=True)
    with tempfile.TemporaryDirectory(prefix="mqjudge-bench-") as name:
        for kind in chosen:
            amount = min(messages, 8) if kind == "large" else messages
            costs = [cost(kind, 1, mqjudge, task, amount, Path(name), bounds) for task in ("check", "coverage")]
            is_known = None not in costs
            unknown += not is_known
            figures = [*(f"{one:,.0f}" for one in costs), f"{costs[1] / max(costs[0], 1e-9):.2f}"] if is_known else ["-"] * 3
            print(columns.format(kind, *figures, "").rstrip(), flush=True)
    print(f"{unknown} couldn't be counted")
    return unknown == 0


def print_why(mqjudge: Path, chosen: list[str], messages: int, bounds: Bounds) -> bool:
    """Prints how many instructions an event of a log with faults takes `check` and `show`, without what the faults conflict with and with
    it, after the last fault and before it, and says whether they could be counted."""
    if not can_count():
        return False
    unknown, columns = 0, "{:<24} {:>9} {:>9} {:>9} {:>9} {:>9} {:>9}  {}"
    tasks = (("check", False), ("why", False), ("why", True), ("show", False), ("faults", False), ("faults", True))
    names = ("log", "check", "--why", "before", "show", "--faults", "before")
    print(columns.format(*names, f"instructions an event after the last fault, or before it, by {counter()}"), flush=True)
    with tempfile.TemporaryDirectory(prefix="mqjudge-bench-") as name:
        for kind in chosen:
            amount = min(messages, 8) if kind == "large" else messages
            costs = [cost_with_faults(kind, mqjudge, task, also_last, amount, Path(name), bounds) for task, also_last in tasks]
            unknown += None in costs
            figures = ["-" if one is None else f"{one:,.0f}" for one in costs]
            print(columns.format(kind, *figures, "").rstrip(), flush=True)
    print(f"{unknown} couldn't be counted")
    return unknown == 0


def quickest(command: list[str], rounds: int, folder: Path, bounds: Bounds) -> Measure:
    """The quickest of so many runs. One that was stopped or failed doesn't count, unless all did."""
    return min((measure(command, folder, bounds) for _ in range(rounds)), key=lambda one: (one.status != "status 0", one.processor))


def print_convert(mqjudge: Path, megabytes: float, rounds: int, bounds: Bounds) -> bool:
    """Prints what `convert` takes beside `show`, on a log of small records and on one of four times the size, and says whether that
    is no more than it may be."""
    columns, peaks, wrong = "{:>9} {:>10} {:>10} {:>6} {:>11} {:>11}  {}", [], 0
    print(columns.format("megabytes", "show", "convert", "ratio", "show peak", "peak", "processor time and most memory"), flush=True)
    for size in (megabytes, FACTOR * megabytes):
        with tempfile.TemporaryDirectory(prefix="mqjudge-bench-") as name:
            log, out = Path(name) / "in.log", Path(name) / "out.log"
            kinds.write(log, SHOWN, kinds.amount_for_bytes(SHOWN, int(size * 1_000_000)))
            shown = quickest([str(mqjudge), "show", str(log)], rounds, Path(name), bounds)
            made = quickest([str(mqjudge), "convert", "--force", str(log), str(out)], rounds, Path(name), bounds)
        trouble = "; ".join(f"{one.status} {one.report}" for one in (shown, made) if one.status != "status 0")
        ratio = made.processor / max(shown.processor, 1e-6)
        peaks.append(made.peak_kib)
        if not trouble and ratio > MOST_OF_CONVERT:
            trouble = f"more than {MOST_OF_CONVERT} times as long"
        if not trouble and made.peak_kib > MOST_GROWTH * peaks[0]:
            trouble = "its memory grows with the log"
        wrong += trouble != ""
        figures = [f"{size:g}", *(f"{one.processor:.2f} s" for one in (shown, made)), f"{ratio:.2f}"]
        figures += [f"{one.peak_kib / 1024:.1f} MiB" for one in (shown, made)]
        print(columns.format(*figures, trouble).rstrip(), flush=True)
    print(f"{wrong} above the bounds")
    return wrong == 0
