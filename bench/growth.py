"""Whether `mqjudge check` takes time that is linear in the events: what an event costs in a log, and in one of four times as many.

The cost is in instructions if they can be counted, and else in nanoseconds of processor time. Where the ratio of the two costs is
about 1, the time is linear in the events; where it is about 4, it grows with their square.
"""
import tempfile
from dataclasses import dataclass
from pathlib import Path

import kinds
from measuring import Bounds, counter, instructions, measure

FACTOR = 4
# Lists and hash tables grow at times, and more memory is slower: an event of a longer log may cost somewhat more.
MOST = 2.0
COLUMNS = "{:<26} {:>9} {:>14} {:>14} {:>6}  {}"


@dataclass
class Cost:
    """What an event cost, or why it isn't known."""

    of_event: float = 0.0
    trouble: str = ""


def cost(program: Path, kind: str, events: int, folder: Path, bounds: Bounds, is_counted: bool) -> Cost:
    """What an event costs in a log of about so many, which the program has to pass."""
    amount = kinds.amount_for_events(kind, events)
    events = kinds.events(kind, amount)
    log = folder / "growth.log"
    kinds.write(log, kind, amount)
    command = [str(program), "check", str(log)]
    if is_counted:
        number, ran = instructions(command, folder, bounds)
    else:
        ran = measure(command, folder, bounds)
        number = ran.processor * 1e9
    log.unlink()
    if ran.status != "status 0" or ran.report != f"pass {events} events":
        return Cost(trouble=f"{events} events: {ran.status} {ran.report}".strip())
    return Cost(number / events) if number is not None else Cost(trouble="not counted")


def is_linear(program: Path, kind: str, events: int, folder: Path, bounds: Bounds, is_counted: bool) -> bool:
    """Prints a row on this kind of log, and says whether `check` passes it in linear time."""
    costs = []
    for size in (events, FACTOR * events):
        costs.append(cost(program, kind, size, folder, bounds, is_counted))
        if costs[-1].trouble:
            break
    ratio = costs[-1].of_event / max(costs[0].of_event, 1e-9)
    figures = ["-" if one.trouble else f"{one.of_event:,.0f}" for one in costs] + ["-"] * (2 - len(costs))
    trouble = costs[-1].trouble or ("not linear" if ratio > MOST else "")
    print(COLUMNS.format(kind, events, *figures, "-" if costs[-1].trouble else f"{ratio:.2f}", trouble).rstrip(), flush=True)
    return not trouble


def print_growth(program: Path, chosen: list[str], events: int, bounds: Bounds, by_time: bool) -> bool:
    """Prints a row for each kind of log, and says whether `check` is linear on all."""
    is_counted = not by_time and counter() is not None
    unit = f"instructions an event, by {counter()}" if is_counted else "nanoseconds an event"
    print(COLUMNS.format("log", "n events", "at n", f"at {FACTOR} n", "ratio", unit), flush=True)
    with tempfile.TemporaryDirectory(prefix="mqjudge-bench-") as name:
        rows = [is_linear(program, kind, events, Path(name), bounds, is_counted) for kind in chosen]
    print(f"{sum(rows)} linear, {len(rows) - sum(rows)} not")
    return all(rows)
