"""What happened around a fault, as it is printed: a line for each event, with its time and its packet's fields."""
from __future__ import annotations

import re
from collections.abc import Collection

from log_format import time_of

AROUND = 2  # events before and after a fault that are shown
GAP = ".."  # stands for events that aren't
TIME = r" \(at [-\d]+ [\d:.]+ UTC\)"
PLACE = r" \((?:decided at event|offset) \d+\)"
FAULT_LINE = re.compile(rf"\s+fault (\S+) \S+ (.*?)((?:(?!{TIME}|{PLACE}) \([^()]*\))?)((?:{PLACE})*)(?:{TIME})?")
EVENT = re.compile(r"(\d+ record \d+) moment (\d+) (.*)", re.DOTALL)
QUOTED = re.compile(r'"(?:[^"\\]|\\x..|\\.)*"', re.DOTALL)
BEGINNING = re.compile(r'"(?:[^"\\]|\\x..|\\.){0,60}', re.DOTALL)
LONGEST_TEXT, LONGEST_LINE = 80, 320  # characters: a log may hold any amount; 64 bytes of a packet have room


def sentence_in(line: str) -> tuple[str, str] | None:
    """The code and the sentence of a fault's line; None for another line."""
    fault = FAULT_LINE.fullmatch(line)
    return (fault[1], fault[2]) if fault else None


def told(line: str, said: Collection[str], is_explained: bool = False) -> str:
    """A line of `show --long --faults` as it is printed, where the sentences of some codes stand already.

    So may what its fault conflicts with.
    """
    fault = FAULT_LINE.fullmatch(line)
    if fault:
        cause = "" if is_explained else fault[3]
        return shortened(f"  fault {fault[1]}{cause}{fault[4]}" if fault[1] in said else line)
    event = EVENT.fullmatch(line)
    time = time_of(int(event[2])) if event else None
    return shortened(f"{event[1]} {time:%H:%M:%S.%f} {event[3]}" if event and time else line)


def with_causes(excerpt: list[str], position: int, causes: dict[int, str]) -> list[str]:
    """What happened around a position, and farther away the lines of the events that it conflicts with."""
    first, last = position - AROUND, position + AROUND
    before = {place: causes[place] for place in sorted(causes) if place < first}
    after = {place: causes[place] for place in sorted(causes) if place > last}
    lines: list[str] = []
    for place, following in zip(before, [*before, first][1:]):
        lines += [before[place], *([GAP] if following > place + 1 else [])]
    lines += excerpt
    for place, preceding in zip(after, [last, *after]):
        lines += [*([GAP] if place > preceding + 1 else []), after[place]]
    return lines


def shortened(line: str) -> str:
    """A line without the ends of long texts, and without its own end if it is still long."""
    line = QUOTED.sub(lambda text: text[0] if len(text[0]) <= LONGEST_TEXT else f'{beginning_of(text[0])}.."', line)
    return line if len(line) <= LONGEST_LINE else f"{line[:LONGEST_LINE]} .."


def beginning_of(text: str) -> str:
    found = BEGINNING.match(text)
    return found[0] if found else '"'
