#!/usr/bin/env python3
"""A second opinion on `--statements LIST`: which statements a list chooses, and what is left of a report on all of them.

usage: bench/choosing.py --self-test
"""
import random
import sys

sys.dont_write_bytecode = True  # the repository stays as it is
from further_table import JUDGED, TIMED, UNTIMED


class NoChoiceError(ValueError):
    """The list has a word that names nothing, or leaves no statement."""


def chosen(list_: str, codes: list[str]) -> set[str]:
    """The codes that a list chooses of these, of which the further ones are those of further_table.py."""
    taken: set[str] = set()
    for at, word in enumerate(list_.split(",")):
        adds, name = not word.startswith("-"), word.removeprefix("-")
        if at == 0 and not adds:
            taken = set(codes) - set(JUDGED)
        if name == "times":
            named = set(codes)
        elif name == "all":
            named = set(codes) - set(TIMED)
        elif name == "default":
            named = set(codes) - set(JUDGED)
        else:
            named = {code for code in codes if name in (code, code[0])}
        if not named:
            raise NoChoiceError(name)
        taken = taken | named if adds else taken - named
    if not taken:
        raise NoChoiceError
    return taken


def lists(draw: random.Random, codes: list[str], count: int) -> list[str]:
    """So many lists that choose something, of up to five words."""
    names = ["default", "all", "times", *codes, *sorted({code[0] for code in codes}) * 4]
    found: list[str] = []
    while len(found) < count:
        one = ",".join(draw.choice(("", "-")) + draw.choice(names) for _ in range(draw.randrange(1, 6)))
        try:
            chosen(one, codes)
        except NoChoiceError:
            continue
        found.append(one)
    return found


def left(text: str, taken: set[str]) -> str:
    """What is left of a text report on all statements: the lines on those that are chosen, and new sums."""
    lines: list[str] = []
    for line in text.splitlines():
        first, *words = line.split()
        if first in ("fault", "because", "tested"):
            code = words[0] if first == "tested" else words[1]
            lines += [line] if code in taken else []
        elif first == "covered":
            rows = [row.split() for row in lines if row.startswith("tested ")]
            lines.append(f"covered {sum(row[-1] != '0' for row in rows)} of {len(rows)} statements")
        elif first in ("pass", "fail"):
            faults = sum(row.startswith("fault ") for row in lines)
            lines.append(f"fail {faults} faults {words[-2]} events" if faults else f"pass {words[-2]} events")
        else:
            lines.append(line)
    return "".join(f"{line}\n" for line in lines)


def self_test() -> list[str]:
    """What is wrong, by cases that are written down here."""
    codes = ["W13", "C01", "E1A", "L1", *JUDGED]
    cases = {
        "W13": {"W13"},
        "E": {"E1A"},
        "default,-W": {"C01", "E1A", "L1"},
        "-W13": {"C01", "E1A", "L1"},
        "all,-default": set(UNTIMED),
        "times,-default": set(JUDGED),
        "times,-all": {"K01", "K02"},
        "K": {"K01", "K02"},
        "K02,all,-K01": {*codes} - {"K01"},
        "W,-all,L": {"L1"},
        "-W,W13": {"W13", "C01", "E1A", "L1"},
        "F01,F01": {"F01"},
    }
    wrong = [f"{list_}: {chosen(list_, codes)}" for list_, wanted in cases.items() if chosen(list_, codes) != wanted]
    for list_ in ("", "W1", "w13", "-all", "W13,", "W,-W", "W 13", "--W", "Default", "K,-times", "time", "K1"):
        try:
            wrong.append(f"{list_}: {chosen(list_, codes)}")
        except NoChoiceError:
            continue
    report = "fault 3 W13 a decided 3 record 3 offset 1\nbecause 3 W13 event -\nfault 3 C01 b decided 4 record 3 offset -\n"
    report += "because 3 C01 event 2\ntested W13 a places 2\ntested L1 c places 0\ncovered 1 of 2 statements\nfail 2 faults 5 events\n"
    kept = "fault 3 C01 b decided 4 record 3 offset -\nbecause 3 C01 event 2\ntested L1 c places 0\ncovered 0 of 1 statements\nfail 1 faults 5 events\n"
    if left(report, {"C01", "L1"}) != kept:
        wrong.append(left(report, {"C01", "L1"}))
    return wrong


def main() -> int:
    wrong = self_test()
    for line in wrong:
        print(line)
    print(f"{len(wrong)} wrong")
    return 1 if wrong else 0


if __name__ == "__main__":
    sys.exit(main())
