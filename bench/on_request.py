"""What the program is to print of a log if it is asked for the further statements too (`--all`, or with those on times `--times`): the
report on the 74 statements, with the faults and the places of those further ones that it judges then.

It is a part of the second opinion that reference.py, occasions.py and further.py give, and no part of the program. A report is taken
as text, by whomever it was given: so that of the program itself can be compared with what it says if it is asked for more. For how
much it is asked is said by the option, `asked`.
"""
import further
import occasions
import reference
from further_table import ALL, ASKED, CITATIONS, JUDGED, TIMES
from reading import Recording
from sessions import Log

COVERED = "covered "  # what the line begins with that ends the list of what was tested


def position(line: str) -> int:
    """Of a line on a fault."""
    return int(line.split()[1])


def merged(report: str, more: list[str]) -> str:
    """A text report on a log that isn't refused, with more faults in it: at one position they come last."""
    *faults, last = report.splitlines()
    events = last.split()[-2]
    both = sorted([*faults, *more], key=position)
    verdict = f"fail {len(both)} faults {events} events" if both else last
    return "".join(f"{line}\n" for line in [*both, verdict])


def further_faults(log: Log, asked: str) -> list[further.Fault]:
    return further.faults(log, asked == TIMES, ASKED[asked])


def with_further(report: str, recording: Recording, asked: str = ALL) -> str:
    """The report of `check` by this option, given that by none."""
    if recording.refusal is not None:
        return report
    log = further.log_of(recording)
    return merged(report, [further.fault_line(log, fault) for fault in further_faults(log, asked)])


def reported(recording: Recording, asked: str = ALL) -> str:
    """What `check` is to print of a log by this option."""
    return with_further(reference.reported(recording), recording, asked)


def faults(log: Log, asked: str = ALL) -> list[tuple[int, str]]:
    """The positions and the statements of all faults, in the order of reports."""
    more = [(k, code) for k, code, _ in further_faults(log, asked)]
    return sorted([*reference.faults(log), *more], key=lambda fault: fault[0])


def decided(log: Log, k: int, code: str) -> int:
    """Where a fault is decided."""
    at = further.decided(log, k, code) if code in JUDGED else reference.decided(log, k, code)
    assert at is not None
    return at


def places(log: Log, code: str) -> list[int]:
    """The positions at which a statement is put to the test."""
    return (further if code in JUDGED else occasions).places(log, code)


def tested_lines(log: Log, asked: str) -> list[str]:
    """A line for each further statement on the end that the program judges then, with how many places it has."""
    bound = [code for code in ASKED[asked] if log.role in CITATIONS[code]]
    return [f"tested {code} {CITATIONS[code][log.role]} places {len(places(log, code))}" for code in bound]


def tested(recording: Recording, asked: str = ALL) -> list[str]:
    """What was tested and what wasn't judged, as `check --coverage` is to say it by this option; nothing if the log is refused."""
    lines = occasions.lines(recording)
    if not lines:
        return lines
    at = next(n for n, line in enumerate(lines) if line.startswith(COVERED))
    rows = [*lines[:at], *tested_lines(further.log_of(recording), asked)]
    return [*rows, occasions.sum_of(rows), *lines[at + 1 :]]


def covering(recording: Recording, asked: str = ALL) -> str:
    """What `check --coverage` is to print of a log by this option."""
    return occasions.covering(reported(recording, asked), tested(recording, asked))
