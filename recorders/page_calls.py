"""What the tests of the page share: logs, and pages of them."""
from __future__ import annotations

from pathlib import Path

import log_format
from made_logs import CONNACK, WithLogs, record, run
from testing import TOP

EXAMPLES = TOP / "examples/sessions"
RECORDED = sorted(EXAMPLES.glob("*.log"))  # without those of the survey, in a folder below
ACCEPTED = record(3, CONNACK)
OVERRIDE = "\u202e"  # turns the direction of what comes after it
KEPT: list[Path] = []  # where pages and pictures stay, if that is wanted


def timed(made: bytes) -> bytes:
    """A log in version 2, in which a record comes each millisecond."""
    version = log_format.VERSIONS[2]
    records = enumerate(log_format.records(made))
    parts = [version.record(one.kind, one.body, 1_795_694_645_000_001 + 1_000 * place) for place, one in records]
    return version.header(made[5] == 1, bool(made[6])) + b"".join(parts)


class Case(WithLogs):
    def page(self, *words: object, name: str = "page", program: object = None) -> str:
        """Writes a page, which stays where that is wanted."""
        self.place = (KEPT[0] if KEPT else self.folder) / f"{name}.html"
        run(*(words or [self.logs]), "--html", self.place, program=program)
        return self.place.read_text()
