"""Colours for a terminal."""
from __future__ import annotations

import os
import re
from typing import TextIO

from judging.verdict import FAILED, FAULTS, PASSED, REFUSED, TOO_SHORT

RED, GREEN, YELLOW, BOLD, NONE = "31", "32", "33", "1", "0"
OF_STATUS = {PASSED: GREEN, FAULTS: RED, REFUSED: YELLOW, FAILED: RED, TOO_SHORT: YELLOW}
HEADING = re.compile(r"(\w+)( \S+ \d+ faults?(?::.*)?)")
FAULT = re.compile(r"\s*fault \w+")


class Paint:
    """Writes words in colours, or as they are."""

    def __init__(self, output: TextIO) -> None:
        """There are colours on a terminal that has some, unless NO_COLOR is set to anything (no-color.org)."""
        is_wanted = not os.environ.get("NO_COLOR") and os.environ.get("TERM") not in (None, "", "dumb")
        self.is_on = is_wanted and output.isatty()

    def painted(self, text: str, colour: str) -> str:
        return f"\x1b[{colour}m{text}\x1b[{NONE}m" if self.is_on and text else text

    def status(self, text: str, status: int) -> str:
        return self.painted(text, OF_STATUS[status])

    def line(self, text: str) -> str:
        """A line on a verdict: the codes stand out, and so do the events at fault."""
        if not self.is_on:
            return text
        if heading := HEADING.fullmatch(text):
            return self.painted(heading[1], BOLD) + heading[2]
        fault = FAULT.match(text)
        return self.painted(fault[0], RED) + text[fault.end() :] if fault else text
