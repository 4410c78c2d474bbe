"""What faults conflict with, as `mqjudge check --why` says it, and the words for that.

Each fault has its evidence: an event, or none, and at most two numbers. What these are depends on the statement, and on
whether there is an event. WORDS is the one place for it, in the page and in all other reports.
"""
from __future__ import annotations

import re
from collections.abc import Callable, Iterable
from typing import NamedTuple

Key = tuple[int, str]  # of a fault: its position, and its code
LINE = re.compile(r"because (\d+) (\S+) event (\d+|-)(?: numbers((?: \d+)+))?")
NONE = "-"  # in place of an event
OVER = "the exchange was over with it"
UNASKED, NEVER_ASKED = "nothing asked for it after that", "never asked for in this session"
WORDS = (  # of statements: what the event is, with its numbers; and what is said where there is none
    ("C02", "", "no CONNECT was sent before"),
    ("C03", "the first CONNECT", ""),
    ("C04", "", "no CONNECT was received before"),
    ("C05", "", "no CONNACK was sent before"),
    ("C06", "the first CONNACK", ""),
    ("C07", "the CONNECT, with Clean Start 1", ""),
    ("C08", "the last CONNACK that accepted, whose session has ended", "no session was begun"),
    ("C10", "the CONNECT, with an empty Client Identifier", ""),
    ("C11", "the DISCONNECT", ""),
    ("C12", "the CONNACK that refuses", ""),
    ("C13", "the CONNACK, with Session Present 1", ""),
    ("C14", "{0} bytes, at most {1} allowed", ""),
    ("C15", "Topic Alias {0}, at most {1} allowed", "Topic Alias {0}, at most {1} allowed by default"),
    ("C16", "", "Topic Alias {0} wasn't set on this connection"),
    ("C17", "QoS {0}, at most {1} allowed", ""),
    ("C20", "the CONNECT, with Session Expiry Interval 0 or none, and here {0} seconds", ""),
    ("C21", "the CONNECT, with Request Problem Information 0", ""),
    ("C22", "the CONNECT, without Request Response Information 1", ""),
    ("C23", "it had to close after that", ""),
    ("S01", "it holds the identifier", ""),
    ("S02", OVER, "never sent in this session"),
    ("S03", "the PUBLISH before, on this connection", ""),
    ("S04", "the PUBREL", ""),
    ("S05", "first sent as event {0}, and this one as event {1} before it", ""),
    ("S06", "the CONNACK that resumed the session", ""),
    ("S07", "{0} in flight, at most {1} allowed", "{0} in flight, at most {1} allowed by default"),
    ("E1A E2A E3A E4A E5A E6A", UNASKED, NEVER_ASKED),
    ("E1R E2R E3R E4R E5R E6R", "the REST, with no answer before it", ""),
    ("E1O E2O E3O", "it came first, and waits for its answer", ""),
    ("E7R", "{0} asked, {1} answered", ""),
    ("L1", OVER, "never received in this session"),
    ("L2", "the RELEASE before", ""),
    ("L3", "the PUBLISH that brought it, and wasn't released", ""),
    ("B01", "", "{0} filters stand, and none matches"),
    ("B02", "QoS {0}, at most {1} granted", ""),
    ("B03 B04", "{0} filters, {1} Reason Codes", ""),
    ("B05", "the SUBSCRIBE, which asks for less", ""),
    ("B06", "the UNSUBSCRIBE, for a filter that was subscribed", ""),
    ("B07", "the UNSUBSCRIBE, for a filter that was never subscribed", ""),
    ("B09 P01 P02 R01 R02", "the SUBSCRIBE that matches", ""),
    ("F01", "the CONNACK, with Retain Available 0", ""),
    ("F02", "the CONNACK, with Wildcard Subscription Available 0", ""),
    ("F03", "the CONNACK, with Subscription Identifier Available 0", ""),
    ("F04", "the CONNACK, with Shared Subscription Available 0", ""),
    ("F05", "the CONNECT, with a Will QoS above the announced maximum", ""),
    ("F06", "the CONNECT, with Will Retain 1", ""),
    ("C24", "the REST, with no CONNACK before it", ""),
    ("D01", "the REST, and the connection was still open", ""),
    ("D02", "the REST, and the connection was still open", ""),
    ("D03", "the REST, and the connection was still open", ""),
    ("D05", "the REST, and the connection was still open", ""),
    ("A01", "the CONNECT, with an Authentication Method, and no CONNACK before", ""),
    ("A02", "the CONNECT, without an Authentication Method", ""),
    ("A03", "the CONNECT, whose Authentication Method it must have", ""),
    ("K01 K02", "nothing came from the client for {0} microseconds, and the limit is {1}", ""),
)
CASES = {code: (event, none) for codes, event, none in WORDS for code in codes.split()}
OF_EVENTS = {"S05"}  # the numbers are positions


class Evidence(NamedTuple):
    """What a fault conflicts with."""

    because: int | None  # the position of an event; None where none is to blame
    numbers: tuple[int, ...] = ()


def read_because(line: str) -> tuple[Key, Evidence] | None:
    """The fault that a line is about, and its evidence; None for another line."""
    found = LINE.fullmatch(line)
    if not found:
        return None
    because = None if found[3] == NONE else int(found[3])
    return (int(found[1]), found[2]), Evidence(because, tuple(map(int, (found[4] or "").split())))


def words(code: str, evidence: Evidence, shown: Callable[[int], str] = str) -> str:
    """What the event is that a fault conflicts with, or why there is none, with the numbers.

    It is empty where the statement says all: of a packet that is at fault by its bytes, its type or its fields alone.
    """
    event, none = CASES.get(code, ("", ""))
    try:
        return (none if evidence.because is None else event).format(*map(shown, evidence.numbers))
    except IndexError:  # the program gave fewer numbers
        return ""


def said(code: str, evidence: Evidence | None) -> str:
    """All of it in plain text: `because of event 3: 11 in flight, at most 10 allowed`; or nothing."""
    if evidence is None:
        return ""
    what = words(code, evidence)
    if evidence.because is None:
        return what
    return f"because of event {evidence.because}{': ' if what else ''}{what}"


def places_named(code: str, evidence: Evidence) -> set[int]:
    """The positions of all events that evidence names."""
    because = {evidence.because} if evidence.because is not None else set()
    return because | set(evidence.numbers if code in OF_EVENTS else ())


class Causes:
    """Finds the events that faults conflict with, in the lines of `show --long`."""

    def __init__(self, wanted: Iterable[int]) -> None:
        """Wanted are their positions."""
        self.lines: dict[int, str] = {}  # by the positions
        self._left = set(wanted)

    @property
    def is_done(self) -> bool:
        return not self._left

    def take(self, line: str) -> None:
        number = line.partition(" ")[0]
        position = int(number) if number.isdecimal() else 0
        if position in self._left:
            self._left.discard(position)
            self.lines[position] = line
