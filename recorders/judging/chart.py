"""Draws a story as a sequence chart in SVG: the tested end on the left, its peer on the right, and time downwards.

Horizontal places are in per cent between the two lifelines, and vertical ones in pixels: so a chart is as wide as there
is room, and its letters keep their size.
"""
from __future__ import annotations

from bisect import bisect
from collections.abc import Iterable
from dataclasses import dataclass, field
from html import escape

from judging.causes import places_named
from judging.events import Event
from judging.labels import difference, fate_of, label, label_shown, time_shown, title
from judging.markup import attribute, counted, number
from judging.parts import LONG_PART, PART, Band, Link, Row, drawn, in_parts, lifelines, shape
from judging.story import WHOLE, Connection, Fault, Scene, Story, runs_of

TOP = 34  # above the first row
ROW, CODES = 28, 14  # what a row takes, and codes under it
GAP = 30
LINE = 18  # of an arrow, from the top of its row
EARLY = 9  # pixels before the line of a gap where a band ends that ended in the gap
ROOM, LANE, LANES = 12, 7, 5  # lines from faults to other events are beside each other, this far from the chart
NAMED = 3  # faults of a line that its title names
FOOT = 6  # under the last row
LEAST_BAND = 4
DIGITS = 3  # of positions that have room beside a chart: for more the style has its classes
LEAST = 10  # events of a fold among others that aren't known
SEEN_OF_RUN = 3  # faults of a run that are drawn, beside the last one; those between are folded
PEERS = {"client": "server", "server": "client"}
FULL, LEAN, SHORT = 2, 1, 0  # how much is said of each event and fault
FIGURE_SPACE = "\u2007"  # as wide as a digit


@dataclass
class Drawing:
    """What is drawn of a log, and how much of it."""

    log: int  # its number in the page
    name: str  # the log's
    story: Story
    overlooked: dict[str, str] = field(default_factory=dict)  # codes that are ignored, and by which option
    context: int = 2  # events before and after a fault
    most: int = 1000  # events
    most_folded: int = 0  # events in folds that can be opened
    detail: int = FULL
    runs: list[list[Fault]] = field(init=False)
    scenes: list[Scene] = field(init=False)
    folded: dict[int, Scene] = field(init=False)  # by their positions

    def __post_init__(self) -> None:
        self.runs = runs_of(self.story.told, self.story)
        chosen = choose_scenes(self.story, self.runs, self.context, self.most)
        self.scenes = [chosen[place] for place in sorted(chosen)]
        spare = self.story.scenes.keys() - chosen.keys()
        places = places_of(fault for run in self.runs for fault in run) or [0]
        folded = in_folds(spare, sorted(chosen), places, self.most_folded)
        self.folded = {place: self.story.scenes[place] for place in folded}

    @property
    def drawn(self) -> set[int]:
        """The positions that a link may lead to."""
        return {scene.event.position for scene in self.scenes} | self.folded.keys()

    @property
    def is_timed(self) -> bool:
        """Whether moments say something: those of a log that was converted are all 0."""
        return any(scene.event.moment for scene in self.scenes)

    def place(self, position: int) -> str:
        """The name of an event in the page."""
        return f"e{self.log}-{position}"

    def card(self, fault: Fault) -> str:
        """The name of what is said of a fault."""
        return f"f{self.log}-{fault.position}-{fault.code}"


def choose_scenes(story: Story, runs: list[list[Fault]], context: int, most: int) -> dict[int, Scene]:
    """What is near to a fault, what is under its Packet Identifier, and how the connections of all that began.

    A short log is drawn whole. Where all that is too much, the events that are farthest from any fault are left out.
    """
    if story.events <= WHOLE and len(story.scenes) == story.events:
        return dict(story.scenes)
    seen = [fault for run in runs for fault in [*run[:SEEN_OF_RUN], *run[SEEN_OF_RUN:][-1:]]]
    places = places_of(seen)
    keys = keys_of(story, seen)
    near = {place + step for place in places for step in range(-context, context + 1)}
    chosen = {place: scene for place, scene in story.scenes.items()
              if not places or place in near or scene.key in keys or scene.event.position in places}
    if len(chosen) > most:
        chosen = {place: chosen[place] for place in nearest(chosen, places or [0], most)}
    setters = [story.setters[place].position for place in places if place in story.setters]
    causes = {place for fault in seen for place in causes_of(story, fault)}
    chosen |= {place: story.scenes[place] for place in sorted(causes.union(setters)) if place in story.scenes}
    for scene in [*chosen.values()]:
        for event in beginning(scene.connection):
            chosen.setdefault(event.position, Scene(event, scene.connection))
    fill(chosen, story, max(1, 2 * context))
    return chosen


def fill(chosen: dict[int, Scene], story: Story, most: int) -> None:
    """Takes in the events of gaps of at most so many, where they are known: a line for a gap takes room too."""
    spare = dict(story.scenes)
    for connection in {scene.connection for scene in chosen.values()} - {None}:
        if connection and connection.closing:
            spare.setdefault(connection.closing.position, Scene(connection.closing, connection))
    places = [0, *sorted(chosen), story.events + 1]
    for before, after in zip(places, places[1:]):
        gap = range(before + 1, after)
        if len(gap) <= most and all(place in spare for place in gap):
            chosen |= {place: spare[place] for place in gap}


def places_of(faults: Iterable[Fault]) -> list[int]:
    """Where faults are, and the events that show them."""
    return sorted({place for fault in faults for place in (fault.position, fault.decided)})


def causes_of(story: Story, fault: Fault) -> set[int]:
    """The events that a fault conflicts with."""
    reason = story.reason(fault)
    return places_named(fault.code, reason) if reason else set()


def keys_of(story: Story, faults: list[Fault]) -> set[str]:
    """Which events belong to those at fault, by their Packet Identifiers."""
    scenes = (story.scenes[fault.position] for fault in faults if fault.position in story.scenes)
    return {scene.key for scene in scenes if scene.key}


def nearest(chosen: Iterable[int], places: list[int], most: int) -> list[int]:
    """The positions that are nearest to one of these places."""
    distances = {}
    at = 0
    for place in sorted(chosen):
        while at + 1 < len(places) and abs(places[at + 1] - place) <= abs(places[at] - place):
            at += 1
        distances[place] = abs(places[at] - place)
    return sorted(distances, key=lambda place: distances[place])[:most]


def in_folds(spare: Iterable[int], chosen: list[int], places: list[int], most: int) -> list[int]:
    """At most so many positions of others, for folds: those between the first events that are drawn, then the next.

    Some of every gap would be of no use: a fold shows what it has.
    """
    gaps: dict[int, list[int]] = {}
    for place in sorted(spare):
        gaps.setdefault(bisect(chosen, place), []).append(place)
    found: list[int] = []
    for gap in gaps.values():
        found += nearest(gap, places, most - len(found))
    return found


def beginning(connection: Connection | None) -> list[Event]:
    """How a connection began."""
    found = (connection.opening, connection.connect, connection.connack) if connection else ()
    return [event for event in found if event is not None]


@dataclass
class Gap:
    """Events between two that are drawn: in a fold if they are known."""

    first: int
    last: int
    scenes: list[Scene] = field(default_factory=list)


def gaps_in(first: int, last: int, folded: dict[int, Scene]) -> list[Gap]:
    """The events from one to another, known ones and others apart."""
    known = sorted(place for place in folded if first <= place <= last)
    if len(known) < LEAST and len(known) <= last - first:
        return [Gap(first, last)]
    gaps: list[Gap] = []
    at = first
    for place in known:
        if place > at:
            gaps.append(Gap(at, place - 1))
        if gaps and gaps[-1].scenes and place == at:
            gaps[-1].last = place
            gaps[-1].scenes.append(folded[place])
        else:
            gaps.append(Gap(place, place, [folded[place]]))
        at = place + 1
    return gaps if at > last else [*gaps, Gap(at, last)]


class Chart:
    """A chart that is being drawn, from the top to the bottom."""

    def __init__(self, drawing: Drawing) -> None:
        self._drawing, self._story = drawing, drawing.story
        self._faults: dict[int, list[Fault]] = {}
        for fault in self._story.told:
            self._faults.setdefault(fault.position, []).append(fault)
        self._keys = keys_of(self._story, self._story.told)
        self._lines: dict[int, int] = {}  # of events: where they are drawn
        self._bands: list[Band] = []
        self._rows: list[Row] = []
        self._begun: tuple[Connection, int] | None = None  # the band that isn't at its end, and where it begins
        self._height = TOP
        self._is_timed = drawing.is_timed
        self._digits = len(str(self._story.events))
        self._before: Event | None = None  # the event above
        self._is_folded = False  # what is drawn is in a fold

    def draw(self) -> str:
        before: Scene | None = None
        for scene in self._drawing.scenes:
            self._skip(before, scene)
            self._put(scene)
            before = scene
        self._skip(before, None)
        if self._story.refusal:
            self._refuse()
        self._end_band(self._height)
        return self._whole()

    def _whole(self) -> str:
        story = self._story
        end = f"{story.end}, tested" if story.end else "tested end"
        peer = PEERS.get(story.end, "peer")
        heads = f"<text class=h y=14>{end}</text><text class='h p' x=100% y=14>{peer}</text>"
        about = (f"{attribute(self._drawing.name)}, {number(len(self._drawing.scenes))} of"
                 f" {counted(story.events, 'event')}, from top to bottom; on the left the {end}. The code of a fault is"
                 " a link to what is said of it.")
        kinds = ("timed" if self._is_timed else "", f"n{self._digits}" if self._digits > DIGITS else "")
        least = PART if self._drawing.detail == FULL or not story.told else LONG_PART
        parts = in_parts(self._rows, self._bands, self._links(), heads, self._height + FOOT, least)
        return f'<div class="{" ".join(["chart", *filter(None, kinds)])}" role=group aria-label="{about}">{parts}</div>'

    def _skip(self, before: Scene | None, scene: Scene | None) -> None:
        """Draws a line for the events between two; several where some of them are known, and others aren't."""
        first = before.event.position + 1 if before else 1
        last = scene.event.position - 1 if scene else self._story.events
        gaps = gaps_in(first, last, self._drawing.folded) if last >= first else []
        for gap, following in zip(gaps, [*gaps[1:], None]):
            self._put_gap(gap, before, following.scenes[0] if following and following.scenes else scene)
            before = gap.scenes[-1] if gap.scenes else before

    def _put_gap(self, gap: Gap, before: Scene | None, after: Scene | None) -> None:
        """Draws a line for some events, and under it what opens."""
        top, middle = self._height, self._height + GAP // 2
        self._height += GAP
        inside = self._begun[0] if self._begun else None
        closing = inside.closing.position if inside and inside.closing else 0
        if 0 < closing <= gap.last:
            self._end_band(middle - EARLY)
        numbers = (before.connection.number if before and before.connection else 0,
                   after.connection.number if after and after.connection else self._story.connections + 1)
        between = numbers[1] - numbers[0] - (0 if numbers[0] else 1)
        more = f" on {counted(between, 'connection')}" if between > 1 else ""
        count = counted(gap.last - gap.first + 1, "event")
        if not gap.scenes:
            words = f"><line x2=100% /><text>{count}{more} not shown</text></svg>"
            self._rows.append(Row(top, "<svg class=gap", middle, words))
            return
        height, rows = self._fold(gap.scenes, inside if gap.first <= closing <= gap.last else None)
        link = f"<a href=#{self._drawing.place(gap.first)}>Show {count}{more}</a>"
        words = f" data-h={height}><svg class=fold y={GAP // 2}>{rows}</svg><line x2=100% /><text>{link}</text></svg>"
        self._rows.append(Row(top, "<svg class=gap", middle, words))

    def _fold(self, scenes: list[Scene], ending: Connection | None) -> tuple[int, str]:
        """The rows of a fold, and how high they are: it has places of its own, and maybe the end of a band."""
        kept = self._height, self._bands, self._rows, self._lines, self._begun
        self._height, self._bands, self._rows, self._lines = 0, [], [], {}
        self._begun = (ending, -GAP // 2 - EARLY) if ending else None
        self._is_folded = True
        for scene in scenes:
            self._put(scene)
        self._end_band(self._height)
        height, bands = self._height, "".join(shape(band, -GAP, self._height) for band in self._bands)
        rows = f"{bands}{lifelines(-GAP // 2 - EARLY, height) if bands else ''}{drawn(self._rows, 0)}"
        self._height, self._bands, self._rows, self._lines, self._begun = kept
        self._is_folded = False
        return height, rows

    def _put(self, scene: Scene) -> None:
        """Draws an event in a row of its own."""
        event = scene.event
        faults = self._faults.get(event.position, [])
        top, line = self._height, self._height + LINE
        self._lines[event.position] = line
        if event.kind == "OPEN" and scene.connection:
            self._end_band(self._height)
            self._begun = scene.connection, self._height + 2
        self._height += ROW + (CODES if faults else 0)
        words = [self._margin(event), self._shape(scene)]
        if faults:
            words.append(self._codes(event, faults))
        if self._drawing.detail == FULL and not self._is_folded:
            words.insert(0, f"<title>{title(scene)}</title>")
        begin = f"<svg id={self._drawing.place(event.position)} class={self._kind(scene, faults)}"
        self._rows.append(Row(top, begin, line, f">{''.join(words)}</svg>"))
        if event.kind == "CLOSE":
            self._end_band(self._height - 2)
        self._before = event

    def _margin(self, event: Event) -> str:
        """What stands beside an event: its position, when it happened, and how long after the one above."""
        if not self._is_timed:
            return f"<text>{event.position}</text>"
        later = difference(self._before, event)
        position = f"{event.position:{FIGURE_SPACE}>{self._digits}}"
        words = f"<text><tspan class=t>{time_shown(event)}</tspan> {position}</text>"
        return words + (f"<text class=t>{later}</text>" if later else "")

    def _kind(self, scene: Scene, faults: list[Fault]) -> str:
        """The classes of an event: how it goes, whether it is at fault, and to which others it belongs."""
        event = scene.event
        words = [{"SENT": "s", "RECV": "r"}.get(event.kind, "m")]
        if faults:
            words.append("i" if all(fault.code in self._drawing.overlooked for fault in faults) else "x")
        if scene.key in self._keys:
            words.append(f"{scene.key}{'o' if event.is_own else 'p'}")
        return words[0] if len(words) == 1 else f'"{" ".join(words)}"'

    def _shape(self, scene: Scene) -> str:
        """The arrow or the mark of an event, with its label."""
        event = scene.event
        if event.kind == "OPEN" and scene.connection:
            connection = scene.connection
            return f"<text class=b>Connection {connection.number}: {escape(fate_of(connection))}</text>"
        if event.is_packet:
            return f"<line x{2 if event.kind == 'SENT' else 1}=100% /><text>{label_shown(event)}</text>"
        shapes = {"REST": "M-5 0L0-5L5 0L0 5z", "RELEASE": "M-7 0L4-6V6z", "CLOSE": "M-4-4L4 4M-4 4L4-4"}
        return f'<path d="{shapes.get(event.kind, "")}"/><text class=b>{label(event)}</text>'

    def _codes(self, event: Event, faults: list[Fault]) -> str:
        """The codes of the faults at an event, each a link to what is said of it."""
        links = []
        for fault in faults:
            is_ignored = fault.code in self._drawing.overlooked
            kind = " class=i" if is_ignored else ""
            words = f' aria-label="{fault.code}{", ignored," if is_ignored else ""} at event {fault.position}"'
            words = words if self._drawing.detail == FULL else ""
            links.append(f"<a href=#{self._drawing.card(fault)}{kind}{words}>{fault.code}</a>")
        place = "c" if event.is_packet else '"c b"'
        return f"<text class={place}>{' '.join(links)}</text>"

    def _links(self) -> list[Link]:
        """Lines from faults to the events that show them, and to those that they conflict with.

        Those to one cause are one line. Lines that overlap are beside each other.
        """
        lines: dict[tuple[bool, int, int], list[Fault]] = {}
        for fault in self._story.told:
            reason = self._story.reason(fault)
            cause = reason.because if reason else None
            others = [(False, fault.decided, fault.position)] if fault.decided > fault.position else []
            if cause is not None and cause not in (fault.position, fault.decided):
                others.append((True, cause, 0))
            for is_cause, other, own in others:
                if {fault.position, other} <= self._lines.keys():
                    lines.setdefault((is_cause, other, own), []).append(fault)
        found = [self._link(faults, other, is_cause) for (is_cause, other, _), faults in lines.items()]
        ends = [0] * LANES
        links = []
        for link in sorted(found, key=lambda link: (link.first, link.last)):
            lane = next((lane for lane in range(LANES) if ends[lane] < link.first), LANES - 1)
            ends[lane] = max(ends[lane], link.last)
            links.append(link._replace(x=ROOM + LANE * lane))
        return links

    def _link(self, faults: list[Fault], other: int, is_cause: bool) -> Link:
        """A line from faults to another event, without its place beside others."""
        named = ", ".join(f"{fault.code} at event {fault.position}" for fault in faults[:NAMED])
        named += f" and {number(len(faults) - NAMED)} more" if len(faults) > NAMED else ""
        words = f"{named}, because of event {other}" if is_cause else f"{named}, shown by event {other}"
        return Link(
            ends=sorted({self._lines[fault.position] for fault in faults}),
            target=self._lines[other],
            x=ROOM,
            is_ignored=all(fault.code in self._drawing.overlooked for fault in faults),
            is_cause=is_cause,
            place=self._drawing.place(other) if is_cause and self._drawing.detail > SHORT else "",
            title=words if self._drawing.detail == FULL else "",
        )

    def _end_band(self, end: int) -> None:
        """Ends the band of the connection that is drawn."""
        if self._begun is None:
            return
        connection, start = self._begun
        self._begun = None
        self._bands.append(Band(connection.fate, start, max(end, start + LEAST_BAND)))

    def _refuse(self) -> None:
        words = f"><line x2=100% /><text>{attribute(self._story.refusal)}</text></svg>"
        self._rows.append(Row(self._height, '<svg class="x stop"', self._height + LINE, words))
        self._height += ROW


def draw(drawing: Drawing) -> str:
    return Chart(drawing).draw()
