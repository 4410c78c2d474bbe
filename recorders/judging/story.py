"""What happened in a log, as far as a picture of its faults needs it: events near to faults and what belongs to them.

A story is told from the lines of `mqjudge show --long` in one reading, and keeps of a long log no more than it may.
"""
from __future__ import annotations

import re
from collections import Counter, deque
from collections.abc import Iterable
from dataclasses import dataclass, field, replace
from functools import cached_property
from typing import NamedTuple

from judging.causes import Evidence, Key, places_named
from judging.events import LONG_TEXT, Event, identifier_in, read_event, shortened
from log_format import HEADER_SIZE

NEAR = 6  # events before and after one that is told of that are kept
WHOLE = 40  # events of a log that are all kept, and of a longer pass the first ones
SPARE = 600  # events of a log whose lines are all kept; of a longer one those before its faults, and the last ones
BEFORE = 200  # of them before a fault, and at the end
LONGEST_PASS = 100_000  # events of a pass that there is a story of
RUN, STEP = 3, 12  # faults of a code that are a run, and how many events at most each is after the one before
MATES = 100  # events under one Packet Identifier that are kept before a fault, and after it
TOLD = 250  # faults of a log that are shown with all that there is to say of them
LAST = 8  # events before a refusal
ENDS = {0: "client", 1: "server"}
HANDSHAKES = {"client": ("SENT", "RECV"), "server": ("RECV", "SENT")}  # how CONNECT and CONNACK go, by the tested end
NEW, RESUMED, VOID, UNDECIDED = "new", "resumed", "void", "undecided"
SUCCESS = "0x00"
HEAD = re.compile(r"(\d+) record \d+(?: moment (\d+))? (\S+)(?: (.*))?", re.DOTALL)
ALIAS = " topic-alias "
STALE_ALIAS = "C16"  # an alias that wasn't set on its connection


class Fault(NamedTuple):
    """A fault, as `mqjudge check` prints it."""

    position: int
    code: str
    citation: str
    decided: int
    record: int
    offset: int | None


@dataclass(eq=False)
class Connection:
    """A connection, with the packets of its handshake."""

    number: int  # counted from 1
    session: int = 0  # 0 where it belongs to none
    fate: str = UNDECIDED
    opening: Event | None = None  # its OPEN
    connect: Event | None = None  # the first one of the client
    connack: Event | None = None  # the first one of the server
    closing: Event | None = None  # its CLOSE


@dataclass(eq=False)
class Scene:
    """An event that may be shown, and where it belongs."""

    event: Event
    connection: Connection | None
    session: int = 0  # of the latest accepted connection before it: a RELEASE may belong there

    @cached_property
    def key(self) -> str | None:
        """Events with one key are under one Packet Identifier, in one session. It is asked for once that is decided."""
        if self.event.identifier is None:
            return None
        place = self.connection
        session = place.session if place and place.session else self.session if self.event.kind == "RELEASE" else 0
        where = f"s{session}" if session else f"c{place.number if place else 0}"
        return f"{where}i{self.event.identifier}"


class Passing(NamedTuple):
    """A line with where it belongs, which is read only if it is to be shown."""

    line: str
    connection: Connection | None
    session: int


@dataclass
class Story:
    """What is shown of a log."""

    end: str  # the tested one: client, server, or else empty
    told: list[Fault] = field(default_factory=list)
    evidence: dict[Key, Evidence] = field(default_factory=dict)  # what those that are told of conflict with
    scenes: dict[int, Scene] = field(default_factory=dict)  # by their positions
    events: int = 0  # of the whole log
    connections: int = 0
    refusal: str = ""  # the line, where the log was refused
    left: Counter[str] = field(default_factory=Counter)  # how many events under a fault's identifier aren't kept
    setters: dict[int, Event] = field(default_factory=dict)  # what set the Topic Alias of an event at fault (C16)
    counts: Counter[str] = field(default_factory=Counter)  # how often each packet went each way: `SENT PUBLISH`
    span: tuple[int, int] | None = None  # the first moment and the last one, where the log has moments
    spare: list[Passing] = field(default_factory=list)  # other events, for those who open a fold

    def reason(self, fault: Fault) -> Evidence | None:
        """What a fault conflicts with; None where the program didn't say it."""
        return self.evidence.get((fault.position, fault.code))

    def opened(self, told: list[Fault]) -> Story:
        """The same for some of the faults, with all events that are known."""
        others = [Scene(event, one.connection, one.session) for one in self.spare if (event := read_event(one.line))]
        new = {scene.event.position: scene for scene in others if scene.event.position not in self.scenes}
        found = Counter(scene.key for scene in new.values() if scene.key)
        return replace(self, told=told, scenes=dict(sorted((self.scenes | new).items())), left=self.left - found)

    @cached_property
    def mates(self) -> dict[str, list[Scene]]:
        """The events under each Packet Identifier of a session, by their keys."""
        found: dict[str, list[Scene]] = {}
        for scene in self.scenes.values():
            if scene.key:
                found.setdefault(scene.key, []).append(scene)
        return found


def end_of(header: bytes) -> str:
    """Which end a log is about, by its header."""
    return ENDS.get(header[5], "") if len(header) >= HEADER_SIZE else ""


def choose(faults: list[Fault], overlooked: Iterable[str], most: int = TOLD) -> list[Fault]:
    """At most so many faults: the first of each code, then those that count, then those that are ignored."""
    if len(faults) <= most:
        return faults
    known: set[str] = set()
    ignored = set(overlooked)
    ranks = []
    for fault in faults:
        ranks.append((fault.code in known, fault.code in ignored, fault.position))
        known.add(fault.code)
    best = sorted(range(len(faults)), key=lambda index: ranks[index])[:most]
    return [faults[index] for index in sorted(best)]


def runs_of(faults: list[Fault], story: Story) -> list[list[Fault]]:
    """Faults in the order of their positions, those together that are a run of one code on a connection."""
    latest: dict[str, list[Fault]] = {}
    chains: list[list[Fault]] = []
    for fault in faults:
        chain = latest.get(fault.code)
        is_near = bool(chain) and fault.position - chain[-1].position <= STEP
        if chain and is_near and place_of(story, chain[-1]) == place_of(story, fault):
            chain.append(fault)
        else:
            latest[fault.code] = [fault]
            chains.append(latest[fault.code])
    runs = [run for chain in chains for run in ([chain] if len(chain) >= RUN else [[fault] for fault in chain])]
    return sorted(runs, key=lambda run: run[0].position)


def place_of(story: Story, fault: Fault) -> int:
    """The number of the connection of a fault; 0 where it has none, or its event isn't kept."""
    scene = story.scenes.get(fault.position)
    return scene.connection.number if scene and scene.connection else 0


class Teller:
    """Takes in the lines of `show --long`, and keeps what a story of some faults needs."""

    def __init__(
        self, end: str, told: list[Fault], identifiers: dict[int, int], evidence: dict[Key, Evidence] | None = None
    ) -> None:
        """Identifiers are those of the events at fault, by their positions; evidence is what the faults conflict with."""
        keys = [(fault.position, fault.code) for fault in told]
        known = {key: evidence[key] for key in keys if key in evidence} if evidence else {}
        self._story = Story(end, told, known)
        self._handshake = HANDSHAKES.get(end, HANDSHAKES["client"])
        self._wanted = near(told).union(*(places_named(code, reason) for (_, code), reason in known.items()))
        self._told = {fault.position for fault in told}
        self._stale = {fault.position for fault in told if fault.code == STALE_ALIAS}
        self._setters: dict[tuple[str, str], Scene] = {}  # by how they go, and the alias
        self._before: dict[int, deque[Scene]] = {number: deque() for number in identifiers.values()}
        self._after: dict[int, int] = {}
        self._first: list[Passing] = []
        self._latest: deque[Passing] = deque(maxlen=BEFORE)
        self._connection: Connection | None = None
        self._session = 0  # of the latest accepted connection
        self._sessions = 0
        self._position = 0

    def take(self, line: str) -> None:
        found = HEAD.fullmatch(line)
        if not found:
            self._story.refusal = line if line.startswith("refused ") else self._story.refusal
            return
        self._position = position = int(found[1])
        kind, rest = found[3], found[4] or ""
        self._note(found[2], kind, rest)
        identifier = identifier_in(kind, rest) if self._before else None
        is_mate = identifier in self._before
        is_handshake = kind in ("OPEN", "CLOSE") or rest.startswith(("CONNECT ", "CONNACK "))
        is_alias = bool(self._stale) and rest.startswith("PUBLISH ") and ALIAS in rest
        if not (is_mate or is_handshake or is_alias or position in self._wanted):
            self._pass(line)
            return
        event = read_event(line)
        assert event is not None
        if kind == "OPEN":
            self._story.connections += 1
            self._connection = Connection(self._story.connections, opening=event)
        self._pass(line)
        scene = Scene(event, self._connection, self._session)
        if is_handshake:
            self._shake(event)
        if position in self._wanted:
            self._story.scenes[position] = scene
        if is_mate:
            assert identifier is not None
            self._take_mate(scene, identifier)
        if is_alias:
            self._take_alias(scene)
        if position in self._told:
            self._spare()

    def _note(self, moment: str | None, kind: str, rest: str) -> None:
        """Counts a packet, and notes the time."""
        if kind in HANDSHAKES["client"]:
            self._story.counts[f"{kind} {rest.partition(' ')[0]}"] += 1
        if moment is not None:
            first = self._story.span[0] if self._story.span else int(moment)
            self._story.span = first, int(moment)

    def _pass(self, line: str) -> None:
        """Keeps a line for a while: it may be shown."""
        passing = Passing(line if len(line) <= LONG_TEXT else shortened(line), self._connection, self._session)
        if self._position <= SPARE:
            self._first.append(passing)
        else:
            del self._first[WHOLE:]
        self._latest.append(passing)

    def _spare(self) -> None:
        """Keeps the latest events before a fault, which may be its cause, as long as there is room for them."""
        spare = self._story.spare
        spare += [*self._latest][-(SPARE - len(spare)):] if len(spare) < SPARE else []
        self._latest.clear()

    def _keep(self, passing: Passing) -> None:
        event = read_event(passing.line)
        if event is not None:
            self._story.scenes.setdefault(event.position, Scene(event, passing.connection, passing.session))

    def _take_alias(self, scene: Scene) -> None:
        """Notes what set a Topic Alias, for a PUBLISH with an alias that wasn't set on its connection."""
        event, alias = scene.event, scene.event.field("topic-alias")
        if alias is None:
            return
        setter = self._setters.get((event.kind, alias))
        if event.position in self._stale and setter:
            self._story.setters[event.position] = setter.event
            self._story.scenes.setdefault(setter.event.position, setter)
        if event.field("topic"):
            self._setters[event.kind, alias] = scene

    def _shake(self, event: Event) -> None:
        """Learns what becomes of a connection. Its CONNACK is the first that the server sent."""
        connection = self._connection
        if connection is None:
            return
        if event.kind == "CLOSE":
            connection.closing, self._connection = event, None
            connection.fate = VOID if connection.fate == UNDECIDED else connection.fate
        elif (event.kind, event.name) == (self._handshake[0], "CONNECT") and connection.connect is None:
            connection.connect = event
        elif (event.kind, event.name) == (self._handshake[1], "CONNACK") and connection.connack is None:
            connection.connack = event
            self._decide(connection, event)

    def _decide(self, connection: Connection, connack: Event) -> None:
        if connack.field("code") != SUCCESS:
            connection.fate = VOID
            return
        is_resumed = connack.field("session-present") == "1"
        if not is_resumed or not self._session:
            self._sessions += 1
            self._session = self._sessions
        connection.fate, connection.session = (RESUMED if is_resumed else NEW), self._session

    def _take_mate(self, scene: Scene, identifier: int) -> None:
        """Keeps the latest events under an identifier until a fault comes, and the next ones after it."""
        position, before = scene.event.position, self._before[identifier]
        if position in self._told:
            self._story.scenes |= {kept.event.position: kept for kept in before}
            before.clear()
            self._after[identifier] = MATES
        elif self._after.get(identifier, 0):
            self._after[identifier] -= 1
            self._story.scenes[position] = scene
        else:
            before.append(scene)
            if len(before) > MATES:
                self._leave(before.popleft())

    def _leave(self, scene: Scene) -> None:
        if scene.event.position not in self._story.scenes and scene.key:
            self._story.left[scene.key] += 1

    def story(self) -> Story:
        """What was kept, after the last line."""
        story = self._story
        story.events = self._position
        is_pass = not self._told and not story.refusal
        kept = self._first[:WHOLE] if is_pass or story.events <= WHOLE else []
        for passing in [*kept, *([*self._latest][-LAST:] if story.refusal else [])]:
            self._keep(passing)
        if self._told:
            self._spare()
            story.spare = self._first if story.events <= SPARE else story.spare
        for scene in (scene for before in self._before.values() for scene in before):
            self._leave(scene)
        story.scenes = dict(sorted(story.scenes.items()))
        return story


def is_brief(events: int | None) -> bool:
    """Whether a pass of so many events has a story; None stands for a log that wasn't judged."""
    return events is not None and events <= LONGEST_PASS


def near(faults: list[Fault]) -> set[int]:
    """The positions that are near to a fault, or to the event that shows it."""
    places = {place for fault in faults for place in (fault.position, fault.decided)}
    return {place + step for place in places for step in range(-NEAR, NEAR + 1)}
