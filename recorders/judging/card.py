"""What is said of a fault, or of a run of them, beside the chart: the statement, the packet, and what to change."""
from __future__ import annotations

from html import escape

from judging.causes import OF_EVENTS, words
from judging.chart import FULL, LEAN, PEERS, SHORT, Drawing
from judging.events import Event, Text
from judging.explain import Explanation
from judging.labels import WORDS, fate_of, label, short_label
from judging.markup import counted, escaped, isolated, number
from judging.reasons import reason
from judging.resends import TAKEN, looks_like
from judging.story import STALE_ALIAS, Fault, Scene
from judging.texts import WORDS as WRONG
from log_format import time_text

FIELDS = 40  # of a packet that are shown
MATES, LEAN_MATES = 12, 6  # events under the same Packet Identifier that are listed
BYTES_OF_A_LINE = 8
SIZES = {"size", "payload", "password", "correlation-data", "authentication-data", "will-payload",
         "will-correlation-data"}  # fields of which only the size in bytes is printed


class Cards:
    """The cards of a drawing's faults."""

    def __init__(self, drawing: Drawing, explanations: dict[str, Explanation], resent: dict[int, int]) -> None:
        """Resent are the positions of PUBLISHes that look like earlier ones, and of these."""
        self._drawing, self._story, self._explanations = drawing, drawing.story, explanations
        self._resent = resent
        self._detail = drawing.detail
        self._drawn = drawing.drawn
        self._advised: dict[str, str] = {}  # where the advice for a code is, of those that came in this log

    def cards(self) -> str:
        return "".join(self._card(run) for run in self._drawing.runs)

    def place(self, code: str) -> str:
        """The name of the card with what to change of a code; empty where there is none."""
        return self._advised.get(code, "")

    def _card(self, run: list[Fault]) -> str:
        """A fault, or several that follow each other, with all that there is to say of the first."""
        fault = run[0]
        scene = self._story.scenes.get(fault.position)
        way = self._drawing.overlooked.get(fault.code)
        name = self._drawing.card(fault)
        explanation = self._explanations.get(fault.code)
        facts = self._facts(fault, scene)
        if each := self._each(run):
            facts = [("All of them", each), ("The first", facts[0][1]), *facts[1:]]
        kind = " class=ignored" if way else ""
        place = self._advised.get(fault.code, name) if self._detail == FULL else f"r-{fault.code}"
        return (
            f"<article id={name}{kind}{self._near(fault)}>{self._places(run)}"
            f"<h4>{self._head(run)} <a href=#{place}>{fault.code}</a> <i>{escaped(fault.citation)}</i>"
            f"{ignored_by(way)}</h4>"
            f"<p>{escaped(explanation.sentence if explanation else '')}"
            f'<dl>{"".join(f"<dt>{term}<dd>{text}" for term, text in facts if text)}</dl>'
            f"{self._resend(run)}{self._advice(fault.code, name, explanation)}</article>"
        )

    def _head(self, run: list[Fault]) -> str:
        """Which events a card is about."""
        first, last = run[0].position, run[-1].position
        if len(run) == 1:
            return self._link(first)
        return f"{self._link(first, f'Events {first}')} to {self._link(last, str(last))}, {counted(len(run), 'fault')}:"

    def _places(self, run: list[Fault]) -> str:
        """Where links to the other faults of a run lead to: the head of their card."""
        return "".join(f"<i id={self._drawing.card(fault)}{self._near(fault)}></i>" for fault in run[1:])

    def _each(self, run: list[Fault]) -> str:
        """The faults of a run: a line for each, or where there is less room only a link."""
        if len(run) == 1:
            return ""
        if self._detail < FULL:
            return ", ".join(self._link(fault.position, str(fault.position)) for fault in run)
        reasons = [self._story.reason(fault) for fault in run]
        are_alike = len({reason.because for reason in reasons if reason}) <= 1
        return f"<ol class=run tabindex=0>{''.join(self._line(fault, are_alike) for fault in run)}</ol>"

    def _line(self, fault: Fault, are_alike: bool) -> str:
        """A fault of a run: what tells it from the others, which may all conflict with one event."""
        scene = self._story.scenes.get(fault.position)
        link = self._link(fault.position, str(fault.position))
        if scene is None:
            return f"<li>{link}"
        event, first = scene.event, self._resent.get(fault.position) if fault.code == TAKEN else None
        reason = self._story.reason(fault)
        because = reason.because if reason else None
        facts = [
            escaped(label(event)),
            f"offset {fault.offset}" if fault.offset is not None else "",
            words(fault.code, reason) if reason and reason.numbers else "",
            f"because of {self._link(because, str(because))}" if because and not are_alike else "",
            f"{event.time:%H:%M:%S.%f}" if event.time else self._time(event),
            f"decided at {self._link(fault.decided, str(fault.decided))}" if fault.decided > fault.position else "",
            f"looks like {self._link(first, str(first))} sent again" if first else "",
        ]
        return f"<li>{link}<span> {', '.join(fact for fact in facts if fact)}</span>"

    def _near(self, fault: Fault) -> str:
        """Which events to light with a fault: what it conflicts with, or what set its Topic Alias; and what shows it."""
        reason, setter = self._story.reason(fault), self._story.setters.get(fault.position)
        cause = setter.position if setter and fault.code == STALE_ALIAS else reason.because if reason else None
        shown = f" data-a={self._drawing.place(cause)}" if cause is not None else ""
        return shown + (f" data-d={self._drawing.place(fault.decided)}" if fault.decided != fault.position else "")

    def _link(self, position: int, words: str = "") -> str:
        text = words or f"Event {position}"
        return f"<a href=#{self._drawing.place(position)}>{text}</a>" if position in self._drawn else text

    def _facts(self, fault: Fault, scene: Scene | None) -> list[tuple[str, str]]:
        if scene is None:
            return [("Where", f"record {fault.record}")]
        event = scene.event
        offset = f", offset {fault.offset}" if fault.offset is not None else ""
        facts = [("What", self._what(scene) + offset)]
        if self._detail == FULL:
            facts.append(("Fields", fields(event)))
        elif self._detail == LEAN and event.fields:
            facts = [("What", f"{facts[0][1]}; {short_fields(event)}")]
        return [
            *facts,
            ("Time", self._time(event)),
            ("Decided", self._decided(fault)),
            ("Because", self._because(fault, scene)),
            ("Topic Alias", self._alias(fault, scene)),
            ("Bytes", bytes_shown(event, fault.offset)),
            (f"Identifier {event.identifier}", self._mates(scene) if self._detail > SHORT else ""),
        ]

    def _what(self, scene: Scene) -> str:
        event, connection = scene.event, scene.connection
        where = f"connection {connection.number}" if connection else "between connections"
        if connection and self._detail == FULL:
            where += f" ({escape(fate_of(connection))})"
        what = event.name if self._detail == LEAN and event.fields else short_label(event)
        return f"{WORDS.get(event.kind, '')} {escape(what)}, record {event.record}, {where}".strip()

    def _decided(self, fault: Fault) -> str:
        """Which later event shows a fault."""
        if fault.decided == fault.position:
            return ""
        scene = self._story.scenes.get(fault.decided)
        what = f": {escaped(label(scene.event))}" if scene else ""
        time = self._time(scene.event) if scene else ""
        link = self._link(fault.decided, f"event {fault.decided}")
        return f"{link}{what}{', ' if time else ''}{time}. Only this later event shows the fault"

    def _time(self, event: Event) -> str:
        """The time of an event, or its moment where that is none; empty where the log has no moments but 0."""
        return time_text(event.moment) or f"moment {event.moment}" if self._drawing.is_timed else ""

    def _because(self, fault: Fault, scene: Scene) -> str:
        """What a fault conflicts with: the event, where it is, what it is, and the numbers."""
        reason = self._story.reason(fault)
        if reason is None:
            return ""
        is_brief = self._detail == SHORT and not reason.numbers
        said = words(fault.code, reason, self._position if fault.code in OF_EVENTS else strong)
        if reason.because is None:
            return said
        said = "" if is_brief or not said else f": {said}"
        cause = self._story.scenes.get(reason.because)
        what = cause.event.name if cause and self._detail > SHORT else ""
        name = f" ({what})" if what and what not in said else ""
        place = cause.connection if cause else None
        where = f" on connection {place.number}" if place and place is not scene.connection else ""
        return f"{self._link(reason.because, f'event {reason.because}')}{name}{where}{said}"

    def _position(self, position: int) -> str:
        return self._link(position, str(position))

    def _alias(self, fault: Fault, scene: Scene) -> str:
        """What set a Topic Alias, where that was on an earlier connection."""
        if fault.code != STALE_ALIAS:
            return ""
        alias = scene.event.field("topic-alias")
        setter = self._story.setters.get(fault.position)
        if setter is None:
            return f"nothing before it sets {escaped(alias)}" if alias else ""
        place = self._story.scenes[setter.position].connection
        where = f" on connection {place.number}" if place else ""
        link = self._link(setter.position, f"event {setter.position}")
        return f"{escaped(alias)} was set by {link}{where}: an alias ends with its connection"

    def _mates(self, scene: Scene) -> str:
        """The events under the same Packet Identifier in the session: first those of the end that chose it."""
        mates = self._story.mates.get(scene.key or "", [])
        place = scene.event.position
        left = self._story.left.get(scene.key or "", 0)
        most = MATES if self._detail == FULL else LEAN_MATES
        nearest = sorted(mates, key=lambda mate: abs(mate.event.position - place))[:most]
        shown = sorted(nearest, key=lambda mate: mate.event.position)
        own = [mate for mate in shown if mate.event.is_own == scene.event.is_own]
        other = [mate for mate in shown if mate.event.is_own != scene.event.is_own]
        parts = [self._listed(own, place)]
        if other:
            end = self._story.end
            chooser = PEERS.get(end, "peer") if scene.event.is_own else end
            parts.append(f"chosen by the {chooser}: {self._listed(other, place)}")
        if rest := len(mates) - len(shown) + left:
            parts.append(counted(rest, "event") + " more" + (f", {number(left)} of them not drawn" if left else ""))
        return "; ".join(part for part in parts if part)

    def _listed(self, mates: list[Scene], place: int) -> str:
        words = []
        for mate in mates:
            event = mate.event
            text = f"{event.position} {event.name or event.kind}{' DUP' if event.field('dup') == '1' else ''}"
            words.append(f"<b>{text}</b>" if event.position == place else self._link(event.position, text))
        return ", ".join(words)

    def _resend(self, run: list[Fault]) -> str:
        """Which PUBLISH the first one looks like that may be an earlier one. What is usual comes after it."""
        fault = next((fault for fault in run if fault.code == TAKEN and fault.position in self._resent), None)
        if fault is None:
            return ""
        first = self._resent[fault.position]
        subject = "This" if len(run) == 1 else self._link(fault.position)
        return f"<p class=advice>{looks_like(self._link(first, f'event {first}'), subject)}</p>"

    def _advice(self, code: str, name: str, explanation: Explanation | None) -> str:
        """What usually breaks a statement, and what to change: in full at the first fault of a code, else by a link."""
        if explanation is None or not explanation.parts:
            return ""
        if self._detail < FULL:
            return f"<a class=more href=#r-{code}></a>"  # its words are in the style
        if code in self._advised:
            return f"<a href=#{self._advised[code]}>What usually breaks it, and what to change</a>"
        self._advised[code] = name
        return f"<div class=advice>{advice(explanation, self._story.end)}</div>"


def strong(count: int) -> str:
    return f"<b>{number(count)}</b>"


def advice(explanation: Explanation, end: str) -> str:
    """Why there is a statement, and what to change in an end; in a fold, where it is judged."""
    words, parts = explanation.advice(end), explanation.parts
    heading = f"What usually breaks it in a {end}, and what to change"
    found = [(heading, words)] if words else [(name, text) for name, text in explanation.advices]
    found += [(name, parts[name]) for name in ("Why", "See") if name in parts]
    said = "".join(f"<p><b>{name}:</b> {escaped(text)}</p>" for name, text in found)
    judged = parts.get("Judged")
    return said + (f"<details><summary>Where it is judged</summary>{escaped(judged)}</details>" if judged else "")


def ignored_by(way: str | None) -> str:
    return f' <span class="way">ignored by {way}</span>' if way else ""


def short_fields(event: Event) -> str:
    """The fields of a packet in few bytes."""
    return "; ".join(f"{name} {' = '.join(map(value_shown, values))}" for name, values in event.fields[:FIELDS])


def fields(event: Event) -> str:
    """The fields of a packet. Of some only the size is printed."""
    words = []
    for name, values in event.fields[:FIELDS]:
        unit = f" ({reason(event.name, values[0])})" if name == "code" and values else ""
        unit = f" byte{'' if values == ['1'] else 's'}" if name in SIZES else unit
        text = " = ".join(map(value_shown, values))
        words.append(f"<span class=field><i>{name}</i> {text}{unit}</span>")
    if event.is_cut or len(event.fields) > FIELDS:
        words.append('<span class="note">and more</span>')
    return " ".join(words)


def value_shown(value: str) -> str:
    return f'"{isolated(value, value.size)}"' if isinstance(value, Text) else escaped(value)


def bytes_shown(event: Event, offset: int | None) -> str:
    """Bytes in lines, each with its first offset, those at fault marked, and which letters they would be."""
    found = event.bytes
    if not found:
        return ""
    marked = found.marked or range(0)
    lines = [f"{'offset':>6}  ..\n"] if found.first else []
    for start in range(0, len(found.digits), BYTES_OF_A_LINE):
        line = found.digits[start : start + BYTES_OF_A_LINE]
        words = [f"<mark>{word}</mark>" if start + index in marked else word for index, word in enumerate(line)]
        letters = "".join(chr(int(word, 16)) if 32 <= int(word, 16) < 127 else "·" for word in line)
        space = "   " * (BYTES_OF_A_LINE - len(line))
        lines.append(f"{found.first + start:>6}  {' '.join(words)}{space}  {escaped(letters)}\n")
    if found.is_cut:
        lines.append("        ..\n")
    return f"<pre>{''.join(lines)}</pre><span class=\"note\">{what_is_marked(event, offset)}</span>"


def what_is_marked(event: Event, offset: int | None) -> str:
    """What the marked bytes are."""
    at = f"offset {offset}" if offset is not None else "the offset"
    broken, found = event.broken, event.bytes
    if broken and broken["at"]:
        return f"At offset {broken['at']} {WRONG[broken['code']]} is marked; its field begins at {at}, with a length."
    return f"The byte at {at} is marked." if found and found.marked else f"The packet ends before {at}."
