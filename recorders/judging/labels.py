"""The words at an event in a chart: what tells it from others of its type, and when it happened."""
from __future__ import annotations

from html import escape, unescape

from judging.events import CUT, Event
from judging.markup import attribute, is_odd
from judging.reasons import reason
from judging.story import NEW, RESUMED, UNDECIDED, VOID, Connection, Scene
from log_format import TIMES, time_text

LONGEST_TITLE = 240
LONGEST_TOPIC = 28  # characters of a topic or a filter in a label
NARROW = {30: "w", 38: "v", 48: "u"}  # of a label with more characters the topic is left out in narrow charts
LONGEST_MOMENT, KEPT_DIGITS = 15, 12  # characters, as a time of day has; of a longer moment the last ones are shown
FATES = {NEW: "new session", RESUMED: "session resumed", UNDECIDED: "undecided"}
WORDS = {"SENT": "sent", "RECV": "received"}
SUCCESS, FIRST_ERROR = "0x00", "0x80"
UNITS = ((1_000, 1, "µs", 0), (1_000_000, 1_000, "ms", 1), (60_000_000, 1_000_000, "s", 3))  # up to, one, its name
MINUTE, HOUR = 60, 3_600  # in seconds


def label(event: Event) -> str:
    """What is written at an event: its type, and what decides."""
    before, topic, after = label_parts(event)
    return " · ".join([*before, *([topic] if topic else []), *after])


def short_label(event: Event) -> str:
    """The same without topics and names, for where they stand beside it."""
    return " · ".join(label_parts(event)[0])


def label_parts(event: Event) -> tuple[list[str], str, list[str]]:
    """What is written at an event: before a topic or filter, this one, and after it."""
    if not event.is_packet:
        return [f"RELEASE id {event.rest}" if event.kind == "RELEASE" else event.kind], "", []
    if event.broken:
        return [f"{event.name}, malformed"], "", []
    if event.name == "LOST":
        return ["bytes that can't be parsed"], "", []
    before = [event.name + (f" id {event.identifier}" if event.identifier is not None else "")]
    if event.name == "PUBLISH":
        before += [f"QoS {event.field('qos')}", *(["DUP"] if event.field("dup") == "1" else [])]
        alias = event.field("topic-alias")
        return before, topic_shown(event), [f"alias {alias}"] if alias else []
    if event.name in ("SUBSCRIBE", "UNSUBSCRIBE"):
        return before, filters_shown(event), []
    return before, "", what_decides(event)


def topic_shown(event: Event) -> str:
    topic = event.field("topic")
    return shortened(topic) if topic else ("no topic" if topic is not None else "")


def filters_shown(event: Event) -> str:
    """The first filter, and how many more there are."""
    filters = [values[0] for name, values in event.fields if name == "filter" and values]
    more = f" and {len(filters) - 1} more" if len(filters) > 1 else ""
    return shortened(filters[0]) + more if filters else ""


def shortened(text: str) -> str:
    """The beginning of a text, as far as there is room for it, and for the names of characters that can't be seen."""
    size = 0
    for at, character in enumerate(text):
        size += len(attribute(character)) if is_odd(character, 0) else 1
        if size > LONGEST_TOPIC:
            return f"{text[:at]}…"
    return text


def what_decides(event: Event) -> list[str]:
    """Clean Start, Session Present, and names of Reason Codes: those of errors, and what was granted."""
    words = ["Clean Start"] if event.name == "CONNECT" and event.field("clean-start") == "1" else []
    codes = [values[0] for name, values in event.fields if name == "code" and values]
    if event.name == "CONNACK" and event.field("session-present") is not None:
        words.append(f"Session Present {event.field('session-present')}")
    if event.name in ("SUBACK", "UNSUBACK"):
        errors = [code for code in codes if code >= FIRST_ERROR]
        codes = errors or (codes if event.name == "SUBACK" else [])
        names = list(dict.fromkeys(reason(event.name, code) for code in codes))
        return names[:2] + (["and more"] if len(names) > 2 else [])
    return words + [reason(event.name, code) for code in codes[:1] if code != SUCCESS]


def label_shown(event: Event) -> str:
    """A label in SVG. A narrow chart leaves out the topic of a long one, by its class."""
    before, topic, after = label_parts(event)
    text = " · ".join(before)
    if topic:
        size = len(" · ".join([*before, unescape(attribute(topic)), *after]))
        kind = next((kind for most, kind in sorted(NARROW.items(), reverse=True) if size > most), "q")
        text += f"<tspan class={kind}> · {attribute(topic)}</tspan>"
    return text + "".join(f" · {escape(word)}" for word in after)


def fate_of(connection: Connection) -> str:
    """What became of a connection, in words."""
    if connection.fate != VOID:
        return FATES[connection.fate]
    code = connection.connack.field("code") if connection.connack else None
    return f"void, refused: {reason('CONNACK', code)}" if code else "void, no CONNACK came"


def title(scene: Scene) -> str:
    """What is said of an event where a pointer rests on it."""
    event = scene.event
    where = f", connection {scene.connection.number}" if scene.connection else ""
    time = f", {time_text(event.moment) or f'moment {event.moment}'}" if event.moment else ""
    words = f"{WORDS.get(event.kind, event.kind)} {event.rest.replace(CUT, ' … ')}".strip()
    words = words if len(words) <= LONGEST_TITLE else f"{words[:LONGEST_TITLE]} …"
    return attribute(f"Event {event.position}, record {event.record}{where}{time}: {words}")


def time_shown(event: Event) -> str:
    """The time of an event in SVG; its moment where that is no time, or the end of a long one."""
    if event.moment is None:
        return ""
    if event.time:
        words = f"{event.time:%H:%M:%S.%f}"
        return f"{words[:-3]}<tspan class=v>{words[-3:]}</tspan>"
    digits = str(event.moment)
    return digits if len(digits) <= LONGEST_MOMENT else f"…{digits[-KEPT_DIGITS:]}"


def difference(before: Event | None, event: Event) -> str:
    """How much later an event is than the one before it: `+1.5 ms`; a number where moments aren't times, or nothing."""
    if before is None or before.moment is None or event.moment is None or before.moment == event.moment:
        return ""
    step = event.moment - before.moment
    sign, size = "−" if step < 0 else "+", abs(step)
    if before.moment not in TIMES or event.moment not in TIMES:
        digits = str(size)
        return f"{sign}{digits if len(digits) <= KEPT_DIGITS else f'…{digits[-KEPT_DIGITS:]}'}"
    for most, unit, name, places in UNITS:
        if size < most:
            return f"{sign}{size / unit:.{places}f} {name}"
    seconds = size // UNITS[-1][1]
    hours, minutes = seconds // HOUR, seconds % HOUR // MINUTE
    return f"{sign}{hours} h {minutes} min" if hours else f"{sign}{minutes} min {seconds % MINUTE} s"
