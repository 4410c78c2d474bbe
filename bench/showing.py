"""What `mqjudge show` and `mqjudge packet` are to print, by how reading.py reads a log and a packet."""
import re
from datetime import UTC, datetime, timedelta

import reading
from reading import Bad, Event, Lost, OtherVersion, Packet, Recording

WAYS = {reading.SENT: "SENT", reading.RECV: "RECV"}
MARKS = {reading.OPEN: "OPEN", reading.CLOSE: "CLOSE", reading.REST: "REST", reading.RELEASE: "RELEASE"}
EPOCH = datetime(1970, 1, 1, tzinfo=UTC)
MICROSECOND = timedelta(microseconds=1)
LENGTH = 2  # bytes before a text that say how long it is
MOST_BYTES = 64  # of a packet that is printed
WRONG = {  # the first byte of a text that breaks these rules; in a Topic Filter + fills a level, and # the last one
    "W05": re.compile(rb"\0"),
    "W14": re.compile(rb"[+#]"),
    "W15": re.compile(rb"(?<![^/])[+#](?=[^/])|(?<=[^/])[+#]|#(?=/)"),
}
Answer = tuple[int, str]  # status and output


def item_text(item: Packet | Bad | Lost | None) -> str:
    match item:
        case Packet():
            publish = f" qos {item.qos} dup {item.dup:d}" if item.type == reading.PUBLISH else ""
            identifier = f" id {item.identifier}" if item.identifier is not None else ""
            return f"{reading.NAMES[item.type]} size {item.size}{publish}{identifier}"
        case Bad():
            return f"BAD {item.rule} offset {item.at}"
    return "LOST"


def event_text(event: Event) -> str:
    if event.kind in WAYS:
        return f"{WAYS[event.kind]} {item_text(event.item)}"
    return f"RELEASE {event.released}" if event.kind == reading.RELEASE else MARKS[event.kind]


def unfinished_words(event: Event) -> str:
    """What `--long` and `--faults` add to a CLOSE: of each packet that it leaves unfinished the direction and the type, how many of its
    bytes came, and the first 64 of them."""
    words = []
    for way, packet in zip(("sent", "received"), event.unfinished, strict=True):
        if packet:
            name = reading.NAMES[packet[0] >> 4] or "Reserved"
            rest = " .." if len(packet) > MOST_BYTES else ""
            words.append(f" unfinished {way} type {name} size {len(packet)} bytes {packet[:MOST_BYTES].hex(' ').upper()}{rest}")
    return "".join(words)


def text_at(packet: bytes, at: int) -> bytes:
    """The text whose length is at this place, or what there is of it."""
    return packet[at + LENGTH : at + LENGTH + int.from_bytes(packet[at : at + LENGTH], "big")]


def wrong_in(rule: str, text: bytes) -> int | None:
    """The place of the first byte of a text that breaks a rule, if the rule is one on texts and any byte does."""
    match rule:
        case "W04":
            try:
                text.decode()
            except UnicodeDecodeError as error:
                return error.start
            return None
        case "W05" | "W14" | "W15":
            found = WRONG[rule].search(text)
            return found.start() if found else None
    return None


def marked_at(bad: Bad) -> int:
    """The offset of the byte that `--long` marks: of a text that breaks a rule the first wrong byte, and not its length.

    The offset of a User Property is that of its first text, also where the second one breaks the rule.
    """
    second = bad.at + LENGTH + len(text_at(bad.packet, bad.at))
    for begin in (bad.at, second) if bad.rule in ("W04", "W05") else (bad.at,):
        place = wrong_in(bad.rule, text_at(bad.packet, begin))
        if place is not None:
            return begin + LENGTH + place
    return bad.at


def show(log: bytes) -> Answer:
    """What `show` answers."""
    return shown(Recording(log))


def shown(read: Recording) -> Answer:
    """The same of a log that has been read."""
    moments = [f" moment {event.moment}" if read.version == 2 else "" for event in read.events]
    lines = [
        f"{at} record {event.record}{moment} {event_text(event)}\n"
        for at, (event, moment) in enumerate(zip(read.events, moments, strict=True), 1)
    ]
    if read.refusal is not None:
        return 2, "".join([*lines, f"{read.refusal.text()}\n"])
    return 0, "".join(lines)


def time_words(moment: int) -> str:
    """What `show --faults` says of the moment of a fault: the time in UTC, if it is one of the years 2000 to 2099."""
    try:
        time = EPOCH + moment * MICROSECOND
    except OverflowError:
        return ""
    return f" (at {time:%Y-%m-%d %H:%M:%S.%f} UTC)" if 2000 <= time.year < 2100 else ""


def packet(data: bytes) -> Answer:
    """What `packet` answers."""
    match reading.frame(data[:5]):
        case None:
            return 1, "need more bytes\n"
        case Lost():
            return 1, "LOST\n"
        case (_, size) if len(data) < size:
            return 1, "need more bytes\n"
        case (_, size) if len(data) > size:
            return 1, f"left over {len(data) - size} bytes\n"
        case (header, _):
            begin = header
    match reading.decode(data, begin):
        case OtherVersion() as other:
            return 1, f"other version {other.version}\n"
        case Bad() as bad:
            return 1, f"{item_text(bad)}\n"
        case item:
            return 0, f"{item_text(item)}\n"
