#!/usr/bin/env python3
"""Compares the built program's reports as JSON, as a summary and under the events with its text report.

usage: bench/check_forms.py PROGRAM [LOG ..]

The text report of each log is made into the other forms here, in Python: each of the worked logs of check_rows.py, a log of 3,000
faults, one of long packets that break a rule, one of texts that do, one of packets that aren't whole at a CLOSE, refused logs, some of
all these in version 2, one with moments of a century, and the logs that are named. What each tests (`--coverage`) is what occasions.py
finds, and what its faults conflict with (`--why`, `show --faults`) what because.py finds, but for a log that is too long for that. With
`--all`, and of logs of version 2 with `--times`, each form is made from the same text report with the further faults of on_request.py
in it, and with `--statements` from that by choosing.py. JSON is also read back by Python's json module. What `show --faults` is to
print is made from the text report, from what `show` prints, and from Python's dates. The bytes of packets that break a rule, or aren't
whole at a CLOSE, are those that reading.py finds in the log. Each line of `show` is that of showing.py, and each of `show --long`
begins with it.
"""
import json
import os
import random
import subprocess
import sys
import tempfile
from collections import OrderedDict
from collections.abc import Iterator
from concurrent.futures import ThreadPoolExecutor
from datetime import UTC, datetime, timedelta
from itertools import zip_longest
from pathlib import Path

sys.dont_write_bytecode = True  # the repository stays as it is
import because
import check_rows
import choosing
import further_worked
import occasions
import on_request
import reading
import showing
from further_table import ALL, ALWAYS, JUDGED, TIMES
from judges import STATUSES
from versions import clock, in_version_2, version_of, waits

CONNECT = bytes.fromhex("100D00044D5154540502003C000000")
CONNACK = bytes.fromhex("2003000000")
DAY = timedelta(days=1) // showing.MICROSECOND
SHORT = 20_000  # bytes of a log in which occasions.py finds what was tested
FEW = 20  # faults of a longer log for which because.py finds what they conflict with
SELDOM = 20  # of so many worked logs one is tried in version 2 too
LISTS = 3  # of statements, which each log is checked by


def many_faults(count: int) -> bytes:
    """A client that takes one Packet Identifier again and again."""
    names: dict[str, str] = {}
    publish = "320700016100010078"
    words = ["OPEN", ">" + CONNECT.hex(), "<" + CONNACK.hex()] + [">" + publish] * (count + 1)
    return check_rows.log_of("client " + " ".join(words), names)


def dates(draw: random.Random) -> Iterator[int]:
    """Moments of days from 1999 to 2100, many of them the first or the last one of a day."""
    first, last = ((datetime(year, 1, 1, tzinfo=UTC) - showing.EPOCH).days for year in (1999, 2101))
    while True:
        moment = draw.choice((0, DAY - 1, draw.randrange(DAY)))
        yield draw.randrange(first, last) * DAY + moment


def long_broken() -> bytes:
    """A client that sends packets with a fault at offsets from 62 to 73, near to their end or far from it, and in pieces."""
    packets = []
    for length in range(55, 66):
        for payload in (b"", b"x" * 100):
            # The second property is the first one again.
            body = length.to_bytes(2, "big") + b"t" * length + b"\x04\x01\x01\x01\x01" + payload
            packets.append(b"\x30" + counted(body))
    words = ["OPEN", ">" + CONNECT.hex(), "<" + CONNACK.hex()]
    words += [">" + part.hex() for packet in packets for part in (packet[:40], packet[40:])]
    return check_rows.log_of("client " + " ".join(words), {})


def wrong_texts() -> bytes:
    """A client that sends packets whose texts are wrong, near to their ends or far from them, in each field that is one."""
    words = ["OPEN", ">" + CONNECT.hex(), "<" + CONNACK.hex()]
    for before in (b"", b"a/", b"z" * 60 + b"/", b"z/" * 45):
        texts = [before + wrong for wrong in (b"\xff", b"\xc3\xa9\xc3(", b"\xed\xa0\x80", b"\xe2\x82", b"\0b\0")]
        names = [*texts, *(before + wrong for wrong in (b"+", b"a#"))]
        filters = [*texts, *(before + wrong for wrong in (b"a+/#", b"+/#/c", b"+/##", b"#b", b"+/+/c+"))]
        bodies = [(0x30, spelled(name) + b"\0x") for name in names]
        bodies += [(0x30, spelled(b"a") + counted(b"\x08" + spelled(name))) for name in names]
        for text in texts:
            pairs = counted(b"&" + spelled(text) + spelled(b"v")), counted(b"&" + spelled(b"n") + spelled(text))
            bodies += [(0x30, spelled(b"a") + pair) for pair in pairs]
        bodies += [(0x82, b"\0\1\0" + spelled(one) + b"\0") for one in [*filters, b""]]
        bodies += [(0xA2, b"\0\1\0" + spelled(b"a") + spelled(one)) for one in [*filters, b""]]
        words += [">" + bytes([first]).hex() + counted(body).hex() for first, body in bodies]
    return check_rows.log_of("client " + " ".join(words), {})


def unfinished() -> bytes:
    """A client whose connections each end inside of a packet of either direction, or of both: of each type, and of up to 200 bytes."""
    words = []
    for type_ in range(16):
        for count in (1, 2, 5):
            begun = (bytes([type_ << 4, 200, 1]) + b"x" * 10)[:count].hex()
            words += ["OPEN", ">" + begun, "CLOSE", "OPEN", "<" + begun, "CLOSE", "OPEN", ">" + begun, "<c0" + begun, "CLOSE"]
    for count in (62, 63, 64, 65, 66, 200):
        begun = (b"\x32\xf4\x03\x00\x02ab" + bytes(range(250)))[:count].hex()
        words += ["OPEN", ">" + begun, "<" + begun[: count // 2 * 2], "CLOSE", "OPEN", "<" + begun, ">c00032", "CLOSE"]
    words += ["OPEN", ">3080808080", "<3007", "CLOSE", "OPEN", "CLOSE"]
    return check_rows.log_of("client " + " ".join(words), {})


def spelled(text: bytes) -> bytes:
    """A text after its length."""
    return len(text).to_bytes(2, "big") + text


def counted(body: bytes) -> bytes:
    """Fewer than 16,384 bytes after their number, as a Variable Byte Integer."""
    size = len(body)
    return (bytes([size]) if size < 128 else bytes([size % 128 + 128, size // 128])) + body


def wishing() -> bytes:
    """A client that breaks the further statements, and several at one event, on connection after connection."""
    names, words = further_worked.packets(), []
    for connack in ("CONNACK-NO-RETAIN", "CONNACK-NO-WILDCARDS", "CONNACK-NO-IDENTIFIERS", "CONNACK-NO-SHARES", "CONNACK"):
        words += ["OPEN", ">CONNECT", f"<{connack}", ">PUBLISH0-RETAINED", ">PUBLISH0", ">SUBSCRIBE-ALL:1", ">SUBSCRIBE-7:1", ">SHARE:1"]
        words += [">SHARE-NO-LOCAL:1", ">SHARE-PLUS:1", "<PUBLISH1:1", ">PUBACK-10:1", ">AUTH-M", ">DISCONNECT-8E", "REST", "CLOSE"]
    return check_rows.log_of("client " + " ".join(words), names)


def asking() -> bytes:
    """A server that breaks the further statements, among others, and several at one event, on connection after connection."""
    names, words = further_worked.packets(), []
    for connect in ("CONNECT-WILL-2", "CONNECT-WILL-RETAINED", "CONNECT-M", "CONNECT-NAMED", "CONNECT"):
        for connack in ("CONNACK-QOS-1", "CONNACK-NO-RETAIN", "CONNACK-M", "200B000008240125001500016D", "CONNACK-RESUMED"):
            words += ["OPEN", f"<{connect}", f">{connack}", ">AUTH-M", ">PUBLISH1:1", f">{connack}", "<PINGREQ", "REST", "CLOSE"]
    return check_rows.log_of("server " + " ".join(words), names)


def delivering() -> bytes:
    """A server that breaks what further statements say of deliveries, several at one event, on connection after connection: by filters
    with and without a Subscription Identifier and Retain Handling 2, shared or not, of which each is granted QoS 0."""
    names, words = further_worked.packets(), []
    shared = "82120001020B07000A2473686172652F672F6102"
    for request in ("SUBSCRIBE-7:1", "SUBSCRIBE-RETAINED-2:1", "82090001020B0700016122", "SHARE:1", "SHARE-RETAINED-2:1", shared):
        words += ["OPEN", "<CONNECT-NAMED", ">CONNACK", f"<{request}", ">PUBLISH0", ">SUBACK-0:1", ">PUBLISH0-RETAINED"]
        words += [">PUBLISH1-RETAINED:1", ">PUBLISH0-7", ">PUBLISH0-B", ">PUBLISH0-SHARE", "<SUBSCRIBE-ALL:2", ">SUBACK:2", ">PUBLISH0-B"]
        words += [">PUBLISH0-RETAINED", ">PUBLISH0-B-7", ">PUBLISH0-7-8", "<SUBSCRIBE-8:2", ">PUBLISH0-7-8", "CLOSE"]
    return check_rows.log_of("server " + " ".join(words), names)


def logs(paths: list[str]) -> list[tuple[str, bytes]]:
    found = [(row.name, row.log) for row in check_rows.rows()]
    found.append(("a server that further statements are about", asking()))
    found.append(("a client that further statements are about", wishing()))
    found.append(("a server of whose deliveries further statements are", delivering()))
    found.append(("3,000 faults", many_faults(3000)))
    found.append(("long packets that break a rule", long_broken()))
    found.append(("texts that break a rule", wrong_texts()))
    found.append(("packets that aren't whole", unfinished()))
    found += [(f"{count} bytes", many_faults(1)[:count]) for count in range(0, 60)]
    draw = random.Random("moments")
    seconds = [*found[::SELDOM], ("20 faults", many_faults(20)), ("long packets that break a rule", long_broken())]
    seconds.append(("packets that aren't whole", unfinished()))
    seconds += [(name, log) for name, log in found if name.startswith("examples/")]
    found += [(f"{name}, version 2", in_version_2(log, clock(draw))) for name, log in seconds]
    late = [*found[::SELDOM], ("20 faults", many_faults(20)), ("a server", asking()), ("a client", wishing())]
    found += [(f"{name}, with long waits", in_version_2(log, waits(draw))) for name, log in late]
    found.append(("3,000 faults of a century", in_version_2(many_faults(3000), dates(draw))))
    found += [(path, Path(path).read_bytes()) for path in paths]
    return found


def parted(text: str) -> tuple[list[str], list[str], str]:
    """A text report's lines on faults, those on what was tested and what wasn't judged, if it has any, and its last one."""
    *lines, last = text.splitlines()
    faults = [line for line in lines if line.startswith("fault ")]
    return faults, lines[len(faults) :], last


def as_json(text: str) -> str:
    """The JSON report for a text report."""
    faults, tested, last = parted(text)
    words = last.split()
    if words[0] == "refused":
        return f'{{"at":{words[4]},"name":"{words[2]}","refused":{words[1]}}}\n'
    items = []
    for line in faults:
        _, position, code, citation, _, decided, _, record, _, offset = line.split()
        offset = "null" if offset == "-" else offset
        items.append(
            f'{{"citation":"{citation}","code":"{code}","decided":{decided},"offset":{offset},"position":{position},"record":{record}}}'
        )
    rows = [line.split() for line in tested if line.startswith("tested ")]
    places = ",".join(f'{{"citation":"{citation}","code":"{code}","places":{count}}}' for _, code, citation, _, count in rows)
    coverage = f'"coverage":[{places}],' if tested else ""
    gaps = ",".join(gap_as_json(line) for line in tested if line.startswith("unjudged "))
    unjudged = f'"unjudged":[{gaps}],' if tested else ""
    return f'{{{coverage}"events":{words[-2]},"faults":[{",".join(items)}],{unjudged}"verdict":"{words[0]}"}}\n'


def gap_as_json(line: str) -> str:
    """The item of JSON for a line on what wasn't judged."""
    words = line.removeprefix("unjudged ").split()
    place = bytes = type = ""
    if "event" in words:
        *words, _, event, _, record = words
        place = f'"event":{event},"record":{record},'
    if "bytes" in words:
        *words, name, _, count = words
        bytes, type = f'"bytes":{count},', f'"type":"{name}",'
    return f'{{{bytes}{place}{type}"what":"{" ".join(words[:-1])}","why":"{words[-1]}"}}'


def in_short(text: str) -> str:
    """The summary for a text report."""
    faults, tested, last = parted(text)
    codes: OrderedDict[str, list[list[str]]] = OrderedDict()
    for line in faults:
        words = line.split()
        codes.setdefault(words[2], []).append(words)
    order = {code: at for at, code in enumerate(all_codes())}
    lines = [
        f"{code} {found[0][3]} faults {len(found)} first {found[0][1]} record {found[0][7]}"
        for code, found in sorted(codes.items(), key=lambda entry: order[entry[0]])
    ]
    return "".join(f"{line}\n" for line in [*lines, *tested, last])


def bytes_around(packet: bytes, at: int) -> str:
    """A packet's bytes with the marked one in brackets: the first 64, or if it isn't among them 32 before it and 31 after it."""
    begin = 0 if at < 64 else at - 32
    words = [f"{byte:02X}" for byte in packet[begin : begin + 64]]
    here = slice(at - begin, at - begin + 1)
    words[here] = [f"[{''.join(words[here])}]"]
    before, after = [".."] if begin > 0 else [], [".."] if begin + 64 < len(packet) else []
    return " ".join([*before, *words, *after])


def with_bytes(events: str, log: bytes) -> str:
    """What `show` prints, with the type and the bytes of each packet that breaks a rule, or that a CLOSE leaves unfinished; of a refused
    log what it prints."""
    lines = events.splitlines()
    if lines[-1:] and lines[-1].startswith("refused"):
        return events
    found = reading.Recording(log).events
    for n, (line, event) in enumerate(zip(lines, found, strict=True)):
        if isinstance(event.item, reading.Bad):
            packet, mark = event.item.packet, showing.marked_at(event.item)
            name = reading.NAMES[packet[0] >> 4] or "Reserved"
            place = f" at {mark}" if mark != event.item.at else ""
            lines[n] = f"{line.partition(' type ')[0]} type {name}{place} bytes {bytes_around(packet, mark)}"
        elif event.kind == reading.CLOSE:
            lines[n] = line.partition(" unfinished ")[0] + showing.unfinished_words(event)
    return "".join(f"{line}\n" for line in lines)


def time_words(event: str) -> str:
    """What is said of the moment on an event's line, if there is one."""
    _, _, _, *words = event.split(" ", 5)
    return showing.time_words(int(words[1])) if words[0] == "moment" else ""


def said_of_faults(name: str, log: bytes, text: str) -> dict[tuple[int, str], str] | None:
    """What is said of each fault of a text report after its statement, by its position and code, unless there are too many to find it.

    It is known by how the log was made, or is what because.py finds.
    """
    faults = [(int(words[1]), words[2]) for words in map(str.split, text.splitlines()) if words[0] == "fault"]
    if len(log) >= SHORT and len(faults) > FEW and not name.startswith("3,000 faults"):
        return None
    recording = reading.Recording(log)
    known = because.Log(recording.events, recording.role, recording.releases)

    def said(at: int, code: str) -> str:
        is_known = name.startswith("3,000 faults") and code == "S01"
        return (because.Evidence("it holds the identifier", at - 1) if is_known else because.evidence(known, at, code)).said()

    return {(at, code): said(at, code) for at, code in faults}


def under_events(events: str, text: str, sentences: dict[str, str], said: dict[tuple[int, str], str], around: int | None) -> str:
    """What `show` prints, with the faults of a text report under their events, and `..` for events that are farther from any."""
    *faults, last = text.splitlines()
    if last.startswith("refused"):
        return f"{last}\n"
    notes: dict[int, list[str]] = {}
    for line in faults:
        _, position, code, citation, _, decided, _, _, _, offset = line.split()
        note = f"  fault {code} {citation} {sentences[code]}{said[int(position), code]}"
        note += f" (decided at event {decided})" if decided != position else ""
        note += f" (offset {offset})" if offset != "-" else ""
        notes.setdefault(int(position), []).append(note)
    lines: list[str] = []
    for position, event in enumerate(events.splitlines(), 1):
        if around is None or any(abs(position - other) <= around for other in notes):
            lines += [event, *(note + time_words(event) for note in notes.get(position, []))]
        elif not lines or lines[-1] != "..":
            lines.append("..")
    return "".join(f"{line}\n" for line in lines)


def all_codes() -> list[str]:
    exchanges = [f"E{n}{letter}" for n in range(1, 8) for letter in "ARO"]
    left_out = {"E4O", "E5O", "E6O", "E7A", "E7O"}
    return (
        [f"W{n:02}" for n in range(1, 22)]
        + [f"C{n:02}" for n in range(1, 24)]
        + [f"S{n:02}" for n in range(1, 8)]
        + [code for code in exchanges if code not in left_out]
        + ["L1", "L2", "L3", "B01", "B02", "B03", "B04"]
        + list(JUDGED)
    )


def run(program: str, log: bytes, *words: str) -> tuple[int, str, str]:
    ran = subprocess.run([program, *words], input=log, capture_output=True, check=False)
    return ran.returncode, ran.stdout.decode(), ran.stderr.decode()


def all_sentences(program: str) -> dict[str, str]:
    """What each statement says, by its code."""
    lines = (line.split(" ", 3) for line in run(program, b"", "rules", TIMES)[1].splitlines())
    return {code: sentence for code, _, _, sentence in lines}


Answer = tuple[int, str, str]  # status, standard output, standard error
Wanted = dict[tuple[str, ...], Answer]  # what each command line is to answer


def wanted_of(program: str, name: str, log: bytes, path: str, sentences: dict[str, str]) -> Wanted:
    """What each command line is to answer for this log, which is at this path too."""
    _, text, errors = run(program, log, "check")
    recording, wanted = reading.Recording(log), {}
    texts = {asked: on_request.with_further(text, recording, asked) for asked in asked_of(log)}
    for asked, report in texts.items():
        answer = STATUSES[report.splitlines()[-1].split()[0]], report, errors
        wanted |= {("check", *options_of(asked)): answer, **wanted_of_checks(name, log, path, answer, asked)}
    most = list(texts)[-1]
    wanted |= wanted_of_choices(name, log, path, texts[most], errors, most)
    for long in ((), ("--long",)):
        shown = run(program, log, "show", *long)
        events = with_bytes(shown[1], log)
        if long:
            wanted["show", *long] = (shown[0], events, shown[2])
        before = None
        for asked, report in texts.items():
            said = said_of_faults(name, log, report)
            distances, before = (None, 0, 1, 3) if report != before else (0,), report
            for around in distances if said is not None else ():
                nearness = () if around is None else ("--around", str(around))
                under = under_events(events, report, sentences, said, around)
                wanted["show", "--faults", *options_of(asked), *long, *nearness, path] = (shown[0], under, shown[2])
    return wanted


def asked_of(log: bytes) -> tuple[str, ...]:
    """For how much the program is asked of a log: where all moments are alike for no statement on times."""
    return (ALWAYS, ALL, TIMES) if version_of(log) == 2 else (ALWAYS, ALL)


def options_of(asked: str) -> tuple[str, ...]:
    return (asked,) if asked else ()


def wanted_of_checks(name: str, log: bytes, path: str, answer: Answer, asked: str) -> Wanted:
    """The other forms of a text report, of the 74 statements or of more."""
    status, text, errors = answer
    wanted = {
        ("--json",): (status, as_json(text), errors),
        ("--summary",): (status, in_short(text), errors),
        ("--json", "--summary"): (status, as_json(text), errors),
    }
    covered = with_coverage(name, log, text, asked)
    if covered is not None:
        wanted |= {
            ("--coverage",): (status, covered, errors),
            ("--json", "--coverage"): (status, as_json(covered), errors),
            ("--coverage", "--summary"): (status, in_short(covered), errors),
            ("--summary", "--coverage", "--json"): (status, as_json(covered), errors),
        }
    told = with_reasons(log, text, asked)
    if told is not None:
        wanted |= {
            ("--why", path): (status, told, errors),
            ("--json", "--why", path): (status, as_reasoned_json(told), errors),
            ("--why", "--summary", path): (status, in_short(text), errors),
        }
    return {("check", *words[:1], *options_of(asked), *words[1:]): one for words, one in wanted.items()}


def wanted_of_choices(name: str, log: bytes, path: str, text: str, errors: str, asked: str) -> Wanted:
    """The forms of the report by some lists of statements, made from the text report on all of them."""
    wanted: Wanted = {}
    covered, told = with_coverage(name, log, text, TIMES), with_reasons(log, text, asked)
    for list_ in choosing.lists(random.Random(name), all_codes(), LISTS):
        taken, option = choosing.chosen(list_, all_codes()), f"--statements={list_}"
        kept = choosing.left(text, taken)
        status = STATUSES[kept.splitlines()[-1].split()[0]]
        wanted["check", option] = (status, kept, errors)
        wanted["check", "--json", option] = (status, as_json(kept), errors)
        wanted["check", option, "--summary"] = (status, in_short(kept), errors)
        if covered is not None:
            rows = choosing.left(covered, taken)
            wanted["check", option, "--coverage"] = (status, rows, errors)
            wanted["check", "--coverage", option, "--json"] = (status, as_json(rows), errors)
            wanted["check", "--coverage", "--summary", option] = (status, in_short(rows), errors)
        if told is not None:
            reasons = choosing.left(told, taken)
            wanted["check", "--why", option, path] = (status, reasons, errors)
            wanted["check", option, "--why", "--json", path] = (status, as_reasoned_json(reasons), errors)
            wanted["check", "--why", "--summary", option, path] = (status, in_short(kept), errors)
    return wanted


def wrong_lines(program: str, log: bytes) -> list[str]:
    """The lines of `show` that aren't those of showing.py, and those of `show --long` that don't begin with them."""
    wanted = showing.show(log)[1].splitlines()
    plain, long = (run(program, log, "show", *words)[1].splitlines() for words in ((), ("--long",)))
    wrong = [line for line, one in zip_longest(plain, wanted, fillvalue="") if line != one]
    return wrong + [line for line, one in zip_longest(long, wanted, fillvalue="") if not one or not line.startswith(one)]


def with_coverage(name: str, log: bytes, text: str, asked: str) -> str | None:
    """The text report with what was tested, which is known by how the log was made, or by occasions.py if it isn't too long."""
    if name.startswith("3,000 faults"):
        return None if asked else occasions.covering(text, occasions.of_publishes(3_001))
    return occasions.covering(text, on_request.tested(reading.Recording(log), asked)) if len(log) < SHORT else None


def with_reasons(log: bytes, text: str, asked: str) -> str | None:
    """The text report with what each fault conflicts with, as because.py finds it, if the log isn't too long."""
    if text.startswith("refused"):
        return text
    return reasoned(reading.Recording(log), asked) if len(log) < SHORT else None


def reasoned(recording: reading.Recording, asked: str = ALWAYS) -> str:
    """The text report on a log that isn't refused, with what each fault conflicts with."""
    return "".join(f"{line}\n" for line in because.lines(recording, asked=asked))


def as_reasoned_json(text: str) -> str:
    """The JSON report with what each fault conflicts with, made from the text report that says it."""
    if text.startswith("refused"):
        return as_json(text)
    lines = text.splitlines()
    plain = json.loads(as_json("".join(f"{line}\n" for line in lines if not line.startswith("because "))))
    reasons = [line.split() for line in lines if line.startswith("because ")]
    for fault, words in zip(plain["faults"], reasons, strict=True):
        fault["because"] = None if words[4] == "-" else int(words[4])
        fault["numbers"] = [int(word) for word in words[6:]]
    return json.dumps(plain, sort_keys=True, separators=(",", ":")) + "\n"


def is_compact(text: str) -> bool:
    return json.dumps(json.loads(text), sort_keys=True, separators=(",", ":")) + "\n" == text


def wrong_reports(program: str, name: str, log: bytes, sentences: dict[str, str]) -> tuple[int, list[str]]:
    """How many reports the program has given of this log, and what is wrong with them, a text for each that is."""
    wrong = []
    with tempfile.TemporaryDirectory() as folder:
        path = Path(folder) / "a.log"
        path.write_bytes(log)
        if lines := wrong_lines(program, log):
            wrong.append("\n  ".join([f"{name} show", *(f"{line:.500}" for line in lines[:3])]))
        wanted = wanted_of(program, name, log, str(path), sentences)
        for words, answer in wanted.items():
            given = run(program, log, *words)
            if given != answer:
                wrong.append(f"{name} {' '.join(words)}\n  wanted {answer!r:.500}\n  got    {given!r:.500}")
            elif "--json" in words and not is_compact(given[1]):
                wrong.append(f"{name}: JSON isn't compact with ascending keys")
    return len(wanted), wrong


def main() -> int:
    program, *paths = sys.argv[1:]
    sentences = all_sentences(program)
    with ThreadPoolExecutor(os.cpu_count()) as pool:
        found = list(pool.map(lambda named: wrong_reports(program, *named, sentences), logs(paths)))
    wrong = [text for _, texts in found for text in texts]
    for text in wrong:
        print(text)
    print(f"{sum(count for count, _ in found)} reports, {len(wrong)} wrong")
    return 1 if wrong else 0


if __name__ == "__main__":
    sys.exit(main())
