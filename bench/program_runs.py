"""What bench/program.py runs, and what that is to give: logs, the texts that the program prints, and a run of it for each case.

What it says of its command line is in command_texts.py.
"""
import gzip
from dataclasses import dataclass, field
from pathlib import Path

import occasions
from command_texts import (
    CHECK_HELP, CONVERT_HELP, FOR_CHECK_ALONE, FURTHER_OPERAND, HELP, NO_OPERAND, NO_OUT, NO_WORD, RULES_HELP, SHOW_HELP, TWICE,
    UNKNOWN_WORD, VERSION,
)

HEADER = b"MQTR\x01\x00\x01\x00"
OPEN = b"\x01\x00\x00\x00\x00"
CLOSE = b"\x04\x00\x00\x00\x00"
CONNECT = b"\x02\x00\x00\x00\x0f\x10\x0d\x00\x04MQTT\x05\x02\x00\x3c\x00\x00\x00"
CONNACK = b"\x03\x00\x00\x00\x05\x20\x03\x00\x00\x00"
PUBLISH = b"\x02\x00\x00\x00\x09\x32\x07\x00\x01a\x00\x01\x00x"


def timed(record: bytes, moment: int = 0) -> bytes:
    """The record as it is in version 2, with this moment."""
    return record[:5] + moment.to_bytes(8, "big") + record[5:]


HEADER_2 = b"MQTR\x02\x00\x01\x00"

# A session of four events, one whose client takes an identifier that is in use, and a log that opens two connections at once.
GOOD = HEADER + OPEN + CONNECT + CONNACK + PUBLISH
FAULTY = GOOD + PUBLISH
NESTED = HEADER + OPEN + OPEN
PINGS = 70_000
PING_RECORD = b"\x02" + (2 * PINGS).to_bytes(4, "big") + b"\xc0\x00" * PINGS
MANY = HEADER + OPEN + CONNECT + CONNACK + PING_RECORD
CONNECTED_2 = HEADER_2 + timed(OPEN) + timed(CONNECT) + timed(CONNACK)
GOOD_2 = CONNECTED_2 + timed(PUBLISH)
# The session with an AUTH in it, though the CONNECT has no Authentication Method; and the faulty one with it.
AUTH = b"\x02\x00\x00\x00\x02\xf0\x00"
UNASKED = GOOD + AUTH
FAULTY_TWICE = FAULTY + AUTH
MANY_2 = CONNECTED_2 + timed(PING_RECORD)

# The session with the AUTH in version 2, which comes a microsecond later than it may by a Keep Alive of 60 seconds; the faulty one, whose
# last PUBLISH comes just not too late; and a server that closes the connection of a silent client a microsecond too late.
MOST_SILENT, MOST_OPEN = 76_000_000, 120_000_000
SILENT = GOOD_2 + timed(AUTH, MOST_SILENT + 1)
IN_TIME = GOOD_2 + timed(PUBLISH, MOST_SILENT)
ACCEPTED = timed(OPEN) + timed(b"\x03\x00\x00\x00\x10\x10\x0e\x00\x04MQTT\x05\x02\x00\x3c\x00\x00\x01c") + timed(b"\x02" + CONNACK[1:])
KEPT_OPEN = b"MQTR\x02\x01\x01\x00" + ACCEPTED + timed(CLOSE, MOST_OPEN + 1)

# The faulty one in version 2, with moments; and one whose body is longer than it may be in version 1.
TIMED = b"MQTR\x02\x00\x01\x00" + b"".join(
    part[:5] + moment.to_bytes(8, "big") + part[5:]
    for part, moment in zip((OPEN, CONNECT, CONNACK, PUBLISH, PUBLISH), (0, 1_764_176_601_123_456, 1 << 63, (1 << 64) - 1, 10))
)
LONG_PINGS = 600_000
LONG_HEAD = b"\x02" + (2 * LONG_PINGS).to_bytes(4, "big")
LONG = TIMED[: -2 * len(PUBLISH) - 16] + LONG_HEAD + bytes(8) + b"\xc0\x00" * LONG_PINGS

# A packet of 16,777,216 bytes as text, and how many bytes of text are taken.
LARGEST = b"\x30\xfb\xff\xff\x07\x00\x01a\x00" + b"x" * (16_777_216 - 9)
LARGEST_TEXT = LARGEST.hex(":").encode()
MOST_TEXT = 134_217_728
TOO_LONG = f"mqjudge: standard input has more than {MOST_TEXT} bytes, the most that packet takes\n"

PASS = "pass 4 events\n"
FAIL = "fault 5 S01 MQTT-2.2.1-3 decided 5 record 5 offset -\nfail 1 faults 5 events\n"
REASONED = FAIL.replace("\nfail", "\nbecause 5 S01 event 4\nfail")
REASONED_JSON = (
    '{"events":5,"faults":[{"because":4,"citation":"MQTT-2.2.1-3","code":"S01","decided":5,"numbers":[],"offset":null,"position":5,'
    '"record":5}],"verdict":"fail"}\n'
)
ASKED = "fault 5 A02 MQTT-4.12.0-7 decided 5 record 5 offset -\nfail 1 faults 5 events\n"
ASKED_REASONED = ASKED.replace("\nfail", "\nbecause 5 A02 event 2\nfail")
ASKED_JSON = (
    '{"events":5,"faults":[{"citation":"MQTT-4.12.0-7","code":"A02","decided":5,"offset":null,"position":5,"record":5}],"verdict":"fail"}\n'
)
ASKED_TWICE = FAIL.replace("fail 1 faults 5", "fault 6 A02 MQTT-4.12.0-7 decided 6 record 6 offset -\nfail 2 faults 6")
TIMED_FAULT = "fault 5 K01 MQTT-3.1.2-20,MQTT-3.2.2-21 decided 5 record 5 offset -\n"
SILENT_FAIL = ASKED.replace("fail 1 faults", f"{TIMED_FAULT}fail 2 faults")
SILENT_ALONE = TIMED_FAULT + "fail 1 faults 5 events\n"
SILENT_ALONE_REASONED = SILENT_ALONE.replace("\nfail", "\nbecause 5 K01 event 4 numbers 76000001 76000000\nfail")
SILENT_REASONED = ASKED_REASONED.replace("fail 1 faults 5 events\n", SILENT_ALONE_REASONED.replace("fail 1", "fail 2"))
SILENT_JSON = (
    '{"events":5,"faults":[{"because":4,"citation":"MQTT-3.1.2-20,MQTT-3.2.2-21","code":"K01","decided":5,"numbers":[76000001,76000000],'
    '"offset":null,"position":5,"record":5}],"verdict":"fail"}\n'
)
SILENT_SUMMARY = (
    "A02 MQTT-4.12.0-7 faults 1 first 5 record 5\nK01 MQTT-3.1.2-20,MQTT-3.2.2-21 faults 1 first 5 record 5\nfail 2 faults 5 events\n"
)
KEPT_OPEN_FAIL = "fault 4 K02 MQTT-3.1.2-22,MQTT-3.2.2-22 decided 4 record 4 offset -\nfail 1 faults 4 events\n"
SUMMARY = "S01 MQTT-2.2.1-3 faults 1 first 5 record 5\nfail 1 faults 5 events\n"
LONG_FAIL = FAIL.replace(" 5 events", " 115 events")
REFUSED = "refused 7 Nested at 13\n"


def covering(report: str, publishes: int) -> str:
    """The report on a client with so many PUBLISHes under one identifier, with what was tested."""
    return occasions.covering(report, occasions.of_publishes(publishes))


# The further statements on a client, with their citations.
FURTHER_OF_CLIENT = {
    "F01": "MQTT-3.2.2-14",
    "F02": "sec-3.2.2.3.11",
    "F03": "sec-3.2.2.3.12",
    "F04": "sec-3.2.2.3.13",
    "V03": "MQTT-4.8.2-1,MQTT-4.8.2-2",
    "V04": "MQTT-3.8.3-4",
    "V06": "sec-3.14.2.1,sec-3.4.2.1",
    "A01": "MQTT-3.1.2-30",
    "A02": "MQTT-4.12.0-7",
    "A03": "MQTT-4.12.0-5,MQTT-4.12.1-1",
}
ON_TIMES_OF_CLIENT = {"K01": "MQTT-3.1.2-20,MQTT-3.2.2-21"}


def covering_all(report: str, publishes: int, auths: int, waits: int | None = None) -> str:
    """The same of one that also sends so many AUTHs, with the further statements too. (An AUTH tests what a PINGREQ does, and A02.) If it
    is said after how many long waits something comes, it is with those on times."""
    *rows, _, gap = occasions.of_publishes(publishes, pings=auths)
    places = {"A02": auths, "K01": waits}
    codes = FURTHER_OF_CLIENT | (ON_TIMES_OF_CLIENT if waits is not None else {})
    rows += [f"tested {code} {citation} places {places.get(code, 0)}" for code, citation in codes.items()]
    return occasions.covering(report, [*rows, occasions.sum_of(rows), gap])


FIRST_LINES = "1 record 1 OPEN\n2 record 2 SENT CONNECT size 15\n3 record 3 RECV CONNACK size 5\n"
FIRST_LONG_LINES = (
    "1 record 1 OPEN\n"
    '2 record 2 SENT CONNECT size 15 client "" clean-start 1 keep-alive 60\n'
    "3 record 3 RECV CONNACK size 5 code 0x00 session-present 0\n"
)
LINES = FIRST_LINES + "4 record 4 SENT PUBLISH size 9 qos 1 dup 0 id 1\n"
MANY_LINES = FIRST_LINES + "".join(f"{at} record 4 SENT PINGREQ size 2\n" for at in range(4, PINGS + 4))
NEAR_LINES = """\
..
4 record 4 SENT PUBLISH size 9 qos 1 dup 0 id 1
5 record 5 SENT PUBLISH size 9 qos 1 dup 0 id 1
  fault S01 MQTT-2.2.1-3 A new PUBLISH, SUBSCRIBE or UNSUBSCRIBE takes no Packet Identifier that is in use. (because of event 4: it holds the identifier)
"""
ASKED_LINES = """\
..
5 record 5 SENT AUTH size 2
  fault A02 MQTT-4.12.0-7 Without an Authentication Method in CONNECT there is no enhanced authentication. (because of event 2: the CONNECT, without an Authentication Method)
"""
SILENT_LINES = f"""\
..
5 record 5 moment 76000001 SENT AUTH size 2
{ASKED_LINES.splitlines()[2]}
  fault K01 MQTT-3.1.2-20,MQTT-3.2.2-21 A client isn't silent for longer than the Keep Alive. (because of event 4: nothing came from the client for 76000001 microseconds, and the limit is 76000000)
"""
TIMED_LINES = """\
1 record 1 moment 0 OPEN
2 record 2 moment 1764176601123456 SENT CONNECT size 15
3 record 3 moment 9223372036854775808 RECV CONNACK size 5
4 record 4 moment 18446744073709551615 SENT PUBLISH size 9 qos 1 dup 0 id 1
5 record 5 moment 10 SENT PUBLISH size 9 qos 1 dup 0 id 1
"""
TIMED_NEAR = "..\n" + "".join(TIMED_LINES.splitlines(keepends=True)[3:]) + NEAR_LINES.splitlines(keepends=True)[3]
# The beginning of a PUBLISH was sent, and that of a PUBACK received, when the connection closed.
CUT = HEADER + OPEN + CONNECT + CONNACK + b"\x02\0\0\0\x05\x32\x0d\0\x01a" + b"\x03\0\0\0\x01\x40" + CLOSE
UNFINISHED = "unfinished sent type PUBLISH size 5 bytes 32 0D 00 01 61 unfinished received type PUBACK size 1 bytes 40"
WRITE_FAILED = "mqjudge: write failed\n"
NO_FILE = "mqjudge: --faults reads the log more than once, so it needs a FILE, not standard input\n"
SAME_FILE = "mqjudge: OUT has to be another file than IN\n"
NO_FAULTS = "mqjudge: --around needs --faults\n"
NO_FAULTS_FOR_ALL = "mqjudge: --all and --times need --faults\n"
CODES = (
    [f"W{n:02}" for n in range(1, 22)]
    + [f"C{n:02}" for n in range(1, 24)]
    + [f"S{n:02}" for n in range(1, 8)]
    + "E1A E1R E1O E2A E2R E2O E3A E3R E3O E4A E4R E5A E5R E6A E6R E7R L1 L2 L3 B01 B02 B03 B04".split()
)
# Those that are judged only on request, and named all the same.
FURTHER = "B05 B06 B07 B08 B09 P01 P02 R01 R02 F01 F02 F03 F04 F05 F06 V03 V04 V06 C24 D01 D02 D03 D05 A01 A02 A03".split()
ON_TIMES = ["K01", "K02"]
FURTHER_ROWS = """\
B05 server sec-3.9.3 A SUBACK grants no more than was asked for.
B06 server MQTT-3.10.4-1 No UNSUBACK says of a subscription that it doesn't exist.
B07 server sec-3.11.3 No UNSUBACK says that a filter was deleted which was never subscribed.
B08 server MQTT-3.3.2-3 A PUBLISH from the server matches a subscription, where some are shared.
B09 server MQTT-3.8.4-8,MQTT-4.8.2-3 A PUBLISH isn't at a QoS above what was granted, where some are shared.
P01 server sec-3.3.4 A Subscription Identifier of a PUBLISH is that of a matching subscription.
P02 server MQTT-3.3.4-3 A PUBLISH has a Subscription Identifier, if each matching subscription has.
R01 server MQTT-3.3.1-11,MQTT-3.3.1-12 RETAIN is 0 where no matching subscription asks for anything else.
R02 server sec-4.8.2 No retained message is sent for a shared subscription.
F01 client MQTT-3.2.2-14 A new PUBLISH has RETAIN 0 where Retain Available is 0.
F02 client sec-3.2.2.3.11 No filter has a wildcard where the server takes none.
F03 client sec-3.2.2.3.12 No SUBSCRIBE has a Subscription Identifier where the server takes none.
F04 client sec-3.2.2.3.13 No SUBSCRIBE has a shared filter where the server takes none.
F05 server MQTT-3.2.2-12 A Will QoS above the announced Maximum QoS is refused.
F06 server MQTT-3.2.2-13 A Will with Will Retain 1 is refused where Retain Available is 0.
V03 client MQTT-4.8.2-1,MQTT-4.8.2-2 A shared filter has a name without wildcards, and a filter after it.
V04 client MQTT-3.8.3-4 No Local is 0 for a shared filter.
V06 both sec-3.14.2.1,sec-3.4.2.1;sec-3.14.2.1 A Reason Code is one that this end may send.
C24 server MQTT-3.1.4-5 A CONNECT is answered by a CONNACK, if the connection stays open.
D01 server MQTT-4.13.1-1 After a Malformed Packet the server closes the connection.
D02 server MQTT-3.1.0-2 After a second CONNECT the server closes the connection.
D03 server MQTT-4.13.1-1 After a Protocol Error the server closes the connection.
D05 server sec-3.3.4 After more QoS 2 PUBLISHes than its Receive Maximum the server closes.
A01 client MQTT-3.1.2-30 A client that uses an Authentication Method sends only AUTH and DISCONNECT before a CONNACK was received.
A02 both MQTT-4.12.0-7;MQTT-4.12.0-6 Without an Authentication Method in CONNECT there is no enhanced authentication.
A03 both MQTT-4.12.0-5,MQTT-4.12.1-1;MQTT-4.12.0-5 AUTH and an accepting CONNACK have the Authentication Method of the CONNECT.
"""
ON_TIMES_ROWS = """\
K01 client MQTT-3.1.2-20,MQTT-3.2.2-21 A client isn't silent for longer than the Keep Alive.
K02 server MQTT-3.1.2-22,MQTT-3.2.2-22 A server closes the connection of a client that is silent.
"""
OF_CLIENT = """\
F01 client MQTT-3.2.2-14 A new PUBLISH has RETAIN 0 where Retain Available is 0.
F02 client sec-3.2.2.3.11 No filter has a wildcard where the server takes none.
F03 client sec-3.2.2.3.12 No SUBSCRIBE has a Subscription Identifier where the server takes none.
F04 client sec-3.2.2.3.13 No SUBSCRIBE has a shared filter where the server takes none.
V03 client MQTT-4.8.2-1,MQTT-4.8.2-2 A shared filter has a name without wildcards, and a filter after it.
V04 client MQTT-3.8.3-4 No Local is 0 for a shared filter.
V06 both sec-3.14.2.1,sec-3.4.2.1 A Reason Code is one that this end may send.
A01 client MQTT-3.1.2-30 A client that uses an Authentication Method sends only AUTH and DISCONNECT before a CONNACK was received.
A02 both MQTT-4.12.0-7 Without an Authentication Method in CONNECT there is no enhanced authentication.
A03 both MQTT-4.12.0-5,MQTT-4.12.1-1 AUTH and an accepting CONNACK have the Authentication Method of the CONNECT.
"""


def rows_of(families: str, rows: str) -> str:
    """The rows of these families."""
    return "".join(row for row in rows.splitlines(keepends=True) if row[0] in families)


NO_X99 = f"""\
mqjudge: no statement X99
mqjudge: there are {" ".join(CODES + FURTHER + ON_TIMES)}, and citations such as MQTT-4.4.0-1: see mqjudge rules
"""
SETS, LETTERS = "default, all, times", "and a family for each letter that codes begin with: see mqjudge rules --times"
CHOICES = f"mqjudge: there are {SETS}, {' '.join(CODES + FURTHER + ON_TIMES)}, {LETTERS}\n"
NO_CHOICE = f"mqjudge: --statements leaves no statement\n{CHOICES}"
TWO_CHOICES = "mqjudge: --all, --times and --statements choose statements: give one of them\n"
NO_BROKER = "mqjudge: no role broker\nmqjudge: there are client and server\n"
CAPTURE_HINT = "mqjudge: it is a capture: recorders/from-capture makes logs of it\n"
GZIP_HINT = "mqjudge: it is compressed by gzip: unpack it first; of a capture recorders/from-capture makes logs\n"
NO_FILE_FOR_WHY = "mqjudge: --why may read the log twice, so it needs a FILE, not standard input\n"
TWO_REPORTS = "mqjudge: --why and --coverage are two reports: ask for one at a time\n"
CHANGED = "mqjudge: the log changed between two readings\n"
NOT_UTF8 = "a word isn't UTF-8; give a file of that name on standard input: mqjudge check < FILE"
LONG_NAME = 300 * "x" + ".log"


def unread(place: str, reason: str) -> str:
    """The lines on what can't be read."""
    return f"mqjudge: read failed\nmqjudge: {place}: {reason}\n"


def no_statements(word: str) -> str:
    """The lines on a word of a list that names none."""
    return f"mqjudge: no statements {word}\n{CHOICES}"


def odd(place: int, character: str) -> str:
    """The line on a character that is no digit."""
    return f"mqjudge: character {place}, {character}, is no hexadecimal digit\n"


def no_digit(place: int, last: str) -> str:
    """The line on a digit that is missing."""
    return f"mqjudge: a digit is missing after character {place}, `{last}`\n"


def missing(path: str) -> str:
    return unread(path, "there is no such file")


def there(path: str) -> str:
    """The lines on a file that isn't made, since it is there."""
    return f"mqjudge: OUT exists: {path}\nmqjudge: with --force it is emptied and written\n"


def directory(place: str) -> str:
    return unread(place, "it is a directory")


@dataclass
class Run:
    """The words, what they are to give, the standard input, and the bytes of files afterwards, `None` for one that isn't to be there.

    The files of `FILES` lie where it runs.
    """

    words: list[str | bytes]
    status: int
    output: str = ""
    errors: str = ""
    stdin: bytes | Path = b""
    files: dict[str, bytes | None] = field(default_factory=dict)


PCAP = b"\xd4\xc3\xb2\xa1\x02\x00\x04\x00" + 16 * b"\x00"
FINE_PCAP = b"\x4d\x3c\xb2\xa1\x02\x00\x04\x00" + 16 * b"\x00"
PCAPNG = b"\x0a\x0d\x0d\x0a\x1c\x00\x00\x00"
GZIPPED = gzip.compress(GOOD)

FILES = {"good.log": GOOD, "faulty.log": FAULTY, "nested.log": NESTED, "short.log": GOOD[:-1], "many.log": MANY, "-": FAULTY}
FILES |= {"timed.log": TIMED, "long.log": LONG, "short-moment.log": TIMED[:20]}
FILES |= {"a.pcap": PCAP, "fine.pcap": FINE_PCAP, "a.pcapng": PCAPNG, "good.log.gz": GZIPPED, "short.gz": GZIPPED[:2], "two.log": b"MQ"}
FILES |= {"unasked.log": UNASKED, "twice.log": FAULTY_TWICE, "silent.log": SILENT, "in-time.log": IN_TIME, "kept-open.log": KEPT_OPEN}
FILES |= {"unfinished.log": CUT, "good-2.log": GOOD_2, "old.log": MANY, "dash.log": MANY, "kept.log": MANY, "copy.log": GOOD}

RUNS = [
    # A file is read, and not standard input.
    Run(["check", "good.log"], 0, PASS, stdin=FAULTY),
    Run(["check", "faulty.log"], 1, FAIL, stdin=GOOD),
    Run(["check", "nested.log"], 2, REFUSED, stdin=GOOD),
    Run(["check", "short.log"], 2, f"refused 10 Cut at {len(GOOD) - 1}\n"),
    Run(["check", "many.log"], 0, f"pass {PINGS + 3} events\n"),
    Run(["show", "good.log"], 0, LINES, stdin=NESTED),
    Run(["show", "nested.log"], 2, "1 record 1 OPEN\n" + REFUSED, stdin=GOOD),
    Run(["show", "many.log"], 0, MANY_LINES),
    # At a CLOSE it says which packets weren't whole, if more is asked for than the events.
    Run(["show"], 0, FIRST_LINES + "4 record 6 CLOSE\n", stdin=CUT),
    Run(["show", "--long"], 0, FIRST_LONG_LINES + f"4 record 6 CLOSE {UNFINISHED}\n", stdin=CUT),
    Run(["show", "--faults", "unfinished.log"], 0, FIRST_LINES + f"4 record 6 CLOSE {UNFINISHED}\n"),
    # Logs of version 2 have moments.
    Run(["check", "timed.log"], 1, FAIL),
    Run(["show", "timed.log"], 0, TIMED_LINES),
    Run(["show", "--faults", "--around", "1", "timed.log"], 0, TIMED_NEAR),
    Run(["check", "long.log"], 0, f"pass {LONG_PINGS + 3} events\n"),
    Run(["check"], 2, "refused 6 Length at 17\n", stdin=HEADER + OPEN + LONG_HEAD + b"\xc0\x00" * LONG_PINGS),
    Run(["check", "short-moment.log"], 2, "refused 10 Cut at 20\n"),
    # What was tested is said before the last line, and nothing of a log that is refused.
    Run(["check", "--coverage", "good.log"], 0, covering(PASS, 1), stdin=FAULTY),
    Run(["check", "faulty.log", "--coverage"], 1, covering(FAIL, 2), stdin=GOOD),
    Run(["check", "--coverage", "--summary"], 1, covering(SUMMARY, 2), stdin=FAULTY),
    Run(["check", "--coverage", "timed.log"], 1, covering(FAIL, 2)),
    Run(["check", "--coverage", "nested.log"], 2, REFUSED, stdin=GOOD),
    Run(["check", "--coverage", "short.log"], 2, f"refused 10 Cut at {len(GOOD) - 1}\n"),
    Run(["check", "--coverage", "missing.log"], 4, errors=missing("missing.log"), stdin=GOOD),
    Run(["check", "--coverage"], 4, errors=directory("standard input"), stdin=Path(".")),
    Run(["check", "--coverage", "a.pcap"], 2, "refused 1 Header at 0\n", CAPTURE_HINT),
    Run(["show", "--coverage", "good.log"], 3, errors=FOR_CHECK_ALONE),
    Run(["check", "--coverage", "--coverage", "good.log"], 3, errors=TWICE),
    # What a fault conflicts with is said after it, by a second reading of the file.
    Run(["check", "--why", "good.log"], 0, PASS, stdin=FAULTY),
    Run(["check", "faulty.log", "--why"], 1, REASONED, stdin=GOOD),
    Run(["check", "--why", "./-"], 1, REASONED, stdin=GOOD),
    Run(["check", "--why", "timed.log"], 1, REASONED),
    Run(["check", "--why", "--json", "--summary", "faulty.log"], 1, REASONED_JSON),
    Run(["check", "--summary", "--why", "faulty.log"], 1, SUMMARY),
    Run(["check", "--why", "nested.log"], 2, REFUSED, stdin=GOOD),
    Run(["check", "--why", "short.log"], 2, f"refused 10 Cut at {len(GOOD) - 1}\n"),
    Run(["check", "--why", "a.pcap"], 2, "refused 1 Header at 0\n", CAPTURE_HINT),
    Run(["check", "--why"], 3, errors=NO_FILE_FOR_WHY, stdin=GOOD),
    Run(["check", "--why", "-"], 3, errors=NO_FILE_FOR_WHY, stdin=Path("good.log")),
    Run(["check", "--coverage", "--why", "good.log"], 3, errors=TWO_REPORTS),
    Run(["check", "--why", "--coverage"], 3, errors=TWO_REPORTS, stdin=GOOD),
    Run(["show", "--why", "good.log"], 3, errors=FOR_CHECK_ALONE.replace("--coverage", "--why")),
    Run(["check", "--why", "missing.log"], 4, errors=missing("missing.log"), stdin=GOOD),
    Run(["check", "--why", "."], 4, errors=directory("."), stdin=GOOD),
    # (By its path, standard input can be read twice if it is a file. A pipe is empty then, as if a file had changed.)
    Run(["check", "--why", "/dev/stdin"], 1, REASONED, stdin=Path("faulty.log")),
    Run(["check", "--why", "/dev/stdin"], 0, PASS, stdin=GOOD),
    Run(["check", "--why", "/dev/stdin"], 4, errors=CHANGED, stdin=FAULTY),
    Run(["show", "--faults", "/dev/stdin"], 4, errors=CHANGED, stdin=FAULTY),
    # Further statements are judged only if that is asked for.
    Run(["check", "unasked.log"], 0, "pass 5 events\n", stdin=FAULTY),
    Run(["check", "--all", "unasked.log"], 1, ASKED, stdin=GOOD),
    Run(["check", "--all"], 1, ASKED, stdin=UNASKED),
    Run(["check", "--all", "good.log"], 0, PASS, stdin=UNASKED),
    Run(["check", "faulty.log", "--all"], 1, FAIL, stdin=GOOD),
    Run(["check", "--all", "twice.log"], 1, ASKED_TWICE, stdin=GOOD),
    Run(["check", "--json", "--all", "unasked.log"], 1, ASKED_JSON),
    Run(["check", "--all", "--summary", "unasked.log"], 1, "A02 MQTT-4.12.0-7 faults 1 first 5 record 5\nfail 1 faults 5 events\n"),
    Run(["check", "--all", "--coverage", "unasked.log"], 1, covering_all(ASKED, 1, 1), stdin=GOOD),
    Run(["check", "--coverage", "--all"], 1, covering_all(FAIL, 2, 0), stdin=FAULTY),
    Run(["check", "--all", "--why", "unasked.log"], 1, ASKED_REASONED, stdin=GOOD),
    Run(["check", "--why", "unasked.log"], 0, "pass 5 events\n", stdin=FAULTY),
    Run(["check", "--all", "nested.log"], 2, REFUSED, stdin=GOOD),
    Run(["check", "--all", "missing.log"], 4, errors=missing("missing.log"), stdin=GOOD),
    Run(["check", "--all", "--why"], 3, errors=NO_FILE_FOR_WHY, stdin=UNASKED),
    Run(["check", "--why", "--coverage", "--all", "unasked.log"], 3, errors=TWO_REPORTS),
    Run(["show", "--faults", "--all", "--around", "0", "unasked.log"], 0, ASKED_LINES, stdin=GOOD),
    Run(["show", "--faults", "--around", "0", "unasked.log"], 0, "..\n", stdin=GOOD),
    Run(["show", "--all", "unasked.log"], 3, errors=NO_FAULTS_FOR_ALL),
    Run(["show", "--all", "--long"], 3, errors=NO_FAULTS_FOR_ALL, stdin=GOOD),
    Run(["show", "--all", "--around", "1", "unasked.log"], 3, errors=NO_FAULTS),
    Run(["show", "--all", "--faults"], 3, errors=NO_FILE, stdin=GOOD),
    Run(["check", "--all", "--all", "good.log"], 3, errors=TWICE.replace("--coverage", "--all")),
    # Those on times only if they are asked for too: what `--all` says stays.
    Run(["check", "silent.log"], 0, "pass 5 events\n", stdin=FAULTY),
    Run(["check", "--all", "silent.log"], 1, ASKED),
    Run(["check", "--times", "silent.log"], 1, SILENT_FAIL, stdin=GOOD),
    Run(["check", "--times"], 1, SILENT_FAIL, stdin=SILENT),
    Run(["check", "--times", "--all", "silent.log"], 1, SILENT_FAIL),
    Run(["check", "--all", "--times", "silent.log"], 1, SILENT_FAIL),
    Run(["check", "--times", "in-time.log"], 1, FAIL),
    Run(["check", "--times", "kept-open.log"], 1, KEPT_OPEN_FAIL),
    Run(["check", "--all", "kept-open.log"], 0, "pass 4 events\n"),
    Run(["check", "--times", "unasked.log"], 1, ASKED),
    Run(["check", "--times", "good-2.log"], 0, PASS),
    # (There the moments of the CONNACK and of the first PUBLISH are 2^63 apart.)
    Run(["check", "--times", "timed.log"], 1, TIMED_FAULT.replace("5", "4") + FAIL.replace("fail 1", "fail 2")),
    Run(["check", "--summary", "--times", "silent.log"], 1, SILENT_SUMMARY),
    Run(["check", "--times", "--coverage", "silent.log"], 1, covering_all(SILENT_FAIL, 1, 1, waits=1)),
    Run(["check", "--coverage", "--times", "in-time.log"], 1, covering_all(FAIL, 2, 0, waits=1)),
    Run(["check", "--coverage", "--times", "unasked.log"], 1, covering_all(ASKED, 1, 1, waits=0)),
    Run(["check", "--coverage", "--all", "silent.log"], 1, covering_all(ASKED, 1, 1)),
    Run(["check", "--times", "--why", "silent.log"], 1, SILENT_REASONED, stdin=GOOD),
    Run(["check", "--times", "nested.log"], 2, REFUSED, stdin=GOOD),
    Run(["check", "--times", "missing.log"], 4, errors=missing("missing.log"), stdin=GOOD),
    Run(["check", "--times", "--why"], 3, errors=NO_FILE_FOR_WHY, stdin=SILENT),
    Run(["check", "--why", "--coverage", "--times", "silent.log"], 3, errors=TWO_REPORTS),
    Run(["show", "--faults", "--times", "--around", "0", "silent.log"], 0, SILENT_LINES, stdin=GOOD),
    Run(["show", "--faults", "--all", "--times", "--around", "0", "silent.log"], 0, SILENT_LINES, stdin=GOOD),
    Run(["show", "--faults", "--around", "0", "silent.log"], 0, "..\n", stdin=GOOD),
    Run(["show", "--times", "silent.log"], 3, errors=NO_FAULTS_FOR_ALL),
    Run(["show", "--all", "--times", "--long"], 3, errors=NO_FAULTS_FOR_ALL, stdin=GOOD),
    Run(["show", "--times", "--around", "1", "silent.log"], 3, errors=NO_FAULTS),
    Run(["show", "--times", "--faults"], 3, errors=NO_FILE, stdin=GOOD),
    Run(["check", "--times", "--times", "good.log"], 3, errors=TWICE.replace("--coverage", "--times")),
    # Only the faults of the statements that a list chooses are reported; one on all of them judges the further ones too.
    Run(["check", "--statements", "S", "faulty.log"], 1, FAIL, stdin=GOOD),
    Run(["check", "--statements", "S01", "twice.log"], 1, FAIL.replace(" 5 events", " 6 events")),
    Run(["check", "--statements", "all", "twice.log"], 1, ASKED_TWICE),
    Run(["check", "--statements", "default", "twice.log"], 1, FAIL.replace(" 5 events", " 6 events")),
    Run(["check", "--statements", "default,F,-W13", "faulty.log"], 1, FAIL),
    Run(["check", "--statements=-S01", "faulty.log"], 0, "pass 5 events\n", stdin=NESTED),
    Run(["check", "--statements=-S,A"], 1, ASKED, stdin=UNASKED),
    Run(["check", "--statements", "all,-A", "unasked.log"], 0, "pass 5 events\n"),
    Run(["check", "--statements", "W,-W,S01", "--summary", "faulty.log"], 1, SUMMARY),
    Run(["check", "--json", "--statements", "A02", "unasked.log"], 1, ASKED_JSON),
    Run(["check", "--statements", "S01", "--why", "faulty.log"], 1, REASONED, stdin=GOOD),
    Run(["check", "--why", "--statements", "A", "unasked.log"], 1, ASKED_REASONED),
    Run(["check", "--why", "--statements", "C", "faulty.log"], 0, "pass 5 events\n"),
    Run(["check", "--statements", "times", "silent.log"], 1, SILENT_FAIL),
    Run(["check", "--statements", "all", "silent.log"], 1, ASKED),
    Run(["check", "--statements", "default,K", "silent.log"], 1, SILENT_ALONE),
    Run(["check", "--statements", "times,-all", "silent.log"], 1, SILENT_ALONE),
    Run(["check", "--statements", "K02,S", "silent.log"], 0, "pass 5 events\n"),
    Run(["check", "--statements", "K,all,-A", "--why", "silent.log"], 1, SILENT_ALONE_REASONED),
    Run(["check", "--json", "--statements", "K01", "--why", "silent.log"], 1, SILENT_JSON),
    Run(["check", "--statements", "K,-times", "silent.log"], 3, errors=NO_CHOICE),
    Run(["check", "--statements", "time", "silent.log"], 3, errors=no_statements("time")),
    Run(["check", "--statements", "K1", "silent.log"], 3, errors=no_statements("K1")),
    Run(["check", "--statements", "C", "nested.log"], 2, REFUSED, stdin=GOOD),
    Run(["check", "--statements", "C", "missing.log"], 4, errors=missing("missing.log")),
    Run(["check", "--statements", "S,X9", "missing.log"], 3, errors=no_statements("X9")),
    Run(["check", "--statements", "s01"], 3, errors=no_statements("s01"), stdin=GOOD),
    Run(["check", "--statements", "W1", "good.log"], 3, errors=no_statements("W1")),
    Run(["check", "--statements", "default,", "good.log"], 3, errors=no_statements("")),
    Run(["check", "--statements", "", "good.log"], 3, errors=no_statements("")),
    Run(["check", "--statements=-all", "good.log"], 3, errors=NO_CHOICE),
    Run(["check", "--statements", "S01,-S", "--why", "good.log"], 3, errors=NO_CHOICE),
    Run(["check", "--statements", "é", "--why"], 3, errors=no_statements("é"), stdin=GOOD),
    Run(["check", "--all", "--statements", "W", "good.log"], 3, errors=TWO_CHOICES),
    Run(["check", "--statements", "X9", "--all", "--why", "good.log"], 3, errors=TWO_CHOICES),
    Run(["check", "--times", "--statements", "W", "good.log"], 3, errors=TWO_CHOICES),
    Run(["check", "--times", "--statements", "X9", "--all", "good.log"], 3, errors=TWO_CHOICES),
    Run(["check", "--coverage", "--why", "--statements", "X9"], 3, errors=TWO_REPORTS, stdin=GOOD),
    Run(["rules", "--statements", "all,-default"], 0, FURTHER_ROWS),
    Run(["rules", "--statements", "F,V,A"], 0, rows_of("FVA", FURTHER_ROWS)),
    Run(["rules", "--statements", "D"], 0, rows_of("D", FURTHER_ROWS)),
    Run(["rules", "--role", "client", "--statements", "all,-default"], 0, OF_CLIENT),
    Run(["rules", "--statements=-F,X"], 3, errors=no_statements("X")),
    Run(["rules", "--role", "broker", "--statements", "S,-S"], 3, errors=NO_CHOICE),
    Run(["rules", "--all", "--statements", "S"], 3, errors=TWO_CHOICES),
    Run(["rules", "--statements", "times,-all"], 0, ON_TIMES_ROWS),
    Run(["rules", "--statements", "K"], 0, ON_TIMES_ROWS),
    Run(["rules", "--statements", "times,-default"], 0, FURTHER_ROWS + ON_TIMES_ROWS),
    Run(["rules", "--role", "server", "--statements", "K"], 0, ON_TIMES_ROWS.splitlines(keepends=True)[1]),
    Run(["rules", "--times", "--statements", "S"], 3, errors=TWO_CHOICES),
    # Without a file, or with `-`, standard input is.
    Run(["check"], 0, PASS, stdin=GOOD),
    Run(["check"], 1, FAIL, stdin=FAULTY),
    Run(["check"], 2, REFUSED, stdin=NESTED),
    Run(["check"], 2, "refused 10 Cut at 0\n"),
    Run(["check", "-"], 0, PASS, stdin=GOOD),
    Run(["check", "--", "-"], 0, PASS, stdin=GOOD),
    Run(["check", "./-"], 1, FAIL, stdin=GOOD),
    Run(["show"], 0, LINES, stdin=GOOD),
    Run(["show"], 2, "1 record 1 OPEN\n" + REFUSED, stdin=NESTED),
    Run(["show"], 0, MANY_LINES, stdin=MANY),
    Run(["show", "-"], 0, LINES, stdin=GOOD),
    Run(["check"], 0, PASS, stdin=Path("good.log")),
    Run(["show", "-"], 0, LINES, stdin=Path("good.log")),
    # A log that is shown with its faults is read more than once.
    Run(["show", "--faults", "good.log"], 0, LINES, stdin=FAULTY),
    Run(["show", "--faults", "--around", "1", "faulty.log"], 0, NEAR_LINES, stdin=GOOD),
    Run(["show", "--around=0", "--faults", "--long", "many.log"], 0, "..\n"),
    Run(["show", "--faults", "nested.log"], 2, REFUSED, stdin=GOOD),
    Run(["show", "--faults", "./-", "--around", "1"], 0, NEAR_LINES, stdin=GOOD),
    Run(["show", "--faults"], 3, errors=NO_FILE, stdin=GOOD),
    Run(["show", "--faults", "-"], 3, errors=NO_FILE, stdin=Path("good.log")),
    Run(["show", "--around", "1", "good.log"], 3, errors=NO_FAULTS),
    Run(["show", "--all", "good.log"], 3, errors=NO_FAULTS_FOR_ALL),
    Run(["show", "--times", "good.log"], 3, errors=NO_FAULTS_FOR_ALL),
    Run(["show", "--faults", "--around", "x", "good.log"], 3, errors="mqjudge: no number x\n"),
    # The file is taken for the number.
    Run(["show", "--faults", "--around", "bad.log"], 3, errors="mqjudge: no number bad.log\n"),
    # What can't be opened or read.
    Run(["check", "missing.log"], 4, errors=missing("missing.log"), stdin=GOOD),
    Run(["show", "missing.log"], 4, errors=missing("missing.log"), stdin=GOOD),
    Run(["show", "--faults", "missing.log"], 4, errors=missing("missing.log"), stdin=GOOD),
    Run(["check", "é/missing.log"], 4, errors=missing("é/missing.log"), stdin=GOOD),
    Run(["show", "--faults", "."], 4, errors=directory("."), stdin=GOOD),
    # (An empty word is a path too, of no file.)
    Run(["check", ""], 4, errors=missing(""), stdin=GOOD),
    Run(["check", "."], 4, errors=directory("."), stdin=GOOD),
    Run(["show", "."], 4, errors=directory("."), stdin=GOOD),
    Run(["check"], 4, errors=directory("standard input"), stdin=Path(".")),
    Run(["show"], 4, errors=directory("standard input"), stdin=Path(".")),
    Run(["check", "good.log/a"], 4, errors=unread("good.log/a", "part of its path isn't a directory"), stdin=GOOD),
    Run(["check", LONG_NAME], 4, errors=unread(LONG_NAME, "its name is too long"), stdin=GOOD),
    Run(["check", "loop.log"], 4, errors=unread("loop.log", "its symbolic links lead back to themselves"), stdin=GOOD),
    Run(["check", b"\xff.log"], 4, errors=unread("the command line", NOT_UTF8), stdin=GOOD),
    # Files that aren't logs.
    Run(["check", "a.pcap"], 2, "refused 1 Header at 0\n", CAPTURE_HINT),
    Run(["check"], 2, "refused 1 Header at 0\n", CAPTURE_HINT, stdin=Path("a.pcap")),
    Run(["show", "a.pcapng"], 2, "refused 1 Header at 0\n", CAPTURE_HINT),
    Run(["show", "--faults", "a.pcap"], 2, "refused 1 Header at 0\n", CAPTURE_HINT),
    Run(["check", "fine.pcap"], 2, "refused 1 Header at 1\n", CAPTURE_HINT),
    Run(["check", "good.log.gz"], 2, "refused 1 Header at 0\n", GZIP_HINT),
    Run(["check", "--json", "-"], 2, '{"at":0,"name":"Header","refused":1}\n', GZIP_HINT, stdin=GZIPPED),
    Run(["check", "short.gz"], 2, "refused 1 Header at 0\n", GZIP_HINT),
    Run(["check", "two.log"], 2, "refused 10 Cut at 2\n"),
    Run(["check"], 2, "refused 1 Header at 0\n", stdin=b"GET / HTTP/1.1"),
    # A file is made, and nothing is printed.
    Run(["convert", "good.log", "made.log"], 0, files={"made.log": GOOD_2, "good.log": GOOD}),
    Run(["convert", "many.log", "many-2.log"], 0, files={"many-2.log": MANY_2}),
    # One that is there is emptied and written only if that is asked for.
    Run(["convert", "good.log", "old.log"], 3, errors=there("old.log"), files={"old.log": MANY}),
    Run(["convert", "--force", "good.log", "old.log"], 0, files={"old.log": GOOD_2}),
    Run(["convert", "good.log", "new.log", "--force"], 0, files={"new.log": GOOD_2}),
    Run(["convert", "-", "dash.log"], 3, errors=there("dash.log"), stdin=GOOD, files={"dash.log": MANY}),
    Run(["convert", "-", "dash.log", "--force"], 0, stdin=GOOD, files={"dash.log": GOOD_2, "-": FAULTY}),
    Run(["convert", "good.log", "./good.log"], 3, errors=there("./good.log"), files={"good.log": GOOD}),
    Run(["convert", "good.log", "loop.log"], 3, errors=there("loop.log")),
    Run(["convert", "good.log", "."], 3, errors=there(".")),
    Run(["convert", "good.log", "/dev/null"], 3, errors=there("/dev/null")),
    Run(["convert", "--force", "good.log", "/dev/null"], 0),
    # Nothing is asked for that would empty the log, by whatever name.
    Run(["convert", "--force", "good.log", "good.log"], 3, errors=SAME_FILE, files={"good.log": GOOD}),
    Run(["convert", "--force", "good.log", "./good.log"], 3, errors=SAME_FILE, files={"good.log": GOOD}),
    Run(["convert", "--force", "good.log", "symbolic.log"], 3, errors=SAME_FILE, files={"good.log": GOOD}),
    Run(["convert", "--force", "symbolic.log", "good.log"], 3, errors=SAME_FILE, files={"good.log": GOOD}),
    Run(["convert", "--force", "good.log", "hard.log"], 3, errors=SAME_FILE, files={"good.log": GOOD}),
    Run(["convert", "--force", "-", "hard.log"], 3, errors=SAME_FILE, stdin=Path("good.log"), files={"good.log": GOOD}),
    # Another file with the same bytes isn't the log.
    Run(["convert", "--force", "good.log", "copy.log"], 0, files={"copy.log": GOOD_2, "good.log": GOOD}),
    Run(["check", "made.log"], 0, PASS),
    # Nor is anything changed for a log that is refused for its header.
    Run(["convert", "good-2.log", "none.log"], 2, "refused 2 Version at 4\n", files={"none.log": None}),
    Run(["convert", "--force", "good-2.log", "kept.log"], 2, "refused 2 Version at 4\n", files={"kept.log": MANY}),
    Run(["convert", "--force", "two.log", "kept.log"], 2, "refused 10 Cut at 2\n", files={"kept.log": MANY}),
    Run(["convert", "--force", "-", "kept.log"], 2, "refused 10 Cut at 0\n", files={"kept.log": MANY}),
    Run(["convert", "good-2.log", "kept.log"], 2, "refused 2 Version at 4\n", files={"kept.log": MANY}),
    Run(["convert", "--force", "missing.log", "kept.log"], 4, errors=missing("missing.log"), files={"kept.log": MANY}),
    Run(["convert", "-", "eight.log"], 0, stdin=HEADER, files={"eight.log": HEADER_2}),
    Run(["convert", "nested.log", "part.log"], 2, REFUSED, files={"part.log": HEADER_2 + timed(OPEN)}),
    Run(["convert", "short.log", "cut.log"], 2, f"refused 10 Cut at {len(GOOD) - 1}\n", files={"cut.log": GOOD_2[:-1]}),
    Run(["convert", "--force", "nested.log", "part.log"], 2, REFUSED, files={"part.log": HEADER_2 + timed(OPEN)}),
    Run(["convert", "a.pcap", "none.log"], 2, "refused 1 Header at 0\n", CAPTURE_HINT, files={"none.log": None}),
    # None is if the log can't be opened or read, or has the same name.
    Run(["convert", "missing.log", "unmade.log"], 4, errors=missing("missing.log"), files={"unmade.log": None}),
    Run(["convert", ".", "unmade.log"], 4, errors=directory("."), files={"unmade.log": None}),
    Run(["convert", "--force", "good.log", "."], 4, errors=WRITE_FAILED),
    Run(["convert", "good.log", "missing/made.log"], 4, errors=WRITE_FAILED),
    Run(["convert", "--force", "good.log", "/dev/full"], 4, errors=WRITE_FAILED),
    Run(["convert", "--force", "many.log", "/dev/full"], 4, errors=WRITE_FAILED),
    Run(["convert", "good.log", "good.log"], 3, errors=SAME_FILE, files={"good.log": GOOD}),
    Run(["convert", "-", "-"], 3, errors=SAME_FILE, stdin=GOOD, files={"-": FAULTY}),
    Run(["convert", "good.log"], 3, errors=NO_OUT),
    # A packet's bytes are in the words.
    Run(["packet", "40020001"], 0, "PUBACK size 4 id 1\n", stdin=NESTED),
    Run(["packet", "41020001"], 1, "BAD W01 offset 0\n"),
    Run(["packet", ""], 1, "need more bytes\n"),
    Run(["packet", "4002000"], 3, errors=no_digit(7, "0")),
    Run(["packet", "4002000g"], 3, errors=odd(8, "`g`")),
    Run(["packet", "40 02 00 01"], 0, "PUBACK size 4 id 1\n"),
    Run(["packet", "40", "02", "00", "01"], 0, "PUBACK size 4 id 1\n"),
    Run(["packet", "40:02:00:01"], 0, "PUBACK size 4 id 1\n"),
    Run(["packet", "0x40,", "0x02,", "0x00,", "0x01"], 0, "PUBACK size 4 id 1\n"),
    Run(["packet", "40 02\n00 01\n"], 0, "PUBACK size 4 id 1\n"),
    Run(["packet", "4", "0020001"], 3, errors=odd(2, "` `")),
    Run(["packet", "40\u00a002"], 3, errors=odd(3, "byte 0xC2")),
    # Or on standard input.
    Run(["packet", "-"], 0, "PUBACK size 4 id 1\n", stdin=b"40020001"),
    Run(["packet", "-"], 0, "PUBACK size 4 id 1\n", stdin=b"0x40, 0x02,\r\n0x00, 0x01\r\n"),
    Run(["packet", "-"], 1, "BAD W01 offset 0\n", stdin=b"41:02:00:01\n"),
    Run(["packet", "-"], 1, "need more bytes\n", stdin=b""),
    Run(["packet", "-"], 3, errors=odd(4, "`x`"), stdin=b"40 x2\n"),
    Run(["packet", "-"], 3, errors=odd(3, "byte 0xFF"), stdin=b"40\xff"),
    Run(["packet", "-"], 4, errors=directory("standard input"), stdin=Path(".")),
    Run(["packet", "-"], 0, "PUBLISH size 16777216 qos 0 dup 0\n", stdin=LARGEST_TEXT),
    Run(["packet", "-"], 3, errors=TOO_LONG, stdin=b" " * (MOST_TEXT + 1)),
    Run(["packet", "-"], 1, "need more bytes\n", stdin=b" " * MOST_TEXT),
    # Words that name nothing.
    Run(["explain", "X99"], 3, errors=NO_X99),
    Run(["rules", "--role", "broker"], 3, errors=NO_BROKER),
    # Help and the version are for standard output, a misuse is for standard error.
    Run(["--help"], 0, HELP),
    Run(["help"], 0, HELP),
    Run(["check", "--help"], 0, CHECK_HELP),
    Run(["show", "--help"], 0, SHOW_HELP),
    Run(["rules", "--help"], 0, RULES_HELP),
    Run(["convert", "--help"], 0, CONVERT_HELP),
    Run(["--version"], 0, VERSION),
    Run(["-V"], 0, VERSION),
    Run(["check", "good.log", "b"], 3, errors=FURTHER_OPERAND),
    Run(["check", "-", "b"], 3, errors=FURTHER_OPERAND, stdin=GOOD),
    Run(["judge"], 3, errors=UNKNOWN_WORD),
    Run([], 3, errors=NO_WORD),
    Run(["packet"], 3, errors=NO_OPERAND),
]

# Where standard output takes nothing: the words. On a full disk a line says so; a reader that has gone needs none.
UNWRITTEN = [
    ["check", "good.log"],
    ["check", "--coverage", "good.log"],
    ["check", "--coverage", "nested.log"],
    ["check", "faulty.log"],
    ["check", "--why", "faulty.log"],
    ["check", "--all", "unasked.log"],
    ["check", "--times", "silent.log"],
    ["check", "nested.log"],
    ["show", "good.log"],
    ["show", "nested.log"],
    ["show", "many.log"],
    ["show", "--faults", "faulty.log"],
    ["show", "--faults", "nested.log"],
    ["convert", "--force", "nested.log", "part.log"],
    ["convert", "good-2.log", "none.log"],
    ["packet", "40020001"],
    ["packet", "41020001"],
    ["rules"],
    ["rules", "--all"],
    ["rules", "--times"],
    ["explain", "S01"],
    ["explain", "F05"],
    ["--help"],
    ["--version"],
]

# Where standard error takes nothing: the words, and the status.
UNTOLD = [
    (["judge"], 4),
    ([], 4),
    (["packet", "4"], 4),
    (["show", "--faults"], 4),
    (["check", "--why"], 4),
    (["check", "--why", "--coverage", "good.log"], 4),
    (["convert", "good.log", "good.log"], 4),
    (["convert", "good.log", "kept.log"], 4),
    (["check", "missing.log"], 4),
    (["check", "--coverage", "missing.log"], 4),
    (["check", "good.log"], 0),
    (["check", "a.pcap"], 2),
]
