"""The thirty further statements, in the order of reports: code, citations, and what each says; where its words are kept; and which of
them the program judges, on request: all but B10 and B11 if it is asked by `--all`, and those on times too if by `--times`.

They are a part of the second opinion that further.py gives, and no part of the program. Each was written from the words of
docs/DECISIONS.md and of the standard, before the program judged any. Like those of statements.py they look at the whole log for
each position, and keep no state from one position to the next.

Two things are said of each statement: where its fault at a position is decided, if it has one there; and whether it is put to the
test there. What is put to the test may hold all the same, and what fails was put to the test.
"""
from collections.abc import Callable
from functools import cache

from reading import Bad, CONNACK, Packet, Subject
from sessions import Log

# code, citation for a client, citation for a server (`-`: isn't bound), and the sentence
SHAPES = """
B05 - sec-3.9.3 A SUBACK grants no more than was asked for
B06 - MQTT-3.10.4-1 No UNSUBACK says of a subscription that it doesn't exist
B07 - sec-3.11.3 No UNSUBACK says that a filter was deleted which was never subscribed
B08 - MQTT-3.3.2-3 A PUBLISH from the server matches a subscription, where some are shared
B09 - MQTT-3.8.4-8,MQTT-4.8.2-3 A PUBLISH isn't at a QoS above what was granted, where some are shared
P01 - sec-3.3.4 A Subscription Identifier of a PUBLISH is that of a matching subscription
P02 - MQTT-3.3.4-3 A PUBLISH has a Subscription Identifier, if each matching subscription has
R01 - MQTT-3.3.1-11,MQTT-3.3.1-12 RETAIN is 0 where no matching subscription asks for anything else
R02 - sec-4.8.2 No retained message is sent for a shared subscription
B10 - MQTT-3.10.4-2 Nothing comes for a filter that was unsubscribed before a REST
B11 - MQTT-3.8.4-3 The QoS of a subscription that was replaced holds no longer
F01 MQTT-3.2.2-14 - A new PUBLISH has RETAIN 0 where Retain Available is 0
F02 sec-3.2.2.3.11 - No filter has a wildcard where the server takes none
F03 sec-3.2.2.3.12 - No SUBSCRIBE has a Subscription Identifier where the server takes none
F04 sec-3.2.2.3.13 - No SUBSCRIBE has a shared filter where the server takes none
F05 - MQTT-3.2.2-12 A Will QoS above the announced Maximum QoS is refused
F06 - MQTT-3.2.2-13 A Will with Will Retain 1 is refused where Retain Available is 0
V03 MQTT-4.8.2-1,MQTT-4.8.2-2 - A shared filter has a name without wildcards, and a filter after it
V04 MQTT-3.8.3-4 - No Local is 0 for a shared filter
V06 sec-3.14.2.1,sec-3.4.2.1 sec-3.14.2.1 A Reason Code is one that this end may send
C24 - MQTT-3.1.4-5 A CONNECT is answered by a CONNACK, if the connection stays open
D01 - MQTT-4.13.1-1 After a Malformed Packet the server closes the connection
D02 - MQTT-3.1.0-2 After a second CONNECT the server closes the connection
D03 - MQTT-4.13.1-1 After a Protocol Error the server closes the connection
D05 - sec-3.3.4 After more QoS 2 PUBLISHes than its Receive Maximum the server closes
A01 MQTT-3.1.2-30 - A client that uses an Authentication Method sends only AUTH and DISCONNECT before a CONNACK was received
A02 MQTT-4.12.0-7 MQTT-4.12.0-6 Without an Authentication Method in CONNECT there is no enhanced authentication
A03 MQTT-4.12.0-5,MQTT-4.12.1-1 MQTT-4.12.0-5 AUTH and an accepting CONNACK have the Authentication Method of the CONNECT
K01 MQTT-3.1.2-20,MQTT-3.2.2-21 - A client isn't silent for longer than the Keep Alive
K02 - MQTT-3.1.2-22,MQTT-3.2.2-22 A server closes the connection of a client that is silent
"""
CITATIONS: dict[str, dict[str, str]] = {}
SENTENCES: dict[str, str] = {}
for line in SHAPES.strip().split("\n"):
    code, client, server, sentence = line.split(" ", 3)
    CITATIONS[code] = {role: text for role, text in (("client", client), ("server", server)) if text != "-"}
    SENTENCES[code] = sentence
TIMED = ("K01", "K02")  # that look at moments
ALWAYS, ALL, TIMES = "", "--all", "--times"  # how much the program is asked for: by no option, or by one of these
UNTIMED = tuple("B05 B06 B07 B08 B09 P01 P02 R01 R02 F01 F02 F03 F04 F05 F06 V03 V04 V06 C24 D01 D02 D03 D05 A01 A02 A03".split())
# Those that the program judges too, by the option that asks for them; and all of them.
ASKED: dict[str, tuple[str, ...]] = {ALWAYS: (), ALL: UNTIMED, TIMES: (*UNTIMED, *TIMED)}
JUDGED = ASKED[TIMES]
OF_SESSIONS = {code for code in CITATIONS if code[0] in "BPR"}  # that are judged only where the session is known

Decided = Callable[[Log, int], int | None]  # where the fault at a position is decided; None if there is none
Occasion = Callable[[Log, int], bool]
DECIDED: dict[str, Decided] = {}
OCCASIONS: dict[str, Occasion] = {}
SUBJECTS: dict[str, set[Subject] | None] = {}  # at which events each can fail; None: at any


def fails_later(code: str, subjects: set[Subject] | None) -> Callable[[Decided], Decided]:
    """The statement of this code fails where the function gives a position, at which that is decided."""

    def kept(decided: Decided) -> Decided:
        DECIDED[code], SUBJECTS[code] = decided, subjects
        return decided

    return kept


def fails(code: str, subjects: set[Subject] | None) -> Callable[[Occasion], Occasion]:
    """The statement fails where the function says so, and it is decided there."""

    def kept(broken: Occasion) -> Occasion:
        fails_later(code, subjects)(lambda log, k: k if broken(log, k) else None)
        return broken

    return kept


@cache
def about(subject: Subject, role: str, times: bool) -> tuple[str, ...]:
    """The statements on this end that can fail at an event, in the order of reports."""

    def is_about(code: str) -> bool:
        subjects = SUBJECTS[code]
        return role in CITATIONS[code] and (times or code not in TIMED) and (subjects is None or subject in subjects)

    return tuple(code for code in CITATIONS if is_about(code))


def applies(*codes: str) -> Callable[[Occasion], Occasion]:
    """The statements are put to the test where the function says so."""

    def kept(occasion: Occasion) -> Occasion:
        OCCASIONS.update(dict.fromkeys(codes, occasion))
        return occasion

    return kept


# ---- words that more than one family uses

SHARED = b"$share/"
# Properties of a CONNACK, whose value 0 says that the server hasn't got something.
RETAIN, WILDCARDS, IDENTIFIERS, SHARED_FILTERS = 0x25, 0x28, 0x29, 0x2A
METHOD, SUBSCRIPTION_IDENTIFIER, NO_LOCAL = 0x15, 0x0B, 0x04


def connack_before(log: Log, k: int) -> Packet | None:
    """The CONNACK of k's connection, if it comes before k."""
    at = log.first_connacks[log.places[k]]
    return log.from_server(at, CONNACK) if at is not None and at < k else None


def is_announced_0(log: Log, k: int, property: int) -> bool:
    """The CONNACK of k's connection comes before k, and has this property with the value 0."""
    connack = connack_before(log, k)
    return connack is not None and connack.get(property) == 0


def is_shared(filter: bytes) -> bool:
    return filter.startswith(SHARED)


def share(filter: bytes) -> tuple[bytes, bytes | None]:
    """The name in a shared filter, and the filter after it; None if no `/` follows the name."""
    name, slash, rest = filter.removeprefix(SHARED).partition(b"/")
    return name, rest if slash else None


def is_bad_of(item: object, type: int) -> bool:
    """Bytes of a packet of this type that break a rule."""
    return isinstance(item, Bad) and item.packet[0] >> 4 == type
