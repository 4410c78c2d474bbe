"""What each statement says of a log: whether it is false at a position; at which events it can be; and its citations.

It is a part of the second opinion that reference.py gives, and no part of the program. It was written from the words of the
statements alone. It looks at the whole log for each position and statement, and keeps no state from one position to the next.
"""
from collections.abc import Callable, Iterable
from functools import cache

from reading import (
    AUTH, BROKEN, Bad, CONNACK, CONNECT, DISCONNECT, FROM_CLIENT_ALONE, FROM_SERVER_ALONE, LOST, Lost,
    PINGREQ, PINGRESP, PUBACK, PUBCOMP, PUBLISH, PUBREC, PUBREL,
    Packet, RECV, RELEASE, REST, SENT, SUBACK, SUBSCRIBE, Subject, UNSUBACK, UNSUBSCRIBE,
)
from sessions import (
    Log, MAXIMUM_PACKET_SIZE, MAXIMUM_QOS, NEW, RECEIVE_MAXIMUM, RESUMED, RETAIN_AVAILABLE, TOPIC_ALIAS_MAXIMUM, VOID,
)

# ---- names and citations, in the order of reports: code, citation for a client, citation for a server (None: isn't bound)

SHAPES = """
W01 MQTT-2.1.3-1
W02 sec-2.1.2
W03 MQTT-1.5.5-1
W04 MQTT-1.5.4-1
W05 MQTT-1.5.4-2
W06 sec-2.1.4
W07 MQTT-3.3.1-4
W08 MQTT-3.3.1-2
W09 sec-2.2.1
W10 sec-2.2.2.2
W11 sec-2.2.2.2
W12 sec-2.2.2.2
W13 sec-2.4
W14 sec-3.3.2
W15 sec-4.7
W16 MQTT-3.8.3-2,MQTT-3.10.3-2
W17 sec-3.8.3
W18 sec-3.1.2
W19 sec-3.1.2
W20 MQTT-3.2.2-1
W21 sec-3.3.2
C01 sec-2.1.2
C02 MQTT-3.1.0-1 -
C03 sec-3.1 -
C04 - sec-3.2
C05 - MQTT-3.2.0-1
C06 - MQTT-3.2.0-2
C07 - MQTT-3.2.2-2
C08 - MQTT-3.2.2-3
C09 - MQTT-3.2.2-6
C10 - MQTT-3.2.2-16
C11 MQTT-3.14.4-1
C12 - MQTT-3.2.2-7
C13 MQTT-3.2.2-4 -
C14 MQTT-3.2.2-15 MQTT-3.1.2-24
C15 MQTT-3.2.2-17 MQTT-3.1.2-26
C16 sec-3.3.2
C17 MQTT-3.2.2-11 -
C18 MQTT-3.3.4-6 -
C19 - MQTT-3.14.2-2
C20 sec-3.14.2 -
C21 - MQTT-3.1.2-29
C22 - MQTT-3.1.2-28
C23 MQTT-3.14.4-2 MQTT-3.14.4-2,MQTT-3.2.2-7
S01 MQTT-2.2.1-3 MQTT-2.2.1-4
S02 MQTT-4.3.2-2,MQTT-4.3.3-2
S03 MQTT-4.4.0-1
S04 MQTT-4.3.3-6
S05 MQTT-4.6.0-1 -
S06 MQTT-4.4.0-1
S07 MQTT-4.9.0-2
E1A MQTT-2.2.1-5
E1R MQTT-4.3.2-4
E1O MQTT-4.6.0-2 -
E2A MQTT-2.2.1-5
E2R MQTT-4.3.3-8
E2O MQTT-4.6.0-3 -
E3A MQTT-2.2.1-5
E3R MQTT-4.3.3-4
E3O MQTT-4.6.0-4 -
E4A MQTT-2.2.1-5
E4R MQTT-4.3.3-11
E5A - MQTT-2.2.1-6
E5R - MQTT-3.8.4-1
E6A - MQTT-2.2.1-6
E6R - MQTT-3.10.4-4
E7R - MQTT-3.12.4-1
L1 sec-4.3.3
L2 MQTT-4.3.3-10
L3 sec-4.3.3
B01 - MQTT-3.3.2-3
B02 - MQTT-3.8.4-8
B03 - MQTT-3.8.4-6
B04 - sec-3.11.3
"""
CITATIONS: dict[str, dict[str, str]] = {}
for line in SHAPES.split("\n"):
    match line.split():
        case [code, both]:
            CITATIONS[code] = {"client": both, "server": both}
        case [code, client, server]:
            CITATIONS[code] = {role: text for role, text in (("client", client), ("server", server)) if text != "-"}

# ---- the statements: each answers whether it is false at position k of the log

Statement = Callable[[Log, int], bool]
STATEMENTS: dict[str, Statement] = {}
SUBJECTS: dict[str, set[Subject]] = {}  # at which events each can be false
ANY = range(CONNECT, AUTH + 1)


def sent(types: Iterable[int]) -> set[Subject]:
    return {(SENT, type) for type in types}


def received(types: Iterable[int]) -> set[Subject]:
    return {(RECV, type) for type in types}


def mark(kind: int) -> set[Subject]:
    return {(kind, 0)}


def keep(rule: str, subjects: set[Subject], statement: Statement) -> None:
    STATEMENTS[rule], SUBJECTS[rule] = statement, subjects


def says(rule: str, subjects: set[Subject]) -> Callable[[Statement], Statement]:
    def kept(statement: Statement) -> Statement:
        keep(rule, subjects, statement)
        return statement

    return kept


@cache
def about(subject: Subject, role: str) -> tuple[str, ...]:
    """The statements on this end that can be false at an event, in the order of reports. (Most can't at most events.)"""
    return tuple(rule for rule, roles in CITATIONS.items() if role in roles and subject in SUBJECTS[rule])


# -- W, on a packet's bytes: `Bad` names its rule, and Lost breaks W03


def breaks_bytes(rule: str) -> Statement:
    def breaks(log: Log, k: int) -> bool:
        item = log.sent(k)
        return (isinstance(item, Bad) and item.rule == rule) or (rule == "W03" and isinstance(item, Lost))

    return breaks


for number in range(1, 22):
    keep(f"W{number:02}", sent((BROKEN, LOST)), breaks_bytes(f"W{number:02}"))

# -- C, on the past of a connection. In C01 to C06 bytes that break a rule count by their type.


def type_of(item: Packet | Bad | Lost | None) -> int | None:
    match item:
        case Packet():
            return item.type
        case Bad():
            return item.packet[0] >> 4
    return None


@says("C01", sent((*ANY, BROKEN)))
def sends_a_foreign_type(log: Log, k: int) -> bool:
    return type_of(log.sent(k)) in (FROM_SERVER_ALONE if log.role == "client" else FROM_CLIENT_ALONE)


@says("C02", sent((*ANY, BROKEN)))
def begins_without_connect(log: Log, k: int) -> bool:
    kind = type_of(log.sent(k))
    is_first = all(type_of(log.sent(j)) is None for j in log.before_on(k))
    return kind is not None and is_first and kind != CONNECT


@says("C03", sent((CONNECT, BROKEN)))
def sends_a_second_connect(log: Log, k: int) -> bool:
    return type_of(log.sent(k)) == CONNECT and any(type_of(log.sent(j)) == CONNECT for j in log.before_on(k))


@says("C04", sent((CONNACK, BROKEN)))
def answers_no_connect(log: Log, k: int) -> bool:
    return type_of(log.sent(k)) == CONNACK and all(type_of(log.received(j)) != CONNECT for j in log.before_on(k))


@says("C05", sent((*ANY, BROKEN)))
def sends_before_connack(log: Log, k: int) -> bool:
    return type_of(log.sent(k)) not in (None, CONNACK, AUTH) and all(type_of(log.sent(j)) != CONNACK for j in log.before_on(k))


@says("C06", sent((CONNACK, BROKEN)))
def sends_a_second_connack(log: Log, k: int) -> bool:
    return type_of(log.sent(k)) == CONNACK and any(type_of(log.sent(j)) == CONNACK for j in log.before_on(k))


@says("C07", sent([CONNACK]))
def resumes_a_clean_start(log: Log, k: int) -> bool:
    connack, connect = log.sent_packet(k, CONNACK), log.connect_before(k)
    return connack is not None and connack.session_present and connect is not None and connect.clean_start


@says("C08", sent([CONNACK]))
def resumes_no_session(log: Log, k: int) -> bool:
    connack = log.sent_packet(k, CONNACK)
    return connack is not None and connack.code == 0 and connack.session_present and not log.alive_before(log.places[k])


@says("C09", sent([CONNACK]))
def refuses_with_a_session(log: Log, k: int) -> bool:
    connack = log.sent_packet(k, CONNACK)
    return connack is not None and connack.code != 0 and connack.session_present


@says("C10", sent([CONNACK]))
def assigns_no_identifier(log: Log, k: int) -> bool:
    connack, connect = log.sent_packet(k, CONNACK), log.connect_before(k)
    is_unnamed = connect is not None and connect.client_identifier == b""
    return connack is not None and connack.code == 0 and is_unnamed and connack.get(0x12) is None


def is_subject(item: Packet | Bad | Lost | None) -> bool:
    return isinstance(item, (Packet, Bad))


def has_refused(log: Log, k: int) -> bool:
    """A CONNACK of 0x80 or more was sent on k's connection before k."""
    return any((p := log.sent_packet(j, CONNACK)) is not None and p.code >= 0x80 for j in log.before_on(k))


def has_disconnected(log: Log, k: int) -> bool:
    at = log.first_sent_disconnects[log.places[k]]
    return at is not None and at < k


@says("C11", sent((*ANY, BROKEN)))
def sends_after_disconnect(log: Log, k: int) -> bool:
    return is_subject(log.sent(k)) and has_disconnected(log, k)


@says("C12", sent((*ANY, BROKEN)))
def sends_after_refusing(log: Log, k: int) -> bool:
    return is_subject(log.sent(k)) and has_refused(log, k)


def lacks_session(log: Log, k: int) -> bool:
    """At k the client has no session that may be resumed: it asked for a new one, or none was alive."""
    connect = log.connect_before(k)
    return (connect is not None and connect.clean_start) or not log.alive_before(log.places[k])


@says("C13", sent(ANY))
def goes_on_without_its_session(log: Log, k: int) -> bool:
    p = log.sent_packet(k)
    if p is None or p.type == DISCONNECT or not log.is_after_connack(k) or log.fates[log.places[k]] != RESUMED:
        return False
    return lacks_session(log, k)


def is_bound_by_peer(log: Log, k: int) -> bool:
    """A client looks at what the server asks for in its CONNACK, so it is bound only after it."""
    return log.role == "server" or log.is_after_connack(k)


@says("C14", sent(ANY))
def is_too_large(log: Log, k: int) -> bool:
    p, most = log.sent_packet(k), log.parameter(MAXIMUM_PACKET_SIZE, k)
    return p is not None and is_bound_by_peer(log, k) and most is not None and p.size > most


@says("C15", sent([PUBLISH]))
def takes_too_high_an_alias(log: Log, k: int) -> bool:
    p = log.sent_packet(k, PUBLISH)
    alias = p and p.get(0x23)
    return alias is not None and is_bound_by_peer(log, k) and alias > log.parameter(TOPIC_ALIAS_MAXIMUM, k)


def sets_alias(log: Log, j: int, alias: int) -> bool:
    p = log.sent_packet(j, PUBLISH)
    return p is not None and p.topic != b"" and p.get(0x23) == alias


@says("C16", sent([PUBLISH]))
def takes_an_unset_alias(log: Log, k: int) -> bool:
    p = log.sent_packet(k, PUBLISH)
    return p is not None and p.topic == b"" and not any(sets_alias(log, j, p.get(0x23)) for j in log.before_on(k))


@says("C17", sent([PUBLISH]))
def takes_too_high_a_qos(log: Log, k: int) -> bool:
    p = log.sent_packet(k, PUBLISH)
    return p is not None and is_bound_by_peer(log, k) and p.qos > log.parameter(MAXIMUM_QOS, k)


@says("C18", sent([PUBLISH]))
def names_a_subscription(log: Log, k: int) -> bool:
    p = log.sent_packet(k, PUBLISH)
    return p is not None and p.get(0x0B) is not None


@says("C19", sent([DISCONNECT]))
def sets_expiry_as_server(log: Log, k: int) -> bool:
    p = log.sent_packet(k, DISCONNECT)
    return p is not None and p.get(0x11) is not None


@says("C20", sent([DISCONNECT]))
def revives_its_session(log: Log, k: int) -> bool:
    p, connect = log.sent_packet(k, DISCONNECT), log.connect_before(k)
    return p is not None and p.get(0x11) not in (None, 0) and connect is not None and connect.get(0x11) in (None, 0)


@says("C21", sent(ANY))
def explains_unasked(log: Log, k: int) -> bool:
    p, connect = log.sent_packet(k), log.connect_before(k)
    if p is None or p.type in (PUBLISH, CONNACK, DISCONNECT) or connect is None or connect.get(0x17) != 0:
        return False
    return p.get(0x1F) is not None or p.get(0x26) is not None


@says("C22", sent([CONNACK]))
def informs_unasked(log: Log, k: int) -> bool:
    p, connect = log.sent_packet(k, CONNACK), log.connect_before(k)
    return p is not None and p.get(0x1A) is not None and connect is not None and connect.get(0x19) != 1


@says("C23", mark(REST))
def rests_unclosed(log: Log, k: int) -> bool:
    return log.is_rest(k) and (has_disconnected(log, k) or (log.role == "server" and has_refused(log, k)))


# -- S, on packet identifiers. All that follow are judged on accepted connections, L also at each RELEASE that is on no undecided one.


def is_sent_unknowing(log: Log, k: int) -> bool:
    """A client sent it before the CONNACK, which then said of the session what the client couldn't know: that a new one begins, to
    Clean Start 0; or that one is resumed, where it has none."""
    return begins_anew_unasked(log, k) or resumes_unasked(log, k)


def begins_anew_unasked(log: Log, k: int) -> bool:
    connack = connack_to_come(log, k)
    connect = connack and log.connect_before(connack)
    return connect is not None and not connect.clean_start and log.fates[log.places[k]] == NEW


def resumes_unasked(log: Log, k: int) -> bool:
    connack = connack_to_come(log, k)
    return connack is not None and log.fates[log.places[k]] == RESUMED and lacks_session(log, connack)


def connack_to_come(log: Log, k: int) -> int | None:
    """The CONNACK of a client's connection, if it comes after k."""
    return None if log.role == "server" or log.is_after_connack(k) else log.first_connacks[log.places[k]]


def publish_id(log: Log, k: int, dup: bool | None = None) -> int | None:
    """The identifier of a sent PUBLISH of QoS above 0."""
    p = log.sent_packet(k, PUBLISH)
    return p.identifier if p is not None and p.qos > 0 and dup in (None, p.dup) else None


def in_flight(log: Log, j: int) -> int | None:
    """The identifier of a PUBLISH of QoS above 0 or a PUBREL that is sent."""
    p = log.sent_packet(j, PUBREL)
    return publish_id(log, j) if p is None else p.identifier


def opener(log: Log, k: int) -> int | None:
    return publish_id(log, k, dup=False)


def resend(log: Log, k: int) -> int | None:
    return publish_id(log, k, dup=True)


def closer(log: Log, k: int) -> int | None:
    p = log.received_packet(k, PUBACK, PUBCOMP, PUBREC)
    return None if p is None or (p.type == PUBREC and p.code < 0x80) else p.identifier


def latest_opener(log: Log, k: int, i: int) -> int | None:
    return next((j for j in reversed(log.before_in(k)) if opener(log, j) == i), None)


def open_by(log: Log, k: int, i: int) -> int | None:
    """The latest opener of i before k, if i is open at k."""
    for j in reversed(log.before_in(k)):
        if opener(log, j) == i:
            return j
        if closer(log, j) == i:
            return None
    return None


def is_busy(log: Log, k: int, i: int) -> bool:
    before = log.before_on(k)
    for asked, answered in ((SUBSCRIBE, SUBACK), (UNSUBSCRIBE, UNSUBACK)):
        for j in before:
            if log.sends(j, asked, i) and not any(log.receives(m, answered, i) for m in before if m > j):
                return True
    by = open_by(log, k, i)
    return by is not None and not may_be_discarded(log, by, k, i)


def is_received(log: Log, k: int, t: int, i: int) -> bool:
    """A PUBREC i below 0x80 came between an opener of i at k and t."""
    return any(log.receives(j, PUBREC, i) and log.received_packet(j).code < 0x80 for j in log.before_in(t) if j > k)


def may_be_discarded(log: Log, k: int, t: int, i: int) -> bool:
    """The end may have discarded by t what it sent by an opener of i at k, as if it were completed: a resumed connection has a bound
    that the message may pass, it was passed over there, and no PUBREC says that the peer has it."""
    return any(passes_over(log, c, t, i) for c in range(log.places[k] + 1, log.places[t] + 1)) and not is_received(log, k, t, i)


def passes_over(log: Log, c: int, t: int, i: int) -> bool:
    """On this resumed connection with such a bound nothing of i was sent before t."""
    is_bounded = log.announced(MAXIMUM_PACKET_SIZE, c, t) or log.announced(MAXIMUM_QOS, c, t)
    return log.fates[c] == RESUMED and is_bounded and not sends_on(log, c, t, i)


def sends_on(log: Log, c: int, t: int, i: int) -> bool:
    """A PUBLISH i of QoS above 0 or a PUBREL i was sent on connection c before t."""
    return any(in_flight(log, j) == i for j in log.connection_positions[c] if j < t)


@says("S01", sent((PUBLISH, SUBSCRIBE, UNSUBSCRIBE)))
def takes_a_used_identifier(log: Log, k: int) -> bool:
    i = opener(log, k)
    if i is None and log.role == "client" and (p := log.sent_packet(k, SUBSCRIBE, UNSUBSCRIBE)):
        i = p.identifier
    return i is not None and not resumes_unasked(log, k) and is_busy(log, k, i)


@says("S02", sent([PUBLISH]))
def resends_what_is_not_open(log: Log, k: int) -> bool:
    i = resend(log, k)
    if i is None or open_by(log, k, i) is not None or is_sent_unknowing(log, k):
        return False
    return not (was_sent_in_vain(log, k, i) or was_sent_before_the_session(log, k, i) or was_begun(log, k))


def was_sent_in_vain(log: Log, k: int, i: int) -> bool:
    """A PUBLISH i was sent on a void connection."""
    return any(publish_id(log, j) == i and log.fates[log.places[j]] == VOID for j in range(1, k) if log.places[j] > 0)


def was_sent_before_the_session(log: Log, k: int, i: int) -> bool:
    """A client sent a PUBLISH i on an earlier connection before its CONNACK, with which the session began."""
    first = log.sessions_of_connections[log.places[k]]
    if log.role == "server" or first == log.places[k]:
        return False
    return any(publish_id(log, j) == i for j in log.before_on(log.first_connacks[first]))


def was_begun(log: Log, k: int) -> bool:
    """Some PUBLISH of QoS 1 or 2 was cut off by the end of an earlier connection that is void, or is one of k's session. Which one it
    was the log doesn't say."""
    ends = [(c, log.begun(c)) for c in range(1, log.places[k])]
    cut_off = [c for c, first in ends if first is not None and first >> 4 == PUBLISH and first >> 1 & 3 in (1, 2)]
    return any(log.fates[c] == VOID or log.sessions_of_connections[c] == log.sessions[k] for c in cut_off)


@says("S03", sent([PUBLISH]))
def resends_on_one_connection(log: Log, k: int) -> bool:
    i, before = resend(log, k), log.before_on(k)
    return i is not None and any(publish_id(log, j) == i and not any(closer(log, m) == i for m in before if m > j) for j in before)


@says("S04", sent([PUBLISH]))
def resends_after_pubrel(log: Log, k: int) -> bool:
    i = resend(log, k)
    j = None if i is None else open_by(log, k, i)
    return j is not None and log.sent_packet(j).qos == 2 and any(log.sends(m, PUBREL, i) for m in log.before_in(k) if m > j)


@says("S05", sent([PUBLISH]))
def resends_out_of_order(log: Log, k: int) -> bool:
    i = resend(log, k)
    own = None if i is None else open_by(log, k, i)
    if own is None:
        return False
    others = [(j, resend(log, j)) for j in log.before_on(k)]
    return any(other is not None and (by := open_by(log, j, other)) is not None and by > own for j, other in others)


def stretches_used(log: Log, end: int) -> int:
    """The greatest of sent PUBLISHes of QoS above 0 minus closers received over all stretches of end's connection that end there."""
    greatest = difference = 0
    first = (log.first_connacks[log.places[end]] or log.last) if log.role == "client" else 0
    for j in reversed([j for j in [*log.before_on(end), end] if j > first]):
        difference += publish_id(log, j) is not None
        difference -= closer(log, j) is not None
        greatest = max(greatest, difference)
    return greatest


@says("S06", sent([PUBLISH]))
def does_not_send_again(log: Log, k: int) -> bool:
    i = opener(log, k)
    if i is None:
        return False
    return any(is_owed_again(log, k, i, t) for t in range(k + 1, log.last + 1) if log.is_rest(t))


def is_owed_again(log: Log, k: int, i: int, t: int) -> bool:
    c = log.places[t]
    if log.sessions[t] != log.sessions[k] or c <= log.places[k] or log.fates[c] != RESUMED or not log.is_binding(t):
        return False
    if latest_opener(log, t, i) != k or open_by(log, t, i) is None:
        return False
    if sends_on(log, c, t, i) or waits_for_an_answer(log, t):
        return False
    if is_received(log, k, t, i):
        return True
    quota = log.parameter(RECEIVE_MAXIMUM, t) - stretches_used(log, t)
    may_not_retain = log.role == "client" and log.sent_packet(k).retain and log.parameter(RETAIN_AVAILABLE, t) == 0
    return not (quota <= 0 or may_be_discarded(log, k, t, i) or may_not_retain)


def waits_for_an_answer(log: Log, t: int) -> bool:
    """A PUBLISH of QoS above 0 or a PUBREL was sent on t's connection before t, and no closer of its identifier came there after it:
    the end may send one after the other."""
    before = log.before_on(t)
    return any(not any(closer(log, m) == i for m in before if m > j) for j in before if (i := in_flight(log, j)) is not None)


@says("S07", sent([PUBLISH]))
def passes_the_quota(log: Log, k: int) -> bool:
    return publish_id(log, k) is not None and is_bound_by_peer(log, k) and stretches_used(log, k) > log.parameter(RECEIVE_MAXIMUM, k)


# -- E, on exchanges: what is received is a cause, and what is sent an answer

Named = Callable[[Log, int], int | None]


def received_publish(qos: int) -> Named:
    def named(log: Log, k: int) -> int | None:
        p = log.received_packet(k, PUBLISH)
        return p.identifier if p is not None and p.qos == qos else None

    return named


def received_of(type: int, below: int = 0x100) -> Named:
    def named(log: Log, k: int) -> int | None:
        p = log.received_packet(k, type)
        return p.identifier if p is not None and p.code < below else None

    return named


def sent_of(type: int) -> Named:
    def named(log: Log, k: int) -> int | None:
        p = log.sent_packet(k, type)
        return p.identifier if p is not None else None

    return named


EXCHANGES: dict[str, tuple[Named, Named]] = {
    "E1": (received_publish(1), sent_of(PUBACK)),
    "E2": (received_publish(2), sent_of(PUBREC)),
    "E3": (received_of(PUBREC, 0x80), sent_of(PUBREL)),
    "E4": (received_of(PUBREL), sent_of(PUBCOMP)),
    "E5": (received_of(SUBSCRIBE), sent_of(SUBACK)),
    "E6": (received_of(UNSUBSCRIBE), sent_of(UNSUBACK)),
}
OF_PUBLISHES = ("E1", "E2", "E3")  # up to the PUBREL
# The packets' types in them.
CAUSES_AND_ANSWERS = {
    "E1": (PUBLISH, PUBACK),
    "E2": (PUBLISH, PUBREC),
    "E3": (PUBREC, PUBREL),
    "E4": (PUBREL, PUBCOMP),
    "E5": (SUBSCRIBE, SUBACK),
    "E6": (UNSUBSCRIBE, UNSUBACK),
}


def first_unanswered(log: Log, exchange: str, k: int, i: int) -> int | None:
    """The earliest cause i before k on its connection with no answer i between."""
    cause, answer = EXCHANGES[exchange]
    first = None
    for j in reversed(log.before_on(k)):
        if answer(log, j) == i:
            break
        if cause(log, j) == i:
            first = j
    return first


def breaks_answered(exchange: str) -> Statement:
    cause, answer = EXCHANGES[exchange]

    def breaks(log: Log, k: int) -> bool:
        i = answer(log, k)
        if i is None or (exchange in OF_PUBLISHES and is_sent_unknowing(log, k)):
            return False
        answers = [j for j in log.before_on(k) if answer(log, j) == i]
        last_answer = answers[-1] if answers else 0
        return not any(cause(log, j) == i and j > last_answer for j in log.before_in(k))

    return breaks


def breaks_owed(exchange: str) -> Statement:
    cause, answer = EXCHANGES[exchange]

    def breaks(log: Log, k: int) -> bool:
        i = cause(log, k)
        if i is None or first_unanswered(log, exchange, k, i) is not None:
            return False
        rest = next((t for t in log.connection_positions[log.places[k]] if t > k and log.is_binding(t)), None)
        return rest is not None and not any(answer(log, j) == i for j in range(k + 1, rest))

    return breaks


def breaks_order(exchange: str) -> Statement:
    cause, answer = EXCHANGES[exchange]

    def breaks(log: Log, k: int) -> bool:
        i = answer(log, k)
        first = None if i is None else first_unanswered(log, exchange, k, i)
        if first is None:
            return False
        others = {cause(log, j) for j in log.before_on(k)} - {None, i}
        firsts = [first_unanswered(log, exchange, k, j) for j in others]
        return any(other is not None and other < first for other in firsts)

    return breaks


for exchange, (cause, answer) in CAUSES_AND_ANSWERS.items():
    keep(exchange + "A", sent([answer]), breaks_answered(exchange))
    keep(exchange + "R", received([cause]), breaks_owed(exchange))
    if exchange in OF_PUBLISHES:
        keep(exchange + "O", sent([answer]), breaks_order(exchange))


@says("E7R", mark(REST))
def leaves_pings_unanswered(log: Log, k: int) -> bool:
    if not log.is_rest(k) or not log.is_binding(k):
        return False
    before = log.before_on(k)
    asked = sum(log.received_packet(j, PINGREQ) is not None for j in before)
    return sum(log.sent_packet(j, PINGRESP) is not None for j in before) < asked


# -- L, on releases


def is_brought(log: Log, k: int, i: int) -> bool:
    return received_publish(2)(log, k) == i


def ender(log: Log, k: int) -> int | None:
    p = log.sent_packet(k, PUBCOMP, PUBREC)
    return None if p is None or (p.type == PUBREC and p.code < 0x80) else p.identifier


def not_ended(log: Log, k: int, i: int) -> list[int]:
    """The positions before k in its session with no ender of i between them and k."""
    before = log.before_in(k)
    last_ender = max((j for j in before if ender(log, j) == i), default=0)
    return [j for j in before if j >= last_ender]


def is_release(log: Log, k: int, i: int) -> bool:
    return log.event(k).kind == RELEASE and log.event(k).released == i


def is_of_session_before(log: Log, k: int) -> bool:
    """A RELEASE before the CONNACK that begins a new session: its message may be of the session before."""
    c = log.places[k]
    return log.fates[c] == NEW and not log.is_after_connack(k)


@says("L1", mark(RELEASE))
def releases_nothing(log: Log, k: int) -> bool:
    i = log.event(k).released
    is_judged = log.event(k).kind == RELEASE and not is_of_session_before(log, k)
    return is_judged and not any(is_brought(log, j, i) for j in not_ended(log, k, i))


@says("L2", mark(RELEASE))
def releases_twice(log: Log, k: int) -> bool:
    i = log.event(k).released
    is_judged = log.event(k).kind == RELEASE and not is_of_session_before(log, k)
    return is_judged and any(is_release(log, j, i) for j in not_ended(log, k, i))


@says("L3", sent([PUBCOMP]))
def completes_unreleased(log: Log, k: int) -> bool:
    p = log.sent_packet(k, PUBCOMP)
    if p is None or p.code != 0:
        return False
    i = p.identifier
    candidates = not_ended(log, k, i)
    first = next((j for j in candidates if is_brought(log, j, i)), None)
    if first is None or any(is_release(log, j, i) for j in candidates):
        return False
    may_expire = log.received_packet(first).get(0x02) is not None
    is_unmatched = any(log.sends(j, PUBREC, i) and log.sent_packet(j).code == 0x10 for j in log.before_in(k) if j > first)
    return not (may_expire or is_unmatched)


# -- B, on subscriptions


def matches(filter: bytes, name: bytes) -> bool:
    if filter[:1] in (b"#", b"+") and name[:1] == b"$":
        return False
    return levels_match(filter.split(b"/"), name.split(b"/"))


def levels_match(filter: list[bytes], name: list[bytes]) -> bool:
    if filter == [b"#"]:
        return True
    if not filter or not name:
        return not filter and not name
    return filter[0] in (b"+", name[0]) and levels_match(filter[1:], name[1:])


def standing_from(log: Log, k: int, j: int) -> list[tuple[bytes, int]]:
    """The standing filters at k of a SUBSCRIBE received at j, with their ceilings."""
    p = log.received_packet(j, SUBSCRIBE)
    if p is None:
        return []
    later = [m for m in log.connection_positions[log.places[j]] if m > j]
    at = next((m for m in later if log.sends(m, SUBACK, p.identifier)), None)
    granted = log.sent_packet(at).codes if at is not None and at < k else []
    ceilings = [granted[n] if n < len(granted) else options & 3 for n, (_, options) in enumerate(p.filters)]
    return [(filter, ceiling) for (filter, _), ceiling in zip(p.filters, ceilings, strict=True) if ceiling < 0x80]


def standing(log: Log, k: int) -> list[tuple[bytes, int]]:
    """The standing filters at k, with their ceilings."""
    return [one for j in log.before_in(k) for one in standing_from(log, k, j)]


def topic_of(log: Log, k: int) -> bytes | None:
    p = log.sent_packet(k, PUBLISH)
    if p.topic != b"":
        return p.topic
    return next((log.sent_packet(j).topic for j in reversed(log.before_on(k)) if sets_alias(log, j, p.get(0x23))), None)


def matching(log: Log, k: int) -> list[int] | None:
    """The ceilings of the standing filters that match a sent PUBLISH with DUP 0; None where nothing is said of it."""
    p = log.sent_packet(k, PUBLISH)
    if p is None or p.dup:
        return None
    asked = [log.received_packet(j, SUBSCRIBE) for j in log.before_in(k)]
    is_shared = any(filter.startswith(b"$share/") for s in asked if s is not None for filter, _ in s.filters)
    topic = topic_of(log, k)
    if is_shared or topic is None:
        return None
    return [ceiling for filter, ceiling in standing(log, k) if matches(filter, topic)]


@says("B01", sent([PUBLISH]))
def sends_what_nobody_asked_for(log: Log, k: int) -> bool:
    return matching(log, k) == []


@says("B02", sent([PUBLISH]))
def sends_above_the_granted_qos(log: Log, k: int) -> bool:
    ceilings = matching(log, k)
    return bool(ceilings) and max(ceilings) < log.sent_packet(k).qos


def breaks_count(exchange: str, type: int) -> Statement:
    def breaks(log: Log, k: int) -> bool:
        p = log.sent_packet(k, type)
        first = None if p is None else first_unanswered(log, exchange, k, p.identifier)
        return first is not None and len(log.received_packet(first).filters) != len(p.codes)

    return breaks


keep("B03", sent([SUBACK]), breaks_count("E5", SUBACK))
keep("B04", sent([UNSUBACK]), breaks_count("E6", UNSUBACK))
assert set(STATEMENTS) == set(CITATIONS)
