"""Where each statement is put to the test: a second opinion, and no part of the program.

It was written from the words that say where each statement is put to the test, which are the sentences of the functions here too;
the proved definitions are those named `applies` in crates/mq_rules/specs. Like statements.py it looks at the whole log for each
position and statement, and keeps no state from one position to the next. Where a statement is judged is reference.py's.

Of W01 to W21 the proved definitions are `tries` in crates/mq_packet/specs and Trials.antt in crates/mq_rules/specs, over the
packets themselves, since a note doesn't keep the whole packet. Bytes that break a rule put only that rule to the test, and a
direction that is lost only W03.
"""
from collections.abc import Callable, Iterator

import gaps
import reference
from reading import (
    ACKNOWLEDGEMENTS, AUTH, Bad, CLOSE, CONNACK, CONNECT, DISCONNECT, Lost, NOT_ZERO, PINGREQ, PROPERTIES, PUBCOMP, PUBLISH,
    PUBREC, PUBREL, Packet, RELEASE, Recording, SUBACK, SUBSCRIBE, UNSUBACK, UNSUBSCRIBE, ZERO_OR_ONE,
)
from sessions import Log, MAXIMUM_PACKET_SIZE, MAXIMUM_QOS, RECEIVE_MAXIMUM, RESUMED
from statements import (
    CITATIONS, EXCHANGES, OF_PUBLISHES, first_unanswered, has_disconnected, has_refused, is_bound_by_peer, is_brought, is_busy,
    is_of_session_before, is_sent_unknowing, lacks_session, matching, not_ended, open_by, opener, publish_id, resend,
    resumes_unasked, stretches_used, type_of, waits_for_an_answer, was_begun,
)

# ---- where each statement is put to the test: each answers whether it is at position k of the log

Occasion = Callable[[Log, int], bool]
OCCASIONS: dict[str, Occasion] = {}


def says(*rules: str) -> Callable[[Occasion], Occasion]:
    def kept(occasion: Occasion) -> Occasion:
        OCCASIONS.update(dict.fromkeys(rules, occasion))
        return occasion

    return kept


# -- W, on a packet's bytes

Trial = Callable[[Packet], bool]


def tries(*rules: str) -> Callable[[Trial], Trial]:
    """Of a packet that is sent it says whether it puts these to the test."""

    def kept(trial: Trial) -> Trial:
        OCCASIONS.update({rule: trying(rule, trial) for rule in rules})
        return trial

    return kept


def trying(rule: str, trial: Trial) -> Occasion:
    def applies(log: Log, k: int) -> bool:
        match log.sent(k):
            case Packet() as packet:
                return trial(packet)
            case Bad() as bad:
                return bad.rule == rule
            case Lost():
                return rule == "W03"
        return False

    return applies


@tries("W01")
def has_reserved_flags(p: Packet) -> bool:
    """The flags of a PUBLISH have a meaning, those of all others are reserved."""
    return p.type != PUBLISH


@tries("W02", "W03", "W06")
def is_any(p: Packet) -> bool:
    """Each packet has a type, a Remaining Length and an end."""
    return True


def all_properties(p: Packet) -> list[int]:
    """The identifiers of its properties, the Will's too."""
    return [kind for kind, _ in [*p.properties, *p.will]]


@tries("W04", "W05")
def has_text(p: Packet) -> bool:
    """It has a text: a Client Identifier, a Topic Filter, a Topic Name that isn't empty, or a property of texts."""
    is_in_fields = p.type in (CONNECT, SUBSCRIBE, UNSUBSCRIBE) or (p.type == PUBLISH and p.topic != b"")
    return is_in_fields or any(PROPERTIES[kind][0] in ("text", "pair") for kind in all_properties(p))


@tries("W07")
def is_publish(p: Packet) -> bool:
    """A PUBLISH has a QoS."""
    return p.type == PUBLISH


@tries("W08")
def is_at_most_once(p: Packet) -> bool:
    """A PUBLISH of QoS 0 has DUP 0."""
    return p.type == PUBLISH and p.qos == 0


@tries("W09")
def has_identifier(p: Packet) -> bool:
    """It has a Packet Identifier."""
    return p.identifier is not None


@tries("W10")
def has_property(p: Packet) -> bool:
    """It has a property, in its own list or the Will's."""
    return all_properties(p) != []


@tries("W11")
def has_single_property(p: Packet) -> bool:
    """It has a property that may come only once: each but User Property, and Subscription Identifier in a PUBLISH."""
    return any(kind != 0x26 and (kind, p.type) != (0x0B, PUBLISH) for kind in all_properties(p))


@tries("W12")
def has_ranged_property(p: Packet) -> bool:
    """It has a property that may not have each value of its type."""
    return any(kind in NOT_ZERO | ZERO_OR_ONE for kind in all_properties(p))


@tries("W13")
def has_reason_code(p: Packet) -> bool:
    """A Reason Code is written. In an acknowledgement, a DISCONNECT and an AUTH it may be left out at the packet's end."""
    if p.type in ACKNOWLEDGEMENTS:
        return p.size > 4
    if p.type in (DISCONNECT, AUTH):
        return p.size > 2
    return p.type == CONNACK or p.codes != []


@tries("W14")
def has_topic(p: Packet) -> bool:
    """A PUBLISH has a Topic Name that isn't empty, or a Response Topic."""
    return p.type == PUBLISH and (p.topic != b"" or p.get(0x08) is not None)


@tries("W15", "W16")
def has_filters(p: Packet) -> bool:
    """A SUBSCRIBE or an UNSUBSCRIBE has Topic Filters."""
    return p.type in (SUBSCRIBE, UNSUBSCRIBE)


@tries("W17")
def has_options(p: Packet) -> bool:
    """A SUBSCRIBE has Subscription Options."""
    return p.type == SUBSCRIBE


@tries("W18", "W19")
def is_connect(p: Packet) -> bool:
    """A CONNECT has a Protocol Name and flags."""
    return p.type == CONNECT


@tries("W20")
def is_connack(p: Packet) -> bool:
    """A CONNACK has flags."""
    return p.type == CONNACK


@tries("W21")
def has_empty_topic(p: Packet) -> bool:
    """A PUBLISH has an empty Topic Name."""
    return p.type == PUBLISH and p.topic == b""


# -- C, on the past of a connection. In C01 to C06 bytes that break a rule count by their type.


def sends_something(log: Log, k: int) -> bool:
    """A packet is sent, or bytes that break a rule."""
    return type_of(log.sent(k)) is not None


def sends_type(log: Log, k: int, type: int) -> bool:
    return type_of(log.sent(k)) == type


def is_close(log: Log, k: int) -> bool:
    return log.event(k).kind == CLOSE


@says("C01")
def sends_a_type(log: Log, k: int) -> bool:
    """What is sent has a type; 0 is W02's."""
    return type_of(log.sent(k)) not in (None, 0)


@says("C02")
def sends_first(log: Log, k: int) -> bool:
    """It is the first thing that is sent on the connection."""
    return sends_something(log, k) and not any(sends_something(log, j) for j in log.before_on(k))


@says("C03")
def sends_connect(log: Log, k: int) -> bool:
    """A CONNECT is sent."""
    return sends_type(log, k, CONNECT)


@says("C04", "C06")
def sends_connack(log: Log, k: int) -> bool:
    """A CONNACK is sent."""
    return sends_type(log, k, CONNACK)


@says("C05")
def sends_while_no_connack_was(log: Log, k: int) -> bool:
    """Something but an AUTH is sent, and no CONNACK was before: if all is well, it is the CONNACK."""
    is_allowed = sends_type(log, k, AUTH)
    return sends_something(log, k) and not is_allowed and not any(sends_type(log, j, CONNACK) for j in log.before_on(k))


@says("C07")
def answers_a_clean_start(log: Log, k: int) -> bool:
    """A CONNACK answers a CONNECT with Clean Start 1."""
    connect = log.connect_before(k)
    return log.sent_packet(k, CONNACK) is not None and connect is not None and connect.clean_start


def accepts(log: Log, k: int) -> bool:
    """A CONNACK of code 0x00 is sent."""
    connack = log.sent_packet(k, CONNACK)
    return connack is not None and connack.code == 0


@says("C08")
def says_of_a_session(log: Log, k: int) -> bool:
    """A CONNACK that accepts says Session Present 1, or answers Clean Start 0 where no session is alive."""
    if not accepts(log, k):
        return False
    connect = log.connect_before(k)
    is_asked = connect is not None and not connect.clean_start
    return log.sent_packet(k).session_present or (is_asked and not log.alive_before(log.places[k]))


@says("C09")
def refuses(log: Log, k: int) -> bool:
    """A CONNACK of another code than 0x00 is sent."""
    return log.sent_packet(k, CONNACK) is not None and not accepts(log, k)


@says("C10")
def accepts_an_unnamed_client(log: Log, k: int) -> bool:
    """A CONNACK that accepts answers an empty Client Identifier."""
    connect = log.connect_before(k)
    return accepts(log, k) and connect is not None and connect.client_identifier == b""


@says("C11")
def goes_on_after_disconnect(log: Log, k: int) -> bool:
    """Something is sent after the end's DISCONNECT, or the connection closes, where it has held."""
    return (sends_something(log, k) or is_close(log, k)) and has_disconnected(log, k)


@says("C12")
def goes_on_after_refusing(log: Log, k: int) -> bool:
    """The same after a CONNACK of 0x80 or more."""
    return (sends_something(log, k) or is_close(log, k)) and has_refused(log, k)


@says("C13")
def goes_on_with_a_wrong_session(log: Log, k: int) -> bool:
    """A packet is sent after a CONNACK that resumes a session which the client hasn't, or the connection closes."""
    is_going_on = log.sent_packet(k) is not None or is_close(log, k)
    return is_going_on and log.is_after_connack(k) and log.fates[log.places[k]] == RESUMED and lacks_session(log, k)


def announced_before(log: Log, k: int, identifier: int) -> bool:
    return log.announced(identifier, log.places[k], k)


@says("C14")
def sends_within_a_size(log: Log, k: int) -> bool:
    """A packet is sent to a peer that announced a Maximum Packet Size."""
    return log.sent_packet(k) is not None and announced_before(log, k, MAXIMUM_PACKET_SIZE)


@says("C15")
def sends_an_alias(log: Log, k: int) -> bool:
    """A PUBLISH is sent with a Topic Alias, by a client after the CONNACK."""
    p = log.sent_packet(k, PUBLISH)
    return p is not None and p.get(0x23) is not None and is_bound_by_peer(log, k)


@says("C16")
def uses_an_alias(log: Log, k: int) -> bool:
    """A PUBLISH is sent whose Topic Alias stands for its Topic Name."""
    p = log.sent_packet(k, PUBLISH)
    return p is not None and p.topic == b""


@says("C17")
def publishes_within_a_qos(log: Log, k: int) -> bool:
    """A PUBLISH is sent after a CONNACK with a Maximum QoS."""
    return log.sent_packet(k, PUBLISH) is not None and announced_before(log, k, MAXIMUM_QOS)


@says("C18")
def publishes(log: Log, k: int) -> bool:
    """A PUBLISH is sent."""
    return log.sent_packet(k, PUBLISH) is not None


@says("C19")
def disconnects(log: Log, k: int) -> bool:
    """A DISCONNECT is sent."""
    return log.sent_packet(k, DISCONNECT) is not None


@says("C20")
def disconnects_with_an_interval(log: Log, k: int) -> bool:
    """A DISCONNECT is sent with a Session Expiry Interval other than 0."""
    p = log.sent_packet(k, DISCONNECT)
    return p is not None and p.get(0x11) not in (None, 0)


@says("C21")
def sends_to_one_that_wants_no_reasons(log: Log, k: int) -> bool:
    """Another packet than PUBLISH, CONNACK and DISCONNECT is sent to a client with Request Problem Information 0."""
    p, connect = log.sent_packet(k), log.connect_before(k)
    is_bound = p is not None and p.type not in (PUBLISH, CONNACK, DISCONNECT)
    return is_bound and connect is not None and connect.get(0x17) == 0


@says("C22")
def informs(log: Log, k: int) -> bool:
    """A CONNACK is sent with Response Information."""
    p = log.sent_packet(k, CONNACK)
    return p is not None and p.get(0x1A) is not None


@says("C23")
def stays_or_closes(log: Log, k: int) -> bool:
    """A REST, or the CLOSE, after the end's DISCONNECT or a server's CONNACK of 0x80 or more."""
    is_last_sent = has_disconnected(log, k) or (log.role == "server" and has_refused(log, k))
    return (log.is_rest(k) or is_close(log, k)) and is_last_sent


# -- S, on packet identifiers


def identifiers_before(log: Log, k: int) -> Iterator[int]:
    """Those that a packet took before k, the latest first."""
    for j in range(k - 1, 0, -1):
        p = log.sent_packet(j, PUBLISH, SUBSCRIBE, UNSUBSCRIBE)
        if p is not None and p.identifier is not None:
            yield p.identifier


@says("S01")
def takes_an_identifier(log: Log, k: int) -> bool:
    """An identifier is taken while some identifier is in use, and the client knew of that."""
    is_request = log.role == "client" and log.sent_packet(k, SUBSCRIBE, UNSUBSCRIBE) is not None
    if (opener(log, k) is None and not is_request) or resumes_unasked(log, k):
        return False
    return any(is_busy(log, k, i) for i in dict.fromkeys(identifiers_before(log, k)))


@says("S02")
def resends(log: Log, k: int) -> bool:
    """A PUBLISH of QoS above 0 is sent with DUP 1. None was cut off, which it could be; and a client knew of the session."""
    return resend(log, k) is not None and not was_begun(log, k) and not is_sent_unknowing(log, k)


@says("S03")
def resends_anything(log: Log, k: int) -> bool:
    """A PUBLISH of QoS above 0 is sent with DUP 1."""
    return resend(log, k) is not None


@says("S04")
def goes_on_with_what_is_released(log: Log, k: int) -> bool:
    """What is open by QoS 2, and its PUBREL was sent since, is sent again: the PUBLISH or the PUBREL."""
    p = log.sent_packet(k, PUBREL)
    i = resend(log, k) if p is None else p.identifier
    j = None if i is None else open_by(log, k, i)
    return j is not None and log.sent_packet(j).qos == 2 and any(log.sends(m, PUBREL, i) for m in log.before_in(k) if m > j)


def resends_what_is_open(log: Log, k: int) -> bool:
    i = resend(log, k)
    return i is not None and open_by(log, k, i) is not None


@says("S05")
def resends_after_another(log: Log, k: int) -> bool:
    """What is open is sent again, after another one on the connection, which was open then."""
    return resends_what_is_open(log, k) and any(resends_what_is_open(log, j) for j in log.before_on(k))


@says("S06")
def is_owed_to_a_later_connection(log: Log, k: int) -> bool:
    """What is opened at k is open when a resumed connection begins, on which a REST binds while the end waits for no answer."""
    i = opener(log, k)
    return i is not None and any(is_rest_of_a_debt(log, k, i, t) for t in range(k + 1, log.last + 1) if log.is_binding(t))


def is_rest_of_a_debt(log: Log, k: int, i: int, t: int) -> bool:
    c = log.places[t]
    if log.sessions[t] != log.sessions[k] or log.fates[c] != RESUMED:
        return False
    return open_by(log, log.connection_positions[c][0], i) == k and not waits_for_an_answer(log, t)


@says("S07")
def uses_up_the_quota(log: Log, k: int) -> bool:
    """A PUBLISH of QoS above 0 takes the last of the send quota, or goes beyond it."""
    is_counted = publish_id(log, k) is not None and is_bound_by_peer(log, k)
    return is_counted and stretches_used(log, k) >= log.parameter(RECEIVE_MAXIMUM, k)


# -- E, on exchanges


def answering(exchange: str) -> Occasion:
    def applies(log: Log, k: int) -> bool:
        """An answer is sent; by a client that knew of the session, where it may answer before the CONNACK."""
        _, answer = EXCHANGES[exchange]
        return answer(log, k) is not None and not (exchange in OF_PUBLISHES and is_sent_unknowing(log, k))

    return applies


def asking(exchange: str) -> Occasion:
    def applies(log: Log, k: int) -> bool:
        """A cause comes, none under its identifier is unanswered before it, and a REST binds later on the connection."""
        cause, _ = EXCHANGES[exchange]
        i = cause(log, k)
        if i is None or first_unanswered(log, exchange, k, i) is not None:
            return False
        return any(t > k and log.is_binding(t) for t in log.connection_positions[log.places[k]])

    return applies


def choosing(exchange: str) -> Occasion:
    def applies(log: Log, k: int) -> bool:
        """An answer that is owed is sent, while one under another identifier is owed too."""
        cause, answer = EXCHANGES[exchange]
        i = answer(log, k)
        if i is None or first_unanswered(log, exchange, k, i) is None:
            return False
        others = {cause(log, j) for j in log.before_on(k)} - {None, i}
        return any(first_unanswered(log, exchange, k, other) is not None for other in others)

    return applies


for exchange in EXCHANGES:
    OCCASIONS[exchange + "A"] = answering(exchange)
    OCCASIONS[exchange + "R"] = asking(exchange)
    if exchange in OF_PUBLISHES:
        OCCASIONS[exchange + "O"] = choosing(exchange)


@says("E7R")
def rests_after_a_ping(log: Log, k: int) -> bool:
    """A REST binds, and a PINGREQ came before it on its connection."""
    return log.is_binding(k) and any(log.received_packet(j, PINGREQ) is not None for j in log.before_on(k))


# -- L, on releases


@says("L1", "L2")
def releases(log: Log, k: int) -> bool:
    """A RELEASE, of which it is known to which session its message belongs."""
    return log.event(k).kind == RELEASE and not is_of_session_before(log, k)


@says("L3")
def completes(log: Log, k: int) -> bool:
    """A PUBCOMP of code 0x00 is sent for a QoS 2 message that needs a RELEASE: it can't expire, and had a subscriber."""
    p = log.sent_packet(k, PUBCOMP)
    if p is None or p.code != 0:
        return False
    first = next((j for j in not_ended(log, k, p.identifier) if is_brought(log, j, p.identifier)), None)
    if first is None or log.received_packet(first).get(0x02) is not None:
        return False
    since = [j for j in log.before_in(k) if j > first]
    return not any(log.sends(j, PUBREC, p.identifier) and log.sent_packet(j).code == 0x10 for j in since)


# -- B, on subscriptions


@says("B01")
def delivers(log: Log, k: int) -> bool:
    """A PUBLISH with DUP 0 is sent on a topic that is known, in a session without shared subscriptions so far."""
    return matching(log, k) is not None


@says("B02")
def delivers_with_acknowledgement(log: Log, k: int) -> bool:
    """One of QoS above 0."""
    return matching(log, k) is not None and log.sent_packet(k).qos > 0


def answers_a_request(exchange: str, type: int) -> Occasion:
    def applies(log: Log, k: int) -> bool:
        """An answer is sent to a SUBSCRIBE, or an UNSUBSCRIBE, that is unanswered."""
        p = log.sent_packet(k, type)
        return p is not None and first_unanswered(log, exchange, k, p.identifier) is not None

    return applies


OCCASIONS["B03"] = answers_a_request("E5", SUBACK)
OCCASIONS["B04"] = answers_a_request("E6", UNSUBACK)
assert set(OCCASIONS) == set(CITATIONS)

# ---- the places of a log

# Statements on packets that only the other end sends.
FOREIGN = {"client": {"W20"}, "server": {"W15", "W16", "W17", "W18", "W19"}}


def binds(role: str, releases: bool, rule: str) -> bool:
    """Whether a statement is judged for an end at all, in a log that records releases or doesn't. A further one isn't, unasked."""
    return role in CITATIONS.get(rule, ()) and (rule[0] != "L" or releases)


def places(log: Log, rule: str) -> list[int]:
    """The positions at which a statement is put to the test: there it is judged, and there is an occasion."""
    if not binds(log.role, log.releases, rule):
        return []
    return [k for k in range(1, log.last + 1) if reference.is_judged(log, k, rule) and OCCASIONS[rule](log, k)]


def all_places(log: Log) -> dict[str, list[int]]:
    return {rule: places(log, rule) for rule in CITATIONS}


def log_of(recording: Recording) -> Log:
    """The events of a log, up to where it is refused."""
    return Log(recording.events, recording.role, recording.releases, recording.left)


def coverage(log: Log, found: dict[str, list[int]]) -> list[str]:
    """What was tested, given all places."""
    return coverage_of(log.role, log.releases, {rule: len(at) for rule, at in found.items()})


def coverage_of(role: str, releases: bool, counts: dict[str, int]) -> list[str]:
    """A line for each statement on an end, given how many places they have, 0 if it isn't said; and how many have some."""
    bound = {rule: counts.get(rule, 0) for rule in CITATIONS if binds(role, releases, rule)}
    listed = {rule: count for rule, count in bound.items() if count > 0 or rule not in FOREIGN[role]}
    rows = [f"tested {rule} {CITATIONS[rule][role]} places {count}" for rule, count in listed.items()]
    return [*rows, sum_of(rows)]


def sum_of(rows: list[str]) -> str:
    """How many of the statements with these lines have a place."""
    return f"covered {sum(not row.endswith(' places 0') for row in rows)} of {len(rows)} statements"


NO_REST = "unjudged answers no-rest"


def of_publishes(used: int, others: int = 0, pings: int = 0, connections: int = 1) -> list[str]:
    """What a client tests that on each connection sends a CONNECT without properties, so many PUBLISHes of QoS 1 under one identifier,
    of which none is acknowledged, so many of QoS 0, and so many PINGREQs. By S01 it is each under the identifier but the first. No REST
    binds."""
    connects = dict.fromkeys(("W18", "W19", "C02", "C03"), 1)
    packets = dict.fromkeys(("W02", "W03", "W06", "C01"), 1 + used + others + pings)
    texts = dict.fromkeys(("W04", "W05"), 1 + used + others)
    publishes = dict.fromkeys(("W07", "W14", "C18"), used + others)
    counts = connects | packets | texts | publishes | {"W01": 1 + pings, "W08": others, "W09": used, "S01": max(used - 1, 0)}
    return [*coverage_of("client", True, {rule: count * connections for rule, count in counts.items()}), NO_REST]


def lines(recording: Recording) -> list[str]:
    """What was tested in a log, and what wasn't judged: nothing if it is refused."""
    log = log_of(recording)
    return [] if recording.refusal else [*coverage(log, all_places(log)), *gaps.lines(log)]


def with_lines(report: str, tested: list[str]) -> str:
    """A report with what was tested before its last line."""
    *faults, last = report.splitlines()
    return "".join(f"{line}\n" for line in [*faults, *tested, last])


def covering(report: str, tested: list[str]) -> str:
    """A report as `check --coverage` is to print it, given what was tested."""
    return with_lines(report, tested)


def reported(recording: Recording) -> str:
    """What `check --coverage` is to print of a log."""
    return covering(reference.reported(recording), lines(recording))


def report(bytes: bytes) -> str:
    return reported(Recording(bytes))
