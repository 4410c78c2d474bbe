#!/usr/bin/env python3
"""Says of each fault of a log what it conflicts with: its evidence.

That is the position of an earlier event, or none, and at most two numbers. It is a second opinion, and no part of the program: it was
written from the words of the statements, which are the sentences of the functions here too. Like occasions.py it looks back over the
whole log for each fault, and keeps no state from one position to the next. Whether there is a fault is reference.py's, and with --all
or --times, of the further statements that the program judges by that, further.py's.

For each log it prints its report, as `mqjudge check` does, and under each fault a line `because POSITION CODE event POSITION numbers N N`:
`event -` where no event is to blame, and no numbers where there are none. With --words it says after that, in parentheses, what the event
is, or what never came, in the words that the program has for it (mq_display/specs/Because.antt). With --self-test it checks worked logs
(worked_because.py), those of the suite, and laws on these and many others.

usage: bench/because.py [--words] [--all | --times] LOG..
       bench/because.py --self-test [--made 150]
"""
import argparse
import sys
from collections.abc import Callable, Iterable
from dataclasses import dataclass
from pathlib import Path

sys.dont_write_bytecode = True  # the repository stays as it is
import on_request
from further_grants import is_about
from further_manners import waits_for_auth
from further_table import ALL, ALWAYS, JUDGED, TIMES
from further_times import late_by_client, late_by_server, last_of_client, silence
from reading import (
    CONNACK, CONNECT, DISCONNECT, NAMES, PINGREQ, PINGRESP, PUBREC, PUBREL, Recording, SUBACK, SUBSCRIBE, UNSUBACK, UNSUBSCRIBE,
)
from sessions import Log, MAXIMUM_PACKET_SIZE, MAXIMUM_QOS, RECEIVE_MAXIMUM, TOPIC_ALIAS_MAXIMUM
from statements import (
    CITATIONS, EXCHANGES, OF_PUBLISHES, closer, ender, first_unanswered, is_brought, is_owed_again, is_release, latest_opener,
    matches, not_ended, open_by, opener, publish_id, resend, standing, standing_from, stretches_used, topic_of, type_of,
)

# ---- what each fault conflicts with: each answers for a fault at position k of the log


@dataclass(frozen=True)
class Evidence:
    """Words, in which {0} and {1} are the numbers: what the event is, if there is one; none where the statement says all. A position, or
    None; the numbers. Of which kind it is, where the words are the same for several."""

    words: str
    because: int | None = None
    numbers: tuple[int, ...] = ()
    kind: str = ""

    def said(self) -> str:
        """What is said of it after the statement: nothing, or words in parentheses after a space."""
        words = self.words.format(*self.numbers)
        if self.because is not None:
            words = f"because of event {self.because}" + (f": {words}" if words else "")
        return f" ({words})" if words else ""


Reason = Callable[[Log, int], Evidence]
REASONS: dict[str, Reason] = {}


def says(*rules: str) -> Callable[[Reason], Reason]:
    def kept(reason: Reason) -> Reason:
        REASONS.update(dict.fromkeys(rules, reason))
        return reason

    return kept


def by_itself(words: str, *rules: str) -> None:
    """Nothing earlier is to blame for these."""
    REASONS.update(dict.fromkeys(rules, lambda log, k: Evidence(words)))


Positions = Iterable[int]
Test = Callable[[int], bool]


def earliest(positions: Positions, test: Test) -> int | None:
    return next((j for j in positions if test(j)), None)


def latest(positions: list[int], test: Test) -> int | None:
    return earliest(reversed(positions), test)


# -- W, on a packet's bytes: they are at fault by themselves, whatever came before

by_itself("", *(rule for rule in CITATIONS if rule[0] == "W"))

# -- C, on the past of a connection. Of several events that forbid to go on it is the first: from then on it was wrong.


def name_at(log: Log, k: int) -> str:
    """The name of the packet that is there."""
    return NAMES[type_of(log.event(k).item)]


def first_sent(log: Log, k: int, type: int) -> int | None:
    """The first packet of this type that was sent before k on its connection, or bytes that break a rule and have the type."""
    return earliest(log.before_on(k), lambda j: type_of(log.sent(j)) == type)


def connect_of(log: Log, k: int) -> int | None:
    """The CONNECT of k's connection."""
    return log.first_connect(log.places[k])


def announcer(log: Log, k: int, identifier: int) -> int | None:
    """The peer's CONNACK or CONNECT on k's connection, if it came before k and announces this."""
    c = log.places[k]
    if not log.announced(identifier, c, k):
        return None
    return log.first_connacks[c] if log.role == "client" else log.first_connect(c)


# Only the other end sends this type.
by_itself("", "C01")
# A CONNACK that refuses has Session Present 1; a client's PUBLISH a Subscription Identifier; a server's DISCONNECT an interval.
by_itself("", "C09", "C18", "C19")
# What should have come first didn't come: the client's CONNECT; the one that a CONNACK answers; the server's CONNACK.
by_itself("no CONNECT was sent before", "C02")
by_itself("no CONNECT was received before", "C04")
by_itself("no CONNACK was sent before", "C05")


@says("C03")
def second_connect(log: Log, k: int) -> Evidence:
    """The CONNECT with which the client began the connection."""
    return Evidence("the first CONNECT", first_sent(log, k, CONNECT))


@says("C06")
def second_connack(log: Log, k: int) -> Evidence:
    """The CONNACK with which the server had answered already."""
    return Evidence("the first CONNACK", first_sent(log, k, CONNACK))


@says("C07")
def present_at_a_clean_start(log: Log, k: int) -> Evidence:
    """The CONNECT, which asks for a new session by Clean Start 1."""
    return Evidence("the CONNECT, with Clean Start 1", connect_of(log, k))


@says("C08")
def present_without_a_session(log: Log, k: int) -> Evidence:
    """The CONNACK of the last connection that was accepted: its session ended with it. If there was none, no session was begun."""
    last = log.latest_accepted(log.places[k])
    if last is None:
        return Evidence("no session was begun")
    return Evidence("the last CONNACK that accepted, whose session has ended", log.first_connacks[last])


@says("C10")
def assigns_no_identifier(log: Log, k: int) -> Evidence:
    """The CONNECT, whose Client Identifier is empty."""
    return Evidence("the CONNECT, with an empty Client Identifier", connect_of(log, k))


@says("C11")
def goes_on_after_disconnect(log: Log, k: int) -> Evidence:
    """The DISCONNECT, after which the end may send nothing."""
    return Evidence("the DISCONNECT", earliest(log.before_on(k), lambda j: log.sent_packet(j, DISCONNECT) is not None))


def is_refusal(log: Log, j: int) -> bool:
    p = log.sent_packet(j, CONNACK)
    return p is not None and p.code >= 0x80


@says("C12")
def goes_on_after_refusing(log: Log, k: int) -> Evidence:
    """The CONNACK that refuses, after which the server may send nothing."""
    return Evidence("the CONNACK that refuses", earliest(log.before_on(k), lambda j: is_refusal(log, j)))


@says("C13")
def goes_on_with_a_wrong_session(log: Log, k: int) -> Evidence:
    """The CONNACK, which resumes a session that the client hasn't."""
    return Evidence("the CONNACK, with Session Present 1", log.first_connacks[log.places[k]])


@says("C14")
def too_large(log: Log, k: int) -> Evidence:
    """The CONNACK or CONNECT in which the peer announced its Maximum Packet Size; the packet's size, and that."""
    numbers = log.sent_packet(k).size, log.parameter(MAXIMUM_PACKET_SIZE, k)
    return Evidence("{0} bytes, at most {1} allowed", announcer(log, k, MAXIMUM_PACKET_SIZE), numbers)


@says("C15")
def too_high_an_alias(log: Log, k: int) -> Evidence:
    """That in which the peer announced its Topic Alias Maximum; the alias, and that. Not announced, it is 0."""
    at, numbers = announcer(log, k, TOPIC_ALIAS_MAXIMUM), (log.sent_packet(k).get(0x23), log.parameter(TOPIC_ALIAS_MAXIMUM, k))
    return Evidence("Topic Alias {0}, at most {1} allowed" + by_default(at), at, numbers)


def by_default(at: int | None) -> str:
    """The words where nothing was announced."""
    return " by default" if at is None else ""


@says("C16")
def unset_alias(log: Log, k: int) -> Evidence:
    """The alias, which wasn't set on this connection: what an earlier one set doesn't count."""
    return Evidence("Topic Alias {0} wasn't set on this connection", None, (log.sent_packet(k).get(0x23),))


@says("C17")
def too_high_a_qos(log: Log, k: int) -> Evidence:
    """The CONNACK in which the server announced its Maximum QoS; the PUBLISH's QoS, and that."""
    numbers = log.sent_packet(k).qos, log.parameter(MAXIMUM_QOS, k)
    return Evidence("QoS {0}, at most {1} allowed", announcer(log, k, MAXIMUM_QOS), numbers)


@says("C20")
def revives_its_session(log: Log, k: int) -> Evidence:
    """The CONNECT, whose Session Expiry Interval is 0 or absent; and that of the DISCONNECT, in seconds."""
    return Evidence("the CONNECT, with Session Expiry Interval 0 or none, and here {0} seconds", connect_of(log, k), (log.sent_packet(k).get(0x11),))


@says("C21")
def explains_unasked(log: Log, k: int) -> Evidence:
    """The CONNECT, which asks for no explanations."""
    return Evidence("the CONNECT, with Request Problem Information 0", connect_of(log, k))


@says("C22")
def informs_unasked(log: Log, k: int) -> Evidence:
    """The CONNECT, which doesn't ask for Response Information."""
    return Evidence("the CONNECT, without Request Response Information 1", connect_of(log, k))


@says("C23")
def stays_open(log: Log, k: int) -> Evidence:
    """The DISCONNECT, or a server's CONNACK that refuses, after which the end had to close the connection."""
    may_refuse = log.role == "server"
    at = earliest(log.before_on(k), lambda j: log.sent_packet(j, DISCONNECT) is not None or (may_refuse and is_refusal(log, j)))
    return Evidence("it had to close after that", at, kind=name_at(log, at))


# -- S, on packet identifiers

# Of what ended an exchange, and of a new session, in which it is over too.
OVER = "the exchange was over with it"
UNASKED = "nothing asked for it after that"
BEGINNING = "the CONNACK that began a new session"


def new_session(log: Log, k: int, test: Test) -> int | None:
    """The CONNACK that began k's session, if it comes before k, and something in an earlier session passes the test."""
    session = log.sessions[k]
    if session is None or log.first_connacks[session] >= k:
        return None
    before = (j for j in range(1, k) if log.sessions[j] not in (None, session))
    return log.first_connacks[session] if earliest(before, test) is not None else None


@says("S01")
def takes_a_used_identifier(log: Log, k: int) -> Evidence:
    """What holds the identifier: the PUBLISH that opened it, or a SUBSCRIBE or UNSUBSCRIBE that waits for its answer; of these the last."""
    i, before = log.sent_packet(k).identifier, log.before_on(k)

    def waits(j: int, asked: int, answered: int) -> bool:
        return log.sends(j, asked, i) and not any(log.receives(m, answered, i) for m in before if m > j)

    # A PUBLISH that may have been discarded is on an earlier connection: where it holds nothing, what waits here comes after it.
    holders = [j for j in before if waits(j, SUBSCRIBE, SUBACK) or waits(j, UNSUBSCRIBE, UNSUBACK)]
    holders.append(open_by(log, k, i) or 0)
    return Evidence("it holds the identifier", max(holders), kind=name_at(log, max(holders)))


@says("S02")
def resends_what_is_not_open(log: Log, k: int) -> Evidence:
    """What acknowledged it in this session. If it wasn't sent in this session, but in an earlier one, the CONNACK that began this one.
    Else it was never sent."""
    i = resend(log, k)
    if latest_opener(log, k, i) is not None:
        at = latest(log.before_in(k), lambda j: closer(log, j) == i)
        return Evidence(OVER, at, kind=name_at(log, at))
    at = new_session(log, k, lambda j: opener(log, j) == i)
    return Evidence("never sent in this session" if at is None else OVER, at, kind=BEGINNING)


@says("S03")
def resends_on_one_connection(log: Log, k: int) -> Evidence:
    """The PUBLISH that sent it before on this connection, the last one if there are several."""
    i = resend(log, k)
    return Evidence("the PUBLISH before, on this connection", latest(log.before_on(k), lambda j: publish_id(log, j) == i))


@says("S04")
def resends_after_pubrel(log: Log, k: int) -> Evidence:
    """The last PUBREL that was sent for it: from then on only that may be sent again."""
    i = resend(log, k)
    return Evidence("the PUBREL", latest(log.before_in(k), lambda j: log.sends(j, PUBREL, i)))


@says("S05")
def resends_out_of_order(log: Log, k: int) -> Evidence:
    """The first PUBLISH that was sent again too early, before this one; where that was first sent, and where this one was."""
    own = open_by(log, k, resend(log, k))

    def first_sent_at(j: int) -> int:
        other = resend(log, j)
        return 0 if other is None else open_by(log, j, other) or 0

    at = earliest(log.before_on(k), lambda j: first_sent_at(j) > own)
    words = "first sent as event {0}, and this one as event {1} before it"
    return Evidence(words, at, (first_sent_at(at), own))


@says("S06")
def does_not_send_again(log: Log, k: int) -> Evidence:
    """The CONNACK that resumed the session, on the connection whose REST shows that the PUBLISH wasn't sent again."""
    i = opener(log, k)
    rests = (t for t in range(k + 1, log.last + 1) if log.is_rest(t))
    t = earliest(rests, lambda t: is_owed_again(log, k, i, t))
    return Evidence("the CONNACK that resumed the session", log.first_connacks[log.places[t]])


@says("S07")
def passes_the_quota(log: Log, k: int) -> Evidence:
    """That in which the peer announced its Receive Maximum; how many PUBLISHes are in flight with this one, and that. Not announced, it
    is 65,535."""
    at, numbers = announcer(log, k, RECEIVE_MAXIMUM), (stretches_used(log, k), log.parameter(RECEIVE_MAXIMUM, k))
    return Evidence("{0} in flight, at most {1} allowed" + by_default(at), at, numbers)


# -- E, on exchanges


def is_refused(log: Log, j: int, i: int) -> bool:
    """A PUBREC of 0x80 or more is received: it asks for no PUBREL, but ends the exchange."""
    return log.receives(j, PUBREC, i) and log.received_packet(j).code >= 0x80


def answered_unasked(exchange: str) -> Reason:
    cause, answer = EXCHANGES[exchange]

    def reason(log: Log, k: int) -> Evidence:
        """What answered it already: the last answer on this connection, if it was asked for in this session. For a PUBREL also a PUBREC
        that asked for none, if that came later. If it was asked for in an earlier session, the CONNACK that began this one. Else it was
        never asked for."""
        i, before = answer(log, k), log.before_in(k)
        was_asked = earliest(before, lambda j: cause(log, j) == i) is not None
        answered = latest(log.before_on(k), lambda j: answer(log, j) == i) if was_asked else None
        refused = latest(before, lambda j: is_refused(log, j, i)) if exchange == "E3" else None
        if refused is not None and refused > (answered or 0):
            return Evidence(UNASKED, refused, kind="PUBREC of 0x80 or more")
        if answered is not None:
            return Evidence(UNASKED, answered, kind="the answer before")
        at = new_session(log, k, lambda j: cause(log, j) == i)
        return Evidence("never asked for in this session" if at is None else UNASKED, at, kind=BEGINNING)

    return reason


def unanswered(log: Log, k: int) -> Evidence:
    """The REST, at which the answer was still missing: what isn't sent by then is never sent."""
    return Evidence("the REST, with no answer before it", earliest(log.connection_positions[log.places[k]], lambda t: t > k and log.is_binding(t)))


def answered_out_of_order(exchange: str) -> Reason:
    cause, answer = EXCHANGES[exchange]

    def reason(log: Log, k: int) -> Evidence:
        """What came first of all that waits for an answer: it had to be answered before."""
        others = {cause(log, j) for j in log.before_on(k)} - {None, answer(log, k)}
        firsts = [first_unanswered(log, exchange, k, other) for other in others]
        at = min(first for first in firsts if first is not None)
        return Evidence("it came first, and waits for its answer", at)

    return reason


for exchange in EXCHANGES:
    REASONS[exchange + "A"] = answered_unasked(exchange)
    REASONS[exchange + "R"] = unanswered
    if exchange in OF_PUBLISHES:
        REASONS[exchange + "O"] = answered_out_of_order(exchange)


@says("E7R")
def leaves_pings_unanswered(log: Log, k: int) -> Evidence:
    """The last PINGREQ; how many came on the connection, and how many PINGRESPs were sent."""
    before = log.before_on(k)
    asked = [j for j in before if log.received_packet(j, PINGREQ) is not None]
    answered = [j for j in before if log.sent_packet(j, PINGRESP) is not None]
    return Evidence("{0} asked, {1} answered", asked[-1], (len(asked), len(answered)))


# -- L, on releases


@says("L1")
def releases_nothing(log: Log, k: int) -> Evidence:
    """What ended the exchange of the message in this session: a PUBCOMP, or a PUBREC that refuses. If it wasn't received in this session,
    but in an earlier one, the CONNACK that began this one. Else it was never received."""
    i, before = log.event(k).released, log.before_in(k)
    if earliest(before, lambda j: is_brought(log, j, i)) is not None:
        at = latest(before, lambda j: ender(log, j) == i)
        return Evidence(OVER, at, kind=name_at(log, at))
    at = new_session(log, k, lambda j: is_brought(log, j, i))
    return Evidence("never received in this session" if at is None else OVER, at, kind=BEGINNING)


@says("L2")
def releases_twice(log: Log, k: int) -> Evidence:
    """The last RELEASE of the message before this one."""
    return Evidence("the RELEASE before", latest(log.before_in(k), lambda j: is_release(log, j, log.event(k).released)))


@says("L3")
def completes_unreleased(log: Log, k: int) -> Evidence:
    """The PUBLISH that brought the message, and for which there was no RELEASE."""
    i = log.sent_packet(k).identifier
    return Evidence("the PUBLISH that brought it, and wasn't released", earliest(not_ended(log, k, i), lambda j: is_brought(log, j, i)))


# -- B, on subscriptions


@says("B01")
def sends_what_nobody_asked_for(log: Log, k: int) -> Evidence:
    """How many filters stand in this session, of which none matches. One that was asked for twice counts once."""
    return Evidence("{0} filters stand, and none matches", None, (len({filter for filter, _ in standing(log, k)}),))


@says("B02")
def sends_above_the_granted_qos(log: Log, k: int) -> Evidence:
    """The last SUBSCRIBE of which a filter stands that matches; the PUBLISH's QoS, and the greatest one that was granted for any filter
    that matches."""
    topic = topic_of(log, k)

    def ceilings(filters: list[tuple[bytes, int]]) -> list[int]:
        return [ceiling for filter, ceiling in filters if matches(filter, topic)]

    at = latest(log.before_in(k), lambda j: ceilings(standing_from(log, k, j)) != [])
    numbers = log.sent_packet(k).qos, max(ceilings(standing(log, k)))
    return Evidence("QoS {0}, at most {1} granted", at, numbers)


def counts_wrongly(exchange: str) -> Reason:
    def reason(log: Log, k: int) -> Evidence:
        """The request that is answered; how many filters that has, and how many Reason Codes the answer has."""
        p = log.sent_packet(k)
        at = first_unanswered(log, exchange, k, p.identifier)
        numbers = len(log.received_packet(at).filters), len(p.codes)
        return Evidence("{0} filters, {1} Reason Codes", at, numbers)

    return reason


REASONS["B03"] = counts_wrongly("E5")
REASONS["B04"] = counts_wrongly("E6")


@says("B05")
def grants_too_much(log: Log, k: int) -> Evidence:
    """The SUBSCRIBE that is answered."""
    return Evidence("the SUBSCRIBE, which asks for less", first_unanswered(log, "E5", k, log.sent_packet(k).identifier))


@says("B06")
def denies_a_subscription(log: Log, k: int) -> Evidence:
    """The UNSUBSCRIBE that is answered."""
    return Evidence("the UNSUBSCRIBE, for a filter that was subscribed", first_unanswered(log, "E6", k, log.sent_packet(k).identifier))


@says("B07")
def deletes_what_never_was(log: Log, k: int) -> Evidence:
    """The UNSUBSCRIBE that is answered."""
    return Evidence("the UNSUBSCRIBE, for a filter that was never subscribed", first_unanswered(log, "E6", k, log.sent_packet(k).identifier))


# No filter is to blame for what none matches.
by_itself("", "B08")


@says("B09", "P01", "P02", "R01", "R02")
def is_matched_in_vain(log: Log, k: int) -> Evidence:
    """The last SUBSCRIBE with a filter that matches, refused or not."""
    topic = topic_of(log, k)

    def asks(j: int) -> bool:
        p = log.received_packet(j, SUBSCRIBE)
        return p is not None and any(is_about(filter, topic) for filter, _ in p.filters)

    return Evidence("the SUBSCRIBE that matches", latest(log.before_in(k), asks))


# -- F, V, C24, D and A, of further statements: the CONNACK or the CONNECT of the connection, or a REST; of a value in one packet nothing earlier


def announces_0(property: str) -> Reason:
    def reason(log: Log, k: int) -> Evidence:
        """The CONNACK, by which the server hasn't got it."""
        return Evidence(f"the CONNACK, with {property} Available 0", log.first_connacks[log.places[k]])

    return reason


REASONS["F01"] = announces_0("Retain")
REASONS["F02"] = announces_0("Wildcard Subscription")
REASONS["F03"] = announces_0("Subscription Identifier")
REASONS["F04"] = announces_0("Shared Subscription")
by_itself("", "V03", "V04", "V06")


@says("F05")
def accepts_too_high_a_will(log: Log, k: int) -> Evidence:
    """The CONNECT, whose Will has a QoS that the server can't take."""
    return Evidence("the CONNECT, with a Will QoS above the announced maximum", connect_of(log, k))


@says("F06")
def accepts_a_will_to_retain(log: Log, k: int) -> Evidence:
    """The CONNECT, whose Will is to be retained."""
    return Evidence("the CONNECT, with Will Retain 1", connect_of(log, k))


@says("C24")
def leaves_a_connect(log: Log, k: int) -> Evidence:
    """The first REST after it on its connection at which the server doesn't wait for an AUTH."""
    is_idle = lambda t: t > k and log.is_rest(t) and not waits_for_auth(log, t)
    return Evidence("the REST, with no CONNACK before it", earliest(log.connection_positions[log.places[k]], is_idle))


@says("D01", "D02", "D03", "D05")
def keeps_a_connection(log: Log, k: int) -> Evidence:
    """The first REST after it on its connection."""
    return Evidence("the REST, and the connection was still open", earliest(log.connection_positions[log.places[k]], lambda t: t > k and log.is_rest(t)))


@says("A01")
def goes_on_while_authenticating(log: Log, k: int) -> Evidence:
    """The CONNECT, which names a method."""
    return Evidence("the CONNECT, with an Authentication Method, and no CONNACK before", connect_of(log, k))


@says("A02")
def authenticates_unasked(log: Log, k: int) -> Evidence:
    """The CONNECT, which names no method."""
    return Evidence("the CONNECT, without an Authentication Method", connect_of(log, k))


@says("A03")
def names_another_method(log: Log, k: int) -> Evidence:
    """The CONNECT, which names the method."""
    return Evidence("the CONNECT, whose Authentication Method it must have", connect_of(log, k))


# -- K, on times: what the client sent last, how long ago that was, and how long it may be


def silent_since(limit: Callable[[Log, int], int]) -> Reason:
    def reason(log: Log, k: int) -> Evidence:
        """The client's last item, or the CONNACK if that came later; for how long nothing came after it, and the limit, in microseconds."""
        words = "nothing came from the client for {0} microseconds, and the limit is {1}"
        return Evidence(words, last_of_client(log, k), (silence(log, k), limit(log, k)))

    return reason


REASONS["K01"] = silent_since(late_by_client)
REASONS["K02"] = silent_since(late_by_server)
assert set(REASONS) == {*CITATIONS, *JUDGED}

# ---- what is said


def evidence(log: Log, k: int, rule: str) -> Evidence:
    """Of a fault."""
    return REASONS[rule](log, k)


def line(k: int, rule: str, found: Evidence) -> str:
    numbers = "".join(f" {number}" for number in found.numbers)
    return f"because {k} {rule} event {found.because or '-'}{' numbers' + numbers if numbers else ''}"


def lines(recording: Recording, with_words: bool = False, asked: str = ALWAYS) -> list[str]:
    """The report on a log, by as many statements as it is asked for, with a line under each fault."""
    log, out = Log(recording.events, recording.role, recording.releases), []
    for said in on_request.reported(recording, asked).splitlines():
        out.append(said)
        if said.startswith("fault "):
            _, at, rule, *_ = said.split()
            found = evidence(log, int(at), rule)
            out.append(line(int(at), rule, found) + (found.said() if with_words else ""))
    return out


def main() -> int:
    arguments = argparse.ArgumentParser(description="Says of each fault of logs what it conflicts with.")
    arguments.add_argument("logs", nargs="*", type=Path, metavar="LOG")
    arguments.add_argument("--words", action="store_true", help="say it in words too")
    arguments.add_argument("--all", action="store_true", help="judge by the further statements too that the program judges")
    arguments.add_argument("--times", action="store_true", help="judge by those on times too")
    arguments.add_argument("--self-test", action="store_true", help="check worked logs, the suite and laws")
    arguments.add_argument("--made", type=int, default=150, help="how many logs of each kind it makes")
    given = arguments.parse_args()
    if given.self_test == bool(given.logs):
        arguments.error("name logs, or give --self-test")
    if given.self_test:
        import worked_because

        return worked_because.self_test(given.made)
    asked = TIMES if given.times else ALL if given.all else ALWAYS
    for path in given.logs:
        if len(given.logs) > 1:
            print(f"{path}:")
        print(*lines(Recording(path.read_bytes()), given.words, asked), sep="\n")
    return 0


if __name__ == "__main__":
    sys.exit(main())
