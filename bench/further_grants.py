"""What the further statements say of subscriptions: of the answers to a client that subscribes and unsubscribes (B05 to B07), and of
what comes by its subscriptions (B08 to B11, P, R). They are judged where the session is known.

After bytes in a session that may have been a SUBSCRIBE or an UNSUBSCRIBE nobody can tell from the log what is subscribed: those that
break a rule may have been taken in all the same, or in part. From there on nothing is said of the session but by B05.

For B08, B09, P01, P02, R01 and R02 each subscription of a session counts to its end, unless a SUBACK refused it: what was chosen while
it stood may come at any time later. B10 and B11 look at when one ends (`is_live`).
"""
from collections.abc import Callable
from dataclasses import dataclass

from further_table import (
    IDENTIFIERS, SUBSCRIPTION_IDENTIFIER, applies, fails, is_announced_0, is_bad_of, is_shared, share,
)
from reading import Lost, PUBLISH, Packet, SUBACK, SUBSCRIBE, UNSUBACK, UNSUBSCRIBE
from sessions import NEW, Log
from statements import closer, first_unanswered, matches, publish_id, sent, topic_of

ANSWERS = {SUBSCRIBE: SUBACK, UNSUBSCRIBE: UNSUBACK}
EXCHANGE = {SUBSCRIBE: "E5", UNSUBSCRIBE: "E6"}
RETAIN_AS_PUBLISHED, NEVER_AT_FIRST = 0x08, 2  # a bit of the Subscription Options, and a Retain Handling
AS_PUBLISHED, AT_FIRST, IN_VAIN = "as published", "at first", "in vain"


@dataclass(frozen=True)
class Request:
    """A filter of a SUBSCRIBE or an UNSUBSCRIBE that is received."""

    type: int
    at: int  # the packet's position
    place: int  # the filter's, in the packet
    filter: bytes
    options: int
    identifier: int | None  # the Subscription Identifier
    answered: int | None  # the position of its answer: the first one, if no earlier request under its Packet Identifier waits then
    code: int | None  # what that says of the filter

    def is_refused(self, k: int) -> bool:
        return self.answered is not None and self.answered < k and self.code is not None and self.code >= 0x80

    def is_done(self) -> bool:
        return self.code is not None and self.code < 0x80

    def ceiling(self, k: int) -> int:
        """The QoS that was granted, if that was said before k, else the one that was asked for."""
        is_said = self.answered is not None and self.answered < k and self.code is not None
        return self.code if is_said else self.options & 3

    def handling(self) -> int:
        return self.options >> 4 & 3

    def is_before(self, other: "Request") -> bool:
        return (self.at, self.place) < (other.at, other.place)


def requests(log: Log, session: int) -> list[Request]:
    """The filters of the SUBSCRIBEs and UNSUBSCRIBEs that were received in a session, in their order."""
    kept = log.__dict__.setdefault("requests", {})
    if session not in kept:
        kept[session] = [one for k in log.session_positions[session] for one in requests_at(log, k)]
    return kept[session]


def requests_at(log: Log, k: int) -> list[Request]:
    p = log.received_packet(k, SUBSCRIBE, UNSUBSCRIBE)
    if p is None:
        return []
    later = [m for m in log.connection_positions[log.places[k]] if m > k]
    first = next((m for m in later if log.sends(m, ANSWERS[p.type], p.identifier)), None)
    answered = first if first is not None and first_unanswered(log, EXCHANGE[p.type], first, p.identifier) == k else None
    said = log.sent_packet(answered).codes if answered is not None else []
    codes = [*said, *[None] * len(p.filters)]
    identifier = p.get(SUBSCRIPTION_IDENTIFIER)
    return [Request(p.type, k, n, *filter, identifier, answered, codes[n]) for n, filter in enumerate(p.filters)]


def requests_before(log: Log, k: int, *types: int) -> list[Request]:
    session = log.sessions[k]
    return [] if session is None else [one for one in requests(log, session) if one.at < k and one.type in types]


def is_untold(log: Log, k: int) -> bool:
    """Since the connection began with which k's session did, on a void connection too, bytes were received of a SUBSCRIBE or an
    UNSUBSCRIBE that break a rule, or that can't be read. If the log hasn't that connection, since the log began."""
    first = log.sessions[k]
    begun = log.session_positions[first][0] if log.fates[first] == NEW else 1
    return any(begun <= j < k for j in unclear(log))


def unclear(log: Log) -> list[int]:
    """The positions of such bytes."""
    if "unclear" not in log.__dict__:
        items = [(j, log.received(j)) for j in range(1, log.last + 1)]
        log.unclear = [j for j, item in items if isinstance(item, Lost) or is_bad_of(item, SUBSCRIBE) or is_bad_of(item, UNSUBSCRIBE)]
    return log.unclear


# ---- when a subscription is live


def in_flight(log: Log, k: int) -> list[int]:
    """The positions before k in its session of the PUBLISHes of QoS 1 or 2 that the server sent, for which no closer came since."""
    before = log.before_in(k)
    return [j for j in before if (i := publish_id(log, j)) is not None and not any(closer(log, m) == i for m in before if m > j)]


def idle_rests(log: Log, session: int) -> list[int]:
    """The binding RESTs of a session at which no message of QoS 1 or 2 is in flight."""
    kept = log.__dict__.setdefault("idle_rests", {})
    if session not in kept:
        kept[session] = [t for t in log.session_positions[session] if log.is_binding(t) and not in_flight(log, t)]
    return kept[session]


def is_ended(log: Log, k: int, one: Request) -> bool:
    """A later request for the same filter was granted before k."""
    return bool(ends(log, k, one))


def ends(log: Log, k: int, one: Request) -> list[int]:
    """Where requests were granted, before k, that put an end to a subscription."""
    later = [other for other in requests_before(log, k, SUBSCRIBE, UNSUBSCRIBE) if one.is_before(other) and other.filter == one.filter]
    return [other.answered for other in later if other.is_done() and other.answered < k]


def is_live(log: Log, k: int, one: Request) -> bool:
    """It isn't refused at k; and it wasn't ended, or no idle REST came after that."""
    rests = [t for t in idle_rests(log, log.sessions[k]) if t < k]
    return not one.is_refused(k) and not any(at < t for at in ends(log, k, one) for t in rests)


# ---- deliveries


def delivery(log: Log, k: int) -> Packet | None:
    """A PUBLISH with DUP 0 that the server sends in a session of which all is known, on a topic that is known."""
    p = log.sent_packet(k, PUBLISH) if log.role == "server" else None
    is_judged = p is not None and not p.dup and log.sessions[k] is not None and topic_of(log, k) is not None
    return p if is_judged and not is_untold(log, k) else None


def is_about(filter: bytes, topic: bytes) -> bool:
    """A filter matches a topic. A shared one does so by the filter after its name too."""
    after = share(filter)[1] if is_shared(filter) else None
    return matches(filter, topic) or (after is not None and matches(after, topic))


def matching(log: Log, k: int) -> list[Request]:
    """The subscriptions of the session, asked for before a delivery, that aren't refused by then and match its topic."""
    topic = topic_of(log, k)
    return [one for one in requests_before(log, k, SUBSCRIBE) if not one.is_refused(k) and is_about(one.filter, topic)]


def live(log: Log, k: int) -> list[Request]:
    return [one for one in matching(log, k) if is_live(log, k, one)]


def of_deliveries(test: Callable[[Log, int, Packet], bool]) -> Callable[[Log, int], bool]:
    def said(log: Log, k: int) -> bool:
        p = delivery(log, k)
        return p is not None and test(log, k, p)

    said.__doc__ = test.__doc__
    return said


def reaches(ceilings: list[Request], log: Log, k: int) -> bool:
    """Some of these allows the QoS of the delivery at k."""
    return any(one.ceiling(k) >= log.sent_packet(k).qos for one in ceilings)


@applies("B08")
@of_deliveries
def has_shares(log: Log, k: int, p: Packet) -> bool:
    """A delivery, in a session in which a SUBSCRIBE with a shared filter came before."""
    return any(is_shared(one.filter) for one in requests_before(log, k, SUBSCRIBE))


@applies("B09")
def has_shares_and_qos(log: Log, k: int) -> bool:
    """One of QoS 1 or 2."""
    return has_shares(log, k) and log.sent_packet(k).qos > 0


@fails("B08", sent([PUBLISH]))
def delivers_unasked(log: Log, k: int) -> bool:
    return has_shares(log, k) and not matching(log, k)


@fails("B09", sent([PUBLISH]))
def delivers_above(log: Log, k: int) -> bool:
    return has_shares(log, k) and bool(matching(log, k)) and not reaches(matching(log, k), log, k)


def identifiers(p: Packet) -> list[object]:
    return [value for kind, value in p.properties if kind == SUBSCRIPTION_IDENTIFIER]


@applies("P01")
@of_deliveries
def names_subscriptions(log: Log, k: int, p: Packet) -> bool:
    """A delivery that something matches, with a Subscription Identifier."""
    return identifiers(p) != [] and bool(matching(log, k))


@fails("P01", sent([PUBLISH]))
def names_a_foreign_one(log: Log, k: int) -> bool:
    if not names_subscriptions(log, k):
        return False
    given = [one.identifier for one in matching(log, k)]
    return any(identifier not in given for identifier in identifiers(log.sent_packet(k)))


@applies("P02")
@of_deliveries
def has_identifiers_to_name(log: Log, k: int, p: Packet) -> bool:
    """A delivery that something matches, all of it with an identifier, and the server didn't say that it takes none."""
    found = matching(log, k)
    return bool(found) and all(one.identifier is not None for one in found) and not is_announced_0(log, k, IDENTIFIERS)


@fails("P02", sent([PUBLISH]))
def names_none(log: Log, k: int) -> bool:
    return has_identifiers_to_name(log, k) and identifiers(log.sent_packet(k)) == []


def reasons_to_retain(found: list[Request]) -> set[str]:
    """Why RETAIN may be 1 by these subscriptions: one keeps it as it was published; one asks for the messages that are retained; or one
    would, were it not shared."""
    why = {AS_PUBLISHED for one in found if one.options & RETAIN_AS_PUBLISHED}
    return why | {IN_VAIN if is_shared(one.filter) else AT_FIRST for one in found if one.handling() != NEVER_AT_FIRST}


@applies("R01")
@of_deliveries
def can_have_no_retain(log: Log, k: int, p: Packet) -> bool:
    """A delivery that something matches, all of it with Retain As Published 0 and Retain Handling 2."""
    return bool(matching(log, k)) and reasons_to_retain(matching(log, k)) == set()


@fails("R01", sent([PUBLISH]))
def retains_unasked(log: Log, k: int) -> bool:
    return can_have_no_retain(log, k) and log.sent_packet(k).retain


@applies("R02")
@of_deliveries
def gives_to_a_share(log: Log, k: int, p: Packet) -> bool:
    """A delivery to which nothing but a shared subscription could give RETAIN 1, by asking for retained messages, which none gets."""
    return reasons_to_retain(matching(log, k)) == {IN_VAIN}


@fails("R02", sent([PUBLISH]))
def retains_for_a_share(log: Log, k: int) -> bool:
    return gives_to_a_share(log, k) and log.sent_packet(k).retain


@applies("B10", "B11")
@of_deliveries
def delivers_for_an_ended_one(log: Log, k: int, p: Packet) -> bool:
    """A delivery that some subscription matches which was ended."""
    return any(is_ended(log, k, one) for one in matching(log, k))


@fails("B10", sent([PUBLISH]))
@of_deliveries
def delivers_for_none(log: Log, k: int, p: Packet) -> bool:
    return bool(matching(log, k)) and not live(log, k)


@fails("B11", sent([PUBLISH]))
@of_deliveries
def delivers_by_an_old_qos(log: Log, k: int, p: Packet) -> bool:
    alive = live(log, k)
    return not reaches(alive, log, k) and reaches([one for one in matching(log, k) if one not in alive], log, k)


# ---- answers: each place of one, with what it is said of


def answered(log: Log, k: int, type: int, exchange: str) -> list[tuple[Request, int]]:
    """The filters of the first unanswered request to which an answer at k is sent, each with its code."""
    p = log.sent_packet(k, ANSWERS[type]) if log.role == "server" else None
    first = first_unanswered(log, exchange, k, p.identifier) if p is not None and log.sessions[k] is not None else None
    return [] if first is None else list(zip(requests_at(log, first), p.codes))


@applies("B05")
def grants(log: Log, k: int) -> bool:
    """A SUBACK answers a SUBSCRIBE, and grants something."""
    return any(code < 0x80 for _, code in answered(log, k, SUBSCRIBE, "E5"))


@fails("B05", sent([SUBACK]))
def grants_too_much(log: Log, k: int) -> bool:
    return any(one.options & 3 < code < 0x80 for one, code in answered(log, k, SUBSCRIBE, "E5"))


def unsubscribed(log: Log, k: int) -> list[tuple[Request, int]]:
    """The same of an UNSUBACK, in a session of which all is known."""
    return [] if log.sessions[k] is None or is_untold(log, k) else answered(log, k, UNSUBSCRIBE, "E6")


def said_before(log: Log, k: int, j: int, filter: bytes) -> list[int | None]:
    """What the SUBACK of the SUBSCRIBE at j says of each place of a filter, if it was sent before k."""
    asked = [one for one in requests_at(log, j) if one.filter == filter]
    return [one.code if one.answered is not None and one.answered < k else None for one in asked]


def stands(log: Log, k: int, one: Request) -> bool:
    """The last SUBSCRIBE with the filter of this UNSUBSCRIBE was granted before it, and neither another UNSUBSCRIBE since, nor an
    earlier place of its own, nor a request between it and k has the filter. Of several places the last one that has a code counts."""
    about = [other for other in requests_before(log, k, SUBSCRIBE, UNSUBSCRIBE) if other.filter == one.filter]
    before = [other for other in about if other.is_before(one)]
    if about[-1].at > one.at or not before or before[-1].type != SUBSCRIBE:
        return False
    codes = [code for code in said_before(log, one.at, before[-1].at, one.filter) if code is not None]
    return codes != [] and codes[-1] < 0x80


@applies("B06")
def answers_for_a_subscription(log: Log, k: int) -> bool:
    """An UNSUBACK says 0x00 or 0x11 of a filter that is subscribed."""
    return any(code in (0, 0x11) and stands(log, k, one) for one, code in unsubscribed(log, k))


@fails("B06", sent([UNSUBACK]))
def denies_a_subscription(log: Log, k: int) -> bool:
    return any(code == 0x11 and stands(log, k, one) for one, code in unsubscribed(log, k))


def is_unheard_of(log: Log, k: int, filter: bytes) -> bool:
    """No SUBSCRIBE before k in its session has this filter, refused ones aside."""
    asked = {one.at for one in requests_before(log, k, SUBSCRIBE) if one.filter == filter}
    return not any(code is None or code < 0x80 for j in asked for code in said_before(log, k, j, filter))


@applies("B07")
def says_what_it_deleted(log: Log, k: int) -> bool:
    """An UNSUBACK says 0x00 of a filter, or 0x11 of one that was never subscribed."""
    return any(code == 0 or (code == 0x11 and is_unheard_of(log, k, one.filter)) for one, code in unsubscribed(log, k))


@fails("B07", sent([UNSUBACK]))
def deletes_what_never_was(log: Log, k: int) -> bool:
    return any(code == 0 and is_unheard_of(log, k, one.filter) for one, code in unsubscribed(log, k))
