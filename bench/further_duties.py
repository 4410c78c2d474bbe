"""What the further statements say of a server whose client breaks the standard (D): it closes the connection.

Each fails at the first item of its kind on a connection, and is decided at the first REST after it, since the server should have
closed by then. Of each kind the first is enough: a REST that shows what came of a later one, shows what came of the first.
"""
from collections.abc import Callable

from further_manners import rests_after
from further_table import (
    IDENTIFIERS, METHOD, NO_LOCAL, RETAIN, SUBSCRIPTION_IDENTIFIER, applies, connack_before, fails_later, is_announced_0, is_bad_of,
    is_shared,
)
from reading import (
    AUTH, BROKEN, Bad, CLOSE, CONNACK, CONNECT, DISCONNECT, FROM_SERVER_ALONE, LOST, Lost, PUBCOMP, PUBLISH, PUBREC, PUBREL, Packet,
    SUBSCRIBE, Subject,
)
from sessions import DEFAULTS, Log, MAXIMUM_PACKET_SIZE, MAXIMUM_QOS, RECEIVE_MAXIMUM, TOPIC_ALIAS_MAXIMUM
from statements import ANY, has_disconnected, has_refused, received, type_of

Kind = Callable[[Log, int], bool]


def is_excused(log: Log, k: int) -> bool:
    """A DISCONNECT was received before k on its connection."""
    return any(log.received_packet(j, DISCONNECT) for j in log.before_on(k))


def is_leaving(log: Log, k: int) -> bool:
    """The server sent a DISCONNECT, or a CONNACK of 0x80 or more, before k on its connection."""
    return has_disconnected(log, k) or has_refused(log, k)


def is_first_of(kind: Kind, log: Log, k: int) -> bool:
    return log.role == "server" and kind(log, k) and not any(kind(log, j) for j in log.before_on(k))


def never(log: Log, k: int) -> bool:
    return False


def open_rest(log: Log, k: int, is_unjudged: Kind) -> int | None:
    """The first REST after k, if nothing excuses that the connection is still open there."""
    t = next(iter(rests_after(log, k)), None)
    return None if t is None or is_excused(log, k) or is_leaving(log, t) or is_unjudged(log, t) else t


def is_seen_leaving(log: Log, k: int, is_unjudged: Kind) -> bool:
    """After k the server disconnects or refuses, or the connection closes, or a REST comes."""
    later = [j for j in log.connection_positions[log.places[k]] if j > k and not is_unjudged(log, j)]
    return any(log.is_rest(j) or log.event(j).kind == CLOSE or leaves(log, j) for j in later)


def leaves(log: Log, k: int) -> bool:
    p = log.sent_packet(k, DISCONNECT, CONNACK)
    return p is not None and (p.type == DISCONNECT or p.code >= 0x80)


def closes_after(code: str, subjects: set[Subject], kind: Kind, is_unjudged: Kind = never) -> None:
    """Where the last test is passed, what the server does there says nothing."""
    @fails_later(code, subjects)
    def stays(log: Log, k: int) -> int | None:
        return open_rest(log, k, is_unjudged) if is_first_of(kind, log, k) else None

    @applies(code)
    def has_to_close(log: Log, k: int) -> bool:
        """The first item of its kind is received, the server wasn't leaving before it, and it is seen whether it does then."""
        is_owed = is_first_of(kind, log, k) and not is_excused(log, k) and not is_leaving(log, k)
        return is_owed and is_seen_leaving(log, k, is_unjudged)


# ---- D01 and D02

MALFORMED = {"W01", "W02", "W04", "W05", "W06", "W07", "W10", "W11", "W12", "W16", "W17", "W18", "W19", "W21"}


def is_malformed(log: Log, k: int) -> bool:
    item = log.received(k)
    return isinstance(item, Lost) or (isinstance(item, Bad) and item.rule in MALFORMED)


def receives_type(log: Log, k: int, type: int) -> bool:
    """A packet of this type is received, or bytes of one that break a rule."""
    return type_of(log.received(k)) == type


def is_second_connect(log: Log, k: int) -> bool:
    return receives_type(log, k, CONNECT) and any(receives_type(log, j, CONNECT) for j in log.before_on(k))


# ---- D03: a packet that is received and is a Protocol Error


def breaks_protocol(log: Log, k: int) -> bool:
    p = log.received_packet(k)
    return p is not None and any(kind(log, k, p) for kind in (*ALWAYS, *(ONCE_ACCEPTED if is_accepted_before(log, k) else ())))


def is_accepted_before(log: Log, k: int) -> bool:
    connack = connack_before(log, k)
    return connack is not None and connack.code == 0


def is_of_servers(log: Log, k: int, p: Packet) -> bool:
    return p.type in FROM_SERVER_ALONE


def precedes_connect(log: Log, k: int, p: Packet) -> bool:
    """It isn't a CONNECT, and none was received before it. (One whose bytes break a rule may have been read all the same.)"""
    return p.type != CONNECT and not any(receives_type(log, j, CONNECT) for j in log.before_on(k))


def authenticates_unasked(log: Log, k: int, p: Packet) -> bool:
    connect = log.connect_before(k)
    return p.type == AUTH and connect is not None and connect.get(METHOD) is None


def revives_the_session(log: Log, k: int, p: Packet) -> bool:
    """A DISCONNECT has a Session Expiry Interval other than 0, and the CONNECT had none, or 0."""
    connect = log.connect_before(k)
    return p.type == DISCONNECT and p.get(0x11) not in (None, 0) and connect is not None and connect.get(0x11) in (None, 0)


def announced(log: Log, k: int, property: int) -> int | None:
    """What the server's CONNACK before k says, else the default."""
    value = connack_before(log, k).get(property)
    return DEFAULTS[property] if value is None else value


def sets_client_alias(log: Log, j: int, alias: int) -> bool:
    """What is received sets this alias; or it may do so, since its bytes break a rule and may have been read all the same."""
    p = log.received_packet(j, PUBLISH)
    return is_bad_of(log.received(j), PUBLISH) or (p is not None and p.topic != b"" and p.get(0x23) == alias)


def takes_a_wrong_alias(log: Log, k: int, p: Packet) -> bool:
    alias = p.get(0x23) if p.type == PUBLISH else None
    if alias is None:
        return False
    is_unset = p.topic == b"" and not any(sets_client_alias(log, j, alias) for j in log.before_on(k))
    return is_unset or alias > announced(log, k, TOPIC_ALIAS_MAXIMUM)


def names_a_subscription(log: Log, k: int, p: Packet) -> bool:
    return p.type == PUBLISH and p.get(SUBSCRIPTION_IDENTIFIER) is not None


def has_too_high_a_qos(log: Log, k: int, p: Packet) -> bool:
    return p.type == PUBLISH and p.qos > announced(log, k, MAXIMUM_QOS)


def asks_to_retain(log: Log, k: int, p: Packet) -> bool:
    return p.type == PUBLISH and p.retain and is_announced_0(log, k, RETAIN)


def is_too_large(log: Log, k: int, p: Packet) -> bool:
    most = announced(log, k, MAXIMUM_PACKET_SIZE)
    return most is not None and p.size > most


def wants_no_copy_of_a_share(log: Log, k: int, p: Packet) -> bool:
    return p.type == SUBSCRIBE and any(is_shared(filter) and options & NO_LOCAL for filter, options in p.filters)


def takes_an_identifier(log: Log, k: int, p: Packet) -> bool:
    return p.type == SUBSCRIBE and p.get(SUBSCRIPTION_IDENTIFIER) is not None and is_announced_0(log, k, IDENTIFIERS)


ALWAYS = (is_of_servers, precedes_connect, authenticates_unasked, revives_the_session)
ONCE_ACCEPTED = (
    takes_a_wrong_alias, names_a_subscription, has_too_high_a_qos, asks_to_retain, is_too_large, wants_no_copy_of_a_share,
    takes_an_identifier,
)

# ---- D05


def brought(log: Log, k: int) -> int | None:
    """The identifier of a PUBLISH of QoS 2 that is received. One of QoS 1 may have been answered before the next was read."""
    p = log.received_packet(k, PUBLISH)
    return p.identifier if p is not None and p.qos == 2 else None


def finished(log: Log, k: int) -> int | None:
    """The identifier of a PUBREL that is received, or of a PUBCOMP, or a PUBREC of 0x80 or more, that is sent."""
    if (release := log.received_packet(k, PUBREL)) is not None:
        return release.identifier
    p = log.sent_packet(k, PUBCOMP, PUBREC)
    return None if p is None or (p.type == PUBREC and p.code < 0x80) else p.identifier


def has_refused_a_message(log: Log, k: int) -> bool:
    """A PUBREC of 0x80 or more was sent before k on its connection."""
    return any((p := log.sent_packet(j, PUBREC)) is not None and p.code >= 0x80 for j in log.before_on(k))


def unfinished(log: Log, k: int) -> set[int]:
    """The identifiers that were brought on k's connection up to k, and not finished since."""
    before = log.before_on(k)
    found = {i for j in before if (i := brought(log, j)) is not None and not any(finished(log, m) == i for m in before if m > j)}
    return found | {brought(log, k)} - {None}


def is_over_the_maximum(log: Log, k: int) -> bool:
    if brought(log, k) is None or connack_before(log, k) is None:
        return False
    return len(unfinished(log, k)) > announced(log, k, RECEIVE_MAXIMUM)


closes_after("D01", received((BROKEN, LOST)), is_malformed)
closes_after("D02", received((CONNECT, BROKEN)), is_second_connect)
closes_after("D03", received(ANY), breaks_protocol)
closes_after("D05", received([PUBLISH]), is_over_the_maximum, is_unjudged=has_refused_a_message)
