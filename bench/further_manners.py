"""What the further statements say of a connection: of values in one packet (V), of a CONNECT without an answer (C24), of what the
server hasn't got (F), and of enhanced authentication (A). They are judged on every connection.
"""
from further_table import (
    IDENTIFIERS, METHOD, NO_LOCAL, RETAIN, SHARED_FILTERS, SUBSCRIPTION_IDENTIFIER, WILDCARDS, applies, fails, fails_later,
    is_announced_0, is_shared, share,
)
from reading import (
    AUTH, BROKEN, Bad, CONNACK, CONNECT, DISCONNECT, Lost, PUBACK, PUBLISH, PUBREC, Packet, SUBSCRIBE, codes, has_wildcard,
)
from sessions import Log, MAXIMUM_PACKET_SIZE, MAXIMUM_QOS
from statements import ANY, received, sent, type_of

# ---- F, of what the server hasn't got


def new_publish(log: Log, k: int) -> Packet | None:
    p = log.sent_packet(k, PUBLISH)
    return p if p is not None and not p.dup else None


@applies("F01")
def publishes_where_nothing_is_retained(log: Log, k: int) -> bool:
    """A PUBLISH with DUP 0 is sent to a server that announced Retain Available 0."""
    return new_publish(log, k) is not None and is_announced_0(log, k, RETAIN)


@fails("F01", sent([PUBLISH]))
def asks_to_retain(log: Log, k: int) -> bool:
    return publishes_where_nothing_is_retained(log, k) and new_publish(log, k).retain


def asked_filters(log: Log, k: int) -> list[tuple[bytes, int]]:
    """The filters of a sent SUBSCRIBE, with their options."""
    p = log.sent_packet(k, SUBSCRIBE)
    return p.filters if p is not None else []


def subscribes_where(property: int, code: str) -> None:
    @applies(code)
    def subscribes(log: Log, k: int) -> bool:
        """A SUBSCRIBE is sent to a server that announced that it hasn't got this."""
        return log.sent_packet(k, SUBSCRIBE) is not None and is_announced_0(log, k, property)


for property, code in ((WILDCARDS, "F02"), (IDENTIFIERS, "F03"), (SHARED_FILTERS, "F04")):
    subscribes_where(property, code)


def asks_by_wildcard(filter: bytes) -> bool:
    """A level is `+` or `#`; in a shared filter one after the name."""
    return has_wildcard((share(filter)[1] or b"") if is_shared(filter) else filter)


@fails("F02", sent([SUBSCRIBE]))
def takes_a_wildcard(log: Log, k: int) -> bool:
    return is_announced_0(log, k, WILDCARDS) and any(asks_by_wildcard(filter) for filter, _ in asked_filters(log, k))


@fails("F03", sent([SUBSCRIBE]))
def takes_an_identifier(log: Log, k: int) -> bool:
    p = log.sent_packet(k, SUBSCRIBE)
    return p is not None and is_announced_0(log, k, IDENTIFIERS) and p.get(SUBSCRIPTION_IDENTIFIER) is not None


@fails("F04", sent([SUBSCRIBE]))
def takes_a_shared_filter(log: Log, k: int) -> bool:
    return is_announced_0(log, k, SHARED_FILTERS) and any(is_shared(filter) for filter, _ in asked_filters(log, k))


def connack_to_a_will(log: Log, k: int) -> tuple[Packet, Packet] | None:
    """A CONNACK that is sent, and the CONNECT before it, which has a Will."""
    connack, connect = log.sent_packet(k, CONNACK), log.connect_before(k)
    is_answer = connack is not None and connect is not None and connect.will_qos is not None
    return (connack, connect) if is_answer else None


@applies("F05")
def limits_a_will(log: Log, k: int) -> bool:
    """A CONNACK with a Maximum QoS, or of 0x9B, answers a CONNECT with a Will."""
    both = connack_to_a_will(log, k)
    return both is not None and (both[0].get(MAXIMUM_QOS) is not None or both[0].code == 0x9B)


@fails("F05", sent([CONNACK]))
def accepts_too_high_a_will(log: Log, k: int) -> bool:
    match connack_to_a_will(log, k):
        case (connack, connect):
            most = connack.get(MAXIMUM_QOS)
            return connack.code == 0 and most is not None and most < connect.will_qos
    return False


@applies("F06")
def retains_no_will(log: Log, k: int) -> bool:
    """A CONNACK with Retain Available 0, or of 0x9A, answers a CONNECT with a Will."""
    both = connack_to_a_will(log, k)
    return both is not None and (both[0].get(RETAIN) == 0 or both[0].code == 0x9A)


@fails("F06", sent([CONNACK]))
def accepts_a_will_to_retain(log: Log, k: int) -> bool:
    match connack_to_a_will(log, k):
        case (connack, connect):
            return connack.code == 0 and connack.get(RETAIN) == 0 and connect.will_retain
    return False


# ---- V, of values in one packet


@applies("V03", "V04")
def asks_for_a_share(log: Log, k: int) -> bool:
    """A SUBSCRIBE is sent with a filter that begins with `$share/`."""
    return any(is_shared(filter) for filter, _ in asked_filters(log, k))


@fails("V03", sent([SUBSCRIBE]))
def names_no_share(log: Log, k: int) -> bool:
    shares = [share(filter) for filter, _ in asked_filters(log, k) if is_shared(filter)]
    return any(name == b"" or has_wildcard(name) or not rest for name, rest in shares)


@fails("V04", sent([SUBSCRIBE]))
def wants_others_alone(log: Log, k: int) -> bool:
    return any(is_shared(filter) and options & NO_LOCAL for filter, options in asked_filters(log, k))


OF_SERVERS = {DISCONNECT: codes("87 89 8B 8D 8E 8F 9A-A2"), PUBACK: {0x10}, PUBREC: {0x10}}
OF_CLIENTS = {DISCONNECT: {0x04}}


def foreign_codes(log: Log) -> dict[int, set[int]]:
    """For each type of packets the Reason Codes that only the other end may send."""
    return OF_SERVERS if log.role == "client" else OF_CLIENTS


@applies("V06")
def gives_a_reason(log: Log, k: int) -> bool:
    """A DISCONNECT is sent, by a client also a PUBACK or a PUBREC."""
    return log.sent_packet(k, *foreign_codes(log)) is not None


@fails("V06", sent([DISCONNECT, PUBACK, PUBREC]))
def gives_a_foreign_reason(log: Log, k: int) -> bool:
    p = log.sent_packet(k, *foreign_codes(log))
    return p is not None and p.code in foreign_codes(log)[p.type]


# ---- C24, of a CONNECT without an answer

SMALLEST_CONNACK = 5  # bytes: one without properties


def rests_after(log: Log, k: int) -> list[int]:
    """The RESTs after k on k's connection."""
    return [t for t in log.connection_positions[log.places[k]] if t > k and log.is_rest(t)]


def takes_connack(connect: Packet) -> bool:
    """The Maximum Packet Size isn't below the size of the smallest CONNACK."""
    most = connect.get(MAXIMUM_PACKET_SIZE)
    return most is None or most >= SMALLEST_CONNACK


def is_owed_connack(log: Log, k: int) -> bool:
    """The first CONNECT is received, and its client takes a CONNACK. Bytes that break a rule count by their type."""
    connect = log.received_packet(k, CONNECT) if log.role == "server" else None
    return connect is not None and takes_connack(connect) and not any(type_of(log.received(j)) == CONNECT for j in log.before_on(k))


def is_settled(log: Log, t: int) -> bool:
    """Before t on its connection a CONNACK was sent, or something stands that breaks a rule, or a DISCONNECT."""
    before = log.before_on(t)
    items = [log.event(j).item for j in before]
    if any(isinstance(item, (Bad, Lost)) or (isinstance(item, Packet) and item.type == DISCONNECT) for item in items):
        return True
    return any(log.sent_packet(j, CONNACK) for j in before)


def waits_for_auth(log: Log, t: int) -> bool:
    """Of the AUTHs before t on its connection, of either direction, the latest was sent."""
    latest = next((j for j in reversed(log.before_on(t)) if type_of(log.event(j).item) == AUTH), None)
    return latest is not None and log.sent(latest) is not None


@fails_later("C24", received([CONNECT]))
def leaves_a_connect(log: Log, k: int) -> int | None:
    """Any REST that leaves it unanswered; the first such decides."""
    if not is_owed_connack(log, k):
        return None
    return next((t for t in rests_after(log, k) if not is_settled(log, t) and not waits_for_auth(log, t)), None)


@applies("C24")
def answers_or_rests(log: Log, k: int) -> bool:
    """The first CONNECT is received, its client takes a CONNACK, and one is sent after it, or it is left without one."""
    later = [j for j in log.connection_positions[log.places[k]] if j > k]
    return is_owed_connack(log, k) and (any(log.sent_packet(j, CONNACK) for j in later) or leaves_a_connect(log, k) is not None)


# ---- A, of enhanced authentication, where a CONNECT stands before the position


def method(log: Log, k: int) -> bytes | None:
    """The Authentication Method of the CONNECT before k on its connection."""
    connect = log.connect_before(k)
    return None if connect is None else connect.get(METHOD)


def lacks_method(log: Log, k: int) -> bool:
    return log.connect_before(k) is not None and method(log, k) is None


def has_heard_connack(log: Log, k: int) -> bool:
    """A CONNACK was received before k; it may break a rule, or be among bytes that can't be read."""
    received = [log.received(j) for j in log.before_on(k)]
    return any(type_of(item) == CONNACK or isinstance(item, Lost) for item in received)


@applies("A01")
def sends_while_authenticating(log: Log, k: int) -> bool:
    """Something other than a CONNECT is sent after a CONNECT with a method, and no CONNACK was received."""
    return type_of(log.sent(k)) not in (None, CONNECT) and method(log, k) is not None and not has_heard_connack(log, k)


@fails("A01", sent([*ANY, BROKEN]))
def goes_on_while_authenticating(log: Log, k: int) -> bool:
    return sends_while_authenticating(log, k) and type_of(log.sent(k)) not in (AUTH, DISCONNECT)


def sends_connack(log: Log, k: int) -> bool:
    return log.role == "server" and log.sent_packet(k, CONNACK) is not None


@applies("A02")
def may_name_a_method(log: Log, k: int) -> bool:
    """An AUTH is sent after a CONNECT, or by a server a CONNACK after one without a method."""
    is_auth = log.sent_packet(k, AUTH) is not None and log.connect_before(k) is not None
    return is_auth or (sends_connack(log, k) and lacks_method(log, k))


@fails("A02", sent([AUTH, CONNACK]))
def names_a_method_unasked(log: Log, k: int) -> bool:
    p = log.sent_packet(k, AUTH, CONNACK)
    if p is None or not lacks_method(log, k):
        return False
    return p.type == AUTH or (log.role == "server" and p.get(METHOD) is not None)


@applies("A03")
def has_to_name_the_method(log: Log, k: int) -> bool:
    """After a CONNECT with a method an AUTH is sent that has more than its fixed header, or by a server a CONNACK that accepts."""
    auth = log.sent_packet(k, AUTH)
    is_accepting = sends_connack(log, k) and log.sent_packet(k).code == 0
    return method(log, k) is not None and ((auth is not None and auth.size > 2) or is_accepting)


@fails("A03", sent([AUTH, CONNACK]))
def names_another_method(log: Log, k: int) -> bool:
    return has_to_name_the_method(log, k) and log.sent_packet(k).get(METHOD) != method(log, k)
