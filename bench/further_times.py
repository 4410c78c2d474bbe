"""What the further statements say of the Keep Alive (K), by the moments of a log of version 2, which have to be microseconds. They are
judged on accepted connections, after the CONNACK.

A stretch without anything from the client has at most one fault, at the first event that comes too late. After a DISCONNECT there is
none: the connection is over, and only its CLOSE may be late. Nor is there one after bytes of the client that can't be read: what it
sends then is in no event.
"""
from further_table import applies, fails
from reading import Bad, DISCONNECT, Lost, Packet, RECV, SENT
from sessions import Log

SECOND = 1_000_000  # in microseconds
SERVER_KEEP_ALIVE = 0x13
LARGE = 65_536  # bytes: a packet of more may have taken its time


def keep_alive(log: Log, c: int) -> int:
    """In seconds; 0: there is none."""
    connack = log.first_connacks[c]
    value, connect = log.connack_code(connack).get(SERVER_KEEP_ALIVE), log.connect_before(connack)
    return value if value is not None else connect.keep_alive if connect is not None else 0


def is_judged(log: Log, k: int) -> bool:
    c = log.places[k]
    if not log.is_accepted(c) or not log.is_after_connack(k) or keep_alive(log, c) == 0:
        return False
    before = [log.event(j) for j in log.before_on(k)]
    has_ended = any(isinstance(e.item, Packet) and e.item.type == DISCONNECT for e in before)
    return not has_ended and not any(e.kind == of_client(log) and isinstance(e.item, Lost) for e in before)


def of_client(log: Log) -> int:
    """The direction of what the client sends."""
    return SENT if log.role == "client" else RECV


def last_of_client(log: Log, k: int) -> int:
    """The last item of the client before k, or the CONNACK if that comes later."""
    connack = log.first_connacks[log.places[k]]
    return next(j for j in reversed(log.before_on(k)) if j == connack or log.event(j).kind == of_client(log))


def silence(log: Log, k: int) -> int:
    """For how long nothing came from the client, in microseconds."""
    return log.event(k).moment - log.event(last_of_client(log, k)).moment


def size(log: Log, k: int) -> int:
    match log.event(k).item:
        case Packet() as packet:
            return packet.size
        case Bad() as bad:
            return len(bad.packet)
    return 0


def is_first_beyond(log: Log, k: int, limit: int) -> bool:
    """It comes beyond the limit, as the first event since the client's last item; and it isn't so large that it took its time."""
    if silence(log, k) <= limit or size(log, k) > LARGE:
        return False
    last = last_of_client(log, k)
    return not any(silence(log, j) > limit for j in log.before_on(k) if j > last)


def late_by_client(log: Log, k: int) -> int:
    """After how many microseconds a client is silent for too long: 1.25 times the Keep Alive, and a second."""
    return keep_alive(log, log.places[k]) * SECOND * 5 // 4 + SECOND


def late_by_server(log: Log, k: int) -> int:
    """After how many a server has to have closed: 1.5 times the Keep Alive, and the larger of half of it and 5 seconds."""
    seconds = keep_alive(log, log.places[k])
    return seconds * SECOND * 3 // 2 + max(seconds * SECOND // 2, 5 * SECOND)


@applies("K01")
def comes_late(log: Log, k: int) -> bool:
    """An event comes when the client has been silent for more than half the Keep Alive."""
    return is_judged(log, k) and silence(log, k) > keep_alive(log, log.places[k]) * SECOND // 2


@fails("K01", None)
def is_silent(log: Log, k: int) -> bool:
    """Later than it may be. A packet that the end of the connection cut off may have taken its time."""
    if not is_judged(log, k) or log.event(k).begun is not None:
        return False
    return is_first_beyond(log, k, late_by_client(log, k))


@applies("K02")
def has_to_close(log: Log, k: int) -> bool:
    """An event comes when the client has been silent for more than one and a half times the Keep Alive."""
    return is_judged(log, k) and silence(log, k) > keep_alive(log, log.places[k]) * SECOND * 3 // 2


@fails("K02", None)
def stays_open(log: Log, k: int) -> bool:
    """Later than it has to close."""
    return is_judged(log, k) and is_first_beyond(log, k, late_by_server(log, k))
