"""Which packets are Protocol Errors where a server receives them, for D03."""
from __future__ import annotations

from typing import Protocol

from exercising.packets import Packet, Prop, Type

OF_SERVERS = frozenset((Type.CONNACK, Type.SUBACK, Type.UNSUBACK, Type.PINGRESP))
MOST_QOS = 2  # of a server that announces none
NO_LOCAL = 4  # in the Subscription Options
RETAIN = 1  # in the first byte of a PUBLISH


class Terms(Protocol):
    """What came before on a connection, by which a packet is such an error."""

    connects: int  # CONNECTs that came, whatever their bytes are
    connect: Packet | None
    connack: Packet | None
    client_aliases: set[int]  # that the client has set
    has_broken_publish: bool  # a PUBLISH came whose bytes break a rule: it may have set any


def sets_alias(packet: Packet) -> int | None:
    """The Topic Alias that comes with a Topic Name."""
    alias = packet.number(Prop.TOPIC_ALIAS, 0) if packet.kind == Type.PUBLISH and packet.topic else 0
    return alias or None


def is_error(packet: Packet, terms: Terms) -> bool:
    return is_out_of_place(packet, terms) or (
        terms.connack is not None and terms.connack.code == 0 and breaks_terms(packet, terms.connack, terms))


def is_out_of_place(packet: Packet, terms: Terms) -> bool:
    """Whatever the server announced."""
    if packet.kind in OF_SERVERS or (packet.kind != Type.CONNECT and not terms.connects):
        return True
    if terms.connect is None:
        return False
    if packet.kind == Type.AUTH:
        return not terms.connect.has(Prop.AUTHENTICATION_METHOD)
    is_prolonging = packet.kind == Type.DISCONNECT and packet.number(Prop.SESSION_EXPIRY, 0) != 0
    return is_prolonging and terms.connect.number(Prop.SESSION_EXPIRY, 0) == 0


def breaks_terms(packet: Packet, connack: Packet, terms: Terms) -> bool:
    """By what the CONNACK announced, which accepted the connection."""
    most = connack.number(Prop.MAXIMUM_PACKET_SIZE, 0)
    if most and packet.size > most:
        return True
    is_identified = packet.has(Prop.SUBSCRIPTION_IDENTIFIER)
    if packet.kind == Type.SUBSCRIBE:
        is_wrong_share = any(name.startswith(b"$share/") and options & NO_LOCAL for name, options in packet.filters)
        return is_wrong_share or (is_identified and connack.number(Prop.SUBSCRIPTION_IDENTIFIER_AVAILABLE, 1) == 0)
    return packet.kind == Type.PUBLISH and (is_identified or publishes_wrongly(packet, connack, terms))


def publishes_wrongly(packet: Packet, connack: Packet, terms: Terms) -> bool:
    alias = packet.number(Prop.TOPIC_ALIAS, 0)
    is_unset = bool(alias) and not packet.topic and alias not in terms.client_aliases and not terms.has_broken_publish
    is_high = alias > connack.number(Prop.TOPIC_ALIAS_MAXIMUM, 0) or packet.qos > connack.number(Prop.MAXIMUM_QOS, MOST_QOS)
    return is_unset or is_high or (bool(packet.first & RETAIN) and connack.number(Prop.RETAIN_AVAILABLE, 1) == 0)
