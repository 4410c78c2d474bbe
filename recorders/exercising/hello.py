"""The first contact: whether there is a broker, whether it speaks MQTT 5.0, and what it announces."""
from __future__ import annotations

import ipaddress
import socket

from exercising.links import Gone
from exercising.packets import RESERVED, Cutter, Packet, Prop, Type, connect, disconnect
from exercising.stage import Target, Unreachable

ANSWER_SECONDS = 10.0
VERSION_UNSUPPORTED = (0x01, 0x84)  # as MQTT 3.1.1 and 5.0 say it
CREDENTIALS_REFUSED = (0x86, 0x87, 0x8C)
ANNOUNCED = {
    Prop.RECEIVE_MAXIMUM: "Receive Maximum",
    Prop.MAXIMUM_QOS: "Maximum QoS",
    Prop.RETAIN_AVAILABLE: "Retain Available",
    Prop.MAXIMUM_PACKET_SIZE: "Maximum Packet Size",
    Prop.TOPIC_ALIAS_MAXIMUM: "Topic Alias Maximum",
    Prop.WILDCARD_AVAILABLE: "Wildcard Subscription Available",
    Prop.SUBSCRIPTION_IDENTIFIER_AVAILABLE: "Subscription Identifiers Available",
    Prop.SHARED_AVAILABLE: "Shared Subscription Available",
}


class Unwelcome(Gone):
    """What is there can't be tested. The text says what was seen, and what to do."""


def is_this_host(host: str, port: int) -> bool:
    """Whether all addresses of a host are loopback ones. It raises Unreachable where it has none."""
    try:
        found = socket.getaddrinfo(host, port, type=socket.SOCK_STREAM)
    except OSError as error:
        raise Unreachable(f"{host} has no address: {error.strerror or error}") from None
    return all(ipaddress.ip_address(str(address[4][0]).partition("%")[0]).is_loopback for address in found)


def greet(target: Target, run: str) -> Packet:
    """Connects once, and gives the CONNACK. It raises Unreachable or Unwelcome."""
    cutter, raw = Cutter(), b""
    with target.reach() as connection:
        connection.settimeout(ANSWER_SECONDS)
        try:
            connection.sendall(connect(f"x{run}-hello", True, user=target.user, password=target.password))
            while data := connection.recv(4096):
                raw += data
                greeting = next((got for got in cutter.feed(data) if got.kind == Type.CONNACK), None)
                if greeting is not None:
                    check(greeting, target)
                    connection.sendall(disconnect())
                    return greeting
        except OSError as error:
            came = f"{raw[:16].hex(' ')} came" if raw else error.strerror or "nothing came"
            raise Unwelcome(f"{target} doesn't answer a CONNECT of MQTT 5.0: {came}") from None
    what = f"it closed after {raw[:16].hex(' ')}" if raw else "it closed without a packet"
    raise Unwelcome(f"{target} takes the connection, and doesn't speak MQTT 5.0: {what}")


def check(greeting: Packet, target: Target) -> None:
    """Whether a broker's CONNACK lets us in."""
    code = greeting.code or 0
    if code in VERSION_UNSUPPORTED:
        raise Unwelcome(f"{target} doesn't speak MQTT 5.0: it refuses the version (0x{code:02x})")
    if code >= RESERVED:
        hint = "; name a user with --user and --password" if code in CREDENTIALS_REFUSED and not target.user else ""
        raise Unwelcome(f"{target} refuses each connection: CONNACK 0x{code:02x}{hint}")


def announced(connack: Packet) -> str:
    """What a broker announces, in words."""
    said = [f"{name} {connack.number(key, -1)}" for key, name in ANNOUNCED.items() if connack.number(key, -1) >= 0]
    return ", ".join(said) or "no limits"
