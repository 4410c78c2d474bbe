#!/usr/bin/env python3
"""A proxy that breaks one statement in what a right broker sends: what is planted, the exerciser has to report.

Each plant has a name, the statement that it breaks, the scenarios that have to show it, and a change of the packets on
their way to the client. `planting.py list` prints the names. With a FILE it starts the broker too, which keeps there
what is to outlive it.

usage: recorders/planting.py LISTEN_PORT BROKER_PORT NAME [FILE]
"""
from __future__ import annotations

import asyncio
import contextlib
import itertools
import socket
import subprocess
import sys
import time
from collections.abc import Callable
from dataclasses import dataclass, field
from pathlib import Path

sys.dont_write_bytecode = True  # the repository stays as it is
sys.path.insert(0, str(Path(__file__).resolve().parent))
from exercising.packets import (
    PONG,
    RESERVED,
    Cutter,
    Packet,
    Prop,
    Type,
    Value,
    connack,
    publish,
    two,
    varint,
)

HOST = "127.0.0.1"
CHUNK = 65_536
LOOKS, LOOK_SECONDS = 400, 0.05  # for a broker that starts
LONG_OPEN = 4.0  # seconds that a connection stays open which should be closed
SERVED_SECONDS = 60.0  # at most, where its pings are answered


@dataclass
class Flight:
    """A message of the broker that isn't acknowledged yet."""

    qos: int
    connection: int  # on which it was sent first
    is_received: bool = False
    is_released: bool = False
    resent: int = 0


@dataclass
class State:
    """What is known of a connection."""

    connect: Packet | None = None
    resumed: bool = False  # the broker said so
    number: int = 0  # of the connection
    count: int = 0
    has_done: bool = False
    is_left: bool = False  # the broker has closed
    held: bytes = b""
    flights: dict[int, Flight] = field(default_factory=dict)  # of the session, by their identifiers
    filters: list[int] = field(default_factory=list)  # how many the SUBSCRIBEs so far had

    def announces(self, key: Prop) -> int:
        """The number that the client announced for a property; 0 if it announced none."""
        return self.connect.number(key, 0) if self.connect is not None else 0

    @property
    def is_clean(self) -> bool:
        return self.connect is not None and bool(self.connect.clean)


Change = Callable[[Packet, State], bytes | None]  # what is sent in place of a packet; None: the packet itself


@dataclass(frozen=True)
class Plant:
    """A fault that is planted."""

    name: str
    code: str
    only: str  # scenarios that show it, by the beginnings of their names
    change: Change
    at_opening: bytes = b""  # sent before anything else
    stays_open: bool = False
    goes_on: bool = False  # it stays open until the client ends it, and its pings are answered
    quota: int = 0  # the Receive Maximum that the broker is told in place of the client's
    dies: bool = False  # the exerciser starts the broker, and kills it
    is_slow: bool = False


def raw(got: Packet) -> bytes:
    """The packet as it came."""
    return bytes((got.first,)) + varint(len(got.body)) + got.body


def with_body(got: Packet, body: bytes, first: int | None = None) -> bytes:
    return bytes((got.first if first is None else first,)) + varint(len(body)) + body


def republish(
    got: Packet, *, topic: bytes | None = None, qos: int | None = None, identifier: int | None = None,
    dup: bool | None = None, payload: bytes | None = None, more: list[tuple[int, Value]] | None = None,
    retain: bool | None = None, without: int | None = None
) -> bytes:
    """A PUBLISH with something else in it."""
    return publish((got.topic or b"") if topic is None else topic, got.payload if payload is None else payload,
                   got.qos if qos is None else qos, (got.identifier or 1) if identifier is None else identifier,
                   dup=got.dup if dup is None else dup, retain=bool(got.first & 1) if retain is None else retain,
                   properties=[*(one for one in got.properties if one[0] != without), *(more or [])])


def reconnack(got: Packet, present: bool | None = None, more: list[tuple[int, Value]] | None = None,
              without: int | None = None) -> bytes:
    """A CONNACK with something else in it."""
    kept = [one for one in got.properties if one[0] != without]
    return connack(bool(got.session_present) if present is None else present, got.code or 0, [*kept, *(more or [])])


# ---- when a change is made


def on(kind: Type, change: Change) -> Change:
    """Only packets of this type are changed."""
    return lambda got, state: change(got, state) if got.kind == kind else None


def seldom(every: int, change: Change) -> Change:
    """Only each packet of this number among those that could be changed is."""

    def changed(got: Packet, state: State) -> bytes | None:
        new = change(got, state)
        if new is None:
            return None
        state.count += 1
        return new if state.count % every == 0 else None

    return changed


def once(change: Change) -> Change:
    """Only the first one of a connection is changed."""

    def changed(got: Packet, state: State) -> bytes | None:
        new = None if state.has_done else change(got, state)
        state.has_done = state.has_done or new is not None
        return new

    return changed


def when(condition: Callable[[Packet, State], bool], change: Change) -> Change:
    return lambda got, state: change(got, state) if condition(got, state) else None


def resumed(change: Change) -> Change:
    """Only on connections that resume a session."""
    return when(lambda _, state: state.resumed, change)


def gone(got: Packet, state: State) -> bytes:
    return b""


def twice(got: Packet, state: State) -> bytes:
    return raw(got) + raw(got)


# ---- the proxy


SESSIONS: dict[bytes, dict[int, Flight]] = {}  # what is in flight, by Client Identifiers
NUMBERS = itertools.count(1)


async def relay(plant: Plant, port: int, reader: asyncio.StreamReader, writer: asyncio.StreamWriter) -> None:
    """Passes on a connection, with what is planted in it."""
    state = State(number=next(NUMBERS))
    try:
        broker_reader, broker_writer = await asyncio.open_connection(HOST, port)
    except OSError:
        writer.close()
        return
    writer.write(plant.at_opening)
    up = asyncio.create_task(pass_up(plant, state, reader, broker_writer, writer))
    try:
        with contextlib.suppress(OSError):
            await pass_down(plant, state, broker_reader, writer)
            state.is_left = True
            if plant.goes_on:
                await asyncio.wait((up,), timeout=SERVED_SECONDS)
            elif plant.stays_open:
                await asyncio.sleep(LONG_OPEN)
    finally:
        up.cancel()
        for one in (writer, broker_writer):
            one.close()


async def pass_up(plant: Plant, state: State, reader: asyncio.StreamReader, writer: asyncio.StreamWriter,
                  client: asyncio.StreamWriter) -> None:
    """What the client sends. It is looked at, and the Receive Maximum may be another one."""
    cutter = Cutter()
    with contextlib.suppress(OSError):
        while data := await reader.read(CHUNK):
            for got in cutter.feed(data):
                look_up(state, got)
                most = state.announces(Prop.RECEIVE_MAXIMUM)
                if got.kind == Type.CONNECT and plant.quota and most:
                    data = data.replace(b"\x21" + two(most), b"\x21" + two(plant.quota), 1)
                if got.kind == Type.PINGREQ and plant.goes_on and state.is_left:
                    client.write(PONG)
            if not state.is_left:
                writer.write(data)
                await writer.drain()
        writer.write_eof()


def look_up(state: State, got: Packet) -> None:
    """What the client says of messages in flight."""
    identifier = got.identifier or 0
    is_refusal = (got.code or 0) >= RESERVED
    if got.kind == Type.CONNECT and state.connect is None:
        state.connect = got
    elif got.kind in (Type.PUBACK, Type.PUBCOMP) or (got.kind == Type.PUBREC and is_refusal):
        state.flights.pop(identifier, None)
    elif got.kind == Type.PUBREC and identifier in state.flights:
        state.flights[identifier].is_received = True


def look_down(state: State, got: Packet) -> None:
    """What the broker says of them."""
    identifier = got.identifier or 0
    if got.kind == Type.CONNACK:
        state.resumed = bool(got.session_present)
        name = state.connect.client or b"" if state.connect is not None else b""
        if not state.resumed:
            SESSIONS[name] = {}
        state.flights = SESSIONS.setdefault(name, {})
    elif got.kind == Type.PUBLISH and got.qos:
        state.flights.setdefault(identifier, Flight(got.qos, state.number)).resent += got.dup
    elif got.kind == Type.PUBREL and identifier in state.flights:
        state.flights[identifier].is_released = True


async def pass_down(plant: Plant, state: State, reader: asyncio.StreamReader, writer: asyncio.StreamWriter) -> None:
    """What the broker sends, changed."""
    cutter = Cutter()
    while data := await reader.read(CHUNK):
        for got in cutter.feed(data):
            if got.kind == Type.CONNACK:
                look_down(state, got)
            new = plant.change(got, state)
            writer.write(raw(got) if new is None else new)
            if got.kind != Type.CONNACK:
                look_down(state, got)
        await writer.drain()


async def serve(listen: int, port: int, plant: Plant) -> None:
    server = await asyncio.start_server(lambda *ends: relay(plant, port, *ends), HOST, listen, backlog=200)
    async with server:
        await server.serve_forever()


def wait_for(port: int) -> None:
    """Waits until the broker listens."""
    for _ in range(LOOKS):
        try:
            socket.create_connection((HOST, port)).close()
            return
        except OSError:
            time.sleep(LOOK_SECONDS)


def main() -> int:
    from plants import all_plants  # which are made of what is here

    plants = all_plants()
    if sys.argv[1:] == ["list"]:
        print("\n".join(f"{plant.name:24} {plant.code}  {plant.only}" for plant in plants.values()))
        return 0
    listen, port, name, *file = sys.argv[1:]
    if file:
        broker = Path(__file__).with_name("plain_broker.py")
        subprocess.Popen([sys.executable, str(broker), port, *file])  # in this group of processes, and ends with it
        wait_for(int(port))
    try:
        asyncio.run(serve(int(listen), int(port), plants[name]))
    except KeyboardInterrupt:
        pass
    return 0


if __name__ == "__main__":
    sys.exit(main())
