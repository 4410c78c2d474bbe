"""What the scenarios start: mosquitto behind the proxy, and clients that reach it through the proxy."""
from __future__ import annotations

import importlib
import queue
import socket
import subprocess
import sys
import threading
from collections.abc import Callable, Iterator
from contextlib import ExitStack, contextmanager, suppress
from dataclasses import dataclass, field
from pathlib import Path
from types import ModuleType
from typing import Any

from log_format import Record, records
from testing import HOST, PATIENCE, process, wait_until

HERE = Path(__file__).resolve().parent
REST_SECONDS = 1.0
SENT, RECV = 2, 3
SUBACK = b"\x90"  # the first byte of the packet


class Trouble(Exception):
    """A scenario didn't go as it should."""


@contextmanager
def proxy(folder: Path, broker_port: int, *words: object) -> Iterator[int]:
    """A proxy that writes to this folder, and its port. What it prints is kept beside the logs."""
    printed = folder / "proxy.txt"
    address = f"{HOST}:{broker_port}"
    with printed.open("wb") as output:
        options = ("--listen", f"{HOST}:0", "--broker", address, "--out", folder, "--rest", REST_SECONDS, *words)
        with process(sys.executable, HERE / "proxy", *options, output=output):
            wait_until(lambda: b"\n" in printed.read_bytes(), "the proxy listens")
            yield int(printed.read_text().splitlines()[0].rpartition(":")[2])


@dataclass
class Bench:
    """What a scenario has: a port that leads through the proxy to a broker, and a folder of its own."""

    port: int
    folder: Path
    stack: ExitStack
    broker: subprocess.Popen[bytes]
    broker_port: int
    tls: list[object] = field(default_factory=list)  # options of mosquitto's tools

    def publish(self, identifier: str, topic: str, *words: object, version: str = "5") -> None:
        """Runs mosquitto_pub."""
        self.run("mosquitto_pub", *self.options(identifier, version), "-t", topic, *self.tls, *words)

    def run(self, *words: object) -> None:
        """Runs a program that ends by itself."""
        answer = subprocess.run([*map(str, words)], capture_output=True, text=True, timeout=PATIENCE)
        if answer.returncode:
            raise Trouble(f"{words[0]}: {answer.stderr.strip()}")

    def subscribe(self, identifier: str, topic: str, count: int, *words: object) -> Callable[[], None]:
        """Starts mosquitto_sub, and waits for its SUBACK. The answer waits until it has got so many messages."""
        child = self.start(identifier, "mosquitto_sub", "-t", topic, "-C", count, *self.tls, *words)

        def wait() -> None:
            wait_until(lambda: child.poll() is not None, f"mosquitto_sub gets {count} messages")

        return wait

    def start(self, identifier: str, program: str, *words: object) -> subprocess.Popen[bytes]:
        """Starts a program that subscribes, and waits for its SUBACK. It is stopped at the end."""
        child = self.stack.enter_context(process(program, *self.options(identifier), *words))
        wait_until(lambda: self.begins(identifier, RECV, SUBACK), f"{program} gets its SUBACK")
        return child

    def log(self, identifier: str, end: str = "client") -> list[Record]:
        """The records that the first log of this end has so far."""
        path, found = self.folder / f"{identifier}.1.{end}.log", []
        with suppress(FileNotFoundError, ValueError):  # it isn't there yet, or is just being written
            for record in records(path.read_bytes()):
                found.append(record)
        return found

    def begins(self, identifier: str, kind: int, first: bytes) -> bool:
        """Whether a record of this kind in the client's log begins with these bytes."""
        return any(record.kind == kind and record.body.startswith(first) for record in self.log(identifier))

    def carried(self, identifier: str) -> bytes:
        """The bytes of both directions in the client's log."""
        return b"".join(record.body for record in self.log(identifier))

    def ends_with(self, kind: int, identifier: str, end: str = "client") -> bool:
        """Whether the log's last record is of this kind."""
        return [record.kind for record in self.log(identifier, end)[-1:]] == [kind]

    def printed(self) -> str:
        """What the proxy has printed so far."""
        return (self.folder / "proxy.txt").read_text()

    def options(self, identifier: str, version: str = "5") -> list[str]:
        """The options that mosquitto's tools and those of paho for C have in common."""
        name = ["-i", identifier] if identifier else []
        return ["-V", version, "-h", HOST, "-p", str(self.port), *name]

    def client(self, identifier: str, **options: Any) -> Client:
        """A client of paho-mqtt, which is stopped at the end."""
        client = Client(self.port, identifier, **options)
        self.stack.callback(client.stop)
        return client

    def raw(self, *packets: str) -> socket.socket:
        """A connection on which these packets were sent, in hexadecimal digits."""
        connection = self.stack.enter_context(socket.create_connection((HOST, self.port), PATIENCE))
        connection.sendall(b"".join(bytes.fromhex(packet) for packet in packets))
        return connection


class Client:
    """A client of paho-mqtt that keeps the messages which it gets, and connects again only when it is told to."""

    def __init__(self, port: int, identifier: str, will: tuple[str, bytes] | None = None) -> None:
        self.port = port
        self.paho, self.properties = paho_modules()
        self.messages: queue.Queue[Any] = queue.Queue()
        self.acknowledged = threading.Event()
        self.connected = threading.Event()
        self.is_resumed = False
        self.client = self.paho.Client(identifier, protocol=self.paho.MQTTv5)
        self.client.reconnect_delay_set(1000, 1000)
        self.client.on_message = lambda client, data, message: self.messages.put(message)
        self.client.on_connect = self._on_connect
        self.client.on_subscribe = self.client.on_unsubscribe = lambda *words: self.acknowledged.set()
        if will is not None:
            self.client.will_set(will[0], will[1], qos=1)

    def _on_connect(self, client: Any, data: Any, flags: dict[str, int], code: Any, properties: Any) -> None:
        self.is_resumed = bool(flags["session present"])
        self.connected.set()

    def connect(self, clean_start: bool = True, expiry: int = 0, receive_maximum: int | None = None) -> Client:
        wanted = self.properties.Properties(self.properties.PacketTypes.CONNECT)
        if expiry:
            wanted.SessionExpiryInterval = expiry
        if receive_maximum is not None:
            wanted.ReceiveMaximum = receive_maximum
        self.connected.clear()
        self.client.connect(HOST, self.port, clean_start=clean_start, properties=wanted)
        self.client.loop_start()
        wait_until(self.connected.is_set, "paho-mqtt gets its CONNACK")
        return self

    def subscribe(self, topic: str, qos: int) -> None:
        self._acknowledge(lambda: self.client.subscribe(topic, qos), "SUBACK")

    def unsubscribe(self, topic: str) -> None:
        self._acknowledge(lambda: self.client.unsubscribe(topic), "UNSUBACK")

    def _acknowledge(self, act: Callable[[], object], name: str) -> None:
        self.acknowledged.clear()
        act()
        wait_until(self.acknowledged.is_set, f"paho-mqtt gets its {name}")

    def publish(self, topic: str, payload: bytes, qos: int, retain: bool = False) -> None:
        """Publishes, and waits until the exchange is over."""
        self.client.publish(topic, payload, qos, retain).wait_for_publish(PATIENCE)

    def take(self, count: int) -> list[Any]:
        """The next messages."""
        try:
            return [self.messages.get(timeout=PATIENCE) for _ in range(count)]
        except queue.Empty:
            raise Trouble(f"paho-mqtt hasn't got {count} messages") from None

    def disconnect(self) -> None:
        self.client.disconnect()
        self.client.loop_stop()

    def cut(self) -> None:
        """Ends the connection without a DISCONNECT."""
        connection = self.client.socket()
        if connection is not None:
            connection.shutdown(socket.SHUT_RDWR)
        self.stop()

    def stop(self) -> None:
        self.client.loop_stop()


def paho_modules() -> tuple[ModuleType, Any]:
    properties = importlib.import_module("paho.mqtt.properties")
    properties.PacketTypes = importlib.import_module("paho.mqtt.packettypes").PacketTypes
    return importlib.import_module("paho.mqtt.client"), properties


def receive_packet(connection: socket.socket) -> bytes:
    """The next Control Packet."""
    packet, length, place = receive(connection, 1), 0, 0
    while True:
        byte = receive(connection, 1)
        packet += byte
        length |= (byte[0] & 0x7F) << place
        place += 7
        if byte[0] < 0x80:
            return packet + receive(connection, length)


def receive(connection: socket.socket, count: int) -> bytes:
    """So many bytes."""
    data = b""
    while len(data) < count:
        piece = connection.recv(count - len(data))
        if not piece:
            raise Trouble("the broker closed the connection")
        data += piece
    return data
