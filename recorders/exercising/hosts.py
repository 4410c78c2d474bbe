"""A host: plays the broker for a client that is tested. The client is a process of the scenario's own."""
from __future__ import annotations

import contextlib
import os
import shlex
import signal
import socket
import subprocess
import time
from collections.abc import Mapping
from dataclasses import dataclass, field
from pathlib import Path

from exercising.actors import Actor, NothingLeft
from exercising.links import Gone
from exercising.packets import (
    PONG,
    Packet,
    Prop,
    Properties,
    Type,
    codes,
    connack,
    publish,
    reply,
)
from exercising.stage import Stage, Unfit

HOST = "127.0.0.1"
CONNECT_SECONDS = 6.0  # for a client that starts, or comes again
SUBSCRIBE_SECONDS = 3.0
STOP_SECONDS = 3.0
DRIVEN, PUBLISHES, SUBSCRIBES = "driver", "publish", "subscribe"  # what a client does
METHOD = "{method}"  # in a client's command: the Authentication Method that it is to use, or nothing
TASKS = "do/it"  # the topic on which a driver is told what to do


@dataclass(frozen=True)
class Program:
    """The client that is tested: a command with {port} and {id} in it, and what it does."""

    words: tuple[str, ...]
    does: str

    def command(self, port: int, identifier: str, qos: int, count: int, size: int, method: str = "") -> list[str]:
        values = {"{port}": port, "{id}": identifier, "{qos}": qos, "{n}": count, "{size}": size, METHOD: method}
        words = []
        for word in self.words:
            for name, value in values.items():
                word = word.replace(name, str(value))
            words.append(word)
        return words

    def __str__(self) -> str:
        return shlex.join(self.words)


@dataclass
class ClientStage(Stage):
    """A scenario's place in a run against a client: its own port, and its own process."""

    program: Program = field(default_factory=lambda: Program((), DRIVEN))
    output: Path = Path()


class Host(Actor):
    """The broker's side. Its connections make one log, or several where sessions begin anew."""

    stage: ClientStage

    def __init__(self, stage: Stage, name: str, friends: Mapping[str, Actor]) -> None:
        super().__init__(stage, name, friends)
        self._listener = socket.create_server((HOST, 0))
        self._process: subprocess.Popen[bytes] | None = None
        self.connect = Packet(Type.CONNECT << 4, b"")  # the client's latest
        self.has_session = False  # the client may have one
        self.is_subscribed = False  # the client has, in this session
        self.qos, self.count, self.size = 1, 12, 10  # of what the client publishes
        self._last_identifier = 0

    # ---- the client

    def start(self, qos: int, count: int, size: int, method: str = "") -> None:
        """Starts the client, which publishes so by itself, or is told to; with an Authentication Method, if one is given."""
        self.qos, self.count, self.size = qos, count, size
        words = self.stage.program.command(self._listener.getsockname()[1], self.identifier, qos, count, size, method)
        try:
            with self.stage.output.open("ab") as output:
                self._process = subprocess.Popen(words, stdin=subprocess.DEVNULL, stdout=output,
                                                 stderr=subprocess.STDOUT, start_new_session=True)
        except OSError as error:
            raise Gone(f"{words[0]} can't be started: {error.strerror}") from None

    def leave(self) -> None:
        """Ends the client with what it has started, and then its connections."""
        process = self._process
        if process is not None and process.poll() is None:
            for number in (signal.SIGTERM, signal.SIGKILL):
                process.send_signal(number)
                try:
                    process.wait(STOP_SECONDS)
                    break
                except subprocess.TimeoutExpired:
                    continue
            with contextlib.suppress(ProcessLookupError):
                os.killpg(process.pid, signal.SIGKILL)  # it was the first of a group of its own
        super().leave()
        self._listener.close()

    # ---- connections

    def accept(self, seconds: float = CONNECT_SECONDS) -> None:
        """Takes the client's next connection, and reads its CONNECT."""
        self._listener.settimeout(seconds)
        try:
            connection, _ = self._listener.accept()
        except OSError:
            raise Gone("the client doesn't connect" + (" again" if self.links else "")) from None
        self.links.append(self.stage.tape.link(connection))
        got = self.link.expect(Type.CONNECT, CONNECT_SECONDS)
        if got is None:
            raise Gone("the client sends no CONNECT")
        self.connect = got

    def answer_connect(self, session_present: bool, code: int, properties: Properties) -> None:
        """Sends a CONNACK, and answers the SUBSCRIBE that comes at once."""
        self.link.send(connack(session_present, code, properties))
        self.is_subscribed = self.is_subscribed and session_present
        announced = Packet(Type.CONNACK << 4, connack(False, 0, properties)[2:])
        wanted = self.connect.number(Prop.SESSION_EXPIRY, 0)
        self.has_session = code == 0 and announced.number(Prop.SESSION_EXPIRY, wanted) > 0
        if code == 0 and self.stage.program.does != PUBLISHES and not session_present:
            got = self.link.expect(Type.SUBSCRIBE, SUBSCRIBE_SECONDS)
            if got is not None:
                self.link.send(self.reply(got) or b"")

    @property
    def fitting(self) -> bool:
        """The Session Present that a right broker would answer now."""
        return not self.connect.clean and self.has_session

    # ---- exchanges

    def new_identifier(self) -> int:
        self._last_identifier += 1
        return self._last_identifier

    def tell(self, text: str) -> None:
        """Tells a driver what to do."""
        if self.stage.program.does != DRIVEN:
            raise Unfit("only a driver does what it is told")
        if not self.is_subscribed:
            raise NothingLeft
        self.link.send(publish(TASKS, text.encode()))

    def want(self, qos: int, count: int, size: int) -> None:
        """Makes the client publish. One that isn't driven does so by itself."""
        if self.stage.program.does == DRIVEN:
            self.tell(f"pub {qos} {count} {size}")

    def reply(self, got: Packet) -> bytes | None:
        """What a right broker answers."""
        identifier = got.identifier or 0
        if got.kind == Type.SUBSCRIBE:
            self.is_subscribed = True
            return codes(Type.SUBACK, identifier, [options & 3 for _, options in got.filters])
        if got.kind == Type.UNSUBSCRIBE:
            return codes(Type.UNSUBACK, identifier, [0] * len(got.filters))
        if got.kind == Type.PINGREQ:
            return PONG
        return reply(got)

    def hold(self, seconds: float, kinds: tuple[int, ...]) -> None:
        """Reads for a time, and keeps what comes of these types. Pings and requests are answered."""
        until = time.monotonic() + seconds
        while not self.is_over and (left := until - time.monotonic()) > 0:
            got = self.link.expect(seconds=left)
            if got is None:
                return
            if got.kind in kinds:
                self.held.append(got)
            elif got.kind in (Type.PINGREQ, Type.SUBSCRIBE, Type.UNSUBSCRIBE):
                self.link.send(self.reply(got) or b"")
