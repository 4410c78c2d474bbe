"""Connections to the tested end, of which every byte is recorded.

The log is the tested end's. What the exerciser sends is written there before it is sent, and what it gets once it has
been read: so what the tested end received is never too late in the log, and what it sent never too early. As with a
proxy, faults can be missed, and none is made, as long as the tested end has read all that was sent before a connection
ends. So a link is ended once the tested end is at rest, by ending its stream and reading the other to its end. Where
the tested end closes itself, and hadn't read all, TCP says so by a reset: what it took is then unknown, and what goes on
of the session is left out.
"""
from __future__ import annotations

import itertools
import select
import socket
import struct
import time
from collections.abc import Callable
from pathlib import Path

from exercising.packets import Cutter, Packet, Type
from recording import End, Recorder, Standing, file_name

CHUNK = 262_144
LINGER_OFF_AT_ONCE = struct.pack("ii", 1, 0)  # the connection is reset where the socket is closed
LAST_BYTES_SECONDS = 1.5  # for what the tested end still sends after we have ended our stream
SEND_SECONDS = 10.0  # for a tested end that doesn't read
SHORTEST = 0.001


class Gone(Exception):
    """The tested end has closed the connection, or hasn't taken it."""


class Tape:
    """What a scenario records: the logs of one tested end, in a folder of their own."""

    def __init__(self, folder: Path, tested: End, prefix: str, warn: Callable[[str], None]) -> None:
        """The prefix, which is another one in each run, isn't in the logs' names."""
        self.folder, self.tested = folder, tested
        folder.mkdir(parents=True)
        self.recorder = Recorder(folder, frozenset({tested}), None, from_start=True, warn=warn,
                                 named=lambda identifier: file_name(identifier.removeprefix(prefix.encode())))
        self._keys = itertools.count()

    def link(self, connection: socket.socket) -> Link:
        return Link(connection, self.recorder, next(self._keys), self.tested)

    def finish(self) -> None:
        self.recorder.finish()


class Link:
    """A connection to the tested end."""

    def __init__(self, connection: socket.socket, recorder: Recorder, key: int, tested: End) -> None:
        self._socket, self._recorder, self._key = connection, recorder, key
        is_server = tested is End.SERVER
        self._record_sent = recorder.from_client if is_server else recorder.from_server
        self._record_got = recorder.from_server if is_server else recorder.from_client
        self._cutter = Cutter()
        self.inbox: list[Packet] = []  # what came and wasn't taken yet
        self.seen: list[Packet] = []  # all that came
        self.has_ended = False  # the tested end sends no more
        self.is_unread = False  # it closed before it had read all that we sent
        self.is_closed = False  # we have closed
        self.waited = 0.0  # for the last answer, in seconds
        connection.setsockopt(socket.IPPROTO_TCP, socket.TCP_NODELAY, 1)
        connection.settimeout(SEND_SECONDS)
        recorder.opened(key)

    @property
    def is_over(self) -> bool:
        return self.has_ended or self.is_closed

    def send(self, data: bytes) -> None:
        """Sends bytes. It raises Gone where the tested end has closed."""
        self.pump(0)
        if self.is_over:
            raise Gone(f"the connection was closed before {name_of(data)}")
        self._record_sent(self._key, data)
        try:
            self._socket.sendall(data)
        except OSError:
            self.pump(SHORTEST)
            self.has_ended = self.is_unread = True
            raise Gone(f"the connection was closed at {name_of(data)}") from None

    def pump(self, seconds: float) -> bool:
        """Reads what comes within this time, once. It says whether something came."""
        if self.is_over:
            return False
        ready, _, _ = select.select([self._socket], [], [], max(0.0, seconds))
        if not ready:
            return False
        try:
            data = self._socket.recv(CHUNK)
        except OSError:
            data, self.is_unread = b"", True
        if not data:
            self.has_ended = True
            return False
        self._record_got(self._key, data)
        packets = self._cutter.feed(data)
        self.inbox += packets
        self.seen += packets
        return True

    def expect(self, kind: int | None = None, seconds: float = 2.0, identifier: int | None = None) -> Packet | None:
        """The first packet of this type that wasn't taken yet; None if the time is over, or the connection."""
        begun = time.monotonic()
        while True:
            for at, got in enumerate(self.inbox):
                if kind in (None, got.kind) and identifier in (None, got.identifier):
                    self.waited = time.monotonic() - begun
                    return self.inbox.pop(at)
            left = begun + seconds - time.monotonic()
            if left <= 0 or self.is_over:
                return None
            self.pump(left)

    def quiet(self, seconds: float, most: float = 30.0) -> None:
        """Reads until nothing has come for this time. Who never stops is read for at most so many seconds."""
        until = time.monotonic() + most
        while self.pump(seconds) and time.monotonic() < until:
            pass

    @property
    def standing(self) -> Standing:
        """How the connection stands, by what was recorded of it."""
        return self._recorder.standing(self._key)

    def rest(self, silence: float) -> None:
        """Writes a REST after this much silence, unless the tested end is in the middle of a packet.

        Nor is one written where the connection stands otherwise by then: so much silence was meant for how it stood.
        """
        standing = self.standing
        self.quiet(silence)
        if not self.is_over and self._cutter.is_between and self.standing is standing:
            self._recorder.rested(self._key)

    def closes(self, seconds: float) -> bool:
        """Whether the tested end closes within this time."""
        until = time.monotonic() + seconds
        while not self.is_over and (left := until - time.monotonic()) > 0:
            self.pump(left)
        return self.has_ended

    def stayed_open(self) -> None:
        """Writes that the tested end keeps a connection which it should have closed."""
        if not self.is_over:
            self._recorder.stayed_open(self._key)

    def close(self) -> None:
        """Ends our stream, and reads the other one to its end."""
        if self.is_closed:
            return
        if not self.has_ended:
            try:
                self._socket.shutdown(socket.SHUT_WR)
            except OSError:
                pass
            self.closes(LAST_BYTES_SECONDS)
        self._end()

    def reset(self) -> None:
        """Ends the connection by a reset: only at rest, since what the tested end sent and we don't read is lost."""
        if self.is_closed:
            return
        self._socket.setsockopt(socket.SOL_SOCKET, socket.SO_LINGER, LINGER_OFF_AT_ONCE)
        self._end()

    def _end(self) -> None:
        if self._socket.getsockopt(socket.SOL_SOCKET, socket.SO_ERROR):  # a reset that came after its last bytes
            self.is_unread = True
        self._socket.close()
        self.is_closed = self.has_ended = True
        self._recorder.closed(self._key, self.is_unread)


def name_of(data: bytes) -> str:
    """What is sent, by its first byte."""
    kind = data[0] >> 4 if data else 0
    return Type(kind).name if kind else "type 0"
