"""What the proxy has on either side: a connection to a client or to a broker, with TLS or without."""
from __future__ import annotations

import argparse
import asyncio
import fcntl
import struct
import termios
from dataclasses import dataclass

CHUNK = 65_536
PLAIN, WEBSOCKET, SECURE_WEBSOCKET = "", "ws", "wss"


@dataclass(frozen=True)
class Address:
    host: str
    port: int
    scheme: str = PLAIN
    path: str = ""  # of a WebSocket, with its `/`; empty where none is named

    @property
    def is_websocket(self) -> bool:
        return self.scheme != PLAIN

    @staticmethod
    def of(text: str) -> Address:
        """The address that a text names: `127.0.0.1:1883`, `[::1]:1883`, `ws://127.0.0.1:8080/mqtt`, or with `wss`."""
        scheme, is_named, rest = text.partition("://")
        scheme, rest = (scheme, rest) if is_named else (PLAIN, text)
        place, slash, path = rest.partition("/")
        host, colon, port = place.rpartition(":")
        is_right = scheme in (PLAIN, WEBSOCKET, SECURE_WEBSOCKET) and bool(scheme) == bool(is_named)
        if not is_right or not colon or not port.isdigit() or int(port) > 65_535 or (slash and not scheme):
            raise argparse.ArgumentTypeError(f"{text!r} isn't HOST:PORT, ws://HOST:PORT or wss://HOST:PORT")
        return Address(host.removeprefix("[").removesuffix("]"), int(port), scheme, slash + path)


@dataclass(eq=False)
class Side:
    """The proxy's connection to the client, or to the broker."""

    reader: asyncio.StreamReader
    writer: asyncio.StreamWriter

    def __post_init__(self) -> None:
        """Has `drain` wait until all has been written. A transport with TLS pauses at its limit, others above it."""
        is_tls = self.writer.get_extra_info("ssl_object") is not None
        self.writer.transport.set_write_buffer_limits(high=1 if is_tls else 0, low=0)

    async def read(self) -> bytes:
        """The next bytes of MQTT; none where no more come."""
        return await self.reader.read(CHUNK)

    async def write(self, data: bytes) -> None:
        """Writes bytes of MQTT, and waits until the system has taken them."""
        self.writer.write(data)
        await self.writer.drain()

    async def end_output(self) -> None:
        """Passes on that no more bytes come. Inside TLS that can't be said without closing the connection."""
        if self.writer.can_write_eof():
            self.writer.write_eof()
        else:
            self.writer.close()

    def is_idle(self) -> bool:
        """The system's buffers are empty, in both directions, as far as the system says."""
        connection = self.writer.get_extra_info("socket")
        if connection is None or self.writer.is_closing() or self.reader.at_eof():
            return False
        try:
            waiting = [fcntl.ioctl(connection.fileno(), ask, bytes(4)) for ask in (termios.FIONREAD, termios.TIOCOUTQ)]
        except OSError:
            return False
        return all(struct.unpack("i", count) == (0,) for count in waiting)

    def close(self) -> None:
        self.writer.close()
