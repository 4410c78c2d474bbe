"""The proxy's WebSockets: the bytes of MQTT inside binary frames are read and written, and nothing of the frames.

The library `websockets` (Debian's python3-websockets) makes and reads the frames. It is imported only where a WebSocket
is asked for. Its part without input and output is used, so the connection itself stays the proxy's.
"""
from __future__ import annotations

import importlib
import sys
from typing import Any

from recording import write_to_standard_error
from sides import CHUNK, Address, Side

SUBPROTOCOL = "mqtt"  # section 6.0 of MQTT 5.0
DEFAULT_PATH = "/mqtt"  # that most brokers have
CONTINUATION, TEXT, BINARY, CLOSE = 0, 1, 2, 8  # kinds of frames
GONE, NO_BINARY = 1000, 1003  # reasons for a close: all was said; a kind of data that isn't taken

HEAD_END = b"\r\n\r\n"  # of HTTP
MASK_SIZE = 4  # of a client's frames


class NoLibrary(Exception):
    """The library isn't there. The text says what to do."""


def find(module: str, *names: str) -> Any:
    """What the library calls by one of these names: older releases have others."""
    try:
        found = importlib.import_module(f"websockets.{module}")
    except ModuleNotFoundError as error:
        raise NoLibrary(
            f"WebSockets need the library websockets, which this Python ({sys.executable}) doesn't see ({error}):"
            f" install it with `{sys.executable} -m pip install websockets`, or run the proxy with a Python that has"
            " it (Debian's package python3-websockets is for /usr/bin/python3)"
        ) from None
    return next(getattr(found, name) for name in names if hasattr(found, name))


def check_library() -> None:
    """Raises NoLibrary where there is none."""
    find("server", "ServerProtocol", "ServerConnection")


def frame_size(size: int) -> int:
    """How many bytes a frame has whose payload has so many, without a mask (RFC 6455, section 5.2)."""
    return 2 + (0 if size < 126 else 2 if size < 1 << 16 else 8) + size


class WebSocketSide(Side):
    """A connection inside a WebSocket. It begins with its handshake: `accept` or `connect`."""

    def __init__(self, plain: Side) -> None:
        super().__init__(plain.reader, plain.writer)
        self.path = ""  # that the client asked for
        self._protocol: Any = None
        self._payload = bytearray()  # that was received, and not read yet
        self._is_over = False  # no more payload comes
        self._has_closed = False  # a close was sent, and what the peer sent before it saw that still comes
        self._head: bytearray | None = bytearray()  # what came before the handshake was over
        self._unframed = 0  # bytes that came of a frame which isn't whole yet
        self._mask_size = 0  # of the frames that come

    async def accept(self) -> bool:
        """Answers a client's handshake; false where it was none, or a wrong one, or the connection ended."""
        self._mask_size = MASK_SIZE
        self._protocol = find("server", "ServerProtocol", "ServerConnection")(
            subprotocols=[SUBPROTOCOL], max_size=None
        )
        while not self._is_open():
            data, events = await self._receive()
            if events and self._protocol.handshake_exc is None:
                self.path = events[0].path
                self._protocol.send_response(self._protocol.accept(events[0]))
                self._take(events[1:])
            await self._send_waiting()
            if not data or self._protocol.handshake_exc is not None:
                return False
        return True

    async def connect(self, address: Address, path: str) -> None:
        """Has a handshake with a broker. It raises an OSError where that doesn't come about."""
        host = f"[{address.host}]" if ":" in address.host else address.host
        uri = find("uri", "parse_uri")(f"{address.scheme}://{host}:{address.port}{path}")
        self._protocol = find("client", "ClientProtocol", "ClientConnection")(
            uri, subprotocols=[SUBPROTOCOL], max_size=None
        )
        self._protocol.send_request(self._protocol.connect())
        await self._send_waiting()
        while not self._is_open():
            data, events = await self._receive()
            self._take(events[1:])
            if not data or self._protocol.handshake_exc is not None:
                reason = self._protocol.handshake_exc or "the connection ended"
                raise OSError(f"it refuses a WebSocket at {path}: {reason}")

    async def read(self) -> bytes:
        while not self._payload and not self._is_over:
            data, events = await self._receive()
            self._take(events)
            await self._send_waiting()
            self._is_over = self._is_over or not data or not (self._is_open() or self._has_closed)
        data = bytes(self._payload)
        self._payload.clear()
        return data

    async def write(self, data: bytes) -> None:
        if not self._is_open():
            raise ConnectionResetError("the WebSocket is closed")
        self._protocol.send_binary(data)
        await self._send_waiting()

    async def end_output(self) -> None:
        """Closes the WebSocket, which has no end of one direction alone. The peer answers, and that is read."""
        if self._is_open():
            self._has_closed = True
            self._protocol.send_close(GONE)
            await self._send_waiting()

    def is_idle(self) -> bool:
        return super().is_idle() and not self._unframed and not self._payload

    def _is_open(self) -> bool:
        return self._protocol.state.name == "OPEN"

    async def _receive(self) -> tuple[bytes, list[Any]]:
        """The next bytes of the connection, and what they end: a handshake's message, or frames."""
        data = await self.reader.read(CHUNK)
        try:
            if data:
                self._protocol.receive_data(data)
            else:
                self._protocol.receive_eof()
        except Exception as error:  # before the handshake is over, whatever a peer sends there
            self._protocol.handshake_exc = error
            return b"", []
        events = self._protocol.events_received()
        self._count(data, events)
        return data, events

    def _count(self, data: bytes, events: list[Any]) -> None:
        """Counts what came of a frame that isn't whole yet. If a frame's length is spelled oddly there is no rest."""
        self._unframed += len(data)
        if self._head is not None:
            self._head += data
        for event in events:
            if hasattr(event, "opcode"):
                self._unframed -= frame_size(len(event.data)) + self._mask_size
            elif self._head is not None:  # the handshake's message
                self._unframed = len(self._head) - self._head.find(HEAD_END) - len(HEAD_END)
                self._head = None

    def _take(self, frames: list[Any]) -> None:
        """Keeps the payload of binary frames. Another kind of data ends the connection, as section 6.0 has it."""
        for frame in frames:
            if frame.opcode in (BINARY, CONTINUATION) and not self._is_over:
                self._payload += frame.data
            elif frame.opcode == TEXT:
                write_to_standard_error("a WebSocket is closed: a text frame came, and MQTT is in binary ones")
                self._is_over = True
                self._protocol.fail(NO_BINARY, "MQTT is in binary frames")
            elif frame.opcode == CLOSE:
                self._is_over = True

    async def _send_waiting(self) -> None:
        """Writes what the library wants written: frames, answers to pings and closes, and the stream's end."""
        for piece in self._protocol.data_to_send():
            if piece:
                self.writer.write(piece)
            elif self.writer.can_write_eof():
                self.writer.write_eof()
        await self.writer.drain()


async def accepted(plain: Side) -> WebSocketSide | None:
    """The WebSocket of a client; None where it asks for none."""
    side = WebSocketSide(plain)
    return side if await side.accept() else None


async def connected(plain: Side, address: Address, client: Side) -> WebSocketSide:
    """A WebSocket to a broker: at the path that was named, or that the client asked for."""
    side = WebSocketSide(plain)
    await side.connect(address, address.path or getattr(client, "path", "") or DEFAULT_PATH)
    return side
