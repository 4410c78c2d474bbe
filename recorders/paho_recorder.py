"""Records what a client of paho-mqtt sends and receives, from inside the client.

    from paho_recorder import record
    client = paho.mqtt.client.Client("a", protocol=paho.mqtt.client.MQTTv5)
    record(client, "logs")

It is for clients that speak MQTT 5.0, and goes before their first `connect`. The order is the client's own:

- SENT and RECV stand where paho's reads and writes happen, of what is inside TLS and WebSocket frames.
- RELEASE is where paho hands a QoS 2 message to the application: at its PUBREL, after it was taken out of the
  messages that came in and before the PUBCOMP is sent.
- REST is written when paho's queues are empty: what was read has been handled, and nothing waits to be written or
  to be sent again. It comes before a DISCONNECT, before a CLOSE, and where a round of paho's loop went by without
  a byte. Where what came is broken, only this last one says that paho keeps the connection: before a CLOSE none is
  written.

It was tried with paho-mqtt 1.6.1. A version without the methods that it replaces is refused.
"""
from __future__ import annotations

import contextlib
import sys
import threading
import weakref
from collections.abc import Callable
from pathlib import Path
from types import TracebackType
from typing import Any

try:
    import paho.mqtt.client as paho
except ModuleNotFoundError as error:
    raise ModuleNotFoundError(
        f"this Python ({sys.executable}) doesn't see paho-mqtt ({error}): install it for this one with "
        f"`{sys.executable} -m pip install paho-mqtt==1.6.1`, or run the program with a Python that has it "
        "(Debian's package python3-paho-mqtt is for /usr/bin/python3)",
        name=error.name,
    ) from None

from log_format import NEWEST, VERSIONS
from recording import End, Recorder, Standing

DISCONNECT = 0xE0  # the first byte of the packet
ATTRIBUTES = ("_sock", "_in_packet", "_out_packet", "_out_messages", "_protocol")  # of paho's client
METHODS = ("_call_socket_open", "_handle_on_message", "_packet_read", "_packet_write", "loop_misc", "reconnect")
SENT_STATES = (paho.mqtt_ms_wait_for_puback, paho.mqtt_ms_wait_for_pubrec, paho.mqtt_ms_wait_for_pubcomp)


class RecordedSocket:
    """A connection of paho's that records what is read and written. For all else it is the connection itself."""

    def __init__(self, wrapped: Any, recording: ClientRecording) -> None:
        self._wrapped, self._recording = wrapped, recording

    def recv(self, size: int) -> Any:
        data = self._wrapped.recv(size)
        self._recording.received(self, data)
        return data

    def send(self, data: Any) -> int:
        return self._recording.send(self, self._wrapped.send, data)

    def close(self) -> None:
        self._recording.closed(self)
        self._wrapped.close()

    def __getattr__(self, name: str) -> Any:
        return getattr(self._wrapped, name)


class ClientRecording:
    """The recording of one client. It refers to the client weakly: the client goes when the program lets it go."""

    def __init__(self, client: paho.Client, folder: Path, from_start: bool, log_version: int) -> None:
        self._client = weakref.ref(client)
        self._recorder = Recorder(
            folder, frozenset({End.CLIENT}), None, releases=True, from_start=from_start, log_version=log_version
        )
        self._lock = threading.Lock()  # for all below, and so that nothing is written between a send and its record
        self._socket: RecordedSocket | None = None
        self._is_handling = False  # something was read, and paho isn't done with it
        self._writers = 0  # threads that took a packet out of paho's queue, and may not have sent it yet
        self._is_cut = False  # the last write took a part of a packet
        self._has_moved = False  # bytes went since the last round of paho's loop
        for name in METHODS:
            setattr(client, name, getattr(self, f"_on{name}" if name.startswith("_") else f"_on_{name}"))

    def __enter__(self) -> ClientRecording:
        return self

    def __exit__(
        self, kind: type[BaseException] | None, error: BaseException | None, trace: TracebackType | None
    ) -> None:
        self.finish()

    def finish(self) -> None:
        """Ends the recording. The client goes on without it."""
        client = self._client()
        if client is not None:
            for name in METHODS:
                client.__dict__.pop(name, None)
        with self._lock:
            self._rest(writers=0)
            self._recorder.finish()

    # -- what a connection reads and writes

    def received(self, connection: RecordedSocket, data: Any) -> None:
        """Bytes were read, and paho hasn't got them yet."""
        with self._lock:
            if data and connection is self._socket:
                self._is_handling = self._has_moved = True
                self._recorder.from_server(connection, data)

    def send(self, connection: RecordedSocket, write: Callable[[Any], int], data: Any) -> int:
        """Writes, and records what the write took."""
        with self._lock:
            if connection is not self._socket:
                return write(data)
            if data[:1] == bytes((DISCONNECT,)) and not self._is_cut:
                self._rest(writers=1, is_leaving=True)
            whole = bytes(data)  # a write inside WebSocket frames may change it
            count = write(data)
            self._has_moved, self._is_cut = True, count < len(whole)
            self._recorder.from_client(connection, whole[:count])
            return count

    def closed(self, connection: RecordedSocket) -> None:
        """The connection is about to be closed."""
        with self._lock:
            if connection is self._socket:
                self._rest(writers=0, is_leaving=True)
                self._recorder.closed(connection)

    # -- paho's methods

    def _on_call_socket_open(self, *arguments: Any) -> Any:
        """A connection was made: paho's own object for it is exchanged for one that records."""
        client = self._client()
        assert client is not None
        connection = RecordedSocket(client._sock, self)
        with self._lock:
            self._socket = connection
            self._is_handling = self._is_cut = False
            self._recorder.opened(connection)
        client._sock = connection
        return self._call("_call_socket_open", *(connection for _ in arguments))

    def _on_reconnect(self) -> Any:
        """paho drops its queues before it closes a connection that is open, so its rest isn't known any more."""
        with self._lock:
            self._is_handling = True
        return self._call("reconnect")

    def _on_packet_read(self) -> Any:
        status = self._call("_packet_read")
        client = self._client()
        is_sound = status in (paho.MQTT_ERR_SUCCESS, paho.MQTT_ERR_AGAIN)
        with self._lock:
            if is_sound and client is not None and not client._in_packet["command"]:
                self._is_handling = False
        return status

    def _on_packet_write(self) -> Any:
        with self._lock:
            self._writers += 1
        try:
            return self._call("_packet_write")
        finally:
            with self._lock:
                self._writers -= 1

    def _on_handle_on_message(self, message: paho.MQTTMessage) -> Any:
        """A message goes to the application. One of QoS 2 comes here at its PUBREL, and once."""
        if message.qos == 2:
            with self._lock:
                self._recorder.released(self._socket, message.mid)
        return self._call("_handle_on_message", message)

    def _on_loop_misc(self) -> Any:
        """The end of a round of paho's loop."""
        with self._lock:
            if not self._has_moved:
                self._rest(writers=0)
            self._has_moved = False
        return self._call("loop_misc")

    def _call(self, name: str, *arguments: Any) -> Any:
        """Calls the method that the client's class has."""
        client = self._client()
        return getattr(type(client), name)(client, *arguments)

    # -- rest

    def _rest(self, writers: int, is_leaving: bool = False) -> None:
        """Writes a REST if paho is at rest. So many threads may be writing: the one that asks.

        One that leaves may do so because what came is broken: then it isn't at rest on that connection.
        """
        client = self._client()
        if client is None or self._socket is None or self._writers > writers or not self._is_at_rest(client):
            return
        if not is_leaving or self._recorder.standing(self._socket) is not Standing.BROKEN:
            self._recorder.rested(self._socket)

    def _is_at_rest(self, client: paho.Client) -> bool:
        if self._is_handling or client._out_packet or getattr(client, "_manual_ack", False):
            return False
        try:
            messages = list(client._out_messages.values())
        except RuntimeError:  # another thread changes them
            return False
        return all(message.state in SENT_STATES for message in messages)


def record(
    client: paho.Client, folder: Path | str, *, from_start: bool = True, log_version: int = NEWEST
) -> ClientRecording:
    """Records all connections of a client that hasn't connected yet, in a folder that is made where it isn't there.

    A client of paho's has its session in its memory, so a new one has none: where a server resumes a session with it,
    the log says so and the client is judged for it. With `from_start=False` such a session is left out instead.
    With `log_version=1` the logs are for old readers, and have no times.
    """
    if log_version not in VERSIONS:
        raise ValueError(f"there is no version {log_version} of logs")
    unknown = [name for name in ATTRIBUTES if not hasattr(client, name)]
    unknown += [name for name in METHODS if not callable(getattr(type(client), name, None))]
    if unknown:
        raise ValueError(f"a client of this version of paho-mqtt can't be recorded: it has no {', '.join(unknown)}")
    if client._protocol != paho.MQTTv5:
        raise ValueError("only clients that speak MQTT 5.0 are recorded: make it with protocol=MQTTv5")
    if client._sock is not None:
        raise ValueError("a client is recorded from before its first connect on")
    if isinstance(getattr(client.__dict__.get("_packet_read"), "__self__", None), ClientRecording):
        raise ValueError("the client is recorded already")
    with contextlib.suppress(OSError):  # the recorder says it where no log can be written
        Path(folder).mkdir(parents=True, exist_ok=True)
    return ClientRecording(client, Path(folder), from_start, log_version)
