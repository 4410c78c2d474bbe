"""Puts the network connections of MQTT 5.0 clients together into logs, one for each session and tested end.

A recorder (a proxy, a library inside a program, a reader of captures) gives a `Recorder` what it sees of each
connection, in the order in which it sees it: that it opens, what the client sent, what the server sent, that it
closed. The `Recorder` finds out whose connection it is, and writes it to the log of that Client Identifier
(docs/LOG_FORMAT.md): as the client's log, the server's, or both. It looks at the few packets that it needs for this
(CONNECT, CONNACK, DISCONNECT), and writes all bytes as they came.

What a peer sends never makes it fail. Where a log can't be written, recording stops with one line, and nothing is
raised. It isn't made for several threads at once: those who have them hold a lock around each call.
"""
from __future__ import annotations

import functools
import hashlib
import os
import sys
import time
from collections import OrderedDict
from collections.abc import Callable, Hashable
from dataclasses import dataclass, field
from enum import Enum, IntEnum
from pathlib import Path
from typing import Concatenate, NamedTuple, ParamSpec

from arguments import why
from framing import CONNACK, CONNECT, DISCONNECT, KEPT_MOST, Connack, Connect, Framer, read_connack, read_connect
from log_format import NEWEST, VERSIONS, Version

KEPT_MOST_IN_ALL = 64 * KEPT_MOST
KEPT_PRICE = 64  # bytes that keeping an item costs by itself
WAITING_MOST = 16  # refused connections of a Client Identifier that wait for the end of the one that is open
KNOWN_MOST = 100_000  # Client Identifiers that are remembered while they have no connection
NAME_MOST = 80  # characters of a Client Identifier in a file's name
UNNAMED = "@unnamed"  # no Client Identifier is spelled so in a file's name


class End(Enum):
    """The end of a session that a log is about."""

    CLIENT = "client"
    SERVER = "server"


class Standing(Enum):
    """How a connection stands, by which it is told what a REST would say there."""

    UNANSWERED = "something came on it, and no CONNACK"
    ACCEPTED = "its CONNACK has the Reason Code 0x00"
    BROKEN = "the same, and an end has sent bytes since, or before, that can't begin a packet"
    OTHER = "nothing came on it, an end has said that it leaves, or it isn't known how it stands"


class Kind(IntEnum):
    """What happens on a connection. Bytes are the client's or the server's here; a log says SENT or RECV of them."""

    OPEN = 1
    FROM_CLIENT = 2
    FROM_SERVER = 3
    CLOSE = 4
    REST = 5
    RELEASE = 6


SENT, RECV = 2, 3


class Item(NamedTuple):
    """What happened, and when: its moment, in microseconds since 1970-01-01 UTC."""

    kind: Kind
    data: bytes
    moment: int


# ---- files


def file_name(identifier: bytes) -> str:
    """A Client Identifier as part of a file's name.

    Letters, digits, `_` and `-` stand for themselves, but for a `-` that comes first, and other bytes as `%XX`: the
    name is no path, and no option of a program. What is too long is cut, and has a hash instead. Two Client
    Identifiers don't get the same name.
    """
    plain = b"ABCDEFGHIJKLMNOPQRSTUVWXYZabcdefghijklmnopqrstuvwxyz0123456789_"
    is_plain = [byte in plain or (byte == ord("-") and at > 0) for at, byte in enumerate(identifier)]
    name = "".join(chr(byte) if is_so else f"%{byte:02X}" for byte, is_so in zip(identifier, is_plain))
    if len(name) <= NAME_MOST:
        return name
    return f"{name[:NAME_MOST]}~{hashlib.sha256(identifier).hexdigest()[:32]}"


class LogFile:
    """A log on the disk. Each record is written whole by one call; what a failed one left of it is taken back."""

    def __init__(self, folder: Path, name: str, end: End, releases: bool, version: Version) -> None:
        """Makes a file of a new name: none that is there is ever written over."""
        self.end, self._version = end, version
        self._file = -1
        self.path = self._create(folder, name)
        self._size = 0
        try:
            self._write(version.header(end is End.SERVER, releases))
        except OSError:
            self.path.unlink(missing_ok=True)
            raise

    def _create(self, folder: Path, name: str) -> Path:
        number = 1
        while True:
            path = folder / f"{name}.{number}.{self.end.value}.log"
            try:
                self._file = os.open(path, os.O_WRONLY | os.O_CREAT | os.O_EXCL | os.O_CLOEXEC, 0o644)
                return path
            except FileExistsError:
                number += 1

    def write(self, item: Item) -> None:
        """Appends an item as a record, or as several of one moment if it has more bytes than a record may have."""
        kind, data, moment = item
        if kind in (Kind.FROM_CLIENT, Kind.FROM_SERVER):
            is_sent = (kind is Kind.FROM_CLIENT) == (self.end is End.CLIENT)
            most = self._version.longest_body
            for at in range(0, len(data), most):
                self._write(self._version.record(SENT if is_sent else RECV, data[at : at + most], moment))
        else:
            self._write(self._version.record(kind, data, moment))

    def pause(self) -> None:
        """Gives the file back to the system until there is more to write."""
        if self._file >= 0:
            os.close(self._file)
            self._file = -1

    def _write(self, data: bytes) -> None:
        if self._file < 0:
            self._file = os.open(self.path, os.O_WRONLY | os.O_APPEND | os.O_CLOEXEC)
        try:
            written = os.write(self._file, data)
            while written < len(data):  # the next call says why: most likely the disk is full
                written += os.write(self._file, data[written:])
        except OSError as error:
            os.ftruncate(self._file, self._size)
            raise OSError(error.errno, error.strerror, str(self.path)) from None
        self._size += len(data)


# ---- connections and sessions


@dataclass(eq=False)
class Connection:
    """A network connection, and what was learnt of it."""

    client: Framer = field(default_factory=lambda: Framer(CONNECT))
    server: Framer = field(default_factory=lambda: Framer(CONNACK))
    kept: list[Item] = field(default_factory=list)  # until it is known to which log they belong
    kept_bytes: int = 0
    log: SessionLog | None = None
    name: str | None = None  # of its Client Identifier
    connect: Connect | None = None
    connack: Connack | None = None
    is_answered: bool = False  # a CONNACK came
    is_answered_again: bool = False  # a second one came, which may refuse
    is_left_out: bool = False
    is_waiting: bool = False  # refused, while another connection of its Client Identifier is open
    is_over: bool = False
    has_disconnect: bool = False
    has_rest: bool = False  # since its last byte
    stirred_at: float = 0.0

    @property
    def is_accepted(self) -> bool:
        return self.connack is not None and self.connack.reason == 0

    @property
    def is_refused(self) -> bool:
        return self.is_answered and not self.is_accepted

    @property
    def is_unanswered(self) -> bool:
        """It has a CONNECT and no CONNACK: where it ends so, the server may have accepted it."""
        return self.connect is not None and not self.is_answered

    @property
    def is_silent(self) -> bool:
        """Nothing was sent on it by either end, as where somebody only looked whether the port is open."""
        return self.log is None and not any(item.data for item in self.kept)

    @property
    def standing(self) -> Standing:
        """How it stands."""
        if self.is_left_out or self.has_disconnect:
            return Standing.OTHER
        if not self.is_answered:
            return Standing.OTHER if self.is_silent else Standing.UNANSWERED
        if not self.is_accepted or self.log is None:
            return Standing.OTHER
        if self.client.is_sound and self.server.is_sound:
            return Standing.ACCEPTED
        return Standing.OTHER if self.is_answered_again else Standing.BROKEN

    def may_rest(self, ends: frozenset[End]) -> bool:
        """A REST of these ends can be written. Where in doubt, none is.

        Before its CONNACK a client only waits for the server: a REST would say nothing of it. Where an end's own stream
        is lost, nobody knows whether it is in the middle of a packet, or has said in it that it leaves.
        """
        if self.has_rest:
            return False
        match self.standing:
            case Standing.ACCEPTED:
                return True
            case Standing.BROKEN:
                return self.is_between_packets and not self._has_lost(ends)
            case Standing.UNANSWERED:
                return self.is_between_packets and not self._has_lost(ends) and End.CLIENT not in ends
        return False

    def _has_lost(self, ends: frozenset[End]) -> bool:
        """One of these ends sends what can't be parsed any more."""
        return any((self.client if end is End.CLIENT else self.server).is_lost for end in ends)

    def keep_no_packets(self) -> None:
        """Looks for no CONNECT and no CONNACK any more."""
        self.client.keep_none()
        self.server.keep_none()

    @property
    def is_between_packets(self) -> bool:
        return self.client.is_between and self.server.is_between


@dataclass(eq=False)
class SessionLog:
    """The logs of one session, one for each tested end."""

    files: list[LogFile]
    current: Connection | None = None  # the one that is open
    waiting: list[Connection] = field(default_factory=list)
    may_have_session: bool = False  # a connection was accepted, or ended before its CONNACK came
    keys: list[Hashable] = field(default_factory=list)  # of connections that are over, where releases are recorded

    def write(self, item: Item) -> None:
        for file in self.files:
            file.write(item)

    def pause(self) -> None:
        for file in self.files:
            file.pause()


Arguments = ParamSpec("Arguments")


def guarded(
    method: Callable[Concatenate[Recorder, Arguments], None]
) -> Callable[Concatenate[Recorder, Arguments], None]:
    """A method that raises nothing: where it fails, it stops the recording. It does nothing once that has stopped."""

    @functools.wraps(method)
    def call(self: Recorder, *args: Arguments.args, **kwargs: Arguments.kwargs) -> None:
        if self.is_stopped:
            return
        try:
            method(self, *args, **kwargs)
        except Exception as error:  # whatever it is: what is recorded has to go on
            self.stop(f"recording stopped: {why(error)}")

    return call


def write_to_standard_error(line: str) -> None:
    """Writes a line to standard error, if there is one that takes it."""
    try:
        print(line, file=sys.stderr, flush=True)
    except (OSError, ValueError, AttributeError):
        pass


def microseconds_now() -> int:
    """The time, in microseconds since 1970-01-01 UTC."""
    return time.time_ns() // 1_000


class Recorder:
    """Puts connections together into logs.

    Each connection has a key, which is the recorder's own. What is recorded of a key that isn't open is ignored. With
    two ends both logs have the same order; a recorder that sees the ends in different orders takes a `Recorder` for
    each.

    `rest_after` is the number of seconds after which silence means that the end is at rest: `tick` is to be called from
    time to time then. Without it only `rested` makes a REST. `releases` says that each release is given to `released`,
    also that of a message which goes to nobody. `from_start` says that no end had a session before the recording.
    Without it a session that is resumed, though its beginning wasn't recorded, is left out: judged alone, it would
    seem to have faults. `made` is called with the path of each log that is begun.

    `rest_before_connack` is the same for a server that hasn't sent a CONNACK: it may be asking another service whether
    to let the client in, so this is the longer one. Without it, silence makes no REST there.

    `moment` gives the time of what is recorded, in microseconds since 1970-01-01 UTC, for logs of version 2.
    `named` gives the part of a log's name that says its Client Identifier: another one for each.
    """

    def __init__(
        self,
        folder: Path,
        ends: frozenset[End],
        rest_after: float | None,
        releases: bool = False,
        clock: Callable[[], float] = time.monotonic,
        *,
        from_start: bool = False,
        warn: Callable[[str], None] = write_to_standard_error,
        made: Callable[[Path], None] = lambda _: None,
        log_version: int = NEWEST,
        moment: Callable[[], int] = microseconds_now,
        named: Callable[[bytes], str] = file_name,
        rest_before_connack: float | None = None,
    ) -> None:
        self._folder, self._ends, self._releases = folder, ends, releases
        self._rest_after, self._rest_before_connack = rest_after, rest_before_connack
        self._named = named
        self._clock, self._from_start, self._warn, self._made = clock, from_start, warn, made
        self._version, self._moment = VERSIONS[log_version], moment
        self.connections = 0  # that a log has
        self._connections: dict[Hashable, Connection] = {}
        self._logs: OrderedDict[str, SessionLog] = OrderedDict()  # of each Client Identifier the latest
        self._released_logs: dict[Hashable, SessionLog] = {}  # of connections that are over
        self._unsure: set[str] = set()  # Client Identifiers of whose sessions nobody knows what the tested end took
        self._kept_bytes = 0
        self.is_stopped = False

    # -- what is recorded

    @guarded
    def opened(self, key: Hashable) -> None:
        """A network connection begins."""
        if key in self._connections:
            self.closed(key)
        connection = Connection(stirred_at=self._clock())
        self._connections[key] = connection
        self._put(connection, self._item(Kind.OPEN))

    @guarded
    def from_client(self, key: Hashable, data: bytes) -> None:
        """The client sent these bytes."""
        self._bytes(key, Kind.FROM_CLIENT, data)

    @guarded
    def from_server(self, key: Hashable, data: bytes) -> None:
        """The server sent these bytes."""
        self._bytes(key, Kind.FROM_SERVER, data)

    @guarded
    def closed(self, key: Hashable, is_unread: bool = False) -> None:
        """The connection ended.

        `is_unread` says that the tested end hadn't read all that was sent to it, so that nobody knows what it took:
        what goes on of its session is left out. A new session of its Client Identifier is recorded again.
        """
        connection = self._connections.pop(key, None)
        if connection is None or connection.is_left_out:
            return
        self._end(connection)
        if is_unread and connection.name is not None and not connection.is_refused:
            self._forget(connection.name)
            self._unsure.add(connection.name)
        if self._releases and connection.log is not None:
            self._released_logs[key] = connection.log
            connection.log.keys.append(key)

    @guarded
    def released(self, key: Hashable, identifier: int) -> None:
        """The tested end released the QoS 2 message of this Packet Identifier; only where releases are recorded.

        One that goes to nobody is released too, where it would be passed on: else it seems to be lost (L3).
        """
        item = self._item(Kind.RELEASE, (identifier & 0xFFFF).to_bytes(2, "big"))
        if not self._releases:
            return
        if (connection := self._connections.get(key)) is not None:
            self._put(connection, item)
            self._check_kept(connection)
        elif (log := self._released_logs.get(key)) is not None:
            log.write(item)

    def standing(self, key: Hashable) -> Standing:
        """How this connection stands."""
        connection = self._connections.get(key)
        return Standing.OTHER if connection is None else connection.standing

    @guarded
    def rested(self, key: Hashable) -> None:
        """The tested end is at rest: this is known, not guessed. For a `Recorder` with one end.

        Where a server hasn't sent a CONNACK, it won't send one for what has come so far; and where what came on a
        connection is broken, the tested end keeps the connection.
        """
        if (connection := self._connections.get(key)) is not None and connection.may_rest(self._ends):
            self._rest(connection)

    @guarded
    def stayed_open(self, key: Hashable) -> None:
        """The tested end has sent its last packet, a DISCONNECT or a refusal, and keeps the connection: this is known.

        It is a REST, which `rested` doesn't write there: there it would say that the end didn't close.
        """
        connection = self._connections.get(key)
        if connection is None or connection.log is None or connection.has_rest:
            return
        if connection.has_disconnect or connection.is_refused:
            self._rest(connection)

    @guarded
    def stirred(self, key: Hashable) -> None:
        """Something goes on at this connection that shows no bytes: silence counts from now on."""
        if (connection := self._connections.get(key)) is not None:
            connection.stirred_at = self._clock()

    @guarded
    def missing(self, key: Hashable) -> None:
        """Bytes of this connection weren't seen: its log ends here, and what goes on of its session is left out.

        A new session of its Client Identifier is recorded again. Where that isn't known yet, the connection may be of
        any Client Identifier, so all sessions that went before are left out from their next connection on.
        """
        connection = self._connections.get(key)
        if connection is None or connection.is_left_out:
            return
        name = connection.name or self._name(connection)
        if name is not None:
            self._forget(name)
        elif connection.connect is None:
            for known in list(self._logs):
                self._forget(known)
        if connection.log is not None:
            connection.log.pause()
        self._leave_out(connection, f"bytes of {name or UNNAMED} are missing")

    @guarded
    def tick(self) -> None:
        """Writes a REST on each connection that has been silent for long enough."""
        now = self._clock()
        for connection in self._connections.values():
            after = self._rest_after if connection.is_answered else self._rest_before_connack
            if after is None or connection.stirred_at > now - after:
                continue
            if connection.may_rest(self._ends) and connection.is_between_packets:
                self._rest(connection)

    @guarded
    def finish(self) -> None:
        """Writes what is still kept, and closes the files. A connection that is open stays so in its log."""
        for connection in self._connections.values():
            if connection.log is None and not connection.is_left_out and not connection.is_waiting:
                self._place_ended(connection)
        self.stop()

    def stop(self, line: str = "") -> None:
        """Ends the recording as it is now; what comes later is ignored."""
        self.is_stopped = True
        logs = [c.log for c in self._connections.values() if c.log is not None]
        self._connections.clear()
        for log in logs:
            try:
                log.pause()
            except OSError as error:
                line = line or f"a log can't be closed: {why(error)}"
        if line:
            self._warn(line)

    # -- bytes

    def _bytes(self, key: Hashable, kind: Kind, data: bytes) -> None:
        connection = self._connections.get(key)
        if connection is None or connection.is_left_out or not data:
            return
        data = bytes(data)
        connection.stirred_at, connection.has_rest = self._clock(), False
        self._put(connection, self._item(kind, data))
        framer = connection.client if kind is Kind.FROM_CLIENT else connection.server
        for packet, body in framer.feed(data):
            self._look(connection, kind, packet, body)
        self._check_kept(connection)

    def _look(self, connection: Connection, kind: Kind, packet: int, body: bytes | None) -> None:
        """Learns from a packet."""
        if packet == DISCONNECT:
            connection.has_disconnect = True
        elif packet == CONNECT and kind is Kind.FROM_CLIENT and connection.connect is None:
            connection.connect = read_connect(body or b"")
            connection.client.keep_none()
            self._check_version(connection)
        elif packet == CONNACK and kind is Kind.FROM_SERVER and not connection.is_answered:
            connection.is_answered, connection.connack = True, read_connack(body or b"")
            connection.server.keep_none()
            if connection.log is None and not connection.is_left_out:
                self._place(connection)
        elif packet == CONNACK and kind is Kind.FROM_SERVER:
            connection.is_answered_again = True

    def _check_version(self, connection: Connection) -> None:
        connect = connection.connect
        if connect is not None and connect.version != 5:
            who = self._named(connect.identifier or b"") or UNNAMED
            self._leave_out(connection, f"{who} uses {file_name(connect.protocol)} version {connect.version}")

    def _item(self, kind: Kind, data: bytes = b"") -> Item:
        """What happens now."""
        return Item(kind, data, self._moment())

    def _put(self, connection: Connection, item: Item) -> None:
        """Writes an item to the connection's log, or keeps it until it is known which one that is."""
        if connection.is_left_out:
            return
        if connection.log is not None:
            connection.log.write(item)
            return
        connection.kept.append(item)
        connection.kept_bytes += len(item.data) + KEPT_PRICE
        self._kept_bytes += len(item.data) + KEPT_PRICE

    def _check_kept(self, connection: Connection) -> None:
        """Sees to it that not too much is kept of connections of which it isn't known yet where they belong."""
        if connection.kept_bytes <= KEPT_MOST and self._kept_bytes <= KEPT_MOST_IN_ALL:
            return
        if connection.connect is None:
            self._place(connection)  # it has no Client Identifier, and a log of its own
            connection.keep_no_packets()
            return
        name = self._name(connection)
        if name is not None and not connection.is_waiting:
            self._logs.pop(name, None)  # what comes later wouldn't have this connection before it
        self._leave_out(connection, f"{name or UNNAMED} sent too much before its session was known")

    # -- where a connection belongs

    def _name(self, connection: Connection) -> str | None:
        """The name of its Client Identifier: the CONNECT's, or the one that the server assigned."""
        if connection.connect is None or connection.connect.identifier is None:
            return None
        identifier = connection.connect.identifier
        if not identifier and connection.is_accepted and connection.connack is not None:
            identifier = connection.connack.assigned or b""
        return self._named(identifier) if identifier else None

    def _place(self, connection: Connection) -> None:
        """Finds the log of a connection whose CONNACK has come, or whose CONNACK won't come any more."""
        name = connection.name = self._name(connection)
        if name is None:
            self._begin(connection, self._new_log(UNNAMED))
            return
        log = self._logs.get(name)
        if log is not None:
            self._logs.move_to_end(name)
        if connection.is_accepted:
            self._place_accepted(connection, name, log)
        elif log is None:
            self._begin(connection, self._new_log(name))
        elif log.current is None:
            self._begin(connection, log)
        else:
            self._wait(connection, log)
        self._forget_some()

    def _place_accepted(self, connection: Connection, name: str, log: SessionLog | None) -> None:
        assert connection.connect is not None and connection.connack is not None
        if log is not None and log.current is not None:
            self._take_over(log)
        has_begun_before = log is None or not log.may_have_session
        if not connection.connect.clean_start and connection.connack.session_present and has_begun_before:
            if name in self._unsure or not self._from_start:
                self._logs.pop(name, None)
                which = "of which not all was read" if name in self._unsure else "that began before the recording"
                self._leave_out(connection, f"{name} resumes a session {which}")
                return
        self._unsure.discard(name)
        if log is None or connection.connect.clean_start:
            log = self._new_log(name)
        self._begin(connection, log)

    def _new_log(self, name: str) -> SessionLog:
        ends = sorted(self._ends, key=lambda end: end.value)
        log = SessionLog([])
        for end in ends:
            log.files.append(LogFile(self._folder, name, end, self._releases, self._version))
            self._made(log.files[-1].path)
        if name != UNNAMED:
            self._drop_released(self._logs.get(name))
            self._logs[name] = log
            self._logs.move_to_end(name)
        return log

    def _begin(self, connection: Connection, log: SessionLog) -> None:
        """Writes what was kept of a connection to its log, where it goes on."""
        connection.log, connection.is_waiting = log, False
        log.current = connection
        self.connections += 1
        if connection.is_accepted or (connection.is_over and connection.is_unanswered):
            log.may_have_session = True
        for item in self._take_kept(connection):
            log.write(item)
        if connection.is_over:
            log.current = None
            log.pause()

    def _take_over(self, log: SessionLog) -> None:
        """Closes the open connection of a log: another one took its session over. What it still sends is left out."""
        old = log.current
        if old is not None:
            log.write(self._item(Kind.CLOSE))
            old.is_left_out, old.log, log.current = True, None, None
        self._write_waiting(log)
        if (waiting := log.current) is not None:
            log.write(self._item(Kind.CLOSE))
            waiting.is_left_out, waiting.log, log.current = True, None, None
        log.pause()

    def _wait(self, connection: Connection, log: SessionLog) -> None:
        """Keeps a connection that took nothing over until the open one is over: connections don't overlap in a log."""
        if len(log.waiting) >= WAITING_MOST:
            self._leave_out(connection, f"{connection.name} has more than {WAITING_MOST} connections that were refused")
            return
        if not connection.is_waiting:
            connection.is_waiting = True
            log.waiting.append(connection)

    def _write_waiting(self, log: SessionLog) -> None:
        while log.waiting and log.current is None:
            connection = log.waiting.pop(0)
            if not connection.is_left_out:
                self._begin(connection, log)

    def _end(self, connection: Connection) -> None:
        connection.is_over = True
        self._put(connection, self._item(Kind.CLOSE))
        if (log := connection.log) is not None:
            if connection.is_unanswered:
                log.may_have_session = True
            if log.current is connection:
                log.current = None
            log.pause()
            self._write_waiting(log)
        elif not connection.is_waiting and not connection.is_left_out:
            self._place_ended(connection)

    def _place_ended(self, connection: Connection) -> None:
        """Finds the log of a connection on which nothing more comes, if anything came."""
        if connection.is_silent:
            self._take_kept(connection)
        else:
            self._place(connection)

    def _rest(self, connection: Connection) -> None:
        connection.has_rest = True
        self._put(connection, self._item(Kind.REST))

    # -- bounds

    def _take_kept(self, connection: Connection) -> list[Item]:
        kept, connection.kept = connection.kept, []
        self._kept_bytes -= connection.kept_bytes
        connection.kept_bytes = 0
        return kept

    def _leave_out(self, connection: Connection, why: str) -> None:
        self._warn(f"not recorded: {why}")
        connection.is_left_out = True
        connection.keep_no_packets()
        self._take_kept(connection)

    def _forget_some(self) -> None:
        """Forgets the Client Identifiers that have been without a connection for longest."""
        for _ in range(max(0, len(self._logs) - KNOWN_MOST)):
            name, log = self._logs.popitem(last=False)
            if log.current is not None:
                self._logs[name] = log
            else:
                self._drop_released(log)

    def _forget(self, name: str) -> None:
        """Forgets a Client Identifier. Its log goes on while the connection that is open does, and no longer."""
        log = self._logs.pop(name, None)
        self._drop_released(log)
        for connection in log.waiting if log is not None else ():
            self._leave_out(connection, f"a refused connection of {name}")

    def _drop_released(self, log: SessionLog | None) -> None:
        for key in log.keys if log is not None else ():
            self._released_logs.pop(key, None)
