"""Judges one end of an MQTT 5.0 session while it runs: include/mqjudge.h by ctypes.

    with Judge.of(CLIENT) as judge:
        judge.open()
        judge.sent(packet)
        assert not judge.faults()
"""
from __future__ import annotations

import ctypes
import itertools
import os
import subprocess
from pathlib import Path
from typing import NamedTuple

VERSION = 4  # of include/mqjudge.h
CLIENT, SERVER = 0, 1
END_AT = 5  # the byte of a log's header that says which end is tested
STATUS = ("ok", "null", "no judge", "held", "value", "memory", "refused", "order", "length", "absent", "room")
REFUSED, ABSENT = STATUS.index("refused"), STATUS.index("absent")
ARCHIVE = Path(__file__).resolve().parents[2] / "crates/mq_ffi/out/libmq_ffi.a"


def library() -> Path:
    """The shared library: MQJUDGE_LIBRARY, or the one beside the archive, which is linked where it isn't or is older."""
    if named := os.environ.get("MQJUDGE_LIBRARY"):
        return Path(named)
    shared = ARCHIVE.with_name("libmqjudge.so")
    if not shared.exists() or shared.stat().st_mtime < ARCHIVE.stat().st_mtime:
        page = subprocess.run(["rt", "doc"], check=True, capture_output=True, text=True).stdout
        heap = Path(page.strip()).parent / "c/liblibc_c.a"
        whole = ["-Wl,--whole-archive", ARCHIVE, "-Wl,--no-whole-archive", heap]
        subprocess.run([os.environ.get("CC", "cc"), "-shared", "-o", shared, *whole], check=True)
    return shared


def loaded() -> ctypes.CDLL:
    """The library, if it is of this module's version."""
    found = ctypes.CDLL(str(library()))
    if (version := found.mqjudge_version()) != VERSION:
        raise ImportError(f"{library()} has version {version} of its interface, and this module is for {VERSION}")
    return found


class Handle(ctypes.Structure):
    _fields_ = [("inside", ctypes.c_void_p), ("holds", ctypes.c_uint64)]


class Row(ctypes.Structure):
    _fields_ = [(name, ctypes.c_uint32) for name in ("position", "statement", "decided", "record", "has_offset", "offset")]


class Fault(NamedTuple):
    """A fault, as include/mqjudge.h says it."""

    position: int
    code: str
    citation: str
    decided: int
    record: int
    offset: int | None
    sentence: str


class Trouble(Exception):
    """A call wasn't done: its status, and why the log is refused, if it is."""

    def __init__(self, status: int, refusal: tuple[int, str, int] | None = None) -> None:
        super().__init__(STATUS[status] + (": %d %s at %d" % refusal if refusal else ""))
        self.status, self.refusal = status, refusal


class Judge:
    """A judge of the bytes of a log; with `of`, of the events of a client or a server; by a list of statements or by
    those that are judged without one."""

    def __init__(self, limit: int = 0, statements: str | None = None) -> None:
        self.library, self.handle, self.end, self.fed = loaded(), Handle(), CLIENT, 0
        self.call("new", ctypes.c_uint32(limit))
        if statements is not None:
            self.choose(statements)

    @classmethod
    def of(cls, end: int, releases: bool = False, limit: int = 0, statements: str | None = None) -> Judge:
        judge = cls(limit, statements)
        judge.end = end
        judge.call("begin", ctypes.c_uint32(end), ctypes.c_uint32(releases))
        return judge

    def ask(self, name: str, *arguments: object) -> int:
        return getattr(self.library, "mqjudge_" + name)(ctypes.byref(self.handle), *arguments)

    def call(self, name: str, *arguments: object) -> None:
        if status := self.ask(name, *arguments):
            raise Trouble(status, self.refusal() if status == REFUSED else None)

    def finds(self, name: str, *arguments: object) -> bool:
        """Whether there is what is asked for."""
        if (status := self.ask(name, *arguments)) not in (0, ABSENT):
            raise Trouble(status)
        return status == 0

    def choose(self, statements: str) -> None:
        """Chooses statements by a list, before anything is told."""
        listed = statements.encode()
        self.call("choose", listed, ctypes.c_size_t(len(listed)))

    def feed(self, log: bytes) -> None:
        if self.fed <= END_AT < self.fed + len(log) and log[END_AT - self.fed] == SERVER:
            self.end = SERVER
        self.fed += len(log)
        self.call("feed", log, ctypes.c_size_t(len(log)))

    def open(self) -> None:
        self.call("open")

    def close(self) -> None:
        self.call("close")

    def rest(self) -> None:
        self.call("rest")

    def release(self, identifier: int) -> None:
        self.call("release", ctypes.c_uint16(identifier))

    def sent(self, data: bytes) -> None:
        self.call("sent", data, ctypes.c_size_t(len(data)))

    def received(self, data: bytes) -> None:
        self.call("received", data, ctypes.c_size_t(len(data)))

    def count(self) -> int:
        count = ctypes.c_size_t()
        self.call("faults", ctypes.byref(count))
        return count.value

    def weight(self) -> int:
        """How much the judge keeps beside the faults."""
        weight = ctypes.c_size_t()
        self.call("weight", ctypes.byref(weight))
        return weight.value

    def places(self, code: str) -> int:
        """At how many events so far the statement of this code was put to the test."""
        places = ctypes.c_uint32()
        self.call("places", self.number(code), ctypes.byref(places))
        return places.value

    def number(self, code: str) -> int:
        """The number of the statement of this code, in the order of reports."""
        for number in itertools.count():
            if self.text("code", number) == code:
                return number
        raise AssertionError

    def faults(self) -> list[Fault]:
        """All faults that are known, in the order of reports."""
        return [self.fault(row) for row in self.rows()]

    def new_faults(self) -> list[Fault]:
        """The faults that this hasn't returned yet, by the event that shows them."""
        found, row = [], Row()
        while self.finds("next_fault", ctypes.byref(row)):
            found.append(self.fault(row))
        return found

    def rows(self) -> list[Row]:
        found, first, row = [], 0, Row()
        while self.finds("fault_from", ctypes.c_uint32(first), ctypes.byref(row)):
            first, index = row.position + 1, 0
            while self.finds("fault_at", ctypes.c_uint32(row.position), ctypes.c_size_t(index), ctypes.byref(row)):
                found.append(Row.from_buffer_copy(row))
                index += 1
        return found

    def fault(self, row: Row) -> Fault:
        number = ctypes.c_uint32(row.statement)
        code, sentence = self.text("code", number), self.text("sentence", number)
        citation = self.text("citation", number, ctypes.c_uint32(self.end))
        return Fault(row.position, code, citation, row.decided, row.record, row.offset if row.has_offset else None, sentence)

    def text(self, name: str, *arguments: object) -> str:
        buffer, length = ctypes.create_string_buffer(256), ctypes.c_size_t()
        function = getattr(self.library, "mqjudge_" + name)
        if status := function(*arguments, buffer, ctypes.c_size_t(len(buffer)), ctypes.byref(length)):
            raise Trouble(status)
        return buffer.raw[: length.value].decode()

    def refusal(self) -> tuple[int, str, int] | None:
        """The number of the refusal, its name and its byte, if the log is refused."""
        number, byte = ctypes.c_uint32(), ctypes.c_uint64()
        if not self.finds("refusal", ctypes.byref(number), ctypes.byref(byte)):
            return None
        return number.value, self.text("refusal_name", ctypes.byref(self.handle)), byte.value

    def finish(self) -> int:
        events = ctypes.c_uint32()
        self.call("finish", ctypes.byref(events))
        return events.value

    def free(self) -> None:
        self.ask("free")

    def __enter__(self) -> Judge:
        return self

    def __exit__(self, *_: object) -> None:
        self.free()
