"""Logs that tests make byte by byte, and `recorders/judge`, which is run on them."""
from __future__ import annotations

import subprocess
import sys
from pathlib import Path

from testing import PATIENCE, InFolder, judge_program

JUDGE = Path(__file__).resolve().parent / "judge"
CONNECT = bytes.fromhex("100d00044d5154540502003c000000")
CONNACK = bytes.fromhex("2003000000")
KEEPING = bytes.fromhex("101200044d5154540500003c0511ffffffff0000")  # a CONNECT whose session stays
RESUMED = bytes.fromhex("2003010000")  # the CONNACK that resumes it


def record(kind: int, body: bytes = b"") -> bytes:
    return bytes([kind]) + len(body).to_bytes(4, "big") + body


def packet(first: int, body: bytes) -> bytes:
    size, length = b"", len(body)
    while length > 127:
        size, length = size + bytes([length & 127 | 128]), length >> 7
    return bytes([first]) + size + bytes([length]) + body


def text(words: str) -> bytes:
    raw = words.encode()
    return len(raw).to_bytes(2, "big") + raw


def publish(topic: str, identifier: int, properties: bytes = b"") -> bytes:
    return packet(0x32, text(topic) + identifier.to_bytes(2, "big") + bytes([len(properties)]) + properties + b"x")


def log(*records: bytes, end: int = 0) -> bytes:
    """A log of one connection that the server accepts, with these records on it."""
    return b"MQTR\x01" + bytes([end, 0, 0]) + record(1) + record(2, CONNECT) + record(3, CONNACK) + b"".join(records)


def reconnected(before: list[bytes], after: list[bytes], early: tuple[bytes, ...] = ()) -> bytes:
    """A log of a client that resumes its session: records on its two connections, and some before the CONNACK."""
    opening = [record(1), record(2, KEEPING), *early, record(3, RESUMED)]
    made = log(*before, record(4), *opening, *after, record(4))
    return made.replace(record(2, CONNECT), record(2, KEEPING))


def run(*words: object, program: object = None) -> tuple[int, str, str]:
    command = [sys.executable, str(JUDGE), *map(str, words), "--program", str(program or judge_program())]
    answer = subprocess.run(command, capture_output=True, timeout=2 * PATIENCE)
    return answer.returncode, answer.stdout.decode(), answer.stderr.decode()


class WithLogs(InFolder):
    """Tests with a folder for logs."""

    def setUp(self) -> None:
        super().setUp()
        self.logs.mkdir()
