#!/usr/bin/env python3
"""Tests of the proxy with a client and a broker that are plain sockets: what goes wrong there, and what it then does.

usage: recorders/test_proxy.py
"""
from __future__ import annotations

import contextlib
import socket
import struct
import subprocess
import sys
import tempfile
import threading
import time
import unittest
from pathlib import Path

sys.dont_write_bytecode = True  # the repository stays as it is
sys.path.insert(0, str(Path(__file__).resolve().parent))
import log_format
from test_recording import PINGREQ, PINGRESP, connack, connect, packet, records, text

PROXY = Path(__file__).resolve().parent / "proxy"
PATIENCE = 20.0
LARGE = packet(0x30, text(b"t") + b"\0" + bytes(1_000_000))


def receive(connection: socket.socket, count: int) -> bytes:
    """So many bytes, or fewer if the other side ends its stream before."""
    data = bytearray()
    while len(data) < count and (piece := connection.recv(min(count - len(data), 1 << 20))):
        data += piece
    return bytes(data)


def whole_records(log: bytes) -> int:
    """How many records a log has, but for a last one that was being written when the proxy was killed."""
    found = []
    with contextlib.suppress(ValueError):
        for record in log_format.records(log):
            found.append(record.kind)
    return len(found)


class Case(unittest.TestCase):
    def setUp(self) -> None:
        folder = tempfile.TemporaryDirectory()
        self.addCleanup(folder.cleanup)
        self.folder = Path(folder.name) / "logs"
        self.errors = Path(folder.name) / "errors"
        self.broker = socket.create_server(("127.0.0.1", 0))
        self.broker.settimeout(PATIENCE)
        self.addCleanup(self.broker.close)

    def start(self, *options: str, before: tuple[str, ...] = ()) -> None:
        address = f"127.0.0.1:{self.broker.getsockname()[1]}"
        words = [sys.executable, PROXY, "--listen", "127.0.0.1:0", "--broker", address, "--out", self.folder, *options]
        with self.errors.open("w") as errors:
            self.proxy = subprocess.Popen([*before, *map(str, words)], stderr=errors)
        self.addCleanup(self.stop)
        self.wait_until(lambda: "\n" in self.errors.read_text())
        self.port = int(self.errors.read_text().splitlines()[0].rpartition(":")[2])

    def stop(self) -> int:
        self.proxy.terminate()
        return self.proxy.wait(PATIENCE)

    def wait_until(self, is_so: object) -> None:
        end = time.monotonic() + PATIENCE
        while not is_so():  # type: ignore[operator]
            self.assertLess(time.monotonic(), end, self.errors.read_text())
            time.sleep(0.02)

    def pair(self, identifier: bytes) -> tuple[socket.socket, socket.socket]:
        """A client's connection, and the broker's that goes with it, once both have sent their first packet."""
        client = socket.create_connection(("127.0.0.1", self.port), PATIENCE)
        self.addCleanup(client.close)
        client.sendall(connect(identifier))
        server, _ = self.broker.accept()
        self.addCleanup(server.close)
        server.settimeout(PATIENCE)
        self.assertEqual(receive(server, len(connect(identifier))), connect(identifier))
        server.sendall(connack())
        self.assertEqual(receive(client, len(connack())), connack())
        return client, server

    def log(self, name: str) -> list[str]:
        return records((self.folder / name).read_bytes())

    def ends_with(self, name: str, word: str) -> None:
        self.wait_until(lambda: (self.folder / name).exists() and self.log(name)[-1] == word)


class Connections(Case):
    def test_a_client_that_ends_its_stream_still_gets_what_comes(self) -> None:
        self.start()
        client, server = self.pair(b"half")
        client.sendall(PINGREQ)
        client.shutdown(socket.SHUT_WR)
        self.assertEqual(receive(server, 100), PINGREQ)
        self.ends_with("half.1.client.log", "CLOSE")
        server.sendall(PINGRESP)
        server.close()
        self.assertEqual(receive(client, 100), PINGRESP)
        self.ends_with("half.1.server.log", "CLOSE")
        self.assertEqual(self.log("half.1.client.log")[-2:], [f"SENT {PINGREQ.hex()}", "CLOSE"])
        self.assertEqual(self.log("half.1.server.log")[-2:], [f"SENT {PINGRESP.hex()}", "CLOSE"])

    def test_a_reset_closes_both_sides(self) -> None:
        self.start()
        client, server = self.pair(b"reset")
        client.setsockopt(socket.SOL_SOCKET, socket.SO_LINGER, struct.pack("ii", 1, 0))
        client.close()
        self.assertEqual(receive(server, 1), b"")
        for end in ("client", "server"):
            self.ends_with(f"reset.1.{end}.log", "CLOSE")

    def test_a_broker_that_is_not_there(self) -> None:
        self.start("--end", "client")
        self.broker.close()
        with socket.create_connection(("127.0.0.1", self.port), PATIENCE) as client:
            self.assertEqual(receive(client, 1), b"")
        self.wait_until(lambda: "the broker can't be reached" in self.errors.read_text())
        self.assertEqual(self.stop(), 0)
        self.assertEqual(list(self.folder.iterdir()), [])

    def test_a_port_probe_leaves_no_log(self) -> None:
        self.start()
        for _ in range(3):
            socket.create_connection(("127.0.0.1", self.port), PATIENCE).close()
            server, _ = self.broker.accept()
            server.settimeout(PATIENCE)
            self.assertEqual(receive(server, 1), b"")
            server.close()
        self.pair(b"a")
        self.assertEqual(self.stop(), 0)
        self.assertEqual(sorted(path.name for path in self.folder.iterdir()), ["a.1.client.log", "a.1.server.log"])

    def test_one_end_alone(self) -> None:
        self.start("--end", "server")
        self.pair(b"a")
        self.assertEqual(self.stop(), 0)
        self.assertEqual([path.name for path in self.folder.iterdir()], ["a.1.server.log"])


class Versions(Case):
    def test_times_or_none(self) -> None:
        for words, number in (((), 2), (("--log-version", "2"), 2), (("--log-version", "1"), 1)):
            begun = time.time() * 1_000_000
            self.start("--end", "client", *words)
            self.pair(b"v%d" % len(words) + bytes((48 + number,)))
            self.stop()
            log = (self.folder / f"v{len(words)}{number}.1.client.log").read_bytes()
            moments = [record.moment for record in log_format.records(log)]
            self.assertEqual((log[4], len(moments)), (number, 4))
            if number == 1:
                self.assertEqual(moments, [None] * 4)
            else:
                self.assertTrue(all(begun - 1 <= moment <= time.time() * 1_000_000 for moment in moments), moments)


class Rest(Case):
    def test_none_while_a_client_does_not_read(self) -> None:
        self.start("--end", "client", "--rest", "0.5")
        client, server = self.pair(b"slow")
        sender = threading.Thread(target=server.sendall, args=(LARGE * 30,))
        sender.start()
        time.sleep(1.5)
        self.assertLess((self.folder / "slow.1.client.log").stat().st_size, len(LARGE) * 30)
        self.assertNotIn("REST", self.log("slow.1.client.log"))
        self.assertEqual(len(receive(client, len(LARGE) * 30)), len(LARGE) * 30)
        sender.join(PATIENCE)
        self.ends_with("slow.1.client.log", "REST")

    def test_none_where_none_is_asked_for(self) -> None:
        self.start()
        self.pair(b"a")
        time.sleep(1)
        self.assertNotIn("REST", self.log("a.1.client.log"))


class Failures(Case):
    def test_a_full_disk_stops_the_recording_and_nothing_else(self) -> None:
        self.start("--end", "client", before=("bash", "-c", 'ulimit -f 100; exec "$@"', "limited"))
        client, server = self.pair(b"full")
        sender = threading.Thread(target=server.sendall, args=(LARGE * 3,))
        sender.start()
        self.assertEqual(len(receive(client, 3 * len(LARGE))), 3 * len(LARGE))
        sender.join(PATIENCE)
        self.pair(b"later")
        stopped = f"client logs: recording stopped: {self.folder / 'full.1.client.log'}: File too large\n"
        self.assertEqual(self.errors.read_text().partition("\n")[2], stopped)
        self.assertEqual(self.log("full.1.client.log")[0], "OPEN")
        self.assertEqual(self.stop(), 0)

    def test_a_port_that_is_taken(self) -> None:
        taken = f"127.0.0.1:{self.broker.getsockname()[1]}"
        words = [sys.executable, PROXY, "--listen", taken, "--broker", "127.0.0.1:1", "--out", self.folder]
        answer = subprocess.run(words, capture_output=True, text=True, timeout=PATIENCE)
        self.assertEqual(answer.returncode, 1)
        self.assertRegex(answer.stderr, r"\Aproxy: [^[\]]*address already in use\n\Z")

    def test_a_killed_proxy_leaves_whole_records(self) -> None:
        self.start()
        client, server = self.pair(b"killed")

        def send() -> None:
            try:
                while True:
                    server.sendall(LARGE)
            except OSError:
                pass

        threading.Thread(target=send, daemon=True).start()
        receive(client, 10 * len(LARGE))
        self.proxy.kill()
        self.proxy.wait(PATIENCE)
        for end in ("client", "server"):
            self.assertGreater(whole_records((self.folder / f"killed.1.{end}.log").read_bytes()), 10)


if __name__ == "__main__":
    unittest.main()
