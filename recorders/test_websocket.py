#!/usr/bin/env python3
"""Tests of the proxy with WebSockets: between real software, and with frames that are made by hand.

usage: recorders/test_websocket.py
"""
from __future__ import annotations

import base64
import contextlib
import hashlib
import os
import socket
import subprocess
import sys
import time
import unittest
from pathlib import Path
from typing import Any

sys.dont_write_bytecode = True  # the repository stays as it is
sys.path.insert(0, str(Path(__file__).resolve().parent))
from peers import paho_modules
from test_proxy import PROXY, Case, receive
from test_recording import PINGREQ, PINGRESP, connack, connect, packet
from testing import HOST, PAHO, PATIENCE, WEBSOCKETS, InFolder, find, free_port, joined, make_certificate, missing
from testing import mosquitto, process, verdict, wait_until

SALT = b"258EAFA5-E914-47DA-95CA-C5AB0DC85B11"  # RFC 6455, section 1.3
KEY = base64.b64encode(bytes(16))
CONTINUATION, TEXT, BINARY, CLOSE, PING, PONG = 0, 1, 2, 8, 9, 10
MASK = b"\x12\x34\x56\x78"


def frame(kind: int, payload: bytes, is_last: bool = True, is_masked: bool = True) -> bytes:
    """A frame of up to 65,535 bytes, as a client sends it, or else a server."""
    size = len(payload)
    length = bytes((size,)) if size < 126 else b"\x7e" + size.to_bytes(2, "big")
    head = bytes((kind | 0x80 * is_last, length[0] | 0x80 * is_masked)) + length[1:]
    if not is_masked:
        return head + payload
    return head + MASK + bytes(byte ^ MASK[place % 4] for place, byte in enumerate(payload))


def read_frame(connection: socket.socket) -> tuple[int, bytes]:
    """The kind and the payload of the next frame, masked or not."""
    first, second = receive(connection, 2)
    size = second & 0x7F
    if size == 126:
        size = int.from_bytes(receive(connection, 2), "big")
    mask = receive(connection, 4) if second & 0x80 else bytes(4)
    return first & 0x0F, bytes(byte ^ mask[place % 4] for place, byte in enumerate(receive(connection, size)))


def read_head(connection: socket.socket) -> str:
    """A head of HTTP."""
    head = b""
    while not head.endswith(b"\r\n\r\n"):
        head += receive(connection, 1)
    return head.decode()


@unittest.skipIf(missing(WEBSOCKETS), missing(WEBSOCKETS))
class Frames(Case):
    """A client and a broker that are plain sockets, with frames made here."""

    def client(self, path: str = "/mqtt", more: str = "Sec-WebSocket-Protocol: mqtt\r\n") -> socket.socket:
        """A client's connection after it asked for a WebSocket."""
        client = socket.create_connection((HOST, self.port), PATIENCE)
        self.addCleanup(client.close)
        client.sendall(
            f"GET {path} HTTP/1.1\r\nHost: {HOST}\r\nUpgrade: websocket\r\nConnection: Upgrade\r\n"
            f"Sec-WebSocket-Key: {KEY.decode()}\r\nSec-WebSocket-Version: 13\r\n{more}\r\n".encode()
        )
        return client

    def server(self) -> socket.socket:
        server, _ = self.broker.accept()
        self.addCleanup(server.close)
        server.settimeout(PATIENCE)
        return server

    def start_websocket(self, *options: str) -> None:
        self.start("--listen", f"ws://{HOST}:0", *options)

    def opened(self) -> tuple[socket.socket, socket.socket]:
        """A client inside a WebSocket, and a plain broker."""
        client = self.client()
        head = read_head(client)
        accept = base64.b64encode(hashlib.sha1(KEY + SALT).digest()).decode()
        self.assertTrue(head.startswith("HTTP/1.1 101 "), head)
        self.assertIn(f"sec-websocket-accept: {accept}".lower(), head.lower())
        self.assertIn("sec-websocket-protocol: mqtt\r\n", head.lower())
        return client, self.server()

    def test_the_bytes_inside_the_frames_are_recorded(self) -> None:
        """Packets over several frames, several in one, and pings between them."""
        self.start_websocket()
        client, server = self.opened()
        sent = connect(b"a")
        client.sendall(frame(BINARY, sent[:5], is_last=False) + frame(PING, b"x") + frame(CONTINUATION, sent[5:]))
        self.assertEqual(read_frame(client), (PONG, b"x"))
        self.assertEqual(receive(server, len(sent)), sent)
        server.sendall(connack())
        self.assertEqual(read_frame(client), (BINARY, connack()))
        pieces = frame(BINARY, PINGREQ * 40 + PINGREQ[:1]) + frame(BINARY, b"") + frame(BINARY, PINGREQ[1:])
        for place in range(len(pieces)):
            client.sendall(pieces[place : place + 1])
        self.assertEqual(receive(server, 82), PINGREQ * 41)
        server.sendall(PINGRESP * 41)
        answers = b""
        while len(answers) < 82:
            kind, data = read_frame(client)
            self.assertEqual(kind, BINARY)
            answers += data
        client.sendall(frame(CLOSE, b"\x03\xe8"))
        self.assertEqual(receive(server, 1), b"")
        server.close()
        self.assertEqual(read_frame(client), (CLOSE, b"\x03\xe8"))
        self.assertEqual(receive(client, 1), b"")
        self.assertEqual(self.stop(), 0)
        words = ["OPEN", f"SENT {sent.hex()}", f"RECV {connack().hex()}", f"SENT {(PINGREQ * 41).hex()}"]
        words += [f"RECV {(PINGRESP * 41).hex()}", "CLOSE"]
        self.assertEqual(joined((self.folder / "a.1.client.log").read_bytes()), words)
        swapped = [word.replace("SENT", "-").replace("RECV", "SENT").replace("-", "RECV") for word in words]
        self.assertEqual(joined((self.folder / "a.1.server.log").read_bytes()), swapped)

    def test_the_server_ends_it(self) -> None:
        self.start_websocket("--end", "client")
        client, server = self.opened()
        client.sendall(frame(BINARY, connect(b"a")))
        receive(server, len(connect(b"a")))
        server.sendall(connack())
        server.close()
        self.assertEqual(read_frame(client), (BINARY, connack()))
        self.assertEqual(read_frame(client)[0], CLOSE)
        client.sendall(frame(BINARY, PINGREQ))  # it hasn't seen the close yet
        self.wait_until(lambda: self.log("a.1.client.log")[-1:] == ["SENT c000"])
        with contextlib.suppress(OSError):
            client.sendall(frame(CLOSE, b"\x03\xe8"))
            self.assertEqual(receive(client, 1), b"")
        self.wait_until(lambda: self.log("a.1.client.log")[3:] == ["SENT c000", "CLOSE"])

    def test_a_text_frame_ends_it(self) -> None:
        self.start_websocket("--end", "client")
        client, server = self.opened()
        client.sendall(frame(BINARY, connect(b"a")))
        receive(server, len(connect(b"a")))
        server.sendall(connack())
        self.assertEqual(read_frame(client), (BINARY, connack()))
        client.sendall(frame(TEXT, b"x"))
        self.assertEqual(receive(server, 1), b"")
        kind, reason = read_frame(client)
        self.assertEqual((kind, reason[:2]), (CLOSE, (1003).to_bytes(2, "big")))
        self.wait_until(lambda: self.log("a.1.client.log")[-1:] == ["CLOSE"])
        self.assertEqual(len(self.log("a.1.client.log")), 4)
        self.assertIn("a text frame came", self.errors.read_text())

    def test_what_is_no_websocket_leaves_no_log(self) -> None:
        self.start_websocket()
        request = b"GET / HTTP/1.1\r\nHost: x\r\n\r\n"
        for asked, answer in ((request, b"HTTP/1.1 426 "), (b"\x10\x00\r\n\r\n", b""), (b"", b"")):
            with socket.create_connection((HOST, self.port), PATIENCE) as client:
                client.sendall(asked)
                client.shutdown(socket.SHUT_WR)
                self.assertEqual(receive(client, 13)[: len(answer)], answer)
        self.assertEqual(self.stop(), 0)
        self.assertEqual([*self.folder.iterdir()], [])
        self.assertNotIn("Traceback", self.errors.read_text())

    def test_a_rest_inside_and_none_inside_a_frame(self) -> None:
        self.start_websocket("--end", "client", "--rest", "0.5")
        client, server = self.opened()
        client.sendall(frame(BINARY, connect(b"a")))
        receive(server, len(connect(b"a")))
        server.sendall(connack())
        read_frame(client)
        self.wait_until(lambda: self.log("a.1.client.log")[-1:] == ["REST"])
        ping = frame(BINARY, PINGREQ)
        client.sendall(ping + ping[:-1])
        self.wait_until(lambda: self.log("a.1.client.log")[-1:] == ["SENT c000"])
        time.sleep(1.5)
        self.assertEqual(self.log("a.1.client.log")[3:], ["REST", "SENT c000"])
        client.sendall(ping[-1:])
        self.wait_until(lambda: self.log("a.1.client.log")[3:] == ["REST", "SENT c000", "SENT c000", "REST"])
        long = frame(BINARY, packet(0x30, b"\0\1a\0" + bytes(300)))
        client.sendall(long[:1])
        time.sleep(0.2)
        client.sendall(long[1:])
        self.wait_until(lambda: self.log("a.1.client.log")[-1:] == ["REST"] and len(self.log("a.1.client.log")) == 9)

    def asked(self, broker: str) -> str:
        """The head with which the proxy asks a broker of this address for a WebSocket, for a client at /own."""
        port = self.broker.getsockname()[1]
        self.start("--listen", f"ws://{HOST}:0", "--broker", broker.format(f"{HOST}:{port}"))
        self.client("/own")
        server = self.server()
        head = read_head(server)
        key = next(line for line in head.splitlines() if line.lower().startswith("sec-websocket-key")).split()[1]
        accept = base64.b64encode(hashlib.sha1(key.encode() + SALT).digest()).decode()
        server.sendall(f"HTTP/1.1 101 Switching Protocols\r\nUpgrade: websocket\r\nConnection: Upgrade\r\n"
                       f"Sec-WebSocket-Accept: {accept}\r\nSec-WebSocket-Protocol: mqtt\r\n\r\n".encode())
        server.sendall(frame(BINARY, connack(), is_masked=False))
        self.stop()
        return head

    def test_what_the_broker_is_asked_for(self) -> None:
        for broker, path in (("ws://{}/some/where?a=b", "/some/where?a=b"), ("ws://{}", "/own"), ("ws://{}/", "/")):
            head = self.asked(broker)
            self.assertEqual(head.splitlines()[0], f"GET {path} HTTP/1.1")
            self.assertIn("sec-websocket-protocol: mqtt\r\n", head.lower())

    def test_a_broker_that_refuses(self) -> None:
        port = self.broker.getsockname()[1]
        self.start("--listen", f"{HOST}:0", "--broker", f"ws://{HOST}:{port}")
        with socket.create_connection((HOST, self.port), PATIENCE) as client:
            server = self.server()
            self.assertTrue(read_head(server).startswith("GET /mqtt HTTP/1.1\r\n"))
            server.sendall(b"HTTP/1.1 404 Not Found\r\nContent-Length: 0\r\n\r\n")
            self.assertEqual(receive(client, 1), b"")
        self.wait_until(lambda: "it refuses a WebSocket at /mqtt: " in self.errors.read_text())
        self.assertEqual([*self.folder.iterdir()], [])


@unittest.skipIf(missing(WEBSOCKETS, "mosquitto", "mosquitto_pub", "openssl", PAHO),
                 missing(WEBSOCKETS, "mosquitto", "mosquitto_pub", "openssl", PAHO))
class Software(InFolder):
    """mosquitto with a listener of each kind, and clients of paho and mosquitto."""

    def setUp(self) -> None:
        super().setUp()
        self.folder.chmod(0o755)
        self.stack = contextlib.ExitStack()
        self.addCleanup(self.stack.close)
        self.certificate, key = self.folder / "cert.pem", self.folder / "key.pem"
        make_certificate(key, self.certificate)
        self.tls = ("--tls-listen", self.certificate, key)
        self.ports = {"ws": free_port(), "wss": free_port()}
        settings = "".join(f"listener {port} {HOST}\nprotocol websockets\n" for port in self.ports.values())
        settings += f"certfile {self.certificate}\nkeyfile {key}\n"  # of the last one
        self.ports["tcp"] = self.stack.enter_context(mosquitto(self.folder, settings))

    def proxy(self, listen: str, broker: str, *options: object) -> int:
        printed = self.folder / "proxy.txt"
        words = ("--listen", listen, "--broker", broker, "--out", self.logs, "--rest", "1", *options)
        output = self.stack.enter_context(printed.open("wb"))
        self.stack.enter_context(process(sys.executable, PROXY, *words, output=output))
        wait_until(lambda: b"listening" in printed.read_bytes(), "the proxy listens")
        return int(printed.read_text().splitlines()[0].rpartition(":")[2])

    def paho(self, port: int, is_tls: bool = False, transport: str = "websockets") -> None:
        """A client that subscribes, and publishes to itself at each QoS."""
        paho, _ = paho_modules()
        client = paho.Client("me", protocol=paho.MQTTv5, transport=transport)
        got: list[Any] = []
        client.on_message = lambda client, data, message: got.append(message.payload)
        client.on_connect = lambda client, *rest: client.subscribe("t", 2)
        client.on_subscribe = lambda client, *rest: [client.publish("t", b"x" * 70_000, qos) for qos in (0, 1, 2)]
        if is_tls:
            client.tls_set(self.certificate)
        client.connect(HOST, port)
        client.loop_start()
        wait_until(lambda: len(got) == 3, "three messages")
        wait_until(lambda: any(self.ends_at_rest(log) for log in self.logs.glob("me.1.client.log")), "a REST")
        client.disconnect()
        client.loop_stop()

    def ends_at_rest(self, log: Path) -> bool:
        with contextlib.suppress(ValueError):
            return joined(log.read_bytes())[-1] == "REST"
        return False

    def assert_passes(self) -> None:
        """Both ends' logs are passes, and hold MQTT alone."""
        logs = [self.logs / f"me.1.{end}.log" for end in ("client", "server")]
        for log in logs:
            wait_until(lambda: joined(log.read_bytes())[-1] == "CLOSE", "the log ends")
            self.assertEqual(verdict(log), "pass")
            self.assertIn("REST", joined(log.read_bytes()))
        first = joined(logs[0].read_bytes())[1]
        self.assertTrue(first.startswith("SENT 10") and b"MQTT".hex() in first, first)
        self.assertEqual(sorted(path.name for path in self.logs.iterdir()), sorted(log.name for log in logs))

    def test_a_websocket_to_a_plain_broker(self) -> None:
        self.paho(self.proxy(f"ws://{HOST}:0", f"{HOST}:{self.ports['tcp']}"))
        self.assert_passes()

    def test_a_websocket_to_a_websocket(self) -> None:
        self.paho(self.proxy(f"ws://{HOST}:0", f"ws://{HOST}:{self.ports['ws']}"))
        self.assert_passes()

    def test_a_plain_client_to_a_websocket(self) -> None:
        self.paho(self.proxy(f"{HOST}:0", f"ws://{HOST}:{self.ports['ws']}"), transport="tcp")
        self.assert_passes()

    def test_with_tls_on_both_sides(self) -> None:
        broker = f"wss://{HOST}:{self.ports['wss']}/mqtt"
        self.paho(self.proxy(f"wss://{HOST}:0", broker, *self.tls, "--tls-broker", self.certificate), is_tls=True)
        self.assert_passes()


class Words(InFolder):
    def called(self, *words: object, python: tuple[str, ...] = ()) -> tuple[int, str]:
        command = [sys.executable, *python, str(PROXY), *map(str, words), "--out", str(self.logs)]
        answer = subprocess.run(command, capture_output=True, text=True, timeout=PATIENCE)
        return answer.returncode, answer.stderr.strip().splitlines()[-1]

    def test_without_the_library(self) -> None:
        for words in (("--listen", "ws://127.0.0.1:0", "--broker", "127.0.0.1:1"),
                      ("--listen", "127.0.0.1:0", "--broker", "ws://127.0.0.1:1")):
            status, line = self.called(*words, python=("-S", "-B"))  # without the packages of the site
            self.assertEqual(status, 1)
            self.assertTrue(line.startswith("proxy: WebSockets need the library websockets, which this Python"), line)
            self.assertIn("python3-websockets", line)
        self.assertFalse(self.logs.exists())

    def test_misuse(self) -> None:
        plain = ("--broker", "127.0.0.1:1")
        wanted = {
            ("--listen", "http://127.0.0.1:0", *plain): "'http://127.0.0.1:0' isn't HOST:PORT, ws://",
            ("--listen", "127.0.0.1:0/mqtt", *plain): "'127.0.0.1:0/mqtt' isn't HOST:PORT",
            ("--listen", "://127.0.0.1:0", *plain): "isn't HOST:PORT",
            ("--listen", "ws://127.0.0.1:0/mqtt", *plain): "--listen takes no path",
            ("--listen", "wss://127.0.0.1:0", *plain): "--listen wss:// needs --tls-listen CERT KEY",
            ("--listen", "ws://127.0.0.1:0", *plain, "--tls-listen", "a", "b"): "--listen ws:// has no TLS",
            ("--listen", "127.0.0.1:0", "--broker", "ws://127.0.0.1:1", "--tls-broker"): "--broker ws:// has no TLS",
        }
        for words, why in wanted.items():
            status, line = self.called(*words)
            self.assertEqual(status, 3, words)
            self.assertIn(why, line)
        self.assertFalse(self.logs.exists())


if __name__ == "__main__":
    unittest.main()
