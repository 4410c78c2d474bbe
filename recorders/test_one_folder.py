#!/usr/bin/env python3
"""All four ways of recording write their logs into one folder, and none touches another's.

usage: recorders/test_one_folder.py
"""
from __future__ import annotations

import subprocess
import sys
import tempfile
import unittest
from pathlib import Path

HERE = Path(__file__).resolve().parent
sys.dont_write_bytecode = True  # the repository stays as it is
sys.path.insert(0, str(HERE))
from test_capture import Conversation, Wire
from testing import HOST, PAHO, PATIENCE, InFolder, accepts, find, free_port, missing, mosquitto, process, python_with, wait_until

NEEDED = ("mosquitto", "mosquitto_pub", "tshark", "cc")
PAHO_CLIENT = """
import sys
sys.dont_write_bytecode = True
sys.path.insert(0, sys.argv[1])
import paho.mqtt.client as paho
from paho_recorder import record
client = paho.Client("me", protocol=paho.MQTTv5)
recording = record(client, sys.argv[2])
client.connect(sys.argv[3], int(sys.argv[4]))
client.on_connect = lambda *_: client.disconnect()
client.loop_forever()
recording.finish()
"""


@unittest.skipIf(missing(*NEEDED), missing(*NEEDED))
@unittest.skipIf(python_with(PAHO) is None, f"{PAHO} isn't installed")
class OneFolder(InFolder):
    def run_to_end(self, *words: object) -> str:
        answer = subprocess.run([*map(str, words)], capture_output=True, text=True, timeout=PATIENCE)
        self.assertEqual(answer.returncode, 0, answer.stderr)
        return answer.stderr

    def publish(self, port: int) -> tuple[object, ...]:
        words = f"-V 5 -h {HOST} -p {port} -i me -t hello -q 2 -m world"
        return (find("mosquitto_pub") or "mosquitto_pub", *words.split())

    def content(self) -> dict[str, bytes]:
        return {path.name: path.read_bytes() for path in self.logs.glob("*.log")}

    def record_by_proxy(self, port: int) -> None:
        own = free_port()
        listen, to_broker = f"--listen={HOST}:{own}", f"--broker={HOST}:{port}"
        with process(sys.executable, HERE / "proxy", listen, to_broker, "--out", self.logs):
            wait_until(lambda: accepts(own), "the proxy listens")
            self.run_to_end(*self.publish(own))

    def record_from_capture(self) -> None:
        wire, capture = Wire(), self.folder / "session.pcap"
        Conversation(wire, "10.0.0.2").accepted("me").close()
        wire.write(capture)
        words = ("--server", "10.0.0.1:1883", "--out", self.logs)
        self.run_to_end(sys.executable, HERE / "from-capture", capture, *words)

    def record_preloaded(self, port: int) -> str:
        return self.run_to_end(sys.executable, HERE / "preload/run", "-o", self.logs, "--", *self.publish(port))

    def test_nobody_removes_the_logs_of_another(self) -> None:
        names: set[str] = set()
        kept: dict[str, bytes] = {}
        with mosquitto(self.folder) as port:
            ways = [
                (lambda: self.record_by_proxy(port), {"me.1.client.log", "me.1.server.log"}),
                (self.record_from_capture, {"me.2.client.log", "me.2.server.log"}),
                (lambda: self.record_preloaded(port), {"me.3.client.log"}),
                (lambda: self.run_to_end(python_with(PAHO), "-c", PAHO_CLIENT, HERE, self.logs, HOST, port),
                 {"me.4.client.log"}),
                (lambda: self.record_preloaded(port), {"me.5.client.log"}),
            ]
            for record, new in ways:
                record()
                names |= new
                now = self.content()
                self.assertEqual({name for name in now if not name.startswith("@")}, names)
                self.assertEqual({name: now[name] for name in kept}, kept)
                kept = now

    def test_its_own_logs_are_made_anew_while_they_are_as_it_left_them(self) -> None:
        with mosquitto(self.folder) as port:
            self.assertIn("1 connection, 1 log\n", self.record_preloaded(port))
            self.assertEqual(set(self.content()), {"me.1.client.log"})
            changed = self.content()["me.1.client.log"] + b"\5\0\0\0\0"
            (self.logs / "me.1.client.log").write_bytes(changed)
            self.assertIn("2 connections, 2 logs\n", self.record_preloaded(port))
        self.assertEqual(self.content()["me.1.client.log"], changed)
        self.assertEqual(set(self.content()), {f"me.{number}.client.log" for number in (1, 2, 3)})


class WithoutRawFiles(unittest.TestCase):
    def test_a_log_without_raw_files_stays(self) -> None:
        with tempfile.TemporaryDirectory() as place:
            log = Path(place) / "mine.1.server.log"
            log.write_bytes(b"MQTR\1\1\0\0")
            (Path(place) / "raw").mkdir()
            words = [sys.executable, str(HERE / "preload/assemble"), place]
            answer = subprocess.run(words, capture_output=True, text=True, timeout=PATIENCE)
            self.assertEqual((answer.returncode, answer.stderr), (0, f"{place}: 0 connections, 0 logs\n"))
            self.assertTrue(log.exists())


if __name__ == "__main__":
    unittest.main()
