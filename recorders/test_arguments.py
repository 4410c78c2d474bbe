#!/usr/bin/env python3
"""Tests of the command lines of all scripts: misuse has one status, and is refused before any work is done.

usage: recorders/test_arguments.py
"""
from __future__ import annotations

import subprocess
import sys
import unittest
from pathlib import Path

HERE = Path(__file__).resolve().parent
sys.dont_write_bytecode = True  # the repository stays as it is
sys.path.insert(0, str(HERE))
from test_capture import Conversation, Wire
from testing import PATIENCE, InFolder, free_port, missing

MISUSE = 3
PROXY = ("proxy", "--listen", "127.0.0.1:1", "--broker", "127.0.0.1:2", "--out")


class Case(InFolder):
    def called(self, script: str, *words: object) -> tuple[int, str]:
        """The status of a script, and the last line that it writes to standard error."""
        command = [sys.executable, str(HERE / script), *map(str, words)]
        answer = subprocess.run(command, capture_output=True, text=True, timeout=PATIENCE)
        return answer.returncode, (answer.stderr.splitlines() or [""])[-1]


class Misuse(Case):
    def test_it_has_one_status(self) -> None:
        scripts = ("judge", "proxy", "exercise", "from-capture", "preload/run", "preload/assemble", "survey", "test")
        for script in scripts:
            self.assertEqual(self.called(script, "--no-such-option")[0], MISUSE, script)

    def test_no_time_of_silence(self) -> None:
        for value in ("0", "-1", "nan", "soon"):
            calls = [
                ("preload/run", "-o", self.logs, "--rest", value, "--", "touch", self.folder / "began"),
                ("preload/assemble", self.logs, "--rest", value),
                ("from-capture", "none.pcap", "--server", ":1883", "--out", self.logs, "--rest", value),
                (*PROXY, self.logs, "--rest", value),
            ]
            for script, *words in calls:
                status, line = self.called(script, *words)
                self.assertEqual(status, MISUSE, script)
                self.assertTrue(line.endswith(f"argument --rest: {value!r} isn't a number of seconds above 0"), line)
        self.assertEqual([*self.folder.iterdir()], [])

    def test_a_silence_before_the_connack(self) -> None:
        """It says nothing alone, and is the longer one."""
        longer = "--rest-before-connack"
        for given, wanted in (
            ((longer, "9"), f"{longer} needs --rest"),
            (("--rest", "9", longer, "8.9"),
             f"{longer} is shorter than --rest: before the CONNACK a server may take longer"),
            (("--rest", "9", longer, "no"), f"argument {longer}: 'no' isn't a number of seconds above 0"),
        ):
            calls = [
                ("preload/run", "-o", self.logs, *given, "--", "touch", self.folder / "began"),
                ("preload/assemble", self.logs, *given),
                ("from-capture", "none.pcap", "--server", ":1883", "--out", self.logs, *given),
                (*PROXY, self.logs, *given),
            ]
            for script, *words in calls:
                status, line = self.called(script, *words)
                self.assertEqual(status, MISUSE, script)
                self.assertTrue(line.endswith(wanted), line)
        self.assertEqual([*self.folder.iterdir()], [])

    def test_no_version_of_logs(self) -> None:
        for value in ("0", "3", "newest"):
            calls = [
                ("preload/run", "-o", self.logs, "--log-version", value, "--", "touch", self.folder / "began"),
                ("preload/assemble", self.logs, "--log-version", value),
                ("from-capture", "none.pcap", "--server", ":1883", "--out", self.logs, "--log-version", value),
                (*PROXY, self.logs, "--log-version", value),
            ]
            for script, *words in calls:
                status, line = self.called(script, *words)
                self.assertEqual(status, MISUSE, script)
                self.assertIn("argument --log-version: invalid", line)
        self.assertEqual([*self.folder.iterdir()], [])

    def test_a_proxy_before_itself(self) -> None:
        port = free_port()
        for broker in (f"127.0.0.1:{port}", f"ws://127.0.0.1:{port}/mqtt"):
            words = ("--listen", f"127.0.0.1:{port}", "--broker", broker, "--out", self.logs)
            status, line = self.called("proxy", *words)
            self.assertEqual((status, line), (MISUSE, "proxy: --broker is the proxy's own address: it would connect to"
                                                      " itself"))
        self.assertEqual([*self.folder.iterdir()], [])

    def test_the_dashes_before_a_program(self) -> None:
        status, line = self.called("preload/run", "-o", self.logs, "touch", self.folder / "began")
        self.assertEqual((status, line), (MISUSE, "run: -- is missing: it goes before the program and its arguments"))
        self.assertEqual([*self.folder.iterdir()], [])


class Captures(Case):
    def test_a_missing_file(self) -> None:
        words = ("--server", ":1883", "--out", self.logs)
        status, line = self.called("from-capture", self.folder / "none.pcap", *words)
        self.assertEqual((status, line), (1, f"from-capture: {self.folder}/none.pcap isn't a file"))
        self.assertFalse(self.logs.exists())

    @unittest.skipIf(missing("tshark"), missing("tshark"))
    def test_a_port_that_no_connection_has(self) -> None:
        wire, capture = Wire(), self.folder / "session.pcap"
        Conversation(wire, "10.0.0.2").accepted().close()
        wire.write(capture)
        status, line = self.called("from-capture", capture, "--server", ":1884", "--out", self.logs)
        wanted = f"from-capture: no connection to the server, port 1884, is in {capture}: connections begin to 1883"
        self.assertEqual((status, line), (1, wanted))


class Paho(Case):
    def test_a_python_that_does_not_see_it(self) -> None:
        command = [sys.executable, "-S", "-B", "-c", "import paho_recorder"]  # without the packages of the site
        answer = subprocess.run(command, cwd=HERE, capture_output=True, text=True, timeout=PATIENCE)
        self.assertEqual(answer.returncode, 1)
        line = answer.stderr.splitlines()[-1]
        self.assertIn(f"this Python ({sys.executable}) doesn't see paho-mqtt", line)
        self.assertIn("-m pip install paho-mqtt", line)


if __name__ == "__main__":
    unittest.main()
