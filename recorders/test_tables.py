#!/usr/bin/env python3
"""Tests that recorders/exercise reaches with real software what it has reached before: statements, and known faults.

Each run is a whole one: mosquitto is started, killed and started again, and each client is played the broker for in all
scenarios. What isn't installed is left out, and said.

usage: recorders/test_tables.py
"""
from __future__ import annotations

import os
import re
import subprocess
import sys
import unittest
from collections.abc import Callable, Collection
from pathlib import Path

sys.dont_write_bytecode = True  # the repository stays as it is
HERE = Path(__file__).resolve().parent
sys.path.insert(0, str(HERE))
from exercising.client_verbs import HOSTS, NEEDS
from exercising.evidence import BINDING, FOREIGN
from exercising.table import read_scenarios
from judging.statements import ALL, judges_further
from surveying.software import Missing, mosquitto, mosquitto_bridge, mosquitto_with_limits, paho_c_sync, paho_cpp
from test_exercise import own_faults
from test_situations import second_opinion
from testing import PAHO, InFolder, judge_program, missing, python_with

COMMAND = HERE / "exercise"
DRIVERS = HERE / "exercising/drivers"
INCLUDED = ("/usr/include", "/usr/local/include")
NODE_MODULES = "/usr/share/nodejs"  # where Debian has those of Node.js
RUN_SECONDS = 600
BROKER, CLIENT = BINDING[True] - FOREIGN[True], BINDING[False] - FOREIGN[False]
# What each can't be made to do, so that the statement isn't tested.
MOSQUITTO_LACKS = frozenset("C15 C16 C22 W21".split())
DRIVER_LACKS = frozenset("C15 C16 C20 W21".split())
PAHO_PYTHON_LACKS = LIBMOSQUITTO_LACKS = DRIVER_LACKS | {"W13"}
PAHO_C_LACKS = DRIVER_LACKS | {"W12"}
PAHO_C_SYNC_LACKS = DRIVER_LACKS | {"W12", "W13"}
PAHO_CPP_LACKS = DRIVER_LACKS | {"W12"}
BRIDGE_LACKS = DRIVER_LACKS | frozenset("W08 S04 S05 S06".split())  # its session ends with each connection
MQTT_JS_LACKS = DRIVER_LACKS | frozenset("S02 S03 S05".split())  # what it sends again has DUP 0
PUB_LACKS = frozenset("C15 C16 C20 E1A E1O E1R E2A E2O E2R E3O E4A E4R S01 S02 S03 S04 S05 S06 W13 W15 W16 W17 W21"
                      .split())
SUB_LACKS = frozenset("C15 C16 C17 C18 C20 E3A E3O E3R S01 S02 S03 S04 S05 S06 S07 W07 W08 W14 W21".split())
# What each is known to break.
MOSQUITTO_BREAKS = frozenset("C14 S01 S06 S07 W13 W14".split())
PAHO_PYTHON_BREAKS = frozenset("C01 C14 C17 E3A S02 S07 W09".split())
PAHO_C_BREAKS = frozenset("C14 C17 W09".split())
PAHO_C_SYNC_BREAKS = frozenset("C14 C17 E3A S02 W09".split())
PAHO_CPP_BREAKS = frozenset("C14 C17 W09".split())
BRIDGE_BREAKS = frozenset("C01 C13 S07".split())
LIBMOSQUITTO_BREAKS = frozenset("C01 E3A S02".split())
MQTT_JS_BREAKS = frozenset("C14 C17 S01 S07".split())
PUB_BREAKS = frozenset(("C13",))
SUB_BREAKS = frozenset(("C01", "C13"))
LIBMOSQUITTO_BREAKS_FURTHER = frozenset("F02 F03 F04".split())
LEAST_SITUATIONS = 220  # of a broker
NEEDS_ALL = unittest.skipUnless(judges_further(judge_program()), "the program that judges doesn't know `check --all`")


def count_in(printed: str, title: str) -> int:
    """The number in a row of the last table."""
    found = re.search(rf"^  {title} +(\d+)", printed, re.MULTILINE)
    return int(found[1]) if found else 0


def broken_in(printed: str) -> set[str]:
    line = next(line for line in printed.splitlines() if line.startswith("  broken "))
    return set(line.split()[2:])


class Tables(InFolder):
    def run_it(self, *words: object, variables: dict[str, str] | None = None) -> str:
        """Runs the exerciser. Whatever was required has to be tested."""
        command = [sys.executable, str(COMMAND), *map(str, words)]
        answer = subprocess.run(command, capture_output=True, text=True, timeout=RUN_SECONDS,
                                env=os.environ | (variables or {}))
        self.assertIn(answer.returncode, (0, 1), f"{answer.stdout}\n{answer.stderr}")
        self.assertNotIn("required, and not tested", answer.stdout, answer.stdout)
        return answer.stdout

    def client(
        self, lacks: frozenset[str], *words: object, does: str = "driver", variables: dict[str, str] | None = None
    ) -> set[str]:
        """The statements that a client breaks, of which all but these have to be tested."""
        printed = self.run_it("client", "--out", self.logs, "--program", judge_program(), "--require",
                              ",".join(sorted(CLIENT - lacks)), "--does", does, "--", *words, variables=variables)
        return broken_in(printed)

    def driver_in_c(self, name: str, header: str, library: str) -> Path:
        if missing("cc") or not any(Path(place, header).exists() for place in INCLUDED):
            self.skipTest(f"{missing('cc') or header} isn't there")
        driver = self.folder / name
        subprocess.run(["cc", "-o", driver, DRIVERS / f"{name}.c", f"-l{library}"], check=True)
        return driver


class Page(unittest.TestCase):
    def test_what_is_reached(self) -> None:
        """EXERCISE.md has what is asked for here."""
        wanted = [(len(BROKER - MOSQUITTO_LACKS), len(BROKER), MOSQUITTO_BREAKS)]
        wanted += [(len(CLIENT - lacks), len(CLIENT), breaks) for lacks, breaks in (
            (PAHO_PYTHON_LACKS, PAHO_PYTHON_BREAKS), (PAHO_C_LACKS, PAHO_C_BREAKS),
            (PAHO_C_SYNC_LACKS, PAHO_C_SYNC_BREAKS), (PAHO_CPP_LACKS, PAHO_CPP_BREAKS),
            (LIBMOSQUITTO_LACKS, LIBMOSQUITTO_BREAKS), (BRIDGE_LACKS, BRIDGE_BREAKS),
            (MQTT_JS_LACKS, MQTT_JS_BREAKS), (SUB_LACKS, SUB_BREAKS), (PUB_LACKS, PUB_BREAKS))]
        rows = re.findall(r"^\| .* \| (\d+) of (\d+) \| (.*) \|$", (HERE / "EXERCISE.md").read_text(), re.MULTILINE)
        self.assertEqual([(int(tested), int(every), frozenset(codes.split())) for tested, every, codes in rows], wanted)


class Brokers(Tables):
    @unittest.skipIf(missing("mosquitto"), missing("mosquitto"))
    def test_mosquitto(self) -> None:
        printed = self.run_it("broker", "--out", self.logs, "--program", judge_program(), "--require",
                              ",".join(sorted(BROKER - MOSQUITTO_LACKS)), *mosquitto(self.folder))
        self.assertEqual(MOSQUITTO_BREAKS - broken_in(printed), set(), printed)
        self.assertGreaterEqual(count_in(printed, "situations"), LEAST_SITUATIONS, printed)


    @NEEDS_ALL
    @unittest.skipIf(missing("mosquitto"), missing("mosquitto"))
    def test_wills_that_mosquitto_cannot_take(self) -> None:
        printed = self.run_it("broker", "--out", self.logs, "--program", judge_program(), ALL, "--only",
                              "will-accepted", "--require", "F05,F06", *mosquitto_with_limits(self.folder))
        self.assertEqual(broken_in(printed), set(), printed)


class Clients(Tables):
    @unittest.skipIf(python_with(PAHO) is None, missing(PAHO))
    def test_paho_for_python(self) -> None:
        broken = self.client(PAHO_PYTHON_LACKS, python_with(PAHO), DRIVERS / "paho_python.py", "{port}", "{id}")
        self.assertEqual(PAHO_PYTHON_BREAKS - broken, set())
        table = read_scenarios(HERE / "exercising/client.scenarios", HOSTS.shapes, NEEDS)
        right = {scenario.name for scenario in table if not scenario.breaks_rules}
        own = {path.parent.name: own_faults(path) for path in self.logs.rglob("*.log") if path.parent.name in right}
        self.assertEqual({name: codes for name, codes in own.items() if codes}, {})

    def test_libmosquitto(self) -> None:
        driver = self.driver_in_c("mosquitto", "mosquitto.h", "mosquitto")
        self.assertEqual(LIBMOSQUITTO_BREAKS - self.client(LIBMOSQUITTO_LACKS, driver, "{port}", "{id}"), set())

    @NEEDS_ALL
    def test_further_statements_with_libmosquitto(self) -> None:
        driver = self.driver_in_c("mosquitto", "mosquitto.h", "mosquitto")
        printed = self.run_it("client", "--out", self.logs, "--program", judge_program(), ALL, "--only",
                              "retain-0,subscribe-,shared-,bye-", "--require", "F01,F02,F03,F04,V03,V04,V06", "--",
                              driver, "{port}", "{id}")
        self.assertEqual(broken_in(printed), LIBMOSQUITTO_BREAKS_FURTHER)

    def test_paho_for_c(self) -> None:
        driver = self.driver_in_c("paho_c", "MQTTAsync.h", "paho-mqtt3a")
        self.assertEqual(PAHO_C_BREAKS - self.client(PAHO_C_LACKS, driver, "{port}", "{id}"), set())

    def prepared(self, prepare: Callable[[Path], list[str]]) -> list[str]:
        """The command of a client that a survey prepares."""
        try:
            words = prepare(self.folder)
        except Missing as missing:
            self.skipTest(str(missing))
        return words[words.index("--") + 1 :]

    def test_paho_for_c_that_waits(self) -> None:
        broken = self.client(PAHO_C_SYNC_LACKS, *self.prepared(paho_c_sync))
        self.assertEqual(PAHO_C_SYNC_BREAKS - broken, set())

    def test_paho_for_cpp(self) -> None:
        self.assertEqual(PAHO_CPP_BREAKS - self.client(PAHO_CPP_LACKS, *self.prepared(paho_cpp)), set())

    def test_the_bridge_of_mosquitto(self) -> None:
        self.assertEqual(BRIDGE_BREAKS - self.client(BRIDGE_LACKS, *self.prepared(mosquitto_bridge)), set())

    @unittest.skipIf(missing("node"), missing("node"))
    def test_mqtt_js(self) -> None:
        variables = {"NODE_PATH": os.pathsep.join(filter(None, (os.environ.get("NODE_PATH"), NODE_MODULES)))}
        looking = subprocess.run(["node", "-e", "require('mqtt')"], env=os.environ | variables, capture_output=True)
        if looking.returncode:
            self.skipTest("MQTT.js isn't installed")
        broken = self.client(MQTT_JS_LACKS, "node", DRIVERS / "mqtt_js.js", "{port}", "{id}", variables=variables)
        self.assertEqual(MQTT_JS_BREAKS - broken, set())

    @unittest.skipIf(missing("mosquitto_pub"), missing("mosquitto_pub"))
    def test_mosquitto_pub(self) -> None:
        broken = self.client(PUB_LACKS, "mosquitto_pub", "-V", "5", "-p", "{port}", "-i", "{id}", "-c", "-x", "300",
                             "-q", "{qos}", "-t", "echo/t", "-m", "hello", "--repeat", "{n}", does="publish")
        self.assertEqual(PUB_BREAKS - broken, set())

    @unittest.skipIf(missing("mosquitto_sub"), missing("mosquitto_sub"))
    def test_mosquitto_sub(self) -> None:
        broken = self.client(SUB_LACKS, "mosquitto_sub", "-V", "5", "-p", "{port}", "-i", "{id}", "-c", "-x", "300",
                             "-q", "2", "-k", "5", "-t", "do/#", does="subscribe")
        self.assertEqual(SUB_BREAKS - broken, set())
        self.assert_no_right_broker_tests(("E3A", "E3R"))

    def assert_no_right_broker_tests(self, codes: Collection[str]) -> None:
        """A client that publishes nothing comes to these only by a PUBREC that answers nothing, which breaks E2A."""
        places, reading = second_opinion()
        found = set()
        for path in self.logs.rglob("*.log"):
            log = path.read_bytes()
            if not reading.Recording(log).refusal:
                tested = places.all_places(places.log_of(reading.Recording(log)))
                found |= {(path.parent.name, code, *own_faults(path)) for code in codes if tested.get(code)}
        self.assertEqual(found, {("bad-pubrec-unknown", code, "E2A") for code in codes})


if __name__ == "__main__":
    unittest.main()
