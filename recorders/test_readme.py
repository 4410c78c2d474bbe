#!/usr/bin/env python3
"""Tests the lines of README.md that put an end to the test, and those of README.md and recorders/README.md that record,
as they stand there: each recorder gives logs that are passes, and the exerciser finds nothing in who keeps the rules.

Only the ports are others, and what is slept is longer, for machines that are busy. The exerciser plays one scenario.

usage: recorders/test_readme.py
"""
from __future__ import annotations

import os
import re
import runpy
import subprocess
import sys
import unittest
from collections.abc import Callable
from pathlib import Path
from typing import Any

sys.dont_write_bytecode = True  # the repository stays as it is
HERE = Path(__file__).resolve().parent
sys.path.insert(0, str(HERE))
from arguments import counted
from testing import (
    PAHO,
    PATHS,
    PATIENCE,
    TOP,
    InFolder,
    accepts,
    broker,
    free_port,
    judge_program,
    missing,
    process,
    python_with,
    wait_until,
)

README = TOP / "README.md"
LINES, COLUMNS = 150, 100  # that README.md has at most
SLOWER = 3
CLIENT = """
import paho.mqtt.client
{lines}
client.connect("127.0.0.1", {port})
client.loop_start()
client.publish("hello", "world", 2).wait_for_publish(20)
client.disconnect()
client.loop_stop()
"""


def section(page: Path, title: str) -> str:
    """What a page says under a title."""
    return page.read_text().partition(f"## {title}\n")[2].partition("\n## ")[0]


def recording() -> str:
    """What README.md says about recording, and then what recorders/README.md does."""
    first = section(README, "Record your own session")
    return f"{first}\n{section(HERE / 'README.md', 'The other ways, in four lines each')}"


def exercising() -> list[str]:
    """The lines of README.md that put a broker and a client to the test."""
    return re.findall(r"^recorders/exercise .*\n", section(README, "Test your broker in two minutes"), re.MULTILINE)


def blocks() -> dict[str, str]:
    """The lines for each way, under the words that stand in bold before them."""
    ways = [way.partition("**") for way in recording().split("\n**")[1:]]
    return {name: text.partition("\n```\n")[2].partition("\n```")[0] + "\n" for name, _, text in ways}


def judged() -> list[tuple[str, str]]:
    """The folders that are judged, and how many logs each must have."""
    return re.findall(r"recorders/judge (\w+) --min-logs (\d)", recording())


def may_capture() -> bool:
    """Whether tcpdump is allowed to capture here."""
    command = ["tcpdump", "-i", "any", "-w", "/dev/null"]
    with subprocess.Popen(command, stderr=subprocess.PIPE, text=True, env=os.environ | {"PATH": PATHS}) as process:
        assert process.stderr is not None
        is_allowed = any("listening" in line for line in iter(process.stderr.readline, ""))
        process.terminate()
        return is_allowed


def needs(*names: str) -> Callable[[Any], Any]:
    return unittest.skipIf(bool(missing(*names)), missing(*names))


class Pages(unittest.TestCase):
    def test_the_first_page_is_short(self) -> None:
        lines = README.read_text().splitlines()
        self.assertLessEqual(len(lines), LINES)
        self.assertEqual([line for line in lines if len(line) > COLUMNS], [])

    def test_there_are_four_ways_of_at_most_four_lines(self) -> None:
        self.assertEqual([*blocks()], ["A proxy", "A preloaded library", "A capture", "In a client"])
        self.assertLessEqual({text.count("\n") for text in blocks().values()}, {3, 4})

    def test_the_exerciser_is_the_first_way(self) -> None:
        titles = re.findall("^## (.*)$", README.read_text(), re.MULTILINE)
        first = titles.index("Test your broker in two minutes")
        self.assertEqual(titles[first + 1], "Record your own session")
        self.assertTrue(exercising())

    def test_each_way_has_a_folder_of_its_own_and_says_how_many_logs_it_makes(self) -> None:
        self.assertEqual([count for _, count in judged()], ["2", "1", "2", "1"])
        folders = [folder for folder, _ in judged()]
        self.assertEqual(len(set(folders)), 4)
        for folder, text in zip(folders, blocks().values(), strict=True):
            self.assertEqual({name for name in folders if re.search(rf"\b{name}\b", text)}, {folder})


class Documents(unittest.TestCase):
    """What somebody looks for who comes anew."""

    def test_what_a_trial_takes_and_prints(self) -> None:
        text = " ".join(section(README, "Try it in two minutes, unproved").split())
        self.assertIn("takes one processor one to two minutes", text)
        self.assertIn("three lines of the tool: that the run ended, with which status; that races weren't looked for"
                      " (there are no threads); and `proved=no`", text)

    def test_where_a_toolchain_comes_from(self) -> None:
        self.assertIn("That comes from those who make Rattle", section(README, "Build").replace("\n", " "))

    def test_what_each_recorder_needs(self) -> None:
        page = (HERE / "README.md").read_text()
        rows = [[cell.strip() for cell in row.split("|")] for row in re.findall(r"^\| (`.*?) \|$", page, re.MULTILINE)]
        needs = {row[0].strip("`"): row[2] for row in rows if len(row) == 5}
        wanted = {"proxy": ["websockets"], "preload/run": ["`cc`"], "from-capture": ["`tshark`", "tcpdump", "dumpcap"],
                  "paho_recorder.py": ["paho-mqtt 1.6"], "exercise": ["nothing"]}
        self.assertEqual(needs.keys(), wanted.keys())
        for script, names in wanted.items():
            self.assertTrue((HERE / script).is_file(), script)
            self.assertEqual([name for name in names if name not in needs[script]], [], script)
        for name in ("(needs `cc`)", "(`tshark`)", "(paho-mqtt)", "The proxy needs Python alone."):
            self.assertIn(name, section(README, "Record your own session"))

    def test_how_to_change_it(self) -> None:
        """The pages that a change begins with: each has a table of files, which `bench/check_docs.py` looks for."""
        page = TOP / "CONTRIBUTING.md"
        for title in ("Add a form of report", "Add a count", "Change the recorders"):
            self.assertGreaterEqual(section(page, title).count("\n| "), 5, title)
        crates = section(page, "The crates")
        self.assertIn("`recorders/`", crates)
        self.assertIn("(#change-the-recorders)", crates)
        tests = section(HERE / "README.md", "Tests")
        parts = runpy.run_path(str(HERE / "test"))["PARTS"]
        self.assertEqual([name for name in parts if f"`{name}`" not in tests], [])


class Commands(InFolder):
    """Runs lines in a folder that has what they name."""

    def setUp(self) -> None:
        super().setUp()
        self.folder.chmod(0o755)  # mosquitto goes on as another user
        (self.folder / "recorders").symlink_to(HERE)
        (self.folder / "bin").mkdir()
        (self.folder / "bin/mqjudge").symlink_to(judge_program())
        paths = os.pathsep.join((str(self.folder / "bin"), PATHS))
        self.environment = os.environ | {"PATH": paths, "PYTHONPATH": str(HERE)}

    def run_lines(self, lines: str, ports: dict[int, int]) -> str:
        """Runs lines in a shell, with other ports than they name, and gives what they print."""
        for named, port in ports.items():
            lines = re.sub(rf"\b{named}\b", str(port), lines)
        lines = re.sub(r"sleep (\d+)", lambda found: f"sleep {SLOWER * int(found[1])}", lines)
        words = ["bash", "-c", lines]
        answer = subprocess.run(
            words, cwd=self.folder, env=self.environment, capture_output=True, text=True, timeout=2 * PATIENCE
        )
        self.assertEqual(answer.returncode, 0, f"{lines}\n{answer.stdout}\n{answer.stderr}")
        return answer.stdout

    def assert_passes(self, printed: str, count: int) -> None:
        last = f"{counted(count, 'log')}: {count} pass, 0 fail, 0 refused, 0 failed"
        self.assertEqual(printed.splitlines()[-1:], [last], printed)


class Exercising(Commands):
    def assert_nothing_is_found(self, line: str, ports: dict[int, int]) -> None:
        printed = self.run_lines(line, ports)
        self.assertIn("1 scenario in ", printed)
        self.assertIn("broken               0", printed)
        page = re.findall(r"--html (\S+)", line)
        self.assertTrue((self.folder / page[0]).read_text().startswith("<!DOCTYPE html>"))

    def test_there_is_one_for_each_end(self) -> None:
        self.assertEqual([line.split()[1] for line in exercising()], ["broker", "client"])

    def test_a_broker(self) -> None:
        port = free_port()
        with process(sys.executable, HERE / "plain_broker.py", port) as child:
            wait_until(lambda: child.poll() is not None or accepts(port), "the plain broker listens")
            self.assert_nothing_is_found(exercising()[0].replace("\n", " --only connect-plain\n"), {1883: port})

    @unittest.skipIf(python_with(PAHO) is None, missing(PAHO))
    def test_a_client(self) -> None:
        driver = HERE / "exercising/drivers/paho_python.py"
        line = exercising()[1].replace("./my-client", f"{python_with(PAHO)} {driver}")
        self.assert_nothing_is_found(line.replace(" -- ", " --only plain-q0 -- "), {})


@needs("mosquitto", "mosquitto_pub")
class Recording(Commands):
    def test_proxy(self) -> None:
        with broker(self.folder) as (port, _):
            self.assert_passes(self.run_lines(blocks()["A proxy"], {1883: port, 1884: free_port()}), 2)

    @needs("cc")
    def test_preload(self) -> None:
        self.assert_passes(self.run_lines(blocks()["A preloaded library"], {1885: free_port()}), 1)

    @needs("tshark", "tcpdump")
    def test_capture(self) -> None:
        self.folder.chmod(0o777)  # tcpdump goes on as another user
        if not may_capture():
            self.skipTest("capturing isn't allowed here")
        with broker(self.folder) as (port, _):
            self.assert_passes(self.run_lines(blocks()["A capture"], {1883: port}), 2)

    @needs(PAHO)
    def test_client(self) -> None:
        with broker(self.folder) as (port, _):
            text = CLIENT.format(lines=blocks()["In a client"], port=port)
            (self.folder / "client.py").write_text(text)
            self.run_lines(f"{sys.executable} client.py", {})
        folder, count = judged()[-1]
        self.assert_passes(self.run_lines(f"recorders/judge {folder} --min-logs {count}", {}), 1)


if __name__ == "__main__":
    unittest.main()
