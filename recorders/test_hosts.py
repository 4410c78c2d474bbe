#!/usr/bin/env python3
"""Tests that logs can be judged on several hosts: the command of the page, with two servers of ssh on 127.0.0.1.

usage: recorders/test_hosts.py
"""
from __future__ import annotations

import contextlib
import getpass
import os
import shutil
import subprocess
import sys
import unittest
from pathlib import Path

sys.dont_write_bytecode = True  # the repository stays as it is
HERE = Path(__file__).resolve().parent
sys.path.insert(0, str(HERE))
from testing import HOST, PATIENCE, TOP, InFolder, accepts, find, free_port, judge_program, missing, process, wait_until

NEEDS = missing("parallel", "rsync", "ssh", "ssh-keygen", "sshd")
SETTINGS = """
Port {port}
ListenAddress {host}
HostKey {folder}/host
AuthorizedKeysFile {folder}/user.pub
AuthenticationMethods publickey
StrictModes no
UsePAM no
PidFile none
SetEnv PATH={folder}/{name}:{paths}
"""
LOGS = ("client-tools", "client-silent", "server-will", "server-window", "client-resumed")
PRIVILEGES = Path("/run/sshd")  # sshd wants this folder where root starts it


def command_of_the_page() -> str:
    """The command that the page gives, in one line."""
    page = (HERE / "README.md").read_text().replace("\\\n", " ")
    (line,) = [line for line in page.splitlines() if line.startswith("find logs") and "sshloginfile" in line]
    return line


@unittest.skipIf(NEEDS, NEEDS)
class Hosts(InFolder):
    def setUp(self) -> None:
        super().setUp()
        if os.geteuid() == 0:
            PRIVILEGES.mkdir(exist_ok=True)  # it stays: another run may be using it
        for name in ("host", "user"):
            words = ["ssh-keygen", "-q", "-t", "ed25519", "-N", "", "-f", str(self.folder / name)]
            subprocess.run(words, check=True, capture_output=True, timeout=PATIENCE)
        self.stack = self.enterContext(contextlib.ExitStack())
        self.logins = [self.host(name) for name in ("first", "second")]
        (self.folder / "hosts").write_text("".join(f"{login}\n" for login in self.logins))

    def host(self, name: str) -> str:
        """Starts a host that has the judge in its PATH and notes its calls; gives the words that log in there."""
        port = free_port()
        program = self.folder / name / "mqjudge"
        program.parent.mkdir()
        program.write_text(f'#!/bin/sh\necho {name} >> {self.folder}/calls\nexec {judge_program()} "$@"\n')
        program.chmod(0o755)
        settings = self.folder / f"{name}.conf"
        paths = os.environ.get("PATH", os.defpath)
        settings.write_text(SETTINGS.format(port=port, host=HOST, folder=self.folder, name=name, paths=paths))
        printed = self.folder / f"{name}.txt"
        with printed.open("wb") as output:
            server = self.stack.enter_context(process(find("sshd"), "-D", "-e", "-f", settings, output=output))
        wait_until(lambda: server.poll() is not None or accepts(port), "sshd listens")
        known = self.folder / "known"
        with known.open("a") as file:
            file.write(f"[{HOST}]:{port} {(self.folder / 'host.pub').read_text()}")
        user = f"-l {getpass.getuser()} -p {port} -i {self.folder}/user"
        login = f"ssh -F /dev/null -o UserKnownHostsFile={known} -o BatchMode=yes {user} {HOST}"
        answer = subprocess.run([*login.split(), "true"], capture_output=True, text=True, timeout=PATIENCE)
        if answer.returncode:
            self.skipTest(f"ssh to {HOST} isn't possible here: {answer.stderr.strip()} {printed.read_text().strip()}")
        return login

    def test_the_command_of_the_page(self) -> None:
        (self.folder / "logs").mkdir()
        for name in LOGS:
            shutil.copy(TOP / "examples/sessions" / f"{name}.log", self.folder / "logs")
        environment = os.environ | {"PARALLEL_HOME": str(self.folder)}
        answer = subprocess.run(
            ["bash", "-c", command_of_the_page()], cwd=self.folder, env=environment, capture_output=True, text=True
        )
        reports = {f"logs/{name}.log": (TOP / f"examples/sessions/{name}.report").read_text() for name in LOGS}
        wanted = sorted(f"{name}\t{line}" for name, report in reports.items() for line in report.splitlines())
        self.assertEqual(sorted(answer.stdout.splitlines()), wanted, answer.stderr)
        self.assertEqual(answer.returncode, sum(not report.startswith("pass") for report in reports.values()))
        calls = (self.folder / "calls").read_text().split()
        self.assertEqual((len(calls), set(calls)), (len(LOGS), {"first", "second"}))


if __name__ == "__main__":
    unittest.main()
