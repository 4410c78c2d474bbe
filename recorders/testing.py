"""What the recorders' tests share: a broker on a free port of 127.0.0.1, and the judge's verdict on a log."""
from __future__ import annotations

import contextlib
import functools
import importlib.util
import os
import shutil
import socket
import subprocess
import sys
import tempfile
import time
import unittest
from collections.abc import Callable, Iterable, Iterator
from pathlib import Path
from typing import IO, Any

from log_format import records

TOP = Path(__file__).resolve().parent.parent
BUILT = TOP / "crates/mq_cli/out/mq_cli"
PROGRAM_VARIABLE = "MQJUDGE"  # in the environment: the program that judges
PATHS = os.pathsep.join((os.environ.get("PATH", os.defpath), "/usr/sbin", "/usr/local/sbin"))  # of servers
PAHO = "paho-mqtt for Python"
WEBSOCKETS = "websockets for Python"
MODULES = {PAHO: "paho", WEBSOCKETS: "websockets"}
HOST = "127.0.0.1"
PATIENCE = 40.0  # seconds for what has to come
STOP_SECONDS = 5.0
PORTS_TRIED = 5
KINDS = {1: "OPEN", 2: "SENT", 3: "RECV", 4: "CLOSE", 5: "REST", 6: "RELEASE"}


class InFolder(unittest.TestCase):
    """Tests with a folder of their own, and a place in it for logs."""

    def setUp(self) -> None:
        folder = tempfile.TemporaryDirectory()
        self.addCleanup(folder.cleanup)
        self.folder = Path(folder.name)
        self.logs = self.folder / "logs"


def find(name: str) -> str | None:
    """Where a program is installed."""
    return shutil.which(name, path=PATHS)


def missing_names(names: Iterable[str]) -> list[str]:
    """Which of these aren't installed: programs, or a module, as it is called in MODULES."""
    return [
        name
        for name in names
        if (importlib.util.find_spec(MODULES[name]) if name in MODULES else find(name)) is None
    ]


def missing(*names: str) -> str:
    """Says which of these aren't installed. Empty if all are."""
    absent = missing_names(names)
    return f"{', '.join(absent)} isn't installed" if absent else ""


def python_with(*names: str) -> str | None:
    """A Python that has these modules: this one, or else the system's."""
    if not missing(*names):
        return sys.executable
    system = "/usr/bin/python3"
    modules = ", ".join(MODULES[name] for name in names)
    command = [system, "-c", f"import sys, {modules}; sys.exit(sys.version_info < (3, 11))"]
    try:
        return system if subprocess.run(command, capture_output=True).returncode == 0 else None
    except OSError:
        return None


def judge_program() -> str:
    """The program that judges: the environment's, the built one, that of the PATH, or else the second opinion."""
    built = str(BUILT) if BUILT.is_file() else shutil.which("mqjudge")
    return os.environ.get(PROGRAM_VARIABLE) or built or str(TOP / "bench/reference.py")


@functools.cache
def says_why() -> bool:
    """Whether the program that judges says what faults conflict with."""
    words = [judge_program(), "check", "--why", str(TOP / "examples/identifier-in-use.log")]
    return "\nbecause " in subprocess.run(words, stdin=subprocess.DEVNULL, capture_output=True, text=True).stdout


def needs_why(test: Callable[..., None]) -> Callable[..., None]:
    """Leaves a test out where it doesn't."""
    return unittest.skipUnless(says_why(), "the program that judges doesn't know `check --why`")(test)


def free_port() -> int:
    with socket.create_server((HOST, 0)) as listener:
        return listener.getsockname()[1]


def wait_until(condition: Callable[[], Any], what: str = "what is waited for", seconds: float = PATIENCE) -> None:
    """Waits for a condition, and fails where it doesn't come."""
    until = time.monotonic() + seconds
    while not condition():
        if time.monotonic() > until:
            raise TimeoutError(f"waited in vain: {what}")
        time.sleep(0.01)


def accepts(port: int) -> bool:
    try:
        socket.create_connection((HOST, port), 1).close()
    except OSError:
        return False
    return True


@contextlib.contextmanager
def process(*words: object, output: IO[bytes] | int = subprocess.DEVNULL) -> Iterator[subprocess.Popen[bytes]]:
    """A process that is stopped at the end."""
    child = subprocess.Popen([str(word) for word in words], stdin=subprocess.DEVNULL, stdout=output, stderr=output)
    try:
        yield child
    finally:
        child.terminate()
        try:
            child.wait(STOP_SECONDS)
        except subprocess.TimeoutExpired:
            child.kill()
            child.wait()


@contextlib.contextmanager
def broker(folder: Path, settings: str = "") -> Iterator[tuple[int, subprocess.Popen[bytes]]]:
    """A mosquitto with these settings, which come after its listener's: its port, and its process."""
    config = folder / "mosquitto.conf"
    with contextlib.ExitStack() as stack:
        for _ in range(PORTS_TRIED):  # another program may be faster to take a port that is free
            port = free_port()
            config.write_text(f"listener {port} {HOST}\nallow_anonymous true\n{settings}")
            child = stack.enter_context(process(find("mosquitto") or "mosquitto", "-c", config))
            wait_until(lambda: child.poll() is not None or accepts(port), "mosquitto listens")
            if child.poll() is None:
                break
        yield port, child


@contextlib.contextmanager
def mosquitto(folder: Path, settings: str = "") -> Iterator[int]:
    """A mosquitto on 127.0.0.1 with these settings that stays the user who starts it; gives its port."""
    user = "user root\n" if os.geteuid() == 0 else ""
    with broker(folder, f"{user}{settings}") as (port, _):
        yield port


def make_certificate(key: Path, certificate: Path) -> None:
    """Makes a key and a certificate of its own for 127.0.0.1."""
    request = "req -x509 -newkey rsa:2048 -nodes -days 2 -subj /CN=localhost -addext subjectAltName=IP:127.0.0.1"
    command = [find("openssl") or "openssl", *request.split(), "-keyout", str(key), "-out", str(certificate)]
    subprocess.run(command, check=True, capture_output=True)


def words(log: bytes) -> list[str]:
    """The records of a log as words: SENT, RECV and RELEASE with their bodies in hexadecimal digits."""
    return [KINDS[record.kind] + (f" {record.body.hex()}" if record.body else "") for record in records(log)]


def joined(log: bytes) -> list[str]:
    """The same, with SENT and RECV joined where one of a kind follows another."""
    result: list[str] = []
    for word in words(log):
        kind, _, body = word.partition(" ")
        if result and kind in ("SENT", "RECV") and result[-1].startswith(kind):
            result[-1] += body
        else:
            result.append(word)
    return result


def verdict(log: Path) -> str:
    """What the judge says of a log: `pass`, a refusal, or the codes of its faults."""
    run = subprocess.run([judge_program(), "check", str(log)], capture_output=True, text=True, check=False)
    lines = run.stdout.splitlines()
    if not lines:
        return f"status {run.returncode}: {run.stderr.strip()}"
    faults = [line.split()[2] for line in lines if line.startswith("fault ")]
    return " ".join(faults) if faults else lines[-1] if lines[-1].startswith("refused") else lines[-1].split()[0]
