"""Runs a command once, within bounds, and says what it took: time, memory, and instructions where they can be counted."""
import os
import re
import resource
import shutil
import signal
import subprocess
import time
from dataclasses import dataclass
from functools import cache
from pathlib import Path

GNU_TIME = "/usr/bin/time"


@dataclass(frozen=True)
class Bounds:
    """After so many seconds a program is stopped, and it gets so much memory at most."""

    seconds: int
    gigabytes: int


@dataclass
class Measure:
    status: str
    wall: float
    processor: float
    peak_kib: int
    report: str


def measure(command: list[str], folder: Path, bounds: Bounds) -> Measure:
    """Runs a command once. Of the report of a `check` the last line is kept."""
    peak, report, errors = folder / "peak", folder / "report", folder / "errors"

    def limit_memory() -> None:
        resource.setrlimit(resource.RLIMIT_AS, (bounds.gigabytes << 30, bounds.gigabytes << 30))

    keeps_report = "check" in command
    with open(report if keeps_report else os.devnull, "wb") as output, open(errors, "wb") as error:
        start = time.monotonic()
        process = subprocess.Popen(
            [GNU_TIME, "-q", "-f", "%M", "-o", str(peak), *command],
            stdin=subprocess.DEVNULL,
            stdout=output,
            stderr=error,
            start_new_session=True,
            preexec_fn=limit_memory,
        )
        signal.signal(signal.SIGALRM, lambda *_: os.killpg(process.pid, signal.SIGKILL))
        signal.alarm(bounds.seconds)
        try:
            _, status, usage = os.wait4(process.pid, 0)
        except BaseException:
            # What is measured has a session of its own, and would run on.
            os.killpg(process.pid, signal.SIGKILL)
            raise
        finally:
            signal.alarm(0)
        wall = time.monotonic() - start
    process.returncode = os.waitstatus_to_exitcode(status)
    if process.returncode < 0:
        return Measure(f"stopped after {bounds.seconds} s", wall, 0, 0, "")
    text = report.read_text().splitlines()[-1:] if keeps_report else []
    text = text or errors.read_text().splitlines()[-1:]
    processor = usage.ru_utime + usage.ru_stime
    return Measure(f"status {process.returncode}", wall, processor, int(peak.read_text().split()[-1]), "".join(text))


@cache
def counts_by_perf() -> bool:
    """Whether this machine's processor counts instructions, and `perf` may read them."""
    if not shutil.which("perf"):
        return False
    said = subprocess.run(["perf", "stat", "-x", ",", "-e", "instructions:u", "true"], capture_output=True, check=False)
    return re.match(rb"\d+,", said.stderr) is not None


def counter() -> str | None:
    """What counts instructions here, if anything does."""
    return "perf" if counts_by_perf() else "valgrind" if shutil.which("valgrind") else None


def instructions(command: list[str], folder: Path, bounds: Bounds, status: int = 0) -> tuple[int | None, Measure]:
    """How many instructions a command takes, if it ends with this status, and what else is known of the run."""
    counts = folder / "counts"
    if counter() == "perf":
        words = ["perf", "stat", "-x", ",", "-e", "instructions:u", "-o", str(counts), *command]
        found = rb"^(\d+),"
    else:
        outfile = f"--callgrind-out-file={folder / 'callgrind'}"
        words = ["valgrind", "--tool=callgrind", outfile, f"--log-file={counts}", *command]
        found = rb"Collected : (\d+)"
    counts.unlink(missing_ok=True)
    ran = measure(words, folder, bounds)
    if ran.status != f"status {status}":
        return None, ran
    number = re.search(found, counts.read_bytes(), re.MULTILINE)
    return (int(number[1]) if number else None), ran
