"""A broker that the exerciser starts itself: only this one is ever ended, with what it has started."""
from __future__ import annotations

import os
import shlex
import signal
import subprocess
import sys
import time
from pathlib import Path

from exercising.stage import Target, Unreachable

PRELOAD = Path(__file__).resolve().parent.parent / "preload/run"
LISTEN_SECONDS = 120.0
STOP_SECONDS = 30.0  # in which the preloaded library's logs are made, too
LOOK_SECONDS = 0.05
LAST_LINES = 5  # of its output, where it doesn't come up
SIGNALS = {"kill": signal.SIGKILL, "term": signal.SIGTERM}


class Started:
    """A process, and its own group of processes, which is ended as a whole."""

    def __init__(self, command: str, target: Target, output: Path, inside: Path | None = None) -> None:
        """With a folder for what is inside, the preloaded library records there what the broker reads and writes."""
        self._words, self._target, self._output = shlex.split(command), target, output
        if inside is not None:
            self._words = [sys.executable, str(PRELOAD), "-o", str(inside), "--", *self._words]
        self._process: subprocess.Popen[bytes] | None = None

    def start(self) -> None:
        """Starts it, and waits until it takes connections. It raises Unreachable where it doesn't come up."""
        if self._takes_connections():
            raise Unreachable(f"{self._target} is taken already: another program listens there")
        try:
            with self._output.open("ab") as output:
                self._process = subprocess.Popen(self._words, stdin=subprocess.DEVNULL, stdout=output,
                                                 stderr=subprocess.STDOUT, start_new_session=True)
        except OSError as error:
            raise Unreachable(f"{self._words[0]} can't be started: {error.strerror}") from None
        until = time.monotonic() + LISTEN_SECONDS
        while not self._takes_connections():
            if self._process.poll() is not None or time.monotonic() > until:
                break
            time.sleep(LOOK_SECONDS)
        status = self._process.poll()
        if status is not None or not self._takes_connections():
            self.stop()
            hint = "; start the broker in the foreground" if status == 0 else ""
            ending = "" if status is None else f" and ended with status {status}{hint}"
            raise Unreachable(f"what was started doesn't listen on {self._target}{ending}: {self._last_words()}")

    def restart(self, how: str) -> None:
        """Ends it by a signal, `kill` or `term`, and starts it again."""
        self._end(SIGNALS[how])
        self.start()

    def stop(self) -> None:
        """Ends it, if it still runs."""
        self._end(signal.SIGTERM)

    @property
    def ending(self) -> str:
        """How it ended by itself; empty if it runs."""
        status = self._process.poll() if self._process else None
        return "" if status is None else f"it ended with status {status}: {self._last_words()}"

    def _end(self, number: signal.Signals) -> None:
        process = self._process
        if process is None:
            return
        for one in (number, signal.SIGKILL):
            try:
                os.killpg(process.pid, one)
            except ProcessLookupError:
                pass
            try:
                process.wait(STOP_SECONDS)
                break
            except subprocess.TimeoutExpired:
                continue
        self._process = None
        until = time.monotonic() + STOP_SECONDS
        while self._takes_connections() and time.monotonic() < until:
            time.sleep(LOOK_SECONDS)  # what it had started ends too, a moment later

    def _takes_connections(self) -> bool:
        try:
            self._target.reach().close()
        except Unreachable:
            return False
        return True

    def _last_words(self) -> str:
        lines = self._output.read_text("utf-8", "replace").splitlines()
        return " / ".join(lines[-LAST_LINES:]) or "it said nothing"
