"""Judges what a recorded program's raw files hold so far, again and again, and says each new fault.

Each round makes the logs of all that is there, in a folder of its own, and judges them with the library of
crates/mq_ffi. A round that took long is followed by a longer pause, so a long recording's faults are said later.
"""
from __future__ import annotations

import signal
import subprocess
import sys
import tempfile
import threading
import time
from pathlib import Path

HERE = Path(__file__).resolve().parent
sys.path.insert(0, str(HERE.parent.parent / "examples/live"))

PAUSE = 0.05  # seconds between two rounds
SHARE = 4  # a pause is this many times as long as the round before it


class Watch:
    """Says on standard error each fault of a program at the moment when it is known."""

    def __init__(self, folder: Path, options: list[str]) -> None:
        from mqjudge import Judge, Trouble  # the library has to be built

        self._folder, self._options = folder, options
        self._judge, self._trouble = Judge, Trouble
        self._judge().free()
        self._said: set[tuple[str, int, str]] = set()
        self._seen = 0
        self._over = threading.Event()
        self._thread = threading.Thread(target=self._watch, daemon=True)
        self._thread.start()

    def finish(self) -> None:
        """Ends with a round on all that the program left."""
        self._over.set()
        self._thread.join()

    def _watch(self) -> None:
        signal.pthread_sigmask(signal.SIG_BLOCK, signal.valid_signals())  # they are for the thread that passes them on
        pause = PAUSE
        while not self._over.wait(pause):
            began = time.monotonic()
            self._round()
            pause = max(PAUSE, SHARE * (time.monotonic() - began))
        self._round()

    def _round(self) -> None:
        size = sum(path.stat().st_size for path in (self._folder / "raw").glob("*.raw"))
        if size == self._seen:
            return
        self._seen = size
        with tempfile.TemporaryDirectory(prefix="mqjudge-live-") as room:
            (Path(room) / "raw").symlink_to(self._folder / "raw")
            words = [sys.executable, HERE / "assemble", room, "--aside", *self._options]
            subprocess.run(words, stderr=subprocess.DEVNULL)
            for log in sorted(Path(room).glob("*.log")):
                self._say(log)

    def _say(self, log: Path) -> None:
        with self._judge() as judge:
            try:
                judge.feed(log.read_bytes())
            except self._trouble as trouble:
                self._line(log, 0, str(trouble), str(trouble))
            for fault in judge.faults():
                text = f"event {fault.position} breaks {fault.code} ({fault.citation}): {fault.sentence}"
                self._line(log, fault.position, fault.code, text)

    def _line(self, log: Path, position: int, code: str, text: str) -> None:
        if (log.name, position, code) not in self._said:
            self._said.add((log.name, position, code))
            print(f"{log.name}: {text}", file=sys.stderr, flush=True)
