"""Opens pages in a real browser for the tests: chromium without a window, told what to do over two pipes.

It speaks the Chrome DevTools Protocol: JSON messages, each with a zero byte after it. A page is opened with a width and
a colour scheme; what it asks for and which of its scripts fail is noted.
"""
from __future__ import annotations

import base64
import json
import os
import select
import signal
import subprocess
import tempfile
import time
from pathlib import Path
from types import TracebackType
from typing import Any

from testing import PATIENCE, find, wait_until

CHROMIUM = "chromium"
OPTIONS = ("--headless", "--no-sandbox", "--disable-gpu", "--disable-dev-shm-usage", "--no-first-run",
           "--remote-debugging-pipe", "--disable-background-networking", "--disable-component-update",
           "--disable-extensions", "--hide-scrollbars", "about:blank")


class Browser:
    """A browser with one page, which ends with the `with` that it is used in."""

    def __init__(self) -> None:
        self._folder = tempfile.TemporaryDirectory(ignore_cleanup_errors=True)
        self._number = 0
        self._rest = b""
        self._session = ""
        self.asked: list[str] = []  # addresses that the page wanted something from
        self.errors: list[str] = []  # what its scripts, or the page itself, had to complain of

    def __enter__(self) -> Browser:
        there, self._out = os.pipe()
        self._in, back = os.pipe()
        words = [find(CHROMIUM) or CHROMIUM, f"--user-data-dir={self._folder.name}", *OPTIONS]

        def connect() -> None:  # it reads from 3 and writes to 4
            reading, writing = os.dup(there), os.dup(back)
            os.dup2(reading, 3)
            os.dup2(writing, 4)

        null = subprocess.DEVNULL
        self._child = subprocess.Popen(words, stdin=null, stdout=null, stderr=null, close_fds=False,
                                       preexec_fn=connect, start_new_session=True)
        os.close(there)
        os.close(back)
        target = self.call("Target.createTarget", url="about:blank")["targetId"]
        self._session = self.call("Target.attachToTarget", targetId=target, flatten=True)["sessionId"]
        for domain in ("Page", "Network", "Runtime", "Log"):
            self.call(f"{domain}.enable")
        return self

    def __exit__(
        self, kind: type[BaseException] | None, error: BaseException | None, trace: TracebackType | None
    ) -> None:
        for number in (signal.SIGTERM, signal.SIGKILL):
            try:
                os.killpg(self._child.pid, number)
                self._child.wait(5)
            except (ProcessLookupError, subprocess.TimeoutExpired):
                continue
        os.close(self._out)
        os.close(self._in)
        self._folder.cleanup()

    def call(self, method: str, **parameters: object) -> dict[str, Any]:
        """Has the browser do something, and gives its answer."""
        self._number += 1
        number = self._number
        message: dict[str, object] = {"id": number, "method": method, "params": parameters}
        if self._session:
            message["sessionId"] = self._session
        os.write(self._out, json.dumps(message).encode() + b"\0")
        until = time.monotonic() + PATIENCE
        while True:
            answer = self._next(until)
            if answer.get("id") == number:
                if "error" in answer:
                    raise RuntimeError(f"{method}: {answer['error']}")
                return answer["result"]

    def _next(self, until: float) -> dict[str, Any]:
        """The browser's next message. Events are noted."""
        while b"\0" not in self._rest:
            if not select.select([self._in], [], [], max(0.0, until - time.monotonic()))[0]:
                raise TimeoutError("chromium doesn't answer")
            piece = os.read(self._in, 1 << 20)
            if not piece:
                raise RuntimeError("chromium has ended")
            self._rest += piece
        raw, _, self._rest = self._rest.partition(b"\0")
        message: dict[str, Any] = json.loads(raw)
        self._note(message.get("method", ""), message.get("params", {}))
        return message

    def _note(self, method: str, parameters: dict[str, Any]) -> None:
        if method == "Network.requestWillBeSent":
            self.asked.append(parameters["request"]["url"])
        elif method == "Runtime.exceptionThrown":
            self.errors.append(str(parameters["exceptionDetails"]))
        elif method == "Log.entryAdded":
            self.errors.append(str(parameters["entry"].get("text")))

    def open(self, page: Path, width: int = 1600, scheme: str = "light", place: str = "", scripts: bool = True) -> None:
        """Opens a page, at a place of it, and waits until it is there."""
        self.call("Emulation.setDeviceMetricsOverride", width=width, height=1000, deviceScaleFactor=1, mobile=False)
        self.call("Emulation.setEmulatedMedia", features=[{"name": "prefers-color-scheme", "value": scheme}])
        self.call("Emulation.setScriptExecutionDisabled", value=not scripts)
        self._go("about:blank")
        self.asked, self.errors = [], []
        self._go(page.resolve().as_uri() + (f"#{place}" if place else ""))

    def _go(self, address: str) -> None:
        self.call("Page.navigate", url=address)
        wait_until(lambda: self.value("document.readyState + location.href") == f"complete{address}", address)

    def value(self, expression: str) -> Any:
        """The value of an expression in the page."""
        answer = self.call("Runtime.evaluate", expression=expression, returnByValue=True, awaitPromise=True)
        if "exceptionDetails" in answer:
            raise RuntimeError(str(answer["exceptionDetails"]))
        return answer["result"].get("value")

    def picture(self, place: Path, width: int, tallest: int = 6000, clip: dict[str, float] | None = None) -> None:
        """Takes a picture of the page, or of a part of it."""
        height = min(int(self.value("document.documentElement.scrollHeight")), tallest)
        self.call("Emulation.setDeviceMetricsOverride", width=width, height=height, deviceScaleFactor=1, mobile=False)
        self.value("new Promise((done) => requestAnimationFrame(() => requestAnimationFrame(() => done(1))))")
        part = {"clip": {**clip, "scale": 1}} if clip else {}
        answer = self.call("Page.captureScreenshot", **part)
        place.write_bytes(base64.b64decode(answer["data"]))
