"""What a scenario has while it is played: the tested end's address, names of its own, and a tape for the logs."""
from __future__ import annotations

import socket
import threading
import time
from collections import deque
from collections.abc import Callable
from dataclasses import dataclass, field

from exercising.links import Gone, Link, Tape
from exercising.packets import connect, disconnect, publish
from exercising.table import Scenario
from recording import Standing

CONNECT_SECONDS = 5.0
ANSWER_SECONDS = 2.0
SWEEP_SECONDS = 1.0
MOST_SILENCE = 1.0  # a fault by silence is seen again with ten times the silence
RECENT_SECONDS = 8.0  # in which answers are slow while the machine is loaded: longer than most scenarios take
QUARTER = 4  # an honest answer takes at most a quarter of the silence that counts as rest
PATIENCES = {Standing.BROKEN: 1.0, Standing.UNANSWERED: 2.0}  # of silence: times what an answer is waited for


class Unreachable(Gone):
    """The tested end doesn't take connections."""


class Unfit(Exception):
    """The tested end announces that it can't do what the scenario needs. The text says what."""


@dataclass(frozen=True)
class Target:
    """The broker that is tested, and how to come in."""

    host: str
    port: int
    user: str | None = None
    password: str | None = None
    denied: str | None = None  # a topic that this user may not use
    wrong_password: str | None = None
    patience: float = ANSWER_SECONDS  # in seconds, for an answer that has to come

    def reach(self) -> socket.socket:
        """A new connection. It raises Unreachable."""
        try:
            return socket.create_connection((self.host, self.port), CONNECT_SECONDS)
        except OSError as error:
            raise Unreachable(f"{self} can't be reached: {error.strerror or error}") from None

    def __str__(self) -> str:
        return f"{self.host}:{self.port}"


@dataclass
class Silence:
    """How much silence after a ping counts as rest. It grows while answers are slow."""

    seconds: float
    factor: float = 1.0
    most: float = MOST_SILENCE
    _slow: deque[tuple[float, float]] = field(default_factory=deque)  # when answers came, and how slow: ever faster
    _lock: threading.Lock = field(default_factory=threading.Lock)

    @property
    def now(self) -> float:
        return min(max(self.seconds, self.slowest * QUARTER) * self.factor, self.most)

    @property
    def slowest(self) -> float:
        """The slowest honest answer of late."""
        with self._lock:
            self._forget(time.monotonic())
            return self._slow[0][1] if self._slow else 0.0

    def learn(self, seconds: float) -> None:
        now = time.monotonic()
        with self._lock:
            self._forget(now)
            while self._slow and self._slow[-1][1] <= seconds:
                self._slow.pop()
            self._slow.append((now, seconds))

    def _forget(self, now: float) -> None:
        while self._slow and self._slow[0][0] < now - RECENT_SECONDS:
            self._slow.popleft()


@dataclass
class Stage:
    """A scenario's own place in a run: nothing of it has a name that another scenario or another run uses."""

    scenario: Scenario
    target: Target
    run: str
    number: int  # of the scenario in the table, which makes its topic
    tape: Tape
    silence: Silence
    meet: Callable[[], None] = lambda: None  # waits for the others who prepare for the broker's death
    kill: Callable[[], None] = lambda: None  # ends the broker, and starts it again
    check: Callable[[], None] = lambda: None  # raises Gone where the scenario has to end
    judge_now: Callable[[], None] = lambda: None  # has what was recorded so far judged
    judge_last: Callable[[], None] = lambda: None  # has all of it judged
    longest_rest: float = 0.0  # the silence that counted as rest in it, in seconds
    observed: list[str] = field(default_factory=list)  # what was seen and isn't judged
    sessions: set[str] = field(default_factory=set)  # Client Identifiers that may have one
    retained: set[str] = field(default_factory=set)  # topics that may have a message

    def rest_at(self, standing: Standing, has_read: bool) -> float:
        """How much silence counts as rest on a connection that stands so, in seconds.

        After what is broken it is as long as answers are waited for, unless a ping has shown that the tested end has
        read everything. Before the CONNACK, which may need another service, it is twice as long.
        """
        if has_read and standing is not Standing.UNANSWERED:
            return self.silence.now
        return max(self.silence.now, self.target.patience * PATIENCES.get(standing, 0.0) * self.silence.factor)

    @property
    def prefix(self) -> str:
        """What the Client Identifiers begin with."""
        return f"x{self.run}-{self.scenario.name}-"

    @property
    def topic(self) -> str:
        """The topic below which all is published. It is short: a packet has to fit into a small Maximum Packet Size."""
        return f"x{self.run}/{self.number}"

    def names(self, identifier: str = "") -> dict[str, str]:
        """What the letters in a scenario's texts stand for."""
        target = self.target
        login = {"user": target.user, "password": target.password}
        known = {"T": self.topic, "I": identifier, "D": target.denied or "denied", "R": self.run}
        return known | {key: value for key, value in login.items() if value is not None}

    def observe(self, text: str) -> None:
        if text not in self.observed:
            self.observed.append(text)

    def open(self) -> Link:
        return self.tape.link(self.target.reach())

    def sweep(self) -> None:
        """Ends the sessions that the scenario leaves, and removes its retained messages. No log has this."""
        for identifier in sorted(self.sessions):
            self._visit(identifier, b"")
        if self.retained:
            removal = b"".join(publish(topic, retain=True) for topic in sorted(self.retained))
            self._visit(f"{self.prefix}sweep", removal)

    def _visit(self, identifier: str, data: bytes) -> None:
        """Connects with a new session that ends with the connection, sends something, and leaves."""
        hello = connect(identifier, True, user=self.target.user, password=self.target.password)
        try:
            with self.target.reach() as connection:
                connection.settimeout(SWEEP_SECONDS)
                connection.sendall(hello + data + disconnect())
                while connection.recv(4096):
                    pass
        except (OSError, Gone):
            pass  # it is gone, and so is the session, or it was refused
