#!/usr/bin/env python3
"""Tests of the RESTs that bind nothing: before the CONNACK, and after what is broken.

A server of a few lines ignores a CONNECT, or answers it late; goes on after a Malformed Packet, or closes. Each way of
recording has to write a REST where the server is known to be at rest, and none elsewhere. That is seen by what
bench/further.py says of the logs: C24 of who ignores a CONNECT, D01 of who goes on, and nothing of the others. The 74
statements of the judge have the same faults with these RESTs and without.

usage: recorders/test_rests.py
"""
from __future__ import annotations

import contextlib
import random
import socket
import subprocess
import sys
import threading
import time
import unittest
from collections.abc import Iterator
from pathlib import Path

sys.dont_write_bytecode = True  # the repository stays as it is
HERE = Path(__file__).resolve().parent
BENCH = HERE.parent / "bench"
sys.path[:0] = [str(HERE), str(HERE / "preload"), str(BENCH)]
import further
import honest_logs
import hostile_logs
import random_logs
import raw
import reference
from exercising.both_ends import Fairness
from exercising.client_verbs import HOSTS
from exercising.client_verbs import NEEDS as CLIENT_NEEDS
from exercising.hosts import Program
from exercising.client import ClientRunner
from exercising.running import Fate, Runner
from exercising.stage import Silence, Target
from exercising.table import parse
from exercising.verbs import CLIENTS, NEEDS
from judging.program import Judge
from log_format import records
from odd_server import CONNACK, LATE, LEAVING, MANNERS, Manner
from reading import Event, Recording
from recording import Connection, End, Recorder, Standing
from test_capture import Case as OfCaptures
from test_capture import FIN, ACK, Conversation, Wire
from test_recording import connect, packet, text
from testing import HOST, PATIENCE, InFolder, accepts, find, free_port, joined, judge_program, missing, process
from testing import wait_until

OPEN, SENT, RECV, CLOSE, REST = 1, 2, 3, 4, 5
SILENCE, LONGER = 1.0, 3.0  # seconds that count as rest, and before the CONNACK
SECOND = 1_000_000_000


def hello(name: str) -> bytes:
    """The CONNECT of a client that is to be treated so. An odd one is malformed: its reserved flag is 1."""
    if not MANNERS[name].is_odd:
        return connect(name.encode())
    return packet(0x10, text(b"MQTT") + bytes((5, 3, 0, 60, 0)) + text(name.encode()))


def said(log: bytes) -> str:
    """The further statements that a log breaks."""
    return " ".join(code for _, code, _ in further.faults(further.log_of(Recording(log))))


def judged(log: bytes) -> list[str]:
    """The statements of the judge that it breaks."""
    return [line.split()[2] for line in reference.report(log).splitlines()[:-1]]


class Ways(InFolder):
    """What each way of recording has to come to."""

    shows_who_stays = False  # after a DISCONNECT: silence does not say that

    def check(self, folder: Path, logs: dict[str, str] | None = None) -> None:
        """Each manner has one log of the server, of which is said what is wanted, and which passes."""
        for name, manner in MANNERS.items():
            with self.subTest(name):
                log = (folder / (logs or {}).get(name, f"{name}.1.server.log")).read_bytes()
                self.assertEqual(said(log), manner.wanted, joined(log))
                stays = manner.after == "stay" and self.shows_who_stays
                self.assertEqual(judged(log), ["C23"] if stays else [], joined(log))
                if not manner.wanted and manner.delay == 0 and not stays:
                    self.assertNotIn("REST", joined(log))

    @contextlib.contextmanager
    def server(self, *before: object) -> Iterator[int]:
        port = free_port()
        with process(*before, sys.executable, HERE / "odd_server.py", port) as child:
            wait_until(lambda: child.poll() is not None or accepts(port), "the server listens")
            yield port

    def visit_all(self, port: int) -> None:
        """A client of each manner, which says what it has to, and waits until the server has come to rest."""
        threads = [threading.Thread(target=self.visit, args=(port, name)) for name in MANNERS]
        for thread in threads:
            thread.start()
        for thread in threads:
            thread.join(PATIENCE)

    def visit(self, port: int, name: str) -> None:
        manner = MANNERS[name]
        with socket.create_connection((HOST, port), PATIENCE) as connection, contextlib.suppress(OSError):
            connection.sendall(hello(name))
            if manner.delay is not None:
                connection.recv(4096)
            if manner.broken:
                connection.sendall(bytes.fromhex(manner.broken))
            time.sleep(LONGER + 1.0)


class Proxied(Ways):
    def test_all(self) -> None:
        options = ("--out", self.logs, "--rest", SILENCE, "--rest-before-connack", LONGER)
        with self.server() as broker, (self.folder / "printed").open("w") as printed:
            listen = free_port()
            words = (HERE / "proxy", "--listen", f"{HOST}:{listen}", "--broker", f"{HOST}:{broker}", *options)
            with process(sys.executable, *words, output=printed.fileno()):
                wait_until(lambda: accepts(listen), "the proxy listens")
                self.visit_all(listen)
        self.check(self.logs)
        for name, manner in MANNERS.items():  # nothing is said of a client that waits
            if manner.delay is None:
                self.assertNotIn("REST", joined((self.logs / f"{name}.1.client.log").read_bytes()))


@unittest.skipIf(find("cc") is None and not (HERE / "preload/preload.so").exists(), "cc isn't installed")
class Preloaded(Ways):
    def test_all(self) -> None:
        options = ("-o", self.logs, "--rest", SILENCE, "--rest-before-connack", LONGER)
        with self.server(sys.executable, HERE / "preload/run", *options, "--") as port:
            self.visit_all(port)
        self.check(self.logs)

    def test_the_silence_that_is_meant(self) -> None:
        """Half a minute before the CONNACK if nothing else is said. The raw file has the times."""
        for seconds, options, is_rest in ((29, (), False), (34, (), True), (34, ("--rest-before-connack", "40"), False),
                                          (3, ("--rest-before-connack", "2"), True)):
            with self.subTest(seconds=seconds, options=options):
                folder = self.folder / f"{seconds} {len(options)}"
                (folder / "raw").mkdir(parents=True)
                content = b"mqtt-raw 2 accepted 127.0.0.1:1 127.0.0.1:2 1000 1700000000123456789\n"
                frames = ((2000, raw.What.RECEIVED, connect(b"a")), (seconds * SECOND, raw.What.LEFT, b""))
                for stamp, what, data in frames:
                    content += raw.FRAME.pack(raw.MARK, what, 0, 7, len(data), stamp, 0) + data
                (folder / "raw/1-1.raw").write_bytes(content)
                words = [sys.executable, HERE / "preload/assemble", folder, "--rest", "1", *options]
                subprocess.run(words, check=True, capture_output=True)
                log = joined((folder / "a.1.server.log").read_bytes())
                self.assertEqual(log[2:], ["REST", "CLOSE"] if is_rest else ["CLOSE"])


@unittest.skipIf(missing("tshark"), missing("tshark"))
class Captured(Ways, OfCaptures):
    def test_all(self) -> None:
        """The times are the capture's: 5 s are rest, and before the CONNACK half a minute."""
        wire = Wire()
        for number, (name, manner) in enumerate(MANNERS.items()):
            self.talk(Conversation(wire, "10.0.0.2", port=41_000 + number), name, manner)
        wire.write(self.folder / "capture.pcap")
        options = ("--server", "10.0.0.1:1883", "--rest", "5")
        self.assertEqual(self.run_on(self.folder / "capture.pcap", *options), 0, self.warnings)
        self.check(self.logs)

    def talk(self, talk: Conversation, name: str, manner: Manner) -> None:
        talk.open()
        talk.client(hello(name))
        talk.send(End.SERVER)
        talk.wire.now += 40 if manner.delay is None else 20 if manner.delay else 0.1
        if manner.delay is not None:
            talk.server(CONNACK)
            talk.send(End.CLIENT)
        if manner.broken:
            talk.client(bytes.fromhex(manner.broken))
            talk.send(End.SERVER)
            if manner.after in ("leave", "stay"):
                talk.server(LEAVING)
                talk.send(End.CLIENT)
        if manner.after in ("close", "leave"):
            talk.send(End.SERVER, flags=FIN | ACK)
        talk.wire.now += 10
        talk.send(End.CLIENT, flags=FIN | ACK)
        if manner.after not in ("close", "leave"):
            talk.send(End.SERVER, flags=FIN | ACK)
        talk.send(End.CLIENT)


class Exercised(Ways):
    """Clients that are played. After what is broken the broker should close, and a CONNACK should have come."""

    shows_who_stays = True

    def runner(self, kind: type[Runner], port: int) -> Runner:
        fairness = Fairness()
        fairness.judge = judge = Judge(judge_program(), 20, fairness.weigh, keeps=True)
        target = Target(HOST, port, patience=2 * LATE)
        return kind(target, "r", self.logs, Silence(SILENCE), len(MANNERS), judge, fairness)

    def scenario(self, name: str, manner: Manner) -> str:
        text = f"{name} | aims C05 C11 | breaks the rules\n"
        if manner.is_odd:
            return text + '  a open ; a send 10 .. "MQTT" 05 03 003c [] "I" ; a closes 0.2 ; a drop\n'
        if manner.delay is None:
            return text + "  try a connect\n  a drop\n"
        return text + (f"  a connect ; a send {manner.broken} ; a closes 0.2 ; a drop\n" if manner.broken else
                       "  a connect ; a rest ; a drop\n")

    def test_all(self) -> None:
        table = "\n".join(self.scenario(name, manner) for name, manner in MANNERS.items())
        with self.server() as port:
            runner = self.runner(Runner, port)
            runner.play_all(parse(table, "x.scenarios", CLIENTS.shapes, NEEDS), None)
        fates = {result.scenario.name: result.fate for result in runner.results}
        self.assertEqual(fates, dict.fromkeys(MANNERS, Fate.COMPLETED))
        self.assertEqual([one.scenario.name for one in runner.results if one.broken], ["disconnects-and-stays"])
        logs = {name: f"{name}/a.1.server.log" for name in MANNERS}
        bodies = self.logs / "body/a.1.server.log"
        self.assertNotIn("REST", joined(bodies.read_bytes()))  # its fixed header may be right: a REST might bind
        with self.subTest("a ping shows it too"):
            bodies.write_bytes(self.with_ping())
            self.check(self.logs, logs)

    def with_ping(self) -> bytes:
        """The same manner, where the scenario asks by a ping."""
        steps = "a connect ; a send c0 01 78 ; a closes 0.2 ; a rest ; a drop"
        text = f"body-asked | aims C11 | breaks the rules\n  {steps}\n"
        with self.server() as port:
            self.runner(Runner, port).play_all(parse(text, "x.scenarios", CLIENTS.shapes, NEEDS), None)
        return (self.logs / "body-asked/a.1.server.log").read_bytes()

    def test_a_client_that_keeps_a_connection_on_which_what_came_is_broken(self) -> None:
        """The broker is played. One client overlooks flags that are wrong, and one closes."""
        for name, what in (("stays", "time.sleep(60)"), ("leaves", "s.close()")):
            client = self.folder / f"{name}.py"
            calls = (f"s.sendall({connect(b'c')!r})", "s.recv(5)", "s.recv(2)", what)
            client.write_text("import socket, sys, time\n"
                              "s = socket.create_connection(('127.0.0.1', int(sys.argv[1])))\n" + "\n".join(calls))
            steps = "s start ; s hello ; s send c1 00 ; s closes 0.2 ; s drop"
            text = f"{name} | aims C11 | breaks the rules\n  {steps}\n"
            runner = self.runner(ClientRunner, 0)
            assert isinstance(runner, ClientRunner)
            runner.program = Program((sys.executable, str(client), "{port}"), "publish")
            runner.output = self.folder / "output"
            runner.play_all(parse(text, "x.scenarios", HOSTS.shapes, CLIENT_NEEDS), None)
            log = joined((self.logs / name / "c.1.client.log").read_bytes())
            self.assertEqual(log[-2:], ["REST" if name == "stays" else f"RECV {CONNACK.hex()}c100", "CLOSE"])


# ---- what the judge says of them


class Without(Recorder):
    """A recorder that writes no REST where nothing binds."""

    def _rest(self, connection: Connection) -> None:
        if connection.standing is Standing.ACCEPTED:
            super()._rest(connection)


class Judged(InFolder):
    """Random sessions with silences, some of them right, as the recorder writes them with these RESTs and without."""

    SESSIONS = 60

    def test_the_faults_are_the_same(self) -> None:
        rests = 0
        for number in range(self.SESSIONS):
            draw = random.Random(f"rests {number}")
            honest = honest_logs.session(9, number)
            for log in (random_logs.session(9, number), honest, hostile_logs.changed(draw, honest)):
                with contextlib.suppress(ValueError):  # a log that is cut has been made worse on purpose
                    steps = [(draw.choice((0, 0, 0, 2, 5)), one.kind, one.body) for one in records(log)]
                    rests += self.compare(bool(log[5]), steps)
        self.assertGreater(rests, 50)

    def compare(self, is_server: bool, steps: list[tuple[int, int, bytes]]) -> int:
        """How many RESTs there are more."""
        mores, fewers = (self.played(kind, is_server, steps) for kind in (Recorder, Without))
        self.assertEqual(len(mores), len(fewers))
        return sum(self.compare_logs(more, fewer) for more, fewer in zip(mores, fewers))

    def compare_logs(self, more: bytes, fewer: bytes) -> int:
        rich, poor = Recording(more), Recording(fewer)
        if rich.refusal is not None or poor.refusal is not None:
            self.assertEqual(*(one.refusal and one.refusal.text().split()[:3] for one in (rich, poor)))
            return 0
        places = placed(rich.events, poor.events)
        faults = [[line.split() for line in reference.report(log).splitlines()[:-1]] for log in (more, fewer)]
        for line in faults[0]:
            line[1], line[5] = str(places[int(line[1])]), str(places[int(line[5])])
        self.assertEqual([line[:6] for line in faults[0]], [line[:6] for line in faults[1]])
        return len(rich.events) - len(poor.events)

    def played(self, kind: type[Recorder], is_server: bool, steps: list[tuple[int, int, bytes]]) -> list[bytes]:
        """The logs that a recorder makes of what happens, each after so many seconds of silence."""
        now, folder = 0.0, self.folder / f"{len([*self.folder.iterdir()])}"
        folder.mkdir()
        recorder = kind(folder, frozenset({End.SERVER if is_server else End.CLIENT}), 1.0, clock=lambda: now,
                        warn=lambda _: None, from_start=True, rest_before_connack=3.0)
        own, peers = (recorder.from_client, recorder.from_server)[:: -1 if is_server else 1]
        for silence, what, body in (*steps, (9, 0, b"")):
            for _ in range(silence):
                now += 1
                recorder.tick()
            if what == OPEN:
                recorder.opened(1)
            elif what in (SENT, RECV):
                (own if what == SENT else peers)(1, body)
            elif what == CLOSE:
                recorder.closed(1)
        recorder.finish()
        return [path.read_bytes() for path in sorted(folder.iterdir())]


def placed(more: list[Event], fewer: list[Event]) -> dict[int, int]:
    """The positions that the events of a log have in one that lacks some of its RESTs."""
    places, at = {}, 0
    for position, event in enumerate(more, 1):
        if at < len(fewer) and (event.kind, repr(event.item)) == (fewer[at].kind, repr(fewer[at].item)):
            at += 1
            places[position] = at
        else:
            assert event.kind == REST, event
    assert at == len(fewer)
    return places


if __name__ == "__main__":
    unittest.main()
