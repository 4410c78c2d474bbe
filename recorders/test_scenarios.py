#!/usr/bin/env python3
"""Records sessions of real software by the proxy, and has them judged: each must come to what is known of it.

It starts mosquitto on 127.0.0.1 behind the proxy, runs each scenario with mosquitto's tools, with paho-mqtt, or with
bytes of its own, and compares the codes of each log's faults with those that are written beside the scenario. It also
compares both ends' logs with each other: what one end sent the other has received. All that it starts it stops.

What isn't installed is said, as `skipped: mosquitto isn't installed`, and the scenarios that need it are left out.

usage: recorders/test_scenarios.py [--program PATH] [--keep DIR] [SCENARIO ..]
"""
from __future__ import annotations

import argparse
import fnmatch
import re
import signal
import socket
import subprocess
import sys
import tempfile
import time
from collections.abc import Callable
from contextlib import ExitStack
from dataclasses import dataclass
from pathlib import Path
from xml.etree import ElementTree

sys.dont_write_bytecode = True  # the repository stays as it is
sys.path.insert(0, str(Path(__file__).resolve().parent))
from log_format import records
from peers import REST_SECONDS, SENT, Bench, Trouble, proxy, receive_packet
from testing import (
    PAHO,
    PATIENCE,
    accepts,
    broker,
    judge_program,
    make_certificate,
    missing_names,
    process,
    wait_until,
)

HERE = Path(__file__).resolve().parent
CLOSE, REST = 4, 5
MOSQUITTO, TOOLS, PAHO_C, OPENSSL = "mosquitto", "mosquitto_pub", "paho_c_pub", "openssl"


def pause() -> None:
    """Long enough for a REST."""
    time.sleep(REST_SECONDS + 0.8)


# ---- scenarios


def tools(bench: Bench) -> None:
    """mosquitto's own tools: QoS 0 to 2, and a retained message that comes to a later subscriber."""
    wait = bench.subscribe("sub", "tools/#", 4, "-q", 2)
    for qos in (0, 1, 2):
        bench.publish(f"pub{qos}", "tools/a", "-q", qos, "-m", f"at {qos}")
    bench.publish("keeper", "tools/kept", "-q", 1, "-r", "-m", "kept")
    wait()
    bench.subscribe("late", "tools/#", 1, "-q", 1)()


def paho_c(bench: Bench) -> None:
    """paho's tools for C: QoS 0 to 2, a retained message, and a Will that comes when its client is killed."""
    watcher = bench.subscribe("watcher", "will/#", 1, "-q", 1)
    will = ("--will-topic", "will/c", "--will-payload", "gone", "--will-qos", 1)
    subscriber = bench.start("sub", "paho_c_sub", "-t", "c/#", "-q", 2, *will)
    for qos in (0, 1, 2):
        bench.run("paho_c_pub", *bench.options(f"pub{qos}"), "-t", "c/a", "-q", qos, "-m", f"at {qos}")
        wait_until(lambda: b"at %d" % qos in bench.carried("sub"), "paho_c_sub gets the message")
    bench.run("paho_c_pub", *bench.options("keeper"), "-t", "c/kept", "-q", 1, "-r", "-m", "kept")
    bench.start("late", "paho_c_sub", "-t", "c/kept", "-q", 1)
    wait_until(lambda: b"kept" in bench.carried("late"), "the retained message comes")
    pause()
    subscriber.kill()
    watcher()


def one_message(bench: Bench) -> None:
    """A message of QoS 2 from one of mosquitto's tools to the other."""
    wait = bench.subscribe("sub", "one", 1, "-q", 2)
    bench.publish("pub", "one", "-q", 2, "-m", "x")
    wait()


def older(bench: Bench) -> None:
    """Clients of MQTT 3.1.1 and 3.1: what they send is passed on, they are named, and they have no log."""
    for version, number in (("311", 4), ("31", 3)):
        wait = bench.subscribe(f"sub{version}", "older", 1, "-q", 1)
        bench.publish(f"old{version}", "older", "-q", 1, "-m", "x", version=version)
        wait()
        if f"old{version} uses" not in bench.printed() or f"version {number}" not in bench.printed():
            raise Trouble("the proxy doesn't name a client of another version")


def paths(bench: Bench) -> None:
    """Client Identifiers that would be paths, or too long for a file's name."""
    for identifier in ("../up", "/etc/passwd", ".", "..", "a/../../b", "C:\\x", "-rf", "x" * 300):
        bench.publish(identifier, "paths", "-q", 1, "-m", "x")


def crowd(bench: Bench) -> None:
    """A hundred clients at a time, each with a session of its own that gets all messages."""
    names = [f"c{number:02}" for number in range(100)]
    connections = [bench.raw(connect(name)) for name in names]
    for connection in connections:
        take_packets(connection, "20")
        connection.sendall(bytes.fromhex("82 07 0001 00 0001 74 00"))  # SUBSCRIBE to t
        take_packets(connection, "90")
    for connection in connections:
        connection.sendall(bytes.fromhex("30 05 0001 74 00 78"))  # PUBLISH to t
    for connection in connections:
        take_packets(connection, *["30"] * len(names))
        connection.sendall(bytes.fromhex("E0 00"))


def exchanges(bench: Bench) -> None:
    """paho-mqtt: QoS 0 to 2 in both directions, a subscription more, an unsubscription, rests between."""
    client = bench.client("both").connect()
    client.subscribe("x/+", 2)
    for qos in (0, 1, 2):
        client.publish("x/1", b"payload", qos)
    client.take(3)
    pause()
    client.subscribe("y", 1)
    client.publish("y", b"payload", 2)
    client.take(1)
    client.unsubscribe("x/+")
    client.publish("x/1", b"nobody's", 1)
    pause()
    client.disconnect()


def will(bench: Bench) -> None:
    """A client goes without a DISCONNECT, and its Will comes to another."""
    watcher = bench.client("watcher").connect()
    watcher.subscribe("will/#", 1)
    bench.client("goer", will=("will/goer", b"gone")).connect().cut()
    watcher.take(1)
    watcher.disconnect()


def resumed(bench: Bench) -> None:
    """A session goes on over three connections, and messages wait for it; then a Clean Start begins a new log."""
    reader, writer = bench.client("reader"), bench.client("writer").connect()
    reader.connect(clean_start=True, expiry=600)
    reader.subscribe("q/#", 2)
    for count in (5, 3):
        reader.disconnect()
        for number in range(count):
            writer.publish("q/a", b"%d" % number, number % 3)
        reader.connect(clean_start=False, expiry=600)
        reader.take(count - len([number for number in range(count) if number % 3 == 0]))
        if not reader.is_resumed:
            raise Trouble("the session wasn't resumed")
        pause()
    reader.disconnect()
    reader.connect(clean_start=True, expiry=600)
    reader.disconnect()
    writer.disconnect()


def sent_again(bench: Bench) -> None:
    """A connection is cut while PUBLISHes are unacknowledged; they are sent again on the next."""
    client = bench.client("again").connect(expiry=600)
    bench.broker.send_signal(signal.SIGSTOP)  # so that it can't acknowledge anything
    for number in range(4):
        client.client.publish("again", b"number %d" % number, 1 + number % 2)
    wait_until(lambda: bench.carried("again").count(b"number") == 4, "all are sent")
    client.cut()
    wait_until(lambda: bench.ends_with(CLOSE, "again"), "the connection is over")
    bench.broker.send_signal(signal.SIGCONT)
    client.connect(clean_start=False, expiry=600)
    pause()
    client.disconnect()


def takeover(bench: Bench) -> None:
    """A second connection takes the session over, and then a third one that begins a new session."""
    clients = [bench.client("same") for _ in range(3)]
    for number, client in enumerate(clients):
        client.connect(clean_start=number != 1, expiry=600)
        client.subscribe("takeover", 1)
        client.publish("takeover", b"x", 1)
        client.take(1)
    clients[-1].disconnect()


def unnamed(bench: Bench) -> None:
    """Empty Client Identifiers: the broker assigns some."""
    bench.publish("", "unnamed", "-q", 1, "-m", "x")
    client = bench.client("").connect()
    client.publish("unnamed", b"x", 1)
    client.disconnect()


def large(bench: Bench) -> None:
    """Payloads of 300,000 bytes, and one of 2,500,000."""
    reader, writer = bench.client("reader").connect(), bench.client("writer").connect()
    reader.subscribe("large", 2)
    for qos, size in ((0, 300_000), (1, 300_000), (2, 2_500_000)):
        writer.publish("large", bytes(size), qos)
        if [len(message.payload) for message in reader.take(1)] != [size]:
            raise Trouble("a payload came with another size")
    writer.disconnect()
    reader.disconnect()


def window(bench: Bench) -> None:
    """A subscriber with a Receive Maximum of 2: mosquitto 2.0.11 has more PUBLISHes of QoS 2 in flight than that."""
    reader, writer = bench.client("reader"), bench.client("writer").connect()
    reader.connect(expiry=600, receive_maximum=2)
    reader.subscribe("window", 2)
    reader.disconnect()
    for number in range(8):
        writer.publish("window", b"%d" % number, 2)
    reader.connect(clean_start=False, expiry=600, receive_maximum=2)
    reader.take(8)
    pause()
    reader.disconnect()
    writer.disconnect()


def flood(bench: Bench) -> None:
    """The broker's Receive Maximum is 5: paho-mqtt 1.6.1 has more PUBLISHes in flight than that."""
    client = bench.client("flood").connect()
    bench.broker.send_signal(signal.SIGSTOP)  # so that it can't acknowledge anything yet
    sent = [client.client.publish("flood", b"number %d" % number, 1) for number in range(9)]
    wait_until(lambda: bench.carried("flood").count(b"number") == 9, "all are sent")
    bench.broker.send_signal(signal.SIGCONT)
    for message in sent:
        message.wait_for_publish(PATIENCE)
    client.disconnect()


def limits(bench: Bench) -> None:
    """The broker takes packets of 100 bytes, and QoS 1 at most: paho-mqtt 1.6.1 looks at neither limit."""
    large = bench.client("large").connect()
    large.client.publish("limits", bytes(200), 1)
    wait_until(lambda: bench.begins("large", SENT, b"\x32"), "the large one is sent")
    two = bench.client("two").connect()
    two.client.publish("limits", b"x", 2)
    wait_until(lambda: bench.begins("two", SENT, b"\x34"), "QoS 2 is sent")
    pause()


CONNECT = "10 10 0004 4D515454 05 02 003C 00 0003 {}"  # Clean Start, a Client Identifier of three bytes


def connect(identifier: str) -> str:
    return CONNECT.format(identifier.encode().hex())


def silent(bench: Bench) -> None:
    """A client that never answers a PUBLISH of QoS 1: the REST makes a fault of it."""
    connection = bench.raw(connect("sil"))
    take_packets(connection, "20")
    connection.sendall(bytes.fromhex("82 07 0001 00 0001 73 01"))  # SUBSCRIBE to s at QoS 1
    take_packets(connection, "90")
    connection.sendall(bytes.fromhex("32 07 0001 73 0002 00 78"))  # PUBLISH to s at QoS 1
    take_packets(connection, "40", "32")
    wait_until(lambda: bench.ends_with(REST, "sil"), "the client is at rest")


def killed(bench: Bench) -> None:
    """The broker is killed with a message in flight, and resumes from an older state: it sends it never again."""
    resume = "10 15 0004 4D515454 05 00 003C 05 11 0000012C 0003 6F6C64"  # CONNECT, Clean Start 0, expiry 300 s: old
    kept = Path(bench.broker.args[2]).parent / "mosquitto.db"  # beside its configuration
    first = bench.raw(resume)
    take_packets(first, "20")
    first.sendall(bytes.fromhex("82 07 0001 00 0001 6B 01"))  # SUBSCRIBE to k at QoS 1
    take_packets(first, "90")
    bench.broker.send_signal(signal.SIGUSR1)
    wait_until(lambda: kept.exists() and b"old" in kept.read_bytes(), "mosquitto keeps its state")
    bench.publish("pub", "k", "-q", 1, "-m", "one")
    take_packets(first, "32")
    bench.broker.kill()
    bench.broker.wait(PATIENCE)
    wait_until(lambda: bench.ends_with(CLOSE, "old", "server"), "the connection ends")
    bench.stack.enter_context(process(*bench.broker.args))
    wait_until(lambda: accepts(bench.broker_port), "mosquitto listens again")
    second = bench.raw(resume)
    take_packets(second, "20")
    wait_until(lambda: bench.ends_with(REST, "old", "server"), "the broker is at rest")
    bench.publish("pub", "k", "-q", 1, "-m", "two")
    second.sendall(bytes.fromhex("40 02") + receive_packet(second)[5:7])  # its PUBACK: the topic has one byte
    second.sendall(bytes.fromhex("E0 00"))


def broken(bench: Bench) -> None:
    """Bytes that are no MQTT, and a CONNECT that is broken."""
    for packet in ("C0 00", b"GET / HTTP/1.1\r\n\r\n".hex(), "10 0F 0004 4D515454 05 03 003C 00 0002 6261"):
        connection = bench.raw(packet)
        wait_until(lambda: not read_some(connection), "the broker closes the connection")


def take_packets(connection: socket.socket, *firsts: str) -> None:
    """Takes packets that begin with these bytes, in hexadecimal digits, in any order."""
    taken = [receive_packet(connection)[:1].hex() for _ in firsts]
    if sorted(taken) != sorted(firsts):
        raise Trouble(f"packets {', '.join(taken)} came instead of {', '.join(firsts)}")


def read_some(connection: socket.socket) -> bytes:
    try:
        return connection.recv(4096)
    except ConnectionError:
        return b""


@dataclass(frozen=True)
class Scenario:
    """What is run, what it needs, and the logs that come of it with the codes of their faults."""

    run: Callable[[Bench], None]
    needs: tuple[str, ...]
    logs: dict[str, str]
    settings: str = ""  # of mosquitto
    has_client_tls: bool = False  # between clients and proxy
    has_broker_tls: bool = False  # between proxy and broker


TOOLS_LOGS = ("sub.1", "pub0.1", "pub1.1", "pub2.1", "keeper.1", "late.1")
PATH_LOGS = ("%2E%2E%2Fup.1", "%2Fetc%2Fpasswd.1", "%2E.1", "%2E%2E.1", "a%2F%2E%2E%2F%2E%2E%2Fb.1", "C%3A%5Cx.1")


def both(*names: str, client: str = "", server: str = "") -> dict[str, str]:
    """The logs of both ends under these names."""
    return {f"{name}.{end}": codes for name in names for end, codes in (("client", client), ("server", server))}


SCENARIOS = {
    "tools": Scenario(tools, (TOOLS,), both(*TOOLS_LOGS)),
    "tls": Scenario(tools, (TOOLS, OPENSSL), both(*TOOLS_LOGS), has_client_tls=True, has_broker_tls=True),
    "tls-clients": Scenario(one_message, (TOOLS, OPENSSL), both("sub.1", "pub.1"), has_client_tls=True),
    "tls-broker": Scenario(one_message, (TOOLS, OPENSSL), both("sub.1", "pub.1"), has_broker_tls=True),
    "paho-c": Scenario(paho_c, (TOOLS, PAHO_C), both("watcher.1", *TOOLS_LOGS)),
    "older": Scenario(older, (TOOLS,), both("sub311.1", "sub31.1")),
    "paths": Scenario(paths, (TOOLS,), both(*PATH_LOGS, "%2Drf.1", f"{'x' * 80}~*.1")),
    "crowd": Scenario(crowd, (), both("c[0-9][0-9].1")),
    "exchanges": Scenario(exchanges, (PAHO,), both("both.1")),
    "will": Scenario(will, (PAHO,), both("watcher.1", "goer.1")),
    "resumed": Scenario(resumed, (PAHO,), both("reader.1", "reader.2", "writer.1")),
    "sent-again": Scenario(sent_again, (PAHO,), both("again.1")),
    "takeover": Scenario(takeover, (PAHO,), both("same.1", "same.2")),
    "unnamed": Scenario(unnamed, (TOOLS, PAHO), both("auto-*.1")),
    "large": Scenario(large, (PAHO,), both("reader.1", "writer.1")),
    "window": Scenario(window, (PAHO,), both("reader.1", server="S07") | both("writer.1")),
    "flood": Scenario(flood, (PAHO,), both("flood.1", client="S07"), "max_inflight_messages 5"),
    "limits": Scenario(
        limits,
        (PAHO,),
        both("large.1", client="C14") | both("two.1", client="C17"),
        "max_packet_size 100\nmax_qos 1",
    ),
    "killed": Scenario(
        killed,
        (TOOLS,),
        both("old.1", server="S01,S06") | both("pub.1", "pub.2"),
        "persistence true\npersistence_location PLACE/\nautosave_interval 0",
    ),
    "silent": Scenario(silent, (), both("sil.1", client="E1R")),
    "broken": Scenario(broken, (), both("@unnamed.1", client="C02") | both("@unnamed.2") | both("ba.1", client="W19")),
}


# ---- running and comparing


def run(scenario: Scenario, folder: Path) -> None:
    """Runs a scenario with a broker and a proxy of its own; the logs are in the folder."""
    with ExitStack() as stack, tempfile.TemporaryDirectory() as other:
        key, certificate = Path(other) / "key.pem", Path(other) / "certificate.pem"
        settings, words, tls = scenario.settings.replace("PLACE", other) + "\n", [], []
        Path(other).chmod(0o777)  # mosquitto goes on as another user
        if scenario.has_client_tls or scenario.has_broker_tls:
            make_certificate(key, certificate)
            for path in (certificate.parent, certificate, key):
                path.chmod(0o755)  # mosquitto goes on as another user
        if scenario.has_client_tls:
            words += ["--tls-listen", certificate, key]
            tls += ["--cafile", certificate]
        if scenario.has_broker_tls:
            words += ["--tls-broker", certificate]
            settings += f"certfile {certificate}\nkeyfile {key}\n"
        broker_port, child = stack.enter_context(broker(Path(other), settings))
        port = stack.enter_context(proxy(folder, broker_port, *words))
        with ExitStack() as inner:
            scenario.run(Bench(port, folder, inner, child, broker_port, tls))
        time.sleep(0.2)


def codes_of(folder: Path, program: str) -> dict[str, str]:
    """For each log the codes of its faults, or how it was refused, as recorders/judge says in JUnit XML."""
    report = folder / "report.xml"
    words = [sys.executable, HERE / "judge", folder, "--junit", report, "--program", program]
    answer = subprocess.run(words, capture_output=True, text=True)
    if not report.exists():
        raise Trouble(f"recorders/judge: {answer.stderr.strip()}")
    codes = {}
    for case in ElementTree.parse(report).iter("testcase"):
        said = {part.tag: part.get("message", "") for part in case}
        names = said.get("failure", "").partition(": ")[2].replace(", ", ",")
        codes[case.get("name", "").removesuffix(".log")] = names + said.get("error", "")
    codes.pop("(no logs)", None)
    return codes


def differences(wanted: dict[str, str], found: dict[str, str]) -> list[str]:
    """What isn't as it is known to be."""
    lines = []
    for name, codes in found.items():
        pattern = next((pattern for pattern in wanted if fnmatch.fnmatchcase(name, pattern)), None)
        if pattern is None:
            lines.append(f"{name}: nothing is known of this log ({codes or 'pass'})")
        elif wanted[pattern] != codes:
            lines.append(f"{name}: wanted {wanted[pattern] or 'pass'}, got {codes or 'pass'}")
    lines += [f"{pattern}: no such log" for pattern in wanted if not fnmatch.filter(found, pattern)]
    return lines


def streams(path: Path) -> list[tuple[bytes, bytes]]:
    """What the client and what the server sent, for each connection of a log."""
    log, connections = path.read_bytes(), []
    is_server = log[5]
    for kind, body, _ in records(log):
        if kind == 1:
            connections.append((bytearray(), bytearray()))
        elif kind in (2, 3):
            connections[-1][(kind == 3) ^ is_server].extend(body)
    return [(bytes(client), bytes(server)) for client, server in connections]


def is_same_session(client_log: Path, server_log: Path) -> bool:
    """What an end received on a connection is what the other one sent, or a beginning of it."""
    pairs = list(zip(streams(client_log), streams(server_log), strict=True))
    upward = all(sent.startswith(received) for (sent, _), (received, _) in pairs)
    return upward and all(sent.startswith(received) for (_, received), (_, sent) in pairs)


def check_ends(folder: Path) -> list[str]:
    """Both ends' logs speak of the same bytes."""
    lines = []
    for path in sorted(folder.glob("*.client.log")):
        other = path.with_name(path.name.replace(".client.log", ".server.log"))
        if not other.exists() or not is_same_session(path, other):
            lines.append(f"{path.name}: the logs of both ends have other bytes")
    return lines


def attempt(name: str, scenario: Scenario, folder: Path, program: str) -> bool:
    """Runs a scenario, and says how it went."""
    try:
        run(scenario, folder)
        found = codes_of(folder, program)
        lines = differences(scenario.logs, found) + check_ends(folder)
        printed = (folder / "proxy.txt").read_text()
        lines += [line for line in printed.splitlines() if re.search("stopped|Traceback|Error", line)]
    except (Trouble, OSError, ValueError, subprocess.SubprocessError) as error:
        lines = [str(error)]
    print(f"{'wrong' if lines else 'right'}: {name}", *lines, sep="\n  ", flush=True)
    return not lines


def main() -> int:
    parser = argparse.ArgumentParser(description="Records sessions of real software, and has them judged.")
    parser.add_argument("scenarios", nargs="*", metavar="SCENARIO", help=", ".join(SCENARIOS))
    parser.add_argument("--program", metavar="PATH", help="the program that judges")
    parser.add_argument("--keep", type=Path, metavar="DIR", help="write the logs there, and leave them")
    options = parser.parse_args()
    if unknown := set(options.scenarios) - set(SCENARIOS):
        parser.error(f"no such scenario: {', '.join(sorted(unknown))}")
    absent = missing_names((MOSQUITTO, TOOLS, PAHO_C, PAHO, OPENSSL))
    for name in absent:
        print(f"skipped: {name} isn't installed")
    results = []
    with tempfile.TemporaryDirectory() as other:
        for name in options.scenarios or SCENARIOS:
            scenario = SCENARIOS[name]
            if not {MOSQUITTO, *scenario.needs}.intersection(absent):
                folder = (options.keep or Path(other)) / name
                folder.mkdir(parents=True)
                results.append(attempt(name, scenario, folder, options.program or judge_program()))
    print(f"{sum(results)} right, {len(results) - sum(results)} wrong, {len(SCENARIOS) - len(results)} not run")
    return 0 if all(results) else 1


if __name__ == "__main__":
    sys.exit(main())
