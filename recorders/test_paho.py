#!/usr/bin/env python3
"""Tests of paho_recorder.py: against a server that says what the test wants, and against mosquitto.

usage: recorders/test_paho.py
"""
from __future__ import annotations

import contextlib
import gc
import io
import socket
import ssl
import sys
import threading
import unittest
import weakref
from collections.abc import Callable
from pathlib import Path
from typing import Any

sys.dont_write_bytecode = True  # the repository stays as it is
sys.path.insert(0, str(Path(__file__).resolve().parent))
from testing import PAHO, InFolder, free_port, joined, make_certificate, missing, mosquitto, verdict, wait_until, words

ABSENT = missing(PAHO)
if not ABSENT:
    import paho.mqtt.client as paho
    from paho.mqtt.packettypes import PacketTypes
    from paho.mqtt.properties import Properties

    from paho_recorder import ClientRecording, record

CONNACK, CONNACK_RESUMED = "2003000000", "2003010000"
PUBLISH_QOS_1, PUBLISH_QOS_2 = "32070001610007 0078", "34070001610009 0079"  # topic a; identifiers 7 and 9
PUBREL_9, PUBCOMP_9, PUBREC_9, PUBACK_7 = "62020009", "70020009", "50020009", "40020007"
PINGRESP, DISCONNECT = "d000", "e000"


class Server:
    """A server for one connection after the other. It says what the test has it say."""

    def __init__(self) -> None:
        self.listener = socket.create_server(("127.0.0.1", 0))
        self.listener.settimeout(10)
        self.port = self.listener.getsockname()[1]
        self.connection: socket.socket | None = None

    def accept(self, *answers: str) -> None:
        """Takes the next connection and its CONNECT, and answers."""
        self.drop()
        self.connection, _ = self.listener.accept()
        self.connection.settimeout(10)
        header = self.take(2)
        self.take(header[1])
        self.say(*answers)

    def take(self, count: int) -> bytes:
        assert self.connection is not None
        data = b""
        while len(data) < count:
            more = self.connection.recv(count - len(data))
            if not more:
                raise EOFError(data.hex())
            data += more
        return data

    def wants(self, test: unittest.TestCase, digits: str) -> None:
        test.assertEqual(self.take(len(bytes.fromhex(digits))).hex(), bytes.fromhex(digits).hex())

    def say(self, *packets: str) -> None:
        assert self.connection is not None
        self.connection.sendall(bytes.fromhex("".join(packets)))

    def drop(self) -> None:
        if self.connection is not None:
            self.connection.close()
            self.connection = None

    def close(self) -> None:
        self.drop()
        self.listener.close()


@unittest.skipIf(ABSENT, ABSENT)
class Case(InFolder):
    def client(self, identifier: str = "c", **options: Any) -> paho.Client:
        client = paho.Client(identifier, protocol=paho.MQTTv5, **options)
        self.addCleanup(self.stop, client)
        return client

    def stop(self, client: paho.Client) -> None:
        client.loop_stop()
        client._reset_sockets()

    def log(self, name: str = "c") -> Path:
        return self.logs / f"{name}.1.client.log"

    def kinds(self, name: str = "c") -> str:
        """The records' kinds, joined by direction, and the packets' first digits."""
        return " ".join(word[:7].replace(" ", ":") for word in joined(self.log(name).read_bytes()))


class Scripted(Case):
    """A log, record by record, where paho's loop is called by the test."""

    def setUp(self) -> None:
        super().setUp()
        self.server = Server()
        self.addCleanup(self.server.close)

    def connected(self, *answers: str, setting: Callable[[paho.Client], None] = lambda client: None) -> paho.Client:
        """A client that has a connection, and a session that lasts."""
        client = self.client()
        setting(client)
        self.recording = record(client, self.logs)
        properties = Properties(PacketTypes.CONNECT)
        properties.SessionExpiryInterval = 300
        client.connect("127.0.0.1", self.server.port, properties=properties)
        self.server.accept(CONNACK, *answers)
        wait_until(lambda: self.round(client) and client.is_connected())
        return client

    def round(self, client: paho.Client) -> bool:
        client.loop(0.05)
        return True

    def rounds(self, client: paho.Client, count: int = 4) -> None:
        for _ in range(count):
            self.round(client)

    def tail(self, count: int) -> list[str]:
        return joined(self.log().read_bytes())[-count:]

    def test_header_and_first_records(self) -> None:
        self.connected()
        log = self.log().read_bytes()
        self.assertEqual(log[:8].hex(), "4d51545202000100")
        self.assertEqual([word.split()[0] for word in joined(log)[:3]], ["OPEN", "SENT", "RECV"])
        self.assertEqual(joined(log)[2], f"RECV {CONNACK}")

    def test_a_release_is_between_pubrel_and_pubcomp_and_before_the_callback(self) -> None:
        seen: list[str] = []

        def on_message(client: Any, data: Any, message: Any) -> None:
            seen.append(words(self.log().read_bytes())[-1])

        client = self.connected(setting=lambda client: setattr(client, "on_message", on_message))
        self.server.say(PUBLISH_QOS_2)
        wait_until(lambda: self.round(client) and bool(client._in_messages))
        self.server.wants(self, PUBREC_9)
        self.server.say(PUBREL_9)
        wait_until(lambda: self.round(client) and not client._in_messages)
        self.server.wants(self, PUBCOMP_9)
        self.assertEqual(seen, ["RELEASE 0009"])
        wanted = [f"SENT {PUBREC_9}", f"RECV {PUBREL_9}", "RELEASE 0009", f"SENT {PUBCOMP_9}"]
        self.assertEqual([word for word in joined(self.log().read_bytes()) if word != "REST"][-4:], wanted)
        self.assertEqual(verdict(self.log()), "pass")

    def test_a_message_that_goes_to_nobody_is_released_too(self) -> None:
        """There is no callback at all, or only one for another topic: without a RELEASE the message would seem lost."""
        def other(client: Any, data: Any, message: Any) -> None:
            self.fail("it is for another topic")

        for topic in ("", "other"):
            with self.subTest(topic=topic):
                client = self.connected(setting=lambda client: topic and client.message_callback_add(topic, other))
                self.server.say(PUBLISH_QOS_2)
                self.server_takes(client, PUBREC_9)
                self.server.say(PUBREL_9)
                self.server_takes(client, PUBCOMP_9)
                log = self.logs / f"c.{2 if topic else 1}.client.log"
                self.assertEqual(joined(log.read_bytes()).count("RELEASE 0009"), 1)
                self.assertEqual(verdict(log), "pass")
                self.stop(client)

    def test_a_message_that_comes_again_is_released_once(self) -> None:
        client = self.connected()
        self.server.say(PUBLISH_QOS_2)
        wait_until(lambda: self.round(client) and bool(client._in_messages))
        self.server.wants(self, PUBREC_9)
        self.server.drop()
        wait_until(lambda: self.round(client) and client._sock is None)
        client.reconnect()
        self.server.accept(CONNACK_RESUMED, PUBLISH_QOS_2.replace("34", "3c", 1))
        self.server_takes(client, PUBREC_9)
        self.server.say(PUBREL_9)
        self.server_takes(client, PUBCOMP_9)
        self.server.say(PUBREL_9)
        self.server_takes(client, PUBCOMP_9)
        self.assertEqual(self.kinds().count("RELEASE"), 1)
        self.assertEqual(verdict(self.log()), "pass")

    def server_takes(self, client: paho.Client, digits: str) -> None:
        assert self.server.connection is not None
        self.server.connection.settimeout(0.01)
        got = b""
        while len(got) < len(digits) // 2:
            self.round(client)
            with contextlib.suppress(TimeoutError):
                got += self.server.connection.recv(len(digits) // 2 - len(got))
        self.server.connection.settimeout(10)
        self.assertEqual(got.hex(), digits)

    def test_rest_where_a_round_goes_by_without_a_byte_and_once(self) -> None:
        client = self.connected(PUBLISH_QOS_1)
        self.server_takes(client, PUBACK_7)
        self.rounds(client)
        self.assertEqual(self.tail(2), [f"SENT {PUBACK_7}", "REST"])
        self.rounds(client)
        self.assertEqual(self.tail(2), [f"SENT {PUBACK_7}", "REST"])
        self.server.say(PINGRESP)
        self.rounds(client)
        self.assertEqual(self.tail(2), [f"RECV {PINGRESP}", "REST"])

    def test_rest_before_a_disconnect_and_none_after_it(self) -> None:
        client = self.connected()
        client.disconnect()
        self.rounds(client, 2)
        self.assertEqual(self.tail(3), ["REST", f"SENT {DISCONNECT}", "CLOSE"])

    def test_no_rest_before_a_disconnect_that_goes_before_an_answer(self) -> None:
        def ends(client: paho.Client) -> None:
            client.on_message = lambda client, *_: client.disconnect()

        client = self.connected(setting=ends)
        self.server.say(PUBLISH_QOS_1)
        wait_until(lambda: self.round(client) and client._sock is None)
        self.assertNotIn("REST", self.tail(3)[1:])
        self.assertEqual(self.tail(2), [f"SENT {DISCONNECT}", "CLOSE"])
        self.assertEqual(verdict(self.log()), "pass")

    def test_no_rest_while_an_answer_waits_to_be_written(self) -> None:
        client = self.connected()
        self.rounds(client)
        client.on_socket_register_write = lambda *_: None  # then paho leaves writing to the program
        self.server.say(PUBLISH_QOS_1)
        wait_until(lambda: client.loop_read() is not None and bool(client._out_packet))
        for _ in range(3):
            client.loop_misc()
        self.assertTrue(self.tail(1)[0].startswith("RECV"))
        client.loop_write()
        client.loop_misc()
        client.loop_misc()
        self.assertEqual(self.tail(2), [f"SENT {PUBACK_7}", "REST"])

    def test_no_rest_at_a_reconnect_that_drops_an_answer(self) -> None:
        client = self.connected()
        self.rounds(client)
        client.on_socket_register_write = lambda *_: None
        self.server.say(PUBLISH_QOS_1)
        wait_until(lambda: client.loop_read() is not None and bool(client._out_packet))
        client.reconnect()
        self.assertEqual([word.split()[0] for word in self.tail(3)], ["REST", "RECV", "CLOSE"])

    def test_no_rest_in_the_middle_of_a_packet(self) -> None:
        client = self.connected()
        self.rounds(client)
        self.server.say(PUBLISH_QOS_1[:8])
        self.rounds(client)
        self.assertEqual(self.tail(2), ["REST", f"RECV {PUBLISH_QOS_1[:8]}"])

    def test_no_rest_while_messages_wait_to_be_sent(self) -> None:
        def narrow(client: paho.Client) -> None:
            client.max_inflight_messages_set(1)

        client = self.connected(setting=narrow)
        client.publish("a", "x", 1)
        client.publish("a", "y", 1)
        self.rounds(client)
        self.assertNotIn("REST", self.tail(1))
        self.server.say("40020001")
        self.rounds(client)
        self.assertEqual(self.tail(2), ["SENT " + "32070001610002 0079".replace(" ", ""), "REST"])

    def test_what_is_under_way_is_sent_again(self) -> None:
        client = self.connected()
        for number in range(1, 4):
            client.publish("a", str(number), 1 + number % 2)
        packets = ["34070001610001 0031", "32070001610002 0032", "34070001610003 0033"]
        self.server_takes(client, "".join(packets).replace(" ", ""))
        self.server.say("50020001")
        self.server_takes(client, "62020001")
        self.server.drop()
        wait_until(lambda: self.round(client) and client._sock is None)
        client.reconnect()
        self.server.accept(CONNACK_RESUMED)
        again = ["62020001", "3a070001610002 0032", "3c070001610003 0033"]
        self.server_takes(client, "".join(again).replace(" ", ""))
        self.rounds(client)
        self.assertEqual(self.tail(1), ["REST"])
        self.assertEqual(verdict(self.log()), "pass")

    def test_what_was_never_written_is_sent_with_dup(self) -> None:
        """A true fault of paho-mqtt 1.6.1: it takes for sent what it has put into its queue."""
        client = self.connected()
        client.on_socket_register_write = lambda *_: None
        client.publish("a", "x", 1)
        client.reconnect()
        client.loop_write()
        self.server.accept(CONNACK_RESUMED)
        client.on_socket_register_write = None
        self.server_takes(client, "3a070001610001 0078".replace(" ", ""))
        self.assertEqual(verdict(self.log()), "S02")

    def test_rest_where_the_server_ends_the_connection(self) -> None:
        client = self.connected(PUBLISH_QOS_1)
        self.server_takes(client, PUBACK_7)
        self.server.drop()
        wait_until(lambda: self.round(client) and client._sock is None)
        self.assertEqual(self.tail(2), ["REST", "CLOSE"])

    def test_rest_where_it_goes_on_though_what_came_is_broken(self) -> None:
        """paho overlooks flags that are wrong, and a length that is longer than it need be. It is at rest by its queues."""
        client = self.connected()
        self.rounds(client)
        for broken in ("d100", "d08000"):
            self.server.say(broken)
            self.rounds(client)
            self.assertEqual(self.tail(2), [f"RECV {broken}", "REST"])
        self.server.say(PINGRESP)
        self.rounds(client, 1)
        self.server.drop()
        wait_until(lambda: self.round(client) and client._sock is None)
        self.assertEqual(self.tail(1), ["CLOSE"])
        self.assertEqual(verdict(self.log()), "pass")

    def test_no_rest_before_the_end_where_it_leaves_for_what_is_broken(self) -> None:
        client = self.connected()
        self.rounds(client)
        self.server.say("d100", "d0ffffffff01")
        wait_until(lambda: self.round(client) and client._sock is None)
        self.assertEqual(self.tail(2), ["RECV d100d0ffffffff01", "CLOSE"])

    def test_no_rest_before_the_connack(self) -> None:
        client = self.client()
        self.recording = record(client, self.logs)
        client.connect("127.0.0.1", self.server.port)
        self.server.accept()
        self.rounds(client)
        client.disconnect()
        self.rounds(client)
        self.assertNotIn("REST", joined(self.log().read_bytes()))

    def test_an_exception_of_the_program_leaves_no_rest(self) -> None:
        def fails(*_: Any) -> None:
            raise RuntimeError("the program's")

        client = self.connected(setting=lambda client: setattr(client, "on_message", fails))
        self.rounds(client)
        self.server.say(PUBLISH_QOS_1)
        with self.assertRaisesRegex(RuntimeError, "the program's"):
            self.rounds(client, 20)
        self.stop(client)
        self.assertEqual([word.split()[0] for word in self.tail(3)], ["REST", "RECV", "CLOSE"])

    def test_what_a_server_says_that_is_no_mqtt(self) -> None:
        wrong = ("ffffffffff", "00000000", "2000", "f0ffffffff7f", "400100", "6203000100", "30ff7f")
        for number, digits in enumerate(wrong):
            with self.subTest(digits=digits):
                self.logs = self.folder / str(number)
                client = self.connected()
                with contextlib.suppress(Exception):  # paho's own: some bytes make it fail
                    self.server.say(digits)
                    self.server.drop()
                    self.rounds(client, 10)
                self.stop(client)
                self.assertTrue(joined(self.log().read_bytes())[2].startswith(f"RECV {CONNACK}"))
                self.assertNotIn("refused", verdict(self.log()))

    def test_a_client_that_lost_its_session_is_judged_for_it(self) -> None:
        client = self.client()
        record(client, self.logs)
        client.connect("127.0.0.1", self.server.port, clean_start=False)
        self.server.accept(CONNACK_RESUMED)
        self.server_takes_nothing(client)
        client.publish("a", "x")
        self.rounds(client)
        self.assertEqual(verdict(self.log()), "C13")

    def server_takes_nothing(self, client: paho.Client) -> None:
        wait_until(lambda: self.round(client) and client.is_connected())

    def test_or_its_session_is_left_out(self) -> None:
        client = self.client()
        with contextlib.redirect_stderr(io.StringIO()) as errors:
            record(client, self.logs, from_start=False)
            client.connect("127.0.0.1", self.server.port, clean_start=False)
            self.server.accept(CONNACK_RESUMED)
            self.server_takes_nothing(client)
        self.assertEqual(errors.getvalue(), "not recorded: c resumes a session that began before the recording\n")
        self.assertFalse(self.log().exists())

    def test_finish_ends_the_recording_and_not_the_client(self) -> None:
        client = self.connected()
        self.recording.finish()
        log = self.log().read_bytes()
        self.assertEqual(joined(log)[-1], "REST")
        self.server.say(PUBLISH_QOS_1)
        self.server_takes(client, PUBACK_7)
        client.disconnect()
        self.assertEqual(self.log().read_bytes(), log)

    def test_a_recorder_that_fails_leaves_the_client_alone(self) -> None:
        (self.folder / "logs").write_text("no folder")
        with contextlib.redirect_stderr(io.StringIO()) as errors:
            client = self.connected(PUBLISH_QOS_1)
            self.server_takes(client, PUBACK_7)
            client.disconnect()
        self.assertEqual(errors.getvalue().count("\n"), 1, errors.getvalue())
        self.assertIn("recording stopped", errors.getvalue())

    def test_the_client_goes_when_it_is_let_go(self) -> None:
        client = paho.Client("c", protocol=paho.MQTTv5)
        record(client, self.logs)
        client.connect("127.0.0.1", self.server.port)
        self.server.accept(CONNACK)
        gone = weakref.ref(client)
        gc.disable()
        try:
            del client
            self.assertIsNone(gone())
        finally:
            gc.enable()
        with self.assertRaises((EOFError, ConnectionResetError)):
            self.server.take(1)


class Versions(Case):
    def test_a_log_for_old_readers(self) -> None:
        server, client = Server(), self.client()
        self.addCleanup(server.close)
        record(client, self.logs, log_version=1)
        client.connect("127.0.0.1", server.port)
        server.accept(CONNACK)
        wait_until(lambda: client.loop(0.05) is not None and client.is_connected())
        self.assertEqual(self.log().read_bytes()[:8].hex(), "4d51545201000100")
        self.assertEqual(joined(self.log().read_bytes())[2], f"RECV {CONNACK}")

    def test_a_version_that_is_none(self) -> None:
        with self.assertRaisesRegex(ValueError, "no version 3"):
            record(self.client(), self.logs, log_version=3)


class Refused(Case):
    def test_other_versions_and_clients_that_are_under_way(self) -> None:
        with self.assertRaisesRegex(ValueError, "MQTT 5.0"):
            record(paho.Client("c"), self.logs)
        client = self.client()
        recording = record(client, self.logs)
        with self.assertRaisesRegex(ValueError, "already"):
            record(client, self.logs)
        recording.finish()
        self.assertIsInstance(record(client, self.logs), ClientRecording)
        server = Server()
        self.addCleanup(server.close)
        late = self.client("late")
        late.connect("127.0.0.1", server.port)
        with self.assertRaisesRegex(ValueError, "before its first connect"):
            record(late, self.logs)


@unittest.skipIf(missing("mosquitto"), missing("mosquitto"))
class Mosquitto(Case):
    """Clients with a thread of their own, and a real broker. The verdict on each is known."""

    def start(
        self, identifier: str, port: int, expiry: int = 0, clean_start: Any = True, **options: Any
    ) -> paho.Client:
        client = self.client(identifier, **options)
        client.received = []
        client.on_message = lambda client, data, message: client.received.append(message.payload)
        record(client, self.logs)
        self.connect(client, port, expiry, clean_start)
        client.loop_start()
        wait_until(client.is_connected)
        return client

    def connect(self, client: paho.Client, port: int, expiry: int = 0, clean_start: Any = True) -> None:
        properties = Properties(PacketTypes.CONNECT)
        properties.SessionExpiryInterval = expiry
        client.connect("127.0.0.1", port, clean_start=clean_start, properties=properties)

    def end(self, client: paho.Client) -> None:
        client.disconnect()
        client.loop_stop()

    def exchange(self, port: int, **options: Any) -> None:
        """All levels of QoS, both ways, in one client."""
        client = self.start("c", port, **options)
        subscribed = threading.Event()
        client.on_subscribe = lambda *_: subscribed.set()
        client.subscribe([("a/#", paho.SubscribeOptions(qos=2)), ("b", paho.SubscribeOptions(qos=1))])
        self.assertTrue(subscribed.wait(10))
        kinds = [(number, qos, topic) for number in range(5) for qos in range(3) for topic in ("a/b", "b")]
        sent = [client.publish(topic, f"{topic}{qos}{number}", qos) for number, qos, topic in kinds]
        sent.append(client.publish("a/large", bytes(300_000), 2))
        for info in sent:
            info.wait_for_publish(10)
        wait_until(lambda: len(client.received) == len(sent))
        client.unsubscribe("b")
        wait_until(lambda: "REST" == words(self.log().read_bytes())[-1])
        self.end(client)

    def test_all_levels_of_qos_both_ways(self) -> None:
        with mosquitto(self.folder) as port:
            self.exchange(port)
        kinds = self.kinds().split()
        self.assertEqual(verdict(self.log()), "pass")
        self.assertEqual(kinds.count("RELEASE:"[:7]), 6)
        self.assertEqual(kinds[-3:], ["REST", "SENT:e0", "CLOSE"])

    @unittest.skipIf(missing("openssl"), missing("openssl"))
    def test_over_tls(self) -> None:
        key, certificate, port = self.folder / "key.pem", self.folder / "certificate.pem", free_port()
        make_certificate(key, certificate)
        original = self.client

        def with_tls(identifier: str, **options: Any) -> paho.Client:
            client = original(identifier, **options)
            client.tls_set_context(ssl.create_default_context(cafile=str(certificate)))
            return client

        self.client = with_tls  # type: ignore[method-assign]
        with mosquitto(self.folder, f"listener {port} 127.0.0.1\ncertfile {certificate}\nkeyfile {key}\n"):
            self.exchange(port)
        self.assertEqual(verdict(self.log()), "pass")

    def test_a_session_is_resumed_with_what_waited_for_it(self) -> None:
        with mosquitto(self.folder) as port:
            subscriber = self.start("c", port, expiry=300)
            subscriber.subscribe("a", 2)
            wait_until(lambda: "SENT:82" in self.kinds() and self.kinds().endswith("REST"))
            self.end(subscriber)
            publisher = self.start("p", port)
            for info in [publisher.publish("a", str(number), number % 3) for number in range(12)]:
                info.wait_for_publish(10)
            self.end(publisher)
            self.connect(subscriber, port, 300, False)
            subscriber.loop_start()
            wait_until(lambda: len(subscriber.received) == 8)  # mosquitto keeps none of QoS 0
            wait_until(lambda: self.kinds().endswith("REST"))
            self.end(subscriber)
        self.assertEqual(self.kinds().count("OPEN"), 2)
        self.assertIn("RECV 20", self.resumed())
        self.assertEqual((verdict(self.log()), verdict(self.log("p"))), ("pass", "pass"))

    def resumed(self) -> str:
        """The CONNACK of the second connection."""
        log = joined(self.log().read_bytes())
        return log[log.index("OPEN", 1) + 2]

    def test_a_connection_that_breaks_is_made_again(self) -> None:
        with mosquitto(self.folder) as port:
            client = self.start("c", port, expiry=300, clean_start=paho.MQTT_CLEAN_START_FIRST_ONLY)
            client.reconnect_delay_set(1, 1)
            client.subscribe("a", 2)
            wait_until(lambda: "SENT:82" in self.kinds() and self.kinds().endswith("REST"))
            client.socket().shutdown(socket.SHUT_RDWR)
            publisher = self.start("p", port)
            for info in [publisher.publish("a", str(number), 1 + number % 2) for number in range(50)]:
                info.wait_for_publish(20)
            self.end(publisher)
            wait_until(lambda: len(client.received) == 50 and self.kinds().endswith("REST"))
            self.end(client)
        self.assertEqual(self.kinds().count("OPEN"), 2)
        self.assertEqual((verdict(self.log()), verdict(self.log("p"))), ("pass", "pass"))

    def test_a_receive_maximum_that_is_not_kept(self) -> None:
        """A true fault of paho-mqtt 1.6.1: it looks at no Receive Maximum of the server."""
        with mosquitto(self.folder, "max_inflight_messages 5\n") as port:
            client = self.client()
            record(client, self.logs)
            self.connect(client, port)
            wait_until(lambda: client.loop(0.05) is not None and client.is_connected())
            for info in [client.publish("a", str(number), 2) for number in range(20)]:
                while not info.is_published():
                    client.loop(0.05)
            client.disconnect()
        codes = set(verdict(self.log()).split())
        self.assertLessEqual(codes, {"S07", "E3A"})  # mosquitto refuses some, and paho answers that by a PUBREL
        self.assertIn("S07", codes)

    def test_a_refused_message_that_is_released_all_the_same(self) -> None:
        """A true fault of paho-mqtt 1.6.1: it answers a PUBREC that refuses by a PUBREL."""
        (self.folder / "acl").write_text("topic readwrite free\n")
        with mosquitto(self.folder, f"acl_file {self.folder / 'acl'}\n") as port:
            client = self.start("c", port)
            client.publish("denied", "x", 2)
            client.publish("free", "x", 2).wait_for_publish(10)
            self.end(client)
        self.assertEqual(verdict(self.log()), "E3A")

    def test_a_program_that_publishes_from_other_threads(self) -> None:
        with mosquitto(self.folder) as port:
            client = self.client()
            record(client, self.logs)
            self.connect(client, port, 300)
            loop = threading.Thread(target=client.loop_forever)  # paho doesn't know of this thread: each one writes
            loop.start()
            wait_until(client.is_connected)

            def publish() -> None:
                for info in [client.publish("a", str(number), number % 3) for number in range(50)]:
                    info.wait_for_publish(20)

            threads = [threading.Thread(target=publish) for _ in range(4)]
            for thread in threads:
                thread.start()
            for thread in threads:
                thread.join()
            wait_until(lambda: self.kinds().endswith("REST"))
            client.disconnect()
            loop.join()
        self.assertEqual(verdict(self.log()), "pass")


if __name__ == "__main__":
    unittest.main()
