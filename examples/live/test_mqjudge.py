"""Tests of the library by its Python module: what it says of logs and of events, and its answers to misuse."""
from __future__ import annotations

import ctypes
import unittest
from pathlib import Path
from unittest import mock

import mqjudge
from mqjudge import CLIENT, SERVER, STATUS, Handle, Judge, Row, Trouble, library

EXAMPLES = Path(__file__).resolve().parent.parent
HEADER = b"MQTR\x01\x00\x01\x00"
OPEN = b"\x01\x00\x00\x00\x00"
CONNECT = b"\x10\x0d\x00\x04MQTT\x05\x02\x00\x3c\x00\x00\x00"
CONNACK = b"\x20\x03\x00\x00\x00"
CHOICES = {
    "W": lambda code: code.startswith("W"),
    "all,-W,-C": lambda code: code[0] not in "WCK",
    "times,-W,-C": lambda code: code[0] not in "WC",
    "K": lambda code: code.startswith("K"),
    "times,-all": lambda code: code[0] == "K",
    "C02,C02,S": lambda code: code == "C02" or code.startswith("S"),
}
SUBSCRIBE = b"\x82\x07\x00\x01\x00\x00\x01a\x00"


def judged(log: bytes, size: int) -> tuple[list[tuple[int, str, int]], object]:
    with Judge() as judge:
        try:
            for at in range(0, len(log), size):
                judge.feed(log[at : at + size])
            end: object = judge.finish()
        except Trouble as trouble:
            end = trouble.refusal
        return [(fault.position, fault.code, fault.decided) for fault in judge.faults()], end


def tell(judge: Judge, log: bytes) -> None:
    """Tells a judge what the records of a log of version 1 say."""
    at = len(HEADER)
    while at < len(log):
        kind, size = log[at], int.from_bytes(log[at + 1 : at + 5], "big")
        body = log[at + 5 : at + 5 + size]
        at += 5 + size
        if kind in (2, 3):
            (judge.sent if kind == 2 else judge.received)(body)
        elif kind == 6:
            judge.release(int.from_bytes(body, "big"))
        else:
            {1: judge.open, 4: judge.close, 5: judge.rest}[kind]()


def publish_of(size: int) -> bytes:
    """A PUBLISH of QoS 1 under the Packet Identifier 7, of so many bytes."""
    digits = 3 if size <= 2_097_155 else 4
    remaining = size - 1 - digits
    length = bytes((remaining >> 7 * n) & 127 | (128 if n < digits - 1 else 0) for n in range(digits))
    return b"\x32" + length + b"\x00\x01a\x00\x07\x00" + bytes(remaining - 6)


def report(judge: Judge) -> str:
    """The report on all that a judge was told, as `mqjudge check` writes it."""
    events, lines = judge.finish(), []
    for fault in judge.faults():
        offset = "-" if fault.offset is None else fault.offset
        words = f"{fault.position} {fault.code} {fault.citation} decided {fault.decided} record {fault.record}"
        lines.append(f"fault {words} offset {offset}\n")
    return "".join(lines) + (f"fail {len(lines)} faults" if lines else "pass") + f" {events} events\n"


def chosen_for(path: Path) -> str:
    """A list of the statements by which a report was made: those of the suite on further ones were made by these too."""
    code = path.name[:3]
    is_further = path.parent.name == "suite" and (code[0] in "FVDAKPR" or code in ("B05", "B06", "B07", "B08", "B09", "C24"))
    return "times" if is_further else "default"


class Reports(unittest.TestCase):
    """The reports of the conformance suite, written from the statements' words, and those of recorded sessions."""

    def test_reports(self) -> None:
        logs = sorted(EXAMPLES.glob("suite/*.log")) + sorted(EXAMPLES.glob("sessions/*.log"))
        self.assertGreater(len(logs), 148)
        for path in logs:
            log, wanted = path.read_bytes(), path.with_suffix(".report").read_text()
            with self.subTest(path.name), Judge(statements=chosen_for(path)) as fed:
                fed.feed(log)
                self.assertEqual(report(fed), wanted)
            if log[4] == 1:
                with self.subTest(path.name), Judge.of(log[5], log[6] == 1, statements=chosen_for(path)) as told:
                    tell(told, log)
                    self.assertEqual(report(told), wanted)


class Logs(unittest.TestCase):
    def test_pieces_make_no_difference(self) -> None:
        for path in sorted(EXAMPLES.glob("*.log")) + sorted(EXAMPLES.glob("sessions/**/*.log")):
            log = path.read_bytes()
            with self.subTest(path.name):
                whole = judged(log, len(log))
                self.assertEqual(whole, judged(log, 1 if len(log) < 100_000 else 4099))

    def test_citations_are_those_of_the_tested_end(self) -> None:
        """S01 has one for each end. A log says in its header which end it is about, also if that comes in pieces."""
        for name, citation in (("identifier-in-use", "MQTT-2.2.1-3"), ("sessions/server-killed", "MQTT-2.2.1-4")):
            for size in (1, 4, 6, 1000):
                log = (EXAMPLES / f"{name}.log").read_bytes()
                with Judge() as judge:
                    for at in range(0, len(log), size):
                        judge.feed(log[at : at + size])
                    judge.finish()
                    self.assertEqual([fault.citation for fault in judge.faults() if fault.code == "S01"][:1], [citation])

    def test_a_worked_log(self) -> None:
        faults, events = judged((EXAMPLES / "identifier-in-use.log").read_bytes(), 64)
        self.assertEqual([code for _, code, _ in faults], ["S01"])
        self.assertGreater(events, 0)

    def test_a_log_with_moments(self) -> None:
        def record(kind: int, moment: int, body: bytes = b"") -> bytes:
            return bytes([kind]) + len(body).to_bytes(4, "big") + moment.to_bytes(8, "big") + body

        log = b"MQTR\x02\x00\x01\x00" + record(1, 2**64 - 1) + record(2, 0, b"\xe0\x00")
        for size in (1, 5, len(log)):
            self.assertEqual(judged(log, size), ([(2, "C02", 2)], 2))
        self.assertEqual(judged(log + record(4, 7)[:-1], 3), ([(2, "C02", 2)], (10, "Cut", len(log) + 12)))

    def test_garbage_is_refused_for_ever(self) -> None:
        with Judge() as judge:
            for _ in range(3):
                with self.assertRaises(Trouble) as said:
                    judge.feed(b"MQTQ")
                self.assertEqual(said.exception.refusal, (1, "Header", 3))
            with self.assertRaises(Trouble):
                judge.finish()
            self.assertEqual(judge.count(), 0)

    def test_a_log_that_is_cut_short_keeps_its_faults(self) -> None:
        with Judge() as judge:
            judge.feed(HEADER + OPEN + b"\x02\x00\x00\x00\x02\xe0\x00" + b"\x02")
            with self.assertRaises(Trouble) as said:
                judge.finish()
            self.assertEqual(said.exception.refusal, (10, "Cut", 21))
            self.assertEqual([fault.code for fault in judge.faults()], ["C02"])


class Events(unittest.TestCase):
    def test_a_fault_is_known_at_its_packet(self) -> None:
        with Judge.of(CLIENT) as judge:
            judge.open()
            judge.sent(CONNECT)
            judge.received(CONNACK)
            judge.sent(SUBSCRIBE)
            self.assertEqual(judge.count(), 0)
            judge.sent(SUBSCRIBE)
            [fault] = judge.faults()
            self.assertEqual((fault.position, fault.code, fault.decided, fault.record), (5, "S01", 5, 5))
            self.assertTrue(fault.sentence.startswith("A new PUBLISH"))
            judge.close()
            self.assertEqual(judge.finish(), 6)
            self.assertEqual(len(judge.faults()), 1)

    def test_events_are_the_log_that_they_make(self) -> None:
        with Judge.of(SERVER, releases=True) as judge:
            judge.open()
            judge.received(CONNECT)
            judge.release(7)
            judge.sent(CONNACK)
            judge.rest()
            judge.close()
            told = [fault[:5] for fault in judge.faults()]

        def record(kind: int, body: bytes = b"") -> bytes:
            return bytes([kind]) + len(body).to_bytes(4, "big") + body

        log = b"MQTR\x01\x01\x01\x00" + record(1) + record(3, CONNECT) + record(6, b"\x00\x07") + record(2, CONNACK)
        with Judge() as judge:
            judge.end = SERVER
            judge.feed(log + record(5) + record(4))
            self.assertEqual([fault[:5] for fault in judge.faults()], told)
        self.assertTrue(told)

    def test_an_event_of_many_bytes_is_split(self) -> None:
        """After a PUBLISH of so many bytes, the number of the record that takes its identifier again."""
        most = 1_048_576
        for size, records in ((most - 1, 1), (most, 1), (most + 1, 2), (2 * most, 2), (2 * most + 1, 3), (5 * most + 1, 6)):
            packet = publish_of(size)
            self.assertEqual(len(packet), size)
            with self.subTest(size), Judge.of(CLIENT) as judge:
                judge.open()
                judge.sent(CONNECT)
                judge.received(CONNACK)
                judge.sent(packet)
                self.assertEqual(judge.count(), 0)
                judge.sent(b"\x32\x07\x00\x01a\x00\x07\x00x")
                [fault] = judge.faults()
                self.assertEqual((fault.code, fault.record), ("S01", 3 + records + 1))

    def test_a_direction_is_lost_in_the_middle_of_many_bytes(self) -> None:
        with Judge.of(CLIENT) as judge:
            judge.open()
            judge.sent(b"\x10\xff\xff\x7f" + bytes(2_097_151))
            self.assertEqual(judge.count(), 1)

    def test_a_new_fault_is_given_once(self) -> None:
        publish = b"\x32\x07\x00\x01a\x00\x01\x00x"
        with Judge.of(CLIENT) as judge:
            judge.open()
            judge.sent(CONNECT)
            self.assertEqual(judge.new_faults(), [])
            judge.received(CONNACK)
            judge.received(publish)
            judge.sent(SUBSCRIBE)
            judge.sent(SUBSCRIBE)
            self.assertEqual([(fault.position, fault.code, fault.decided) for fault in judge.new_faults()], [(6, "S01", 6)])
            self.assertEqual(judge.new_faults(), [])
            judge.rest()
            self.assertEqual([(fault.position, fault.code, fault.decided) for fault in judge.new_faults()], [(4, "E1R", 7)])
            judge.sent(SUBSCRIBE)
            with self.assertRaises(Trouble):
                judge.open()
            self.assertEqual([(fault.position, fault.code, fault.decided) for fault in judge.new_faults()], [(8, "S01", 8)])
            self.assertEqual(judge.new_faults(), [])
            self.assertEqual([fault.position for fault in judge.faults()], [4, 6, 8])

    def test_each_fault_is_given_once_in_each_log(self) -> None:
        for path in sorted(EXAMPLES.glob("suite/*.log")) + sorted(EXAMPLES.glob("*.log")):
            log, given = path.read_bytes(), []
            with self.subTest(path.name), Judge() as judge:
                for at in range(0, len(log), 3):
                    try:
                        judge.feed(log[at : at + 3])
                    except Trouble:
                        pass
                    given += judge.new_faults()
                self.assertEqual(given, sorted(given, key=lambda fault: fault.decided))
                self.assertEqual(sorted(given), sorted(judge.faults()))
                self.assertEqual(len(given), len(set(given)))

    def test_a_weight_is_what_is_open(self) -> None:
        with Judge.of(CLIENT) as judge:
            self.assertEqual(judge.weight(), 0)
            judge.open()
            judge.sent(CONNECT)
            judge.received(CONNACK)
            empty = judge.weight()
            for identifier in range(1, 101):
                judge.sent(b"\x32\x07\x00\x01a" + identifier.to_bytes(2, "big") + b"\x00x")
            self.assertGreaterEqual(judge.weight(), empty + 100)
            for identifier in range(1, 101):
                judge.received(b"\x40\x02" + identifier.to_bytes(2, "big"))
            self.assertEqual(judge.weight(), empty)

    def test_places_are_those_of_the_suite(self) -> None:
        files = sorted((EXAMPLES / "suite").glob("*.places"))
        self.assertEqual(len(files), 188)
        for file in files:
            lines = [line.split() for line in file.read_text().splitlines() if line.startswith("tested ")]
            with self.subTest(file.stem), Judge(statements="times") as judge:
                judge.feed(file.with_suffix(".log").read_bytes())
                wanted = {words[1]: int(words[-1]) for words in lines}
                self.assertEqual({code: judge.places(code) for code in wanted}, wanted)

    def test_places_grow_with_what_is_told(self) -> None:
        with Judge.of(CLIENT) as judge:
            self.assertEqual(judge.places("C02"), 0)
            judge.open()
            judge.sent(CONNECT)
            self.assertEqual((judge.places("C02"), judge.places("W18"), judge.places("C05")), (1, 1, 0))
            with self.assertRaises(Trouble):
                judge.call("places", 74, ctypes.byref(ctypes.c_uint32()))

    def test_a_choice_leaves_the_faults_of_its_statements(self) -> None:
        for path in sorted(EXAMPLES.glob("suite/*.log")):
            log = path.read_bytes()
            with Judge(statements="times") as judge:
                judge.feed(log)
                faults, told = judge.faults(), judge.new_faults()
            for statements, chosen in CHOICES.items():
                with self.subTest(path.name, statements=statements), Judge(statements=statements) as judge:
                    judge.feed(log)
                    wanted = [fault for fault in faults if chosen(fault.code)]
                    self.assertEqual((judge.count(), judge.faults()), (len(wanted), wanted))
                    self.assertEqual(judge.new_faults(), [fault for fault in told if chosen(fault.code)])

    def test_places_are_those_of_chosen_statements(self) -> None:
        with Judge.of(CLIENT, statements="C") as judge:
            judge.open()
            judge.sent(CONNECT)
            self.assertEqual(judge.places("C02"), 1)
            with self.assertRaises(Trouble):
                judge.places("W18")

    def test_two_judges_are_independent(self) -> None:
        with Judge.of(CLIENT) as one, Judge.of(CLIENT) as other:
            one.open()
            one.sent(b"\xc0\x00")
            self.assertEqual((one.count(), other.count()), (1, 0))


class Misuse(unittest.TestCase):
    def answers(self, name: str, judge: Judge, *arguments: object) -> str:
        return STATUS[judge.ask(name, *arguments)]

    def test_an_order_that_is_wrong(self) -> None:
        with Judge() as judge:
            self.assertEqual(self.answers("open", judge), "order")
            judge.feed(HEADER)
            self.assertEqual(self.answers("begin", judge, 0, 0), "order")
            judge.finish()
            self.assertEqual(self.answers("feed", judge, OPEN, ctypes.c_size_t(5)), "order")
            self.assertEqual(self.answers("finish", judge, ctypes.byref(ctypes.c_uint32())), "order")
        with Judge.of(CLIENT) as judge:
            self.assertEqual(self.answers("feed", judge, OPEN, ctypes.c_size_t(5)), "order")
            self.assertEqual(self.answers("begin", judge, 0, 0), "order")
            self.assertEqual(self.answers("close", judge), "refused")
            self.assertEqual(judge.refusal(), (8, "NotOpen", 8))
            self.assertEqual(self.answers("open", judge), "refused")

    def test_every_limit_that_the_header_names_makes_a_judge(self) -> None:
        limits = {0: "ok", 1: "value", 4: "value", 5: "ok", 100_000_001: "ok", 268_435_460: "ok", 268_435_461: "value"}
        for limit, wanted in limits.items():
            judge = Judge.__new__(Judge)
            judge.library, judge.handle = ctypes.CDLL(str(library())), Handle()
            self.assertEqual(self.answers("new", judge, ctypes.c_uint32(limit)), wanted)
            self.assertEqual(self.answers("free", judge), "ok" if wanted == "ok" else "no judge")

    def test_values(self) -> None:
        with Judge() as judge:
            self.assertEqual(self.answers("begin", judge, 2, 0), "value")
            self.assertEqual(self.answers("begin", judge, 0, 2), "value")
            with self.assertRaises(Trouble):
                judge.feed(b"?")
            self.assertEqual(self.answers("begin", judge, 2, 0), "refused")
            self.assertEqual(self.answers("begin", judge, 0, 2), "refused")
            self.assertEqual(self.answers("new", judge, 0), "held")
            with self.assertRaises(Trouble):
                judge.text("code", 102)
            with self.assertRaises(Trouble):
                judge.text("citation", 0, 2)

    def test_a_handle_without_a_judge(self) -> None:
        judge = Judge()
        judge.free()
        number, byte, row = ctypes.c_uint32(), ctypes.c_uint64(), Row()
        for name, arguments in (
            ("free", ()), ("feed", (b"", ctypes.c_size_t(0))), ("begin", (0, 0)), ("open", ()), ("rest", ()),
            ("sent", (b"x", ctypes.c_size_t(1))), ("faults", (ctypes.byref(byte),)), ("finish", (ctypes.byref(number),)),
            ("fault", (ctypes.c_size_t(0), ctypes.byref(row))), ("refusal", (ctypes.byref(number), ctypes.byref(byte))),
        ):
            self.assertEqual(self.answers(name, judge, *arguments), "no judge", name)
        for asked in (judge.faults, judge.new_faults, judge.count, judge.weight, judge.refusal, judge.finish):
            with self.subTest(asked.__name__), self.assertRaises(Trouble) as said:
                asked()
            self.assertEqual(str(said.exception), "no judge")

    def test_no_bytes_before_events(self) -> None:
        with Judge() as judge:
            self.assertEqual(self.answers("feed", judge, None, ctypes.c_size_t(0)), "ok")
            self.assertEqual(self.answers("begin", judge, 0, 0), "ok")
            self.assertEqual(self.answers("feed", judge, None, ctypes.c_size_t(0)), "order")
            judge.open()
            self.assertEqual(judge.finish(), 1)

    def test_another_version(self) -> None:
        with mock.patch.object(mqjudge, "VERSION", mqjudge.VERSION + 1), self.assertRaises(ImportError):
            Judge()

    def test_no_bytes(self) -> None:
        with Judge() as judge:
            self.assertEqual(self.answers("feed", judge, None, ctypes.c_size_t(0)), "ok")
            judge.feed(HEADER + OPEN)
            self.assertEqual(self.answers("feed", judge, None, ctypes.c_size_t(0)), "ok")
            self.assertEqual(judge.finish(), 1)

    def test_a_buffer_that_is_too_short(self) -> None:
        with Judge() as judge:
            buffer, length = ctypes.create_string_buffer(b"zzzz"), ctypes.c_size_t()
            answer = judge.library.mqjudge_code(0, buffer, ctypes.c_size_t(3), ctypes.byref(length))
            self.assertEqual((STATUS[answer], length.value, buffer.raw), ("room", 3, b"zzzz\0"))
            answer = judge.library.mqjudge_code(0, buffer, ctypes.c_size_t(4), ctypes.byref(length))
            self.assertEqual((STATUS[answer], length.value, buffer.raw), ("ok", 3, b"W01\0\0"))


if __name__ == "__main__":
    unittest.main()
