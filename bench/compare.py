#!/usr/bin/env python3
"""Compares what `mqjudge packet` and `mqjudge show` print with what the plain program of this folder prints.

Both get the same packets and logs: those of packets.txt, changed in a few bytes; logs with the most events that may come before a
CONNACK, and one more; and short logs of each kind that is measured: of both versions. What differs is printed, with its bytes. Where
there is no `mqjudge` the plain program alone is tried, which must always answer.

usage: bench/compare.py [--mqjudge PATH] [--packets 3000] [--logs 500] [--seed 1]
"""
import argparse
import itertools
import random
import re
import shutil
import subprocess
import sys
import tempfile
from collections.abc import Iterable, Iterator
from pathlib import Path

sys.dont_write_bytecode = True  # the repository stays as it is
import kinds
from judges import BUILT
from random_logs import EXAMPLES, change, crowded, streams
from run import build_baseline
from versions import HEAD_SIZES, in_version_2

MADE_BYTES = 1_000_000  # of each log that is made, about
PACKET_TEXT = re.compile(r"need more bytes|left over \d+ bytes|other version \d+|LOST|BAD W\d\d offset \d+|[A-Z]+ size .*")
Answer = tuple[int, str]


def packets(draw: random.Random, count: int) -> Iterator[bytes]:
    yield from EXAMPLES
    for _ in range(count):
        packet = bytearray(draw.choice(EXAMPLES))
        for _ in range(draw.randint(1, 3)):
            change(draw, packet)
        # Else most of them would only be too short or too long.
        if 2 <= len(packet) < 130 and draw.random() < 0.8:
            packet[1] = len(packet) - 2
        yield bytes(packet)


def made(folder: Path) -> Iterator[Path]:
    for kind, version in itertools.product(kinds.KINDS, HEAD_SIZES):
        path = folder / f"{kind}-{version}.log"
        kinds.write(path, kind, kinds.amount_for_bytes(kind, MADE_BYTES), version)
        yield path


def answer(*words: str | Path) -> Answer:
    done = subprocess.run(words, stdin=subprocess.DEVNULL, stdout=subprocess.PIPE, stderr=subprocess.DEVNULL)
    return done.returncode, done.stdout.decode()


class Comparison:
    def __init__(self, mqjudge: Path, baseline: Path) -> None:
        self.mqjudge, self.baseline = mqjudge, baseline
        self.both = shutil.which(mqjudge) is not None
        self.differences = 0
        if not self.both:
            print(f"no program at {mqjudge}: only the plain program is tried")

    def report(self, what: str, *answers: Answer) -> None:
        self.differences += 1
        print(f"{what}:", *answers, sep="\n  ")

    def compare_packets(self, some: Iterator[bytes]) -> int:
        count = 0
        for count, packet in enumerate(some, 1):
            plain = answer(self.baseline, "packet", packet.hex())
            if plain[0] not in (0, 1) or not PACKET_TEXT.fullmatch(plain[1].rstrip("\n")):
                self.report(f"no answer to packet {packet.hex()}", plain)
            elif self.both and (judged := answer(self.mqjudge, "packet", packet.hex())) != plain:
                self.report(f"packet {packet.hex()}", judged, plain)
        return count

    def compare_logs(self, some: Iterator[Path]) -> int:
        count = 0
        for count, log in enumerate(some, 1):
            plain = answer(self.baseline, log)
            what = log.read_bytes().hex() if log.stat().st_size < 5_000 else log.name
            if plain[0] not in (0, 2):
                self.report(f"no answer to log {what}", plain)
            elif self.both and (judged := answer(self.mqjudge, "show", log)) != plain:
                line = next((pair for pair in zip(judged[1].splitlines(), plain[1].splitlines()) if pair[0] != pair[1]), ())
                self.report(f"log {what}", (judged[0], *line[:1]), (plain[0], *line[1:]))
        return count


def written(folder: Path, some: Iterable[tuple[str, bytes]]) -> Iterator[Path]:
    for name, log in some:
        path = folder / f"{name}.log"
        path.write_bytes(log)
        yield path


def main() -> int:
    words = argparse.ArgumentParser(description="Compares mqjudge with a plain program.")
    words.add_argument("--mqjudge", type=Path, default=BUILT)
    words.add_argument("--packets", type=int, default=3_000)
    words.add_argument("--logs", type=int, default=500)
    words.add_argument("--seed", type=int, default=1)
    given = words.parse_args()
    draw = random.Random(given.seed)
    with tempfile.TemporaryDirectory(prefix="mqjudge-compare-") as name:
        folder = Path(name)
        comparison = Comparison(given.mqjudge.absolute(), build_baseline(folder))
        packet_count = comparison.compare_packets(packets(draw, given.packets))
        random_ones = written(folder, (("one", log) for log in streams(draw, given.logs)))
        many = [(name, log) for name, log, _ in crowded()]
        long_ones = written(folder, [*many, *((f"{name}, version 2", in_version_2(log)) for name, log in many)])
        log_count = comparison.compare_logs(itertools.chain(random_ones, long_ones, made(folder)))
    print(f"{packet_count} packets, {log_count} logs, {comparison.differences} differences")
    return 1 if comparison.differences else 0


if __name__ == "__main__":
    sys.exit(main())
