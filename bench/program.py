#!/usr/bin/env python3
"""Runs the built program and compares its status, its output and its errors with what is written down here.

It covers what no proof reaches: `main`, files, the standard streams and the words of the command line. Each run has files and a
standard input of its own, and one where the wrong one is read gives the wrong answer.

usage: bench/program.py [PROGRAM]      (crates/mq_cli/out/mq_cli if it is missing)
"""
import os
import subprocess
import sys
import tempfile
from collections.abc import Callable, Iterator
from pathlib import Path

sys.dont_write_bytecode = True  # the repository stays as it is
from program_runs import (
    FAULTY, FILES, FURTHER_ROWS, GOOD, GOOD_2, LONG_FAIL, MANY_2, OF_CLIENT, ON_TIMES_ROWS, PASS, RUNS, UNTOLD, UNWRITTEN,
    WRITE_FAILED, unread,
)

HERE = Path(__file__).resolve().parent
PROGRAM = HERE.parent / "crates" / "mq_cli" / "out" / "mq_cli"
SECONDS = 60


class Tally:
    def __init__(self) -> None:
        self.passed = 0
        self.failed = 0

    def compare(self, name: str, found: tuple, wanted: tuple) -> None:
        if found == wanted:
            self.passed += 1
            return
        self.failed += 1
        print(f"{name}:")
        for what, is_now, was_wanted in zip(("status", "output", "errors"), found, wanted):
            if is_now != was_wanted:
                print(f"  {what}: {str(is_now)[:300]!r}\n  wanted: {str(was_wanted)[:300]!r}")


def start(program: Path, words: list[str | bytes], **streams) -> subprocess.Popen:
    return subprocess.Popen(["mqjudge", *words], executable=program, env={}, **streams)


def finish(process: subprocess.Popen, stdin: bytes | None = None) -> tuple[bytes, bytes]:
    """What it writes until it ends. A program that hangs is ended, and the test with it."""
    try:
        output, errors = process.communicate(stdin, timeout=SECONDS)
    except BaseException:
        process.kill()
        raise
    return output or b"", errors or b""


def run(program: Path, words: list[str | bytes], stdin: bytes | Path) -> tuple[int, str, str]:
    """Its status, output and errors, with these bytes in a pipe, or this file, as standard input."""
    streams = {"stdout": subprocess.PIPE, "stderr": subprocess.PIPE}
    if isinstance(stdin, Path):
        file = os.open(stdin, os.O_RDONLY)
        try:
            process = start(program, words, stdin=file, **streams)
        finally:
            os.close(file)
        output, errors = finish(process)
    else:
        process = start(program, words, stdin=subprocess.PIPE, **streams)
        output, errors = finish(process, stdin)
    return process.returncode, output.decode(), errors.decode()


def full_disk() -> int:
    return os.open("/dev/full", os.O_WRONLY)


def closed_pipe() -> int:
    reader, writer = os.pipe()
    os.close(reader)
    return writer


def run_on(program: Path, words: list[str | bytes], stream: str, make: Callable[[], int]) -> tuple[int, str]:
    """Its status and what the other stream got, where this stream takes nothing."""
    other = "stderr" if stream == "stdout" else "stdout"
    taken = make()
    try:
        process = start(program, words, stdin=subprocess.DEVNULL, **{stream: taken, other: subprocess.PIPE})
    finally:
        os.close(taken)
    output, errors = finish(process)
    return process.returncode, (output + errors).decode()


def unpermitted(program: Path) -> tuple[tuple, tuple]:
    """What is found and what is wanted of a file that may not be read. The superuser may read any."""
    path = Path("closed.log")
    path.write_bytes(GOOD)
    path.chmod(0)
    wanted = (0, PASS, "") if os.access(path, os.R_OK) else (4, "", unread("closed.log", "permission to read it is denied"))
    return run(program, ["check", "closed.log"], b""), wanted


def cut_short(program: Path) -> tuple[tuple, tuple]:
    """What is found and what is wanted where the reader of the output ends after its first line, as `head -n 1` does."""
    process = start(program, ["show", "many.log"], stdin=subprocess.DEVNULL, stdout=subprocess.PIPE, stderr=subprocess.PIPE)
    first = process.stdout.readline().decode()
    process.stdout.close()
    errors = process.stderr.read().decode()
    process.stderr.close()
    return (process.wait(SECONDS), first, errors), (4, "1 record 1 OPEN\n", "")


def long_log() -> bytes:
    """The faulty session, and then 110 PUBLISHes of about a megabyte each, at QoS 0."""
    rest = b"\x00\x01a\x00" + bytes(1_040_000)
    size = len(rest)
    length = bytes((size & 127 | 128, size >> 7 & 127 | 128, size >> 14))
    packet = b"\x30" + length + rest
    record = b"\x02" + len(packet).to_bytes(4, "big") + packet
    return FAULTY + 110 * record


def all_sent(terminal: int) -> bytes:
    """All that was sent to a terminal whose other end is closed. It may come in pieces."""
    found = b""
    try:
        while piece := os.read(terminal, 4096):
            found += piece
    except OSError:  # all is read
        pass
    return found


def on_terminal(program: Path) -> tuple[tuple, tuple]:
    """What is found and what is wanted of a long log while standard error is a terminal."""
    ours, terminal = os.openpty()
    try:
        process = start(program, ["check", "long.log"], stdin=subprocess.DEVNULL, stdout=subprocess.PIPE, stderr=terminal)
    finally:
        os.close(terminal)
    output, _ = finish(process)
    said = all_sent(ours).decode()
    os.close(ours)
    lines = "".join(f"\rmqjudge: {count} MB judged, 1 faults so far" for count in (50, 100))
    return (process.returncode, output.decode(), said), (1, LONG_FAIL, f"{lines}\r\n")


def kept(path: Path) -> tuple[bytes, int, int, int]:
    """The bytes of a file, which file it is, and when it was changed."""
    told = path.stat()
    return path.read_bytes(), told.st_ino, told.st_size, told.st_mtime_ns


# Nothing but `convert` changes a file; these read one.
CHECKS = [["check"], ["check", "--json"], ["check", "--summary"], ["check", "--coverage"], ["check", "--all"], ["check", "--times"]]
READING = [*CHECKS, ["check", "--why"], ["show"], ["show", "--long"], ["show", "--faults"], ["show", "--faults", "--all"]]


def changes(program: Path) -> Iterator[tuple[str, tuple, tuple]]:
    """A `check` or a `show` that writes to its file: what is found of each file afterwards, and what is wanted. And a `convert` that
    ends with 0 and leaves OUT empty, or without the end of the log."""
    for words in READING:
        for name in ("good.log", "faulty.log", "nested.log", "short.log", "many.log", "timed.log", "a.pcap"):
            before, others = kept(Path(name)), sorted(os.listdir())
            run(program, [*words, name], GOOD)
            yield f"{words}: {name} stays as it was", (str(kept(Path(name)) == before),), ("True",)
            yield f"{words}: no file is made beside {name}", (str(sorted(os.listdir()) == others),), ("True",)
    for name, wanted in (("good.log", GOOD_2), ("many.log", MANY_2)):
        before = kept(Path(name))
        status, _, _ = run(program, ["convert", name, f"whole-{name}"], b"")
        yield f"convert {name}: OUT has the whole log", (status, str(held(Path(f"whole-{name}")) == wanted)), (0, "True")
        yield f"convert {name}: IN stays as it was", (str(kept(Path(name)) == before),), ("True",)


def listed(program: Path) -> Iterator[tuple[str, tuple, tuple]]:
    """Of the further statements: what is found in the list of statements, and in what explains one, and what is wanted."""
    of_client = ON_TIMES_ROWS.splitlines(keepends=True)[0]
    for words, more, most in (([], FURTHER_ROWS, ON_TIMES_ROWS), (["--role", "client"], OF_CLIENT, of_client)):
        plain = run(program, ["rules", *words], b"")
        named = [line[:3] for line in (more + most).splitlines() if line[:3] in plain[1].split()]
        yield f"rules {words} names no further statement", (str(named),), ("[]",)
        yield f"rules --all {words}", run(program, ["rules", "--all", *words], b""), (0, plain[1] + more, "")
        for options in (["--times"], ["--times", "--all"]):
            wanted = (0, plain[1] + more + most, "")
            yield f"rules {options} {words}", run(program, ["rules", *options, *words], b""), wanted
    for row in (FURTHER_ROWS + ON_TIMES_ROWS).splitlines():
        code, ends, citation, sentence = row.split(" ", 3)
        for word in (code, code.lower(), *citation.split(";")):
            status, text, errors = run(program, ["explain", word], b"")
            # A citation explains each statement that has it, and a long sentence goes over two lines.
            text = text[max(f"\n{text}".find(f"\n{code} "), 0) :]
            first, *lines = text[: text.find("\n\n")].split("\n")
            yield f"explain {word}", (status, f"{first}\n{' '.join(lines)}", errors), (0, f"{code} {ends} {citation}\n{sentence}", "")


def held(path: Path) -> bytes | None:
    """The bytes of a file, if it is there."""
    return path.read_bytes() if path.exists() else None


def main() -> int:
    program = Path(sys.argv[1] if len(sys.argv) > 1 else PROGRAM).resolve()
    tally = Tally()
    with tempfile.TemporaryDirectory() as folder:
        os.chdir(folder)
        for name, data in FILES.items():
            Path(name).write_bytes(data)
        Path("loop.log").symlink_to("loop.log")
        Path("symbolic.log").symlink_to("good.log")
        Path("hard.log").hardlink_to("good.log")
        for case in RUNS:
            found = run(program, case.words, case.stdin)
            tally.compare(f"{case.words}", found, (case.status, case.output, case.errors))
            for name, data in case.files.items():
                tally.compare(f"{case.words}: {name}", (held(Path(name)),), (data,))
        for name, found, wanted in (*changes(program), *listed(program)):
            tally.compare(name, found, wanted)
        tally.compare("a file that may not be read", *unpermitted(program))
        tally.compare("a reader that ends", *cut_short(program))
        Path("long.log").write_bytes(long_log())
        tally.compare("a long log, with a terminal", *on_terminal(program))
        tally.compare("a long log, with none", run(program, ["check", "long.log"], b""), (1, LONG_FAIL, ""))
        for make in (full_disk, closed_pipe):
            for words in UNWRITTEN:
                found = run_on(program, words, "stdout", make)
                said = WRITE_FAILED if make is full_disk else ""
                tally.compare(f"{words} with standard output on a {make.__name__}", (found[0], "", found[1]), (4, "", said))
            for words, status in UNTOLD:
                found = run_on(program, words, "stderr", make)
                output = {0: PASS, 2: "refused 1 Header at 0\n"}.get(status, "")
                tally.compare(f"{words} with standard error on a {make.__name__}", (*found, ""), (status, output, ""))
        os.chdir(HERE)
    print(f"{tally.passed} passed, {tally.failed} failed")
    return 1 if tally.failed else 0


if __name__ == "__main__":
    sys.exit(main())
