"""Asks programs what they say of logs and packets, with as little as can be between two answers: for `bench/fuzz.py`.

The judged program is started for each answer. What it reads and writes are files in memory, of which each takes the place of the
one before: no pipe or file is made for an answer. The plain program (baseline.rs) is started once, and answers again and again.
"""
import os
import signal
import subprocess
from pathlib import Path

NOTHING = os.open(os.devnull, os.O_RDONLY)
ENVIRONMENT = {"PATH": os.environ.get("PATH", os.defpath)}  # (Each variable takes time at each start.)
Answer = tuple[int, str, str]  # status, output and errors


class Memory:
    """A file in memory, which is written anew again and again."""

    def __init__(self, name: str):
        self.file = os.memfd_create(name)
        self.path = f"/proc/{os.getpid()}/fd/{self.file}"  # by which another program opens it

    def put(self, data: bytes) -> None:
        os.ftruncate(self.file, len(data))
        os.pwrite(self.file, data, 0)

    def take(self) -> bytes:
        """What programs have written since the last time."""
        size = os.lseek(self.file, 0, os.SEEK_CUR)
        if size == 0:
            return b""
        os.lseek(self.file, 0, os.SEEK_SET)
        return os.pread(self.file, size, 0)


class Runner:
    """Runs a program again and again, in a place for one."""

    def __init__(self) -> None:
        self.output, self.errors = Memory("output"), Memory("errors")
        streams = (NOTHING, self.output.file, self.errors.file)
        self.actions = [(os.POSIX_SPAWN_DUP2, file, stream) for stream, file in enumerate(streams)]
        self.process = 0  # that runs; 0 for none

    def start(self, command: list[str]) -> None:
        self.process = os.posix_spawn(command[0], command, ENVIRONMENT, file_actions=self.actions)

    def answer(self) -> Answer:
        """What it has answered, at its end."""
        _, status = os.waitpid(self.process, 0)
        self.process = 0
        output, errors = (file.take().decode(errors="replace") for file in (self.output, self.errors))
        return os.waitstatus_to_exitcode(status), output, errors

    def kill(self) -> None:
        if self.process:
            os.kill(self.process, signal.SIGKILL)


class Server:
    """The plain program, which answers requests. After one that it doesn't survive it is started anew."""

    def __init__(self, program: Path):
        self.command = [str(program), "many"]
        self.asked: list[bytes] = []  # what it hasn't answered yet
        self.start()

    def start(self) -> None:
        pipes = {"stdin": subprocess.PIPE, "stdout": subprocess.PIPE}
        self.process = subprocess.Popen(self.command, stderr=subprocess.DEVNULL, **pipes)

    def ask(self, requests: list[tuple[str, bytes]]) -> None:
        """Asks for logs (`l`) and packets (`p`)."""
        self.asked = [task.encode() + len(data).to_bytes(4, "big") + data for task, data in requests]
        self.write()

    def write(self) -> None:
        left = memoryview(b"".join(self.asked))
        try:
            while left:
                left = left[os.write(self.process.stdin.fileno(), left) :]
        except BrokenPipeError:
            pass  # and there is no answer

    def answers(self) -> list[Answer]:
        found = []
        while self.asked:
            found.append(self.answer())
            del self.asked[0]
            if self.process.returncode is not None:
                self.start()
                self.write()
        return found

    def answer(self) -> Answer:
        head = self.process.stdout.read(5)
        size = int.from_bytes(head[1:], "big")
        text = self.process.stdout.read(size)
        if len(head) < 5 or len(text) < size:
            return self.process.wait(), "", ""
        return head[0], text.decode(errors="replace"), ""

    def kill(self) -> None:
        self.process.kill()
