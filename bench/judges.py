"""Those that judge a log: reference.py, and a built program beside it."""
import subprocess
import tempfile
from collections.abc import Callable
from pathlib import Path

import reference

BUILT = Path(__file__).resolve().parent.parent / "crates/mq_cli/out/mq_cli"
STATUSES = {"pass": 0, "fail": 1, "refused": 2}

Judge = Callable[[bytes], str]


def judge_by(program: Path, *words: str) -> Judge:
    """What `check` of the program prints, with these words. Where its status isn't the report's, that is said too."""

    def judge(log: bytes) -> str:
        ran = subprocess.run([program.absolute(), "check", *words], input=log, stdout=subprocess.PIPE, check=False)
        report = ran.stdout.decode(errors="replace")
        word = report.splitlines()[-1].split()[0] if report.strip() else ""
        return report if STATUSES.get(word) == ran.returncode else f"{report}status {ran.returncode}\n"

    return judge


def judge_on(program: Path, log: bytes, *words: str) -> str:
    """The same of a log that is in a file, which `--why` may read twice."""
    with tempfile.NamedTemporaryFile(prefix="mqjudge-", suffix=".log") as file:
        file.write(log)
        file.flush()
        return judge_by(program, *words, file.name)(b"")


def judges(program: Path | None) -> dict[str, Judge]:
    """All judges by their names. The program is left out if there is none."""
    return {"reference.py": reference.report} | ({"mqjudge": judge_by(program)} if program else {})
