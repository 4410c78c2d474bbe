"""The options of recorders/judge. What can't work is refused before anything is done."""
from __future__ import annotations

import argparse
import os
import shlex
import shutil
from pathlib import Path

from arguments import Parser
from judging.baseline import Baseline
from judging.coverage import Demand, read_required
from judging.places import place_of
from judging.policy import Policy, PolicyError, read_expected
from judging.refusals import REFUSALS
from judging.reports import Places
from judging.statements import ALL, BOTH, CODE, TIMES, Statement, counts_places, every_statement_of, judges_further
from judging.verdict import one_line

REPOSITORY = Path(__file__).resolve().parent.parent.parent
BUILT = REPOSITORY / "crates/mq_cli/out/mq_cli"


def words_of(text: str) -> frozenset[str]:
    """Words with commas between them, in capital letters."""
    return frozenset(word.strip() for word in text.upper().split(",") if word.strip())


def arguments() -> Parser:
    parser = Parser(description="Judges many logs, and prints what isn't a pass.")
    parser.add_argument("places", nargs="+", type=place_of, metavar="DIR_OR_FILE",
                        help="logs, or folders that hold some; - is a log on standard input")
    parser.add_argument("--program", metavar="PATH", help="the program (else the built one, or mqjudge of the PATH)")
    parser.add_argument("--jobs", type=int, default=os.cpu_count() or 1, metavar="N", help="how many to judge at once")
    parser.add_argument("--junit", type=Path, metavar="FILE", help="write JUnit XML for test reports")
    parser.add_argument("--html", type=Path, metavar="FILE", help="write a page with pictures and what to change")
    parser.add_argument("--sarif", type=Path, metavar="FILE", help="write SARIF 2.1.0 for code hosts")
    parser.add_argument("--json", action="store_true", help="print a line of JSON for each log, and nothing else")
    parser.add_argument("--github", action="store_true", help="print annotations for workflows of GitHub")
    parser.add_argument("--most", type=int, default=20, metavar="N", help="print at most N faults per log")
    parser.add_argument("--min-events", type=int, metavar="N", help="a log with fewer events is no pass")
    parser.add_argument("--min-logs", type=int, metavar="N", help="fewer logs than N are a failure")
    parser.add_argument("--expect", type=Path, metavar="FILE", help="known faults, in lines LOG CODE COUNT")
    parser.add_argument("--ignore", type=words_of, default=frozenset(), metavar="CODE,..",
                        help="faults that don't count")
    parser.add_argument("--allow-refused", type=words_of, default=frozenset(), metavar="NUMBER,..",
                        help="refusals that don't count")
    parser.add_argument(ALL, action="store_true", help="judge by the further statements too")
    parser.add_argument(TIMES, action="store_true", help="judge by those on times too: moments are microseconds")
    parser.add_argument("--coverage", action="store_true", help="say how often the logs test each statement")
    parser.add_argument("--require-coverage", type=Path, metavar="FILE",
                        help="what they have to test, in lines END CODE PLACES")
    parser.add_argument("--min-coverage", type=int, metavar="N", help="fewer statements tested than N are a failure")
    parser.add_argument("--write-coverage", type=Path, metavar="FILE", help="write what they test, in such lines")
    return parser


def unknown_code(code: str, statements: list[Statement], asked: str) -> str:
    """Why nothing is judged by a code, with those that are meant perhaps; empty if it is. A program may list none."""
    codes = [statement.code for statement in statements if statement.is_judged(asked)]
    if code not in codes and (unasked := [one.asked_by for one in statements if one.code == code]):
        return f"{code} is a further statement: nothing is judged by it without {unasked[0]}"
    if code in codes or (not codes and CODE.fullmatch(code)):
        return ""
    text = f"there is no statement {one_line(code)}"
    if near := [known for known in codes if known[0] == code[:1]]:
        return f"{text}; those with {code[:1]} are {', '.join(near)}"
    return f"{text}; there are {', '.join(codes)}" if codes else text


def unbound(end: str, code: str, statements: list[Statement]) -> str:
    """Why an end isn't judged by a statement; empty if it is, or where that isn't known."""
    ends = next((statement.ends for statement in statements if statement.code == code), BOTH)
    return "" if ends in (end, BOTH) else f"{code} binds a {ends}, and no {end}"


def unknown_refusal(number: str) -> str:
    """Why no log is refused with this number, with those that there are; empty if some are."""
    names = {str(refusal.number): name for name, refusal in REFUSALS.items()}
    those = ", ".join(f"{known} {name}" for known, name in names.items())
    return "" if number in names else f"there is no refusal {one_line(number)}; there are {those}"


def check_names(
    parser: Parser, options: argparse.Namespace, expected: Baseline | None, statements: list[Statement]
) -> None:
    """Refuses codes and numbers that don't exist: what they were meant to name would count without a word."""
    for number in sorted(options.allow_refused):
        if why := unknown_refusal(number):
            parser.error(f"--allow-refused: {why}")
    named = {(code, "--ignore") for code in options.ignore}
    for known in expected.lines if expected else ():
        named.add((known.code, f"--expect: {options.expect}, line {known.line}"))
    for code, option in sorted(named):
        if why := unknown_code(code, statements, options.further):
            parser.error(f"{option}: {why}")


def check_required(parser: Parser, options: argparse.Namespace, statements: list[Statement]) -> None:
    """Refuses requirements on statements that don't exist, or that the end isn't judged by."""
    demand = options.demand
    for one in demand.required:
        if why := unknown_code(one.code, statements, options.further) or unbound(one.end, one.code, statements):
            parser.error(f"--require-coverage: {one_line(demand.file)}, line {one.line}: {why}")


def check_coverage(parser: Parser, options: argparse.Namespace) -> None:
    """Turns coverage on where an option is about it, and refuses a program that doesn't count places."""
    asked = {
        "--coverage": options.coverage,
        "--require-coverage": options.require_coverage is not None,
        "--min-coverage": options.min_coverage is not None,
        "--write-coverage": options.write_coverage is not None,
    }
    given = [name for name, is_given in asked.items() if is_given]
    options.coverage = bool(given)
    if given and not counts_places(options.program):
        parser.error(f"{given[0]}: {one_line(options.shown_program)} doesn't count what logs test:"
                     " its check has no --coverage; build a newer one")


def check_further(parser: Parser, options: argparse.Namespace) -> None:
    """Sets by which option the further statements are asked for. Refuses a program that doesn't know it."""
    options.further = TIMES if options.times else ALL if options.all else ""
    if options.further and not judges_further(options.program, options.further):
        which = "statements on times" if options.times else "further statements"
        parser.error(f"{options.further}: {one_line(options.shown_program)} judges by no {which}:"
                     f" its check has no {options.further}; build a newer one")


def asked_line(options: argparse.Namespace) -> str:
    """What is said of the further statements in reports; empty if they weren't asked for."""
    codes = [one.code for one in options.statements if one.is_further and one.is_judged(options.further)]
    said = f"judged by the further statements too ({options.further}): {', '.join(codes)}"
    return said if options.further else ""


def as_typed(program: str) -> str:
    """How a program is called from here: by its name in the PATH, or by the shorter of its paths."""
    if os.sep not in program:
        return shlex.quote(program)
    near = os.path.relpath(program)
    if near.startswith(os.pardir):
        return shlex.quote(program)
    return shlex.quote(near if os.sep in near else os.path.join(os.curdir, near))


def parse() -> tuple[argparse.Namespace, Policy]:
    """The options, and the policy that they make."""
    parser = arguments()
    options = parser.parse_args()
    least = (options.most, options.min_events or 0, options.min_logs or 0, options.min_coverage or 0)
    if options.jobs < 1 or min(least) < 0:
        parser.error("--jobs must be at least 1, and --most, --min-events, --min-logs and --min-coverage at least 0")
    if options.json and options.github:
        parser.error("--json and --github both write to standard output: choose one")
    program = options.program or (str(BUILT) if BUILT.is_file() else "mqjudge")
    if shutil.which(program) is None:
        parser.error(f"--program: {program} can't be run" if options.program else
                     "mqjudge isn't built: name it with --program")
    options.program = shutil.which(program)
    options.shown_program = as_typed(program)
    try:
        expected = read_expected(options.expect) if options.expect else None
        required = read_required(options.require_coverage) if options.require_coverage else ()
    except PolicyError as error:
        parser.error(str(error))
    check_further(parser, options)
    check_coverage(parser, options)
    options.demand = Demand(options.require_coverage, required, options.min_coverage or 0)
    is_listed = bool(options.further or options.coverage or options.ignore or expected)
    options.statements = every_statement_of(options.program) if is_listed else []
    options.asked = asked_line(options)
    check_names(parser, options, expected, options.statements)
    check_required(parser, options, options.statements)
    options.reports = Places(options.html, options.junit, options.sarif, options.write_coverage)
    if refusal := options.reports.refused():
        parser.error(refusal)
    return options, Policy(options.ignore, options.allow_refused, expected, options.min_events or 0)
