"""What a run came to: which statements are broken, tested and kept, and not tested, and why."""
from __future__ import annotations

from collections import Counter, defaultdict
from collections.abc import Iterable
from dataclasses import dataclass, field
from pathlib import Path

from arguments import counted
from exercising.both_ends import LOOK, ONCE, Fairness
from exercising.evidence import FOREIGN, binding
from exercising.running import Fate, Result
from exercising.situations import Situation, by_code, reference, situations
from exercising.table import Scenario
from judging.statements import ALL
from judging.story import Fault
from judging.verdict import REFUSED, Verdict, show

WIDTH = 18  # of the words at the left
NAMED = 6  # scenarios that are named in a line
SEEN = 12  # lines of what isn't judged
WHY_NOT = {  # what a broker didn't do, where a statement isn't tested
    "A01": "it sent nothing between a CONNECT with an Authentication Method and the CONNACK",
    "A02": "it sent no AUTH",
    "A03": "it sent no AUTH to who has an Authentication Method, and accepted none such",
    "B05": "it granted nothing",
    "B06": "it said of no filter that was subscribed that it is deleted, or isn't there",
    "B07": "it said of no filter that it is deleted, and of none that was never subscribed that it isn't there",
    "B08": "it sent nothing to a client that had asked for a shared subscription",
    "B09": "it sent nothing above QoS 0 to a client that had asked for a shared subscription",
    "C10": "it assigned no Client Identifier",
    "C11": "it sent no DISCONNECT",
    "C12": "it never refused a connection",
    "C15": "it sent no Topic Alias",
    "C16": "it sent no Topic Alias in place of a Topic Name",
    "C19": "it sent no DISCONNECT",
    "C21": "it sent nothing that could have an explanation",
    "C22": "it sent no Response Information",
    "C23": "it sent no DISCONNECT, and refused no connection",
    "C24": "it answered no CONNECT, and was at rest after none",
    "D01": "it had no Malformed Packet on a connection",
    "D02": "it had no second CONNECT on a connection",
    "D03": "it had no Protocol Error on a connection",
    "D05": "it had no more PUBLISHes of QoS 2 at once than its Receive Maximum, or refused some",
    "F01": "it published nothing where Retain Available is 0",
    "F05": "it announced no Maximum QoS to who has a Will, and refused none for it",
    "F06": "it announced no Retain Available 0 to who has a Will, and refused none for it",
    "P01": "it sent nothing with a Subscription Identifier",
    "P02": "it sent nothing for subscriptions that all have a Subscription Identifier",
    "R01": "it sent nothing for subscriptions that all have Retain Handling 2 and Retain As Published 0",
    "R02": "it sent nothing for which only a shared subscription asks for retained messages",
    "S02": "it sent no message again",
    "S06": "it resumed no session with an open message",
    "S07": "it never used up the Receive Maximum",
    "V03": "it asked for no shared subscription",
    "V04": "it asked for no shared subscription",
    "V06": "it sent no DISCONNECT",
    "W21": "it sent no Topic Alias in place of a Topic Name",
}


@dataclass
class Outcome:
    """All results of a run, with what was played once more."""

    is_server: bool
    title: str
    out: Path
    results: list[Result]
    scenarios: list[Scenario]  # all that there are, also those that weren't played
    again: dict[str, Result] = field(default_factory=dict)  # by the names of the scenarios
    left_out: dict[str, str] = field(default_factory=dict)  # why scenarios weren't played at all
    seconds: float = 0.0
    inside: list[Verdict] = field(default_factory=list)  # on logs in the tested end's own order
    program: str = "mqjudge"
    is_of_all: bool = False  # the further statements were judged too

    # ---- what the statements came to

    @property
    def bound(self) -> frozenset[str]:
        """The statements that bind the tested end."""
        return binding(self.is_server, self.is_of_all)

    @property
    def reachable(self) -> list[str]:
        """The statements that the tested end could break in such a log."""
        return sorted(self.bound - FOREIGN[self.is_server])

    @property
    def situations(self) -> list[Situation]:
        """Those in which they can be tested."""
        return [one for one in situations(self.is_server) if one.code in self.bound]

    @property
    def broken(self) -> set[str]:
        return {key.split()[0] for verdict in self.verdicts for key in verdict.faults}

    @property
    def tested(self) -> set[str]:
        """The statements that a completed scenario aims at, and that its logs put to the test."""
        return {code for result in self.completed for code in result.tested & set(result.scenario.aims)}

    @property
    def kept(self) -> list[str]:
        return sorted(self.tested - self.broken)

    @property
    def untested(self) -> list[str]:
        return sorted(set(self.reachable) - self.tested - self.broken)

    # ---- the situations in which they were tested

    @property
    def met(self) -> set[Situation]:
        """Those that came about in completed scenarios, and those with faults that count."""
        return {one for result in self.completed for one in result.met} | self.broken_in

    @property
    def broken_in(self) -> set[Situation]:
        return {one for result in self.results for one in result.broken_in}

    def why_avoided(self, situation: Situation) -> str:
        """Why a situation didn't come about."""
        name = reference(self.is_server).get(situation)
        result = next((one for one in self.results if one.scenario.name == name), None)
        if name in self.left_out:
            return self.left_out[name]
        if name is not None and result is None:
            return "the scenarios that bring it about weren't chosen"
        if result is not None and result.fate is not Fate.COMPLETED:
            return f"{name} wasn't completed"
        return "the tested end avoids it"

    # ---- what the scenarios came to

    @property
    def verdicts(self) -> list[Verdict]:
        """On all logs; first on those that have the tested end's own order."""
        return [*self.inside, *(verdict for result in self.results for verdict in result.verdicts)]

    @property
    def completed(self) -> list[Result]:
        return [result for result in self.results if result.fate is Fate.COMPLETED]

    @property
    def ended(self) -> list[Result]:
        """The scenarios that the tested end brought to an end."""
        return [result for result in self.results if result.fate is Fate.ENDED]

    @property
    def refused(self) -> list[Path]:
        return [verdict.path for verdict in self.verdicts if verdict.status == REFUSED]

    @property
    def once(self) -> Counter[str]:
        """The faults by silence that weren't seen again, by their codes."""
        found: Counter[str] = Counter()
        for text in (text for verdict in self.verdicts for text in verdict.ignored if text.endswith(f"({ONCE})")):
            code, count, *_ = text.split()
            found[code] += int(count)
        return found

    @property
    def incomplete(self) -> dict[str, list[str]]:
        """The scenarios that weren't completed, by why."""
        reasons: dict[str, list[str]] = defaultdict(list)
        for result in self.results:
            if result.fate is not Fate.COMPLETED:
                reasons[result.why].append(result.scenario.name)
        for name, why in self.left_out.items():
            reasons[why].append(name)
        return {why: sorted(names) for why, names in reasons.items()}

    @property
    def seen(self) -> dict[str, list[str]]:
        """The scenarios in which something was seen that no statement is about."""
        found: dict[str, list[str]] = defaultdict(list)
        for result in self.results:
            for text in result.observed:
                found[text].append(result.scenario.name)
        return {text: sorted(names) for text, names in found.items()}

    def why_untested(self, code: str) -> str:
        """Why a statement isn't tested."""
        aiming = [scenario.name for scenario in self.scenarios if code in scenario.aims]
        played = {result.scenario.name for result in self.completed}
        if not aiming:
            return "no scenario aims at it"
        if not played & set(aiming):
            reasons = {self.left_out[name] for name in aiming if name in self.left_out}
            return f"no scenario that aims at it was completed{': ' if reasons else ''}{', '.join(sorted(reasons))}"
        return WHY_NOT.get(code, "what it speaks of didn't come about")

    # ---- in lines

    def lines(self, fairness: Fairness) -> list[str]:
        """The last table."""
        logs = sum(len(result.verdicts) for result in self.results)
        played = [result for result in self.results if result.fate is not Fate.LEFT_OUT]
        head = f"{self.title}: {counted(len(played), 'scenario')} in {self.seconds:.0f} s" \
               f" ({len(self.completed)} completed), {counted(logs, 'log')} in {show(self.out)}/"
        lines = [head, f"{len(self.bound)} statements bind such an end whose log has no releases"]
        lines += [row("broken", len(self.broken), " ".join(sorted(self.broken)))]
        lines += [row("tested, kept", len(self.kept), wrapped(self.kept))]
        lines += self._untested_lines()
        lines += [row("out of reach", len(FOREIGN[self.is_server]), f"{' '.join(sorted(FOREIGN[self.is_server]))}: only"
                      " an end that sends other packets could break them")]
        lines += self._situation_lines()
        lines += self._inside_lines()
        lines += self._fault_lines(fairness)
        lines += self._incomplete_lines()
        lines += self._seen_lines()
        return [show(line) for line in lines]

    def _untested_lines(self) -> list[str]:
        reasons: dict[str, list[str]] = defaultdict(list)
        for code in self.untested:
            reasons[self.why_untested(code)].append(code)
        texts = [f"{' '.join(codes)}: {why}" for why, codes in sorted(reasons.items(), key=lambda one: one[1])]
        return [row("not tested" if not at else "", len(self.untested) if not at else None, text)
                for at, text in enumerate(texts or ["-"])]

    def _situation_lines(self) -> list[str]:
        """In how many situations the statements were tested, and which ones didn't come about."""
        every, met = self.situations, self.met
        lines = [row("situations", len(met), f"of {len(every)} came about; faults in {len(self.broken_in)}")]
        reasons: dict[str, list[str]] = defaultdict(list)
        for one in every:
            if one not in met:
                reasons[self.why_avoided(one)].append(f"{one.code} {one.text}".rstrip())
        texts = [f"{named(names, ', ')}: {why}" for why, names in sorted(reasons.items(), key=lambda one: len(one[1]))]
        return lines + [row("avoided" if not at else "", len(every) - len(met) if not at else None, text)
                        for at, text in enumerate(texts)]

    def _broken_situations(self, code: str) -> list[str]:
        """In which situations a statement is broken."""
        broken = sorted(one for one in self.broken_in if one.code == code and one.words)
        if not broken:
            return []
        return [f"    in {len(broken)} of {len(by_code(self.is_server)[code])} situations:"
                f" {', '.join(one.text for one in broken)}"]

    def _inside_lines(self) -> list[str]:
        """What was recorded inside the tested end."""
        if not self.inside:
            return []
        faults: Counter[str] = Counter()
        for verdict in self.inside:
            faults.update({key.split()[0]: count for key, count in verdict.faults.items()})
        return [row("inside", len(self.inside), f"logs in the broker's own order: {in_words(faults) or 'no faults'}")]

    def _fault_lines(self, fairness: Fairness) -> list[str]:
        """For each code that is broken where it is seen first, and what is there only to be looked at."""
        lines = []
        for code in sorted(self.broken):
            names = sorted(result.scenario.name for result in self.results if code in result.broken)
            here = [verdict for verdict in self.verdicts if any(key.split()[0] == code for key in verdict.faults)]
            first = min(here, key=lambda verdict: (verdict not in self.inside, verdict.events or 0, verdict.path))
            lines.append(f"{code} in {named(names) or 'no scenario, but inside the broker'}")
            lines += self._broken_situations(code)
            words = f"--faults{f' {ALL}' if self.is_of_all else ''} --around 3"
            lines.append(f"    {self.program} show {words} {show(first.path)}")
            if again := sorted(name for name, result in self.again.items() if code in result.broken):
                lines.append(f"    seen again, alone and with more time: {named(again)}")
        looks, once = fairness.looked_at, self.once
        if looks:
            lines.append(row(LOOK, looks.total(), f"{in_words(looks)}: after the exerciser had broken a rule itself"))
        if once:
            lines.append(row("not seen again", once.total(), f"{in_words(once)}: missing answers that came with more"
                             " time, or that weren't tried again"))
        return lines

    def _incomplete_lines(self) -> list[str]:
        ordered = sorted(self.incomplete.items(), key=lambda one: -len(one[1]))
        count = sum(len(names) for _, names in ordered)
        return [row("not completed" if not at else "", count if not at else None, f"{named(names)}: {why}")
                for at, (why, names) in enumerate(ordered)]

    def _seen_lines(self) -> list[str]:
        open_first = sorted(self.seen.items(), key=lambda one: (one[0].startswith("closed"), -len(one[1])))
        kept = open_first[:SEEN]
        lines = [row("seen, not judged" if not at else "", None if at else len(open_first), f"{text}: {named(names)}")
                 for at, (text, names) in enumerate(kept)]
        left = len(open_first) - len(kept)
        return lines + ([row("", None, f"and {left} more")] if left else [])


def row(title: str, count: int | None, text: str) -> str:
    return f"  {title:{WIDTH}}{'' if count is None else count:>4}  {text}".rstrip()


def named(names: Iterable[str], between: str = " ") -> str:
    """Some names, and how many more there are."""
    every = list(names)
    more = f" and {len(every) - NAMED} more" if len(every) > NAMED else ""
    return f"{between.join(every[:NAMED])}{more}"


def in_words(counts: Counter[str]) -> str:
    return ", ".join(f"{code} {count}" for code, count in sorted(counts.items()))


def wrapped(codes: list[str], most: int = 14) -> str:
    """Codes, so many in a line, under each other."""
    pieces = [" ".join(codes[at : at + most]) for at in range(0, len(codes), most)]
    return ("\n" + " " * (WIDTH + 8)).join(pieces)


def silent_faults(result: Result, codes: frozenset[str]) -> dict[str, list[tuple[Path, Fault]]]:
    """The faults of a result that count and are by silence, by their codes."""
    found: dict[str, list[tuple[Path, Fault]]] = defaultdict(list)
    for verdict in result.verdicts:
        for fault in verdict.found:
            if fault.code in codes and fault.code in result.broken and fault.code not in verdict.overlooked:
                found[fault.code].append((verdict.path, fault))
    return found
