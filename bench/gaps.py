"""What in a log isn't judged: a second opinion, and no part of the program.

It was written from the words in docs/COMMANDS.md, which are the sentences of the functions here too; the proved definitions are
those of crates/mq_judge/specs/Unjudged.antt. Like statements.py it looks at the whole log for each of them.
"""
from collections.abc import Iterator
from dataclasses import dataclass

from reading import CLOSE, Lost, NAMES, OPEN, SUBSCRIBE
from sessions import Log


@dataclass(frozen=True)
class Gap:
    """What isn't judged, why, from which position on, if it is one, and the bytes of a packet that was begun."""

    what: str
    why: str
    at: int | None = None
    begun: bytes = b""

    def line(self, log: Log) -> str:
        begun = f" {NAMES[self.begun[0] >> 4] or 'Reserved'} bytes {len(self.begun)}" if self.begun else ""
        place = "" if self.at is None else f" event {self.at} record {log.event(self.at).record}"
        return f"unjudged {self.what} {self.why}{begun}{place}"


def given_up(log: Log) -> Iterator[Gap]:
    """A direction is given up where its bytes can't be cut into packets any more."""
    for k in range(1, log.last + 1):
        for what, item in (("sent", log.sent(k)), ("received", log.received(k))):
            if isinstance(item, Lost):
                yield Gap(what, "lost", k)


def unknown(log: Log) -> Iterator[Gap]:
    """A CONNACK resumes a session, and the log can't tell which."""
    return (Gap("session", "unknown", log.first_connacks[c]) for c, is_unknown in enumerate(log.are_unknown) if is_unknown)


def unfinished(log: Log) -> Iterator[Gap]:
    """A direction has begun a packet, and a CLOSE, or the log's end, drops its bytes."""
    closes = [(k, log.event(k).unfinished) for k in range(1, log.last + 1) if log.event(k).kind == CLOSE]
    for k, packets in [*closes, (None, log.left)]:
        yield from (Gap(what, "unfinished", k, begun) for what, begun in zip(("sent", "received"), packets, strict=True) if begun)


def undecided(log: Log) -> Iterator[Gap]:
    """A connection has no CONNACK and no CLOSE. Only the last one can be so."""
    c = len(log.spans) - 1
    if c > 0 and log.fates[c] is None:
        yield Gap("session", "undecided", next(k for k in log.spans[c] if log.event(k).kind == OPEN))


def shared(log: Log) -> Iterator[Gap]:
    """A server is asked for a shared subscription. The first one is said."""
    asked = (k for k in range(1, log.last + 1) if (p := log.received_packet(k, SUBSCRIBE)) and any(f.startswith(b"$share/") for f, _ in p.filters))
    first = next(asked, None)
    if log.role == "server" and first is not None:
        yield Gap("B01 B02", "shared", first)


def binds(log: Log, t: int) -> bool:
    """A REST binds where it is known which session its connection has."""
    return log.is_binding(t) and not log.are_unknown[log.places[t]]


def gaps(log: Log) -> list[Gap]:
    """All of these: first what events show, in their order, and then what CLOSEs and the log's end drop, in theirs."""
    found = sorted([*given_up(log), *unknown(log)], key=lambda gap: gap.at or 0)
    found += [*unfinished(log), *undecided(log), *shared(log)]
    if not any(binds(log, t) for t in range(1, log.last + 1)):
        found.append(Gap("answers", "no-rest"))
    if not log.releases:
        found.append(Gap("L1 L2 L3", "no-releases"))
    return found


def lines(log: Log) -> list[str]:
    return [gap.line(log) for gap in gaps(log)]
