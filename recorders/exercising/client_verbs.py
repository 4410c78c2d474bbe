"""The verbs of the table in which the exerciser plays the broker: some of its own, and some that clients have too."""
from __future__ import annotations

import time
from collections.abc import Callable

from exercising.actors import NothingLeft
from exercising.hosts import CONNECT_SECONDS, DRIVEN, PUBLISHES, SUBSCRIBES, Host
from exercising.links import Gone
from exercising.packets import LARGEST_IDENTIFIER, Packet, Prop, Reader, Type, acknowledgement, codes, publish
from exercising.stage import Unfit
from exercising.table import Shape, Step, TableError
from exercising.verbs import VERBS as CLIENT_SIDE
from exercising.verbs import Act, Verb, Vocabulary, told_seconds, whole

SHARED = ("send", "dribble", "rest", "quiet", "wait", "await", "closes", "drop", "reset")
NEEDS = frozenset(("driven", "publishing", "subscribing", "method", "slow", "alone"))
DOES = {"driven": {DRIVEN}, "publishing": {DRIVEN, PUBLISHES}, "subscribing": {DRIVEN, SUBSCRIBES}}
HOLD_SECONDS, SERVE_SECONDS = 0.8, 0.7
TOPIC = "do/nothing"  # that a driver subscribes to, and does nothing for
VERBS: dict[str, Verb] = {name: CLIENT_SIDE[name] for name in SHARED}


def verb(name: str, shape: Shape = Shape()) -> Callable[[Act], Act]:
    """Makes a function a verb."""

    def keep(act: Act) -> Act:
        VERBS[name] = Verb(shape, act)
        return act

    return keep


# ---- connections


@verb("start", Shape(options=frozenset(("qos", "count", "size", "method"))))
def start(host: Host, step: Step) -> None:
    """Starts the client, which publishes so many messages by itself, or is told to by `want`; with an Authentication Method."""
    host.start(whole(step, "qos", 1), whole(step, "count", 12), whole(step, "size", 10), step.options.get("method", ""))


@verb("accept", Shape(options=frozenset(("seconds",))))
def accept(host: Host, step: Step) -> None:
    """Takes the client's next connection, and reads its CONNECT."""
    host.accept(float(step.options.get("seconds", CONNECT_SECONDS)))


@verb("hello", Shape(flags=frozenset(("new", "resumed")), options=frozenset(("code", "with", "seconds"))))
def hello(host: Host, step: Step) -> None:
    """The same, and the CONNACK, with the Session Present that fits, or another, and properties in digits (`with`)."""
    accept(host, step)
    try:
        raw = bytes.fromhex(step.options.get("with", ""))
        properties = Reader(bytes((len(raw),)) + raw).properties()
    except (ValueError, IndexError):
        raise TableError(f"{step.place}: with={step.options['with']} is no list of properties") from None
    present = "resumed" in step.flags or ("new" not in step.flags and host.fitting)
    host.answer_connect(present, whole(step, "code", 0, 16), properties)


# ---- what the client is to do


@verb("want", Shape(options=frozenset(("qos", "count", "size"))))
def want(host: Host, step: Step) -> None:
    """Makes the client publish; one that isn't driven does so by itself."""
    host.want(whole(step, "qos", host.qos), whole(step, "count", host.count), whole(step, "size", host.size))


@verb("tell", Shape(is_raw=True))
def tell(host: Host, step: Step) -> None:
    """Tells a driver: `sub FILTER QOS`, `unsub FILTER`, `pub QOS COUNT SIZE`, `bye`."""
    host.tell(step.raw)


@verb("publish", Shape(options=frozenset(("qos",))))
def publish_one(host: Host, step: Step) -> None:
    """A message to the client, which `serve` goes on with."""
    qos = whole(step, "qos", 0)
    host.link.send(publish(TOPIC, b"m", qos, host.new_identifier() if qos else 0))


@verb("alias", Shape(options=frozenset(("qos",))))
def alias(host: Host, step: Step) -> None:
    """A message with a Topic Alias, and one with it in place of the topic, if the client takes any."""
    most = host.connect.number(Prop.TOPIC_ALIAS_MAXIMUM, 0)
    if not most:
        raise Unfit("the client takes no Topic Alias")
    qos = whole(step, "qos", 0)
    for topic in (TOPIC, ""):
        host.link.send(publish(topic, b"m", qos, host.new_identifier() if qos else 0,
                               properties=[(Prop.TOPIC_ALIAS, 1)]))


@verb("subscribed")
def subscribed(host: Host, step: Step) -> None:
    """Ends the line if the client has subscribed to nothing in this session."""
    if not host.is_subscribed:
        raise NothingLeft


@verb("burst", Shape(options=frozenset(("qos", "count"))))
def burst(host: Host, step: Step) -> None:
    """Many messages in one write, as many as the client's Receive Maximum allows."""
    most = min(host.connect.number(Prop.RECEIVE_MAXIMUM, LARGEST_IDENTIFIER), whole(step, "count", 40))
    qos = whole(step, "qos", 1)
    host.link.send(b"".join(publish(TOPIC, b"m", qos, host.new_identifier()) for _ in range(most)))


# ---- answers


@verb("serve", Shape(most=1, options=frozenset(("puback", "pubrec", "pubcomp", "suback", "silent"))))
def serve(host: Host, step: Step) -> None:
    """Answers what comes as a right broker does, until nothing comes for a time; or with other codes, or not at all."""
    idle, until = told_seconds(step, SERVE_SECONDS), time.monotonic() + 30
    answered = 0
    while not host.is_over and time.monotonic() < until:
        got = host.link.expect(seconds=idle)
        if got is None:
            return
        data = told_answer(host, got, step, answered)
        if data:
            host.link.send(data)
            answered += 1


def told_answer(host: Host, got: Packet, step: Step, number: int) -> bytes | None:
    """The answer that a step says. `97|0` are codes in turn."""
    right = {Type.PUBLISH: "puback" if got.qos == 1 else "pubrec", Type.PUBREL: "pubcomp", Type.SUBSCRIBE: "suback"}
    kind = Type(got.kind) if got.kind else None
    if kind is not None and step.options.get("silent", "").upper() == kind.name:
        return None
    key = right.get(kind) if kind is not None else None
    if key is None or key not in step.options or (kind == Type.PUBLISH and not got.qos):
        return host.reply(got)
    values = step.options[key].split("/")
    code = int(values[number % len(values)], 16)
    if key == "suback":
        return codes(Type.SUBACK, got.identifier or 0, [code] * len(got.filters))
    return acknowledgement(Type[key.upper()], got.identifier or 0, code)


@verb("hold", Shape(most=1, options=frozenset(("only",))))
def hold(host: Host, step: Step) -> None:
    """Reads for so many seconds, and answers nothing but pings and requests. What comes stays to be answered."""
    kind = Type[step.options.get("only", "PUBLISH")]
    host.hold(told_seconds(step, HOLD_SECONDS), (kind,))


@verb("answer", Shape(1, 1, frozenset(("reversed",))))
def answer(host: Host, step: Step) -> None:
    """Answers what was held, rightly: the `first`, `all`, or so many."""
    which = step.words[0]
    count = {"first": 1, "all": len(host.held)}.get(which, int(which) if which.isdecimal() else -1)
    if count < 0:
        raise TableError(f"{step.place}: answer first, all, or a number")
    chosen, host.held = host.held[:count], host.held[count:]
    for got in reversed(chosen) if "reversed" in step.flags else chosen:
        if (data := host.reply(got)) is not None:
            host.link.send(data)


@verb("forget")
def forget(host: Host, step: Step) -> None:
    """What was held isn't answered any more."""
    host.held.clear()


@verb("wrap", Shape(options=frozenset(("count",))))
def wrap(host: Host, step: Step) -> None:
    """The client publishes so many messages at QoS 1, in parts, and all are answered but what is held."""
    part, left = 2000, whole(step, "count", 66_000)
    while left > 0 and not host.is_over:
        host.want(1, part, 1)
        came, until = 0, time.monotonic() + 20
        while came < part and time.monotonic() < until and not host.is_over:
            host.link.pump(0.5)
            taken, host.link.inbox = host.link.inbox, []
            host.link.seen.clear()
            came += sum(got.kind == Type.PUBLISH for got in taken)
            if answers := b"".join(data for got in taken if (data := host.reply(got)) is not None):
                host.link.send(answers)
        if came < part:
            raise Gone(f"{came} of {part} messages came")
        left -= part


HOSTS = Vocabulary(VERBS, Host)  # of the table in which the exerciser plays the broker
