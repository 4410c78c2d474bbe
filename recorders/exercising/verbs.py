"""What a player can do: the verbs of the table, each with the words that it may have, and the code behind it."""
from __future__ import annotations

import time
from collections.abc import Callable, Mapping
from dataclasses import dataclass, replace
from typing import Any

from exercising import crowds
from exercising.actors import Actor, NothingLeft
from exercising.links import Gone, Link
from exercising.notation import bytes_of, named
from exercising.packets import RESERVED, Packet, Prop, Type, Value, Will, acknowledgement, reply
from exercising.players import CLOSE_SECONDS, IDLE_SECONDS, Player
from exercising.stage import Stage
from exercising.table import BRACE, REPETITION, Line, Shape, Step, TableError

SETTLE_SECONDS = 0.02  # in which the broker does all that an answer brings about
MANY_FILTERS = 300
BURST_MOST = 200
COUNTED = {  # the options of a CONNECT that are properties with a number
    "expiry": Prop.SESSION_EXPIRY,
    "receive-maximum": Prop.RECEIVE_MAXIMUM,
    "packet-size": Prop.MAXIMUM_PACKET_SIZE,
    "alias-maximum": Prop.TOPIC_ALIAS_MAXIMUM,
    "problem-information": Prop.REQUEST_PROBLEM_INFORMATION,
    "response-information": Prop.REQUEST_RESPONSE_INFORMATION,
}
CONNECTING = Shape(
    flags=frozenset(("clean", "resume", "will-retain", "maybe", "unanswered")),
    options=frozenset((*COUNTED, "id", "keep-alive", "user", "password", "will", "will-qos", "will-delay")),
)


Act = Callable[[Any, Step], None]  # of the actor of its table


@dataclass(frozen=True)
class Verb:
    """A verb's words, and what it does."""

    shape: Shape
    act: Act


@dataclass(frozen=True)
class Vocabulary:
    """The verbs that a table may use, and who acts in it."""

    verbs: Mapping[str, Verb]
    actor: Callable[[Stage, str, Mapping[str, Actor]], Actor]

    @property
    def shapes(self) -> dict[str, Shape]:
        """The verbs' words, for the parser."""
        return {name: one.shape for name, one in self.verbs.items()}


VERBS: dict[str, Verb] = {}
NEEDS = frozenset(("start", "denied", "wrong-password", "slow", "alone"))


def verb(name: str, shape: Shape = Shape()) -> Callable[[Act], Act]:
    """Makes a function a verb."""

    def keep(act: Act) -> Act:
        VERBS[name] = Verb(shape, act)
        return act

    return keep


# ---- playing


def play(stage: Stage, vocabulary: Vocabulary) -> None:
    """Plays a scenario to its end. It raises Gone or Unfit where that can't be reached."""
    actors: dict[str, Actor] = {}
    for name in stage.scenario.actors:
        actors[name] = vocabulary.actor(stage, name, actors)
    try:
        for line in stage.scenario.lines:
            play_line(line, vocabulary, actors)
    finally:
        for actor in actors.values():
            actor.leave()


def play_line(line: Line, vocabulary: Vocabulary, actors: Mapping[str, Actor]) -> None:
    try:
        for number in range(line.times):
            for step in line.steps:
                play_step(actors[step.actor], step, vocabulary.verbs[step.verb], number)
    except NothingLeft:
        pass
    except Gone:
        if not line.may_end:
            raise


def play_step(actor: Actor, step: Step, what: Verb, number: int) -> None:
    actor.stage.check()
    if what.shape.counts or step.times == 1:
        what.act(actor, numbered(step, number))
    else:
        for own in range(step.times):
            actor.stage.check()
            what.act(actor, numbered(step, own))
    actor.stage.judge_now()


def numbered(step: Step, number: int) -> Step:
    """A step in its repetition of this number: `{n}` is the number, and `0|1|2` has the value whose turn it is."""

    def put(text: str) -> str:
        return BRACE.sub(lambda found: str(number) if found[1] == REPETITION else found[0], text)

    def turn(text: str) -> str:
        values = text.split("|")
        return put(values[number % len(values)])

    options = {key: turn(value) for key, value in step.options.items()}
    return replace(step, words=tuple(map(put, step.words)), options=options, raw=put(step.raw))


def whole(step: Step, key: str, absent: int, base: int = 10) -> int:
    """The number that an option says."""
    try:
        return int(step.options[key], base) if key in step.options else absent
    except ValueError:
        raise TableError(f"{step.place}: {key}={step.options[key]} isn't a number") from None


def told_seconds(step: Step, absent: float) -> float:
    """The number of seconds that a step says."""
    try:
        return float(step.words[0]) if step.words else absent
    except ValueError:
        raise TableError(f"{step.place}: {step.words[0]!r} isn't a number of seconds") from None


def name_in(player: Player, word: str) -> str:
    return named(word, player.stage.names(player.identifier))


# ---- connections


@verb("open")
def open_link(player: Player, step: Step) -> None:
    """Only the network connection: what is sent on it comes next."""
    player.open()


@verb("connect", CONNECTING)
def connect(player: Player, step: Step) -> None:
    """A CONNECT on a new connection, and its CONNACK. A refusal ends the scenario, but where it is `maybe`."""
    say_hello(player, step)
    if "unanswered" in step.flags:
        return
    got = player.welcomed()
    if "maybe" not in step.flags:
        check_welcome(player, got)


def say_hello(player: Player, step: Step) -> None:
    pairs: list[tuple[int, Value]] = []
    pairs += [(key, whole(step, name, 0)) for name, key in COUNTED.items() if name in step.options]
    will = None
    if "will" in step.options:
        delay: list[tuple[int, Value]] = [(Prop.WILL_DELAY, whole(step, "will-delay", 0))]
        topic = name_in(player, step.options["will"])
        will = Will(topic, b"will", whole(step, "will-qos", 0), "will-retain" in step.flags,
                    delay if "will-delay" in step.options else ())
        if will.retain:
            player.stage.retained.add(topic)
    identifier = step.options.get("id")
    password = step.options.get("password")
    if password == "WRONG":
        password = player.stage.target.wrong_password
    player.connect("resume" not in step.flags, pairs, keep_alive=whole(step, "keep-alive", 60), will=will,
                   identifier=None if identifier is None else name_in(player, identifier),
                   user=step.options.get("user"), password=password)


def check_welcome(player: Player, got: Packet | None) -> None:
    if got is None:
        raise Gone("no CONNACK came" + (": the broker has closed" if player.is_over else ""))
    if (got.code or 0) >= RESERVED:
        player.link.closes(CLOSE_SECONDS)
        raise Gone(f"CONNACK 0x{got.code:02x}")


@verb("takeover", CONNECTING)
def takeover(player: Player, step: Step) -> None:
    """A second connection of the Client Identifier, while the first is open: that one is closed by the broker."""
    old = player.link
    say_hello(player, step)
    if not old.closes(CLOSE_SECONDS):
        player.stage.observe("the old connection stays open at a takeover")
    elif not any(got.kind == Type.DISCONNECT for got in old.seen):
        player.stage.observe("no DISCONNECT at a takeover")
    old.close()  # before the new one's CONNACK is read: the log has all of the old one first
    check_welcome(player, player.welcomed())


@verb("drop")
def drop(player: Player, step: Step) -> None:
    """Ends the connection without a DISCONNECT."""
    player.link.close()


@verb("reset")
def reset(player: Player, step: Step) -> None:
    """Ends it by a reset. Only at rest."""
    player.link.reset()


@verb("bye", Shape(options=frozenset(("code", "expiry", "reason"))))
def bye(player: Player, step: Step) -> None:
    """Ends it by a DISCONNECT, and waits until the broker has closed."""
    pairs: list[tuple[int, Value]] = []
    if "expiry" in step.options:
        pairs.append((Prop.SESSION_EXPIRY, whole(step, "expiry", 0)))
    if "reason" in step.options:
        pairs.append((Prop.REASON_STRING, step.options["reason"].encode()))
    code = whole(step, "code", 0, 16) if step.options else None
    player.bye(code, pairs)


@verb("closes", Shape(most=1))
def closes(player: Player, step: Step) -> None:
    """The broker should close by itself within this time. If it doesn't, the log says so by a REST.

    That is so if it has said that it will close, and after more silence if what was sent is broken, or if there is no
    CONNACK. Else a REST would bind, and is left to `rest`, which asks by a ping.
    """
    seconds = told_seconds(step, CLOSE_SECONDS / 2)
    link = player.link
    if not link.closes(seconds):
        player.stage.observe(f"open {seconds:g} s later, after {last_words(link)}")
        link.stayed_open()
        player.rest_unasked()


def last_words(link: Link) -> str:
    """The last packet that came, without its Packet Identifier: the same things are to look the same."""
    if not link.seen:
        return "without a packet"
    last = link.seen[-1]
    return last.name if last.code is None else f"{last.name} 0x{last.code:02x}"


@verb("together")
def together(player: Player, step: Step) -> None:
    """Waits until all scenarios in which the broker dies have come as far: what they do next is done shortly before."""
    player.stage.meet()


@verb("kill", Shape(2, 2))
def kill(player: Player, step: Step) -> None:
    """The broker dies by this signal, once for all scenarios that name the same group, and is started again."""
    player.stage.kill()
    if not player.is_over:
        player.link.closes(player.stage.target.patience)
    player.link.close()


# ---- requests


@verb("subscribe", Shape(1, MANY_FILTERS, options=frozenset(("qos", "identifier", "many"))))
def subscribe(player: Player, step: Step) -> None:
    """A SUBSCRIBE, and its SUBACK. `T/x,2` is a filter with its Subscription Options, in hexadecimal digits."""
    qos = whole(step, "qos", 2)
    filters = [filter_of(player, word, qos) for word in step.words]
    if "many" in step.options:
        filters = [(f"{name}/{number}", number % 3) for name, _ in filters for number in range(whole(step, "many", 1))]
    pairs: list[tuple[int, Value]] = []
    if "identifier" in step.options:
        pairs.append((Prop.SUBSCRIPTION_IDENTIFIER, whole(step, "identifier", 1)))
    player.subscribe(filters, pairs)


def filter_of(player: Player, word: str, qos: int) -> tuple[str, int]:
    name, comma, options = word.rpartition(",")
    return (name_in(player, name), int(options, 16)) if comma else (name_in(player, word), qos)


@verb("unsubscribe", Shape(1, MANY_FILTERS, options=frozenset(("many",))))
def unsubscribe(player: Player, step: Step) -> None:
    """An UNSUBSCRIBE, and its UNSUBACK."""
    names = [name_in(player, word) for word in step.words]
    if "many" in step.options:
        names = [f"{name}/{number}" for name in names for number in range(whole(step, "many", 1))]
    player.unsubscribe(names)


@verb("publish", Shape(1, 1, frozenset(("retain",)), frozenset(("qos", "size", "sizes", "payload", "alias", "user"))))
def publish(player: Player, step: Step) -> None:
    """A message, with the whole exchange. `sizes=5..9` publishes one of each size, and `payload=` an empty one."""
    pairs: list[tuple[int, Value]] = []
    if "alias" in step.options:
        pairs.append((Prop.TOPIC_ALIAS, whole(step, "alias", 1)))
    if "user" in step.options:
        pairs.append((Prop.USER_PROPERTY, (b"k", step.options["user"].encode())))
    payload = step.options.get("payload", "m").encode()
    low, _, high = step.options.get("sizes", "").partition("..")
    sizes = range(int(low), int(high) + 1) if high else [whole(step, "size", -1)]
    topic = "" if step.words[0] == "-" else name_in(player, step.words[0])
    for size in sizes:
        player.publish(topic, b"p" * size if size >= 0 else payload, whole(step, "qos", 0),
                       retain="retain" in step.flags, properties=pairs)


@verb("oversize", Shape(1, 1))
def oversize(player: Player, step: Step) -> None:
    """A message of QoS 1 that is a byte larger than the broker's Maximum Packet Size allows."""
    player.oversize(name_in(player, step.words[0]))


@verb("begin", Shape(1, 1, options=frozenset(("qos",))))
def begin(player: Player, step: Step) -> None:
    """A message of which only the PUBLISH is sent."""
    player.begin(name_in(player, step.words[0]), b"begun", whole(step, "qos", 1))


@verb("again")
def again(player: Player, step: Step) -> None:
    """What was begun and isn't complete is gone on with, as a right client does on the next connection."""
    player.again()


@verb("send", Shape(is_raw=True))
def send(player: Player, step: Step) -> None:
    """Bytes, in the words of `notation.py`, in one write."""
    player.link.send(spelled(player, step))


def spelled(player: Player, step: Step) -> bytes:
    """The bytes that a step says. What may begin a session is noted."""
    data = bytes_of(step.raw, player.stage.names(player.identifier))
    if data[:1] == bytes((Type.CONNECT << 4,)):
        player.stage.sessions.add(player.identifier)
    return data


@verb("dribble", Shape(is_raw=True))
def dribble(player: Player, step: Step) -> None:
    """The same, each byte in a write of its own."""
    for byte in spelled(player, step):
        player.link.send(bytes((byte,)))


@verb("ping")
def ping(player: Player, step: Step) -> None:
    """A PINGREQ, and its PINGRESP."""
    player.ping()


# ---- waiting


@verb("rest")
def rest(player: Player, step: Step) -> None:
    """A ping, its answer, and silence: then the log says that the broker is at rest."""
    player.rest()


@verb("quiet", Shape(most=1))
def quiet(player: Player, step: Step) -> None:
    """Reads until nothing comes for so many seconds."""
    if not player.is_over:
        player.link.quiet(told_seconds(step, IDLE_SECONDS))


@verb("wait", Shape(1, 1))
def wait(player: Player, step: Step) -> None:
    """Reads for so many seconds, whatever comes."""
    until = time.monotonic() + told_seconds(step, 0)
    while (left := until - time.monotonic()) > 0:
        if not player.links or not player.link.pump(left) and player.is_over:
            time.sleep(max(0.0, until - time.monotonic()))


@verb("await", Shape(1, 1, options=frozenset(("seconds",)), counts=True))
def await_packets(player: Player, step: Step) -> None:
    """Waits until so many packets of a type are there, or it has taken too long. They stay to be answered."""
    kind = kind_of(step)
    until = time.monotonic() + float(step.options.get("seconds", player.stage.target.patience))
    while not player.is_over and (left := until - time.monotonic()) > 0:
        if sum(got.kind == kind for got in player.link.inbox) >= step.times:
            return
        player.link.pump(left)


def kind_of(step: Step) -> Type:
    """The type of Control Packet that a step names."""
    try:
        return Type[step.words[0]]
    except KeyError:
        raise TableError(f"{step.place}: {step.words[0]} is no Control Packet") from None


# ---- answers


@verb("serve", Shape(most=1))
def serve(player: Player, step: Step) -> None:
    """Answers whatever comes, until nothing comes for so many seconds."""
    if not player.is_over:
        player.serve(told_seconds(step, IDLE_SECONDS))


@verb("answer", Shape(1, 1, frozenset(("reversed", "keep", "slowly", "reason")),
                      frozenset(("as", "code", "id", "only", "seconds"))))
def answer(player: Player, step: Step) -> None:
    """Answers what waits: the `first`, the `last`, `all` or the first N.

    It may answer with another code, type or identifier than is right. `keep` leaves it to be answered once more, and
    `slowly` waits after each answer for all that the broker does then.
    """
    chosen = choose(player, step)
    if "reversed" in step.flags:
        chosen.reverse()
    for got in chosen:
        if "keep" not in step.flags:
            player.link.inbox.remove(got)
        player.link.send(answer_to(got, step))
        if "slowly" in step.flags:
            player.link.quiet(SETTLE_SECONDS)


def choose(player: Player, step: Step) -> list[Packet]:
    """What is answered. It raises NothingLeft where nothing comes that could be."""
    only = Type[step.options["only"]] if "only" in step.options else None
    which = step.words[0]
    until = time.monotonic() + float(step.options.get("seconds", IDLE_SECONDS))
    while True:
        waiting = [got for got in player.waiting() if only in (None, got.kind)]
        if waiting or player.is_over or which == "0":
            break
        if (left := until - time.monotonic()) <= 0:
            raise NothingLeft
        player.link.pump(left)
    if player.is_over and not waiting:
        raise Gone("the connection was closed before an answer")
    counts = {"first": waiting[:1], "last": waiting[-1:], "all": waiting}
    if which not in counts and not which.isdecimal():
        raise TableError(f"{step.place}: answer first, last, all, or a number")
    return list(counts[which]) if which in counts else waiting[: int(which)]


def answer_to(got: Packet, step: Step) -> bytes:
    """The answer that a step says, which needn't be right."""
    code = whole(step, "code", 0, 16) if "code" in step.options else None
    is_changed = got.kind == Type.PUBLISH or "only" in step.options
    if not is_changed or got.identifier is None:
        return reply(got) or b""
    right = {Type.PUBLISH: Type.PUBACK if got.qos == 1 else Type.PUBREC, Type.PUBREC: Type.PUBREL}
    kind = Type[step.options["as"]] if "as" in step.options else right.get(Type(got.kind), Type.PUBCOMP)
    reason: list[tuple[int, Value]] = [(Prop.REASON_STRING, b"why"), (Prop.USER_PROPERTY, (b"k", b"v"))]
    if "reason" in step.flags:
        return acknowledgement(kind, whole(step, "id", got.identifier), code or 0, reason)
    return acknowledgement(kind, whole(step, "id", got.identifier), code)


@verb("hold", Shape(1, 1))
def hold(player: Player, step: Step) -> None:
    """Takes the first packet of a type, PUBLISH or PUBREL, and doesn't answer it until `release`."""
    got = player.expect(kind_of(step))
    if got is None:
        raise Gone(f"no {step.words[0]} came to be held")
    player.held.append(got)


@verb("release")
def release(player: Player, step: Step) -> None:
    """Answers what was held, and then serves."""
    for got in player.held:
        player.link.send(reply(got) or b"")
    player.held.clear()
    player.serve()


# ---- many at once


@verb("burst", Shape(1, 1, options=frozenset(("qos", "over", "most"))))
def burst(player: Player, step: Step) -> None:
    """As many messages in one write as the broker's Receive Maximum allows, or so many more (`over`)."""
    most, over = whole(step, "most", BURST_MOST), whole(step, "over", 0)
    crowds.burst(player, name_in(player, step.words[0]), whole(step, "qos", 1), most, over)


@verb("flood", Shape(1, 1, options=frozenset(("qos", "count", "window", "from", "seconds"))))
def flood(player: Player, step: Step) -> None:
    """Another player (`from`) publishes so many messages, with so many unanswered at a time, and this one serves."""
    sender = player.friends.get(step.options.get("from", ""))
    if not isinstance(sender, Player):
        raise TableError(f"{step.place}: from= must name another player who is connected")
    wanted = crowds.Flood(name_in(player, step.words[0]), whole(step, "qos", 1), whole(step, "count", 1000),
                          whole(step, "window", 15), whole(step, "seconds", 20))
    came = crowds.flood(sender, player, wanted)
    if came < wanted.count:
        player.stage.observe(f"{came} of {wanted.count} messages came in a flood")


CLIENTS = Vocabulary(VERBS, Player)  # of the table in which clients play against a broker
