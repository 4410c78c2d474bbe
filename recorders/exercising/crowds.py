"""Many messages at a time: bursts in one write, and floods from one player to another."""
from __future__ import annotations

import time
from dataclasses import dataclass

from exercising.links import Gone
from exercising.packets import LARGEST_IDENTIFIER, Packet, Prop, Type, publish, reply
from exercising.players import Player
from exercising.stage import Unfit

STALL_SECONDS = 2.0  # without any progress: then a flood is over
TURN_SECONDS = 0.002
SPARE = 500  # identifiers that are left out at the end of their range


def burst(player: Player, topic: str, qos: int, most: int, over: int) -> None:
    """Publishes in one write as many messages as may be in flight, and so many more than that.

    More than the Receive Maximum are sent only where that is small: else it would be a flood.
    """
    player.check_publish(qos, False)
    announced = player.limits.number(Prop.RECEIVE_MAXIMUM, LARGEST_IDENTIFIER)
    if over and announced > most:
        raise Unfit(f"the broker's Receive Maximum is {announced}")
    count = min(announced, most) + over
    player.link.send(b"".join(publish(topic, b"b", qos, player.new_identifier()) for _ in range(count)))


@dataclass(frozen=True)
class Flood:
    """How many messages are published, and how many of them are unanswered at most."""

    topic: str
    qos: int
    count: int
    window: int
    seconds: float


class Sender:
    """The side of a flood that publishes."""

    def __init__(self, player: Player, flood: Flood) -> None:
        self.player, self.flood = player, flood
        self.sent = self.done = 0
        announced = player.limits.number(Prop.RECEIVE_MAXIMUM, LARGEST_IDENTIFIER)
        self.window = min(flood.window, announced)

    def step(self) -> bool:
        """Takes what came, and publishes what there is room for. It says whether something was done."""
        link = self.player.link
        taken = take_all(self.player)
        self.done += sum(got.kind in (Type.PUBACK, Type.PUBCOMP) for got in taken)
        answers = [data for got in taken if (data := reply(got)) is not None]
        room = min(self.window - (self.sent - self.done), self.flood.count - self.sent)
        messages = [self._message(self.sent + number) for number in range(max(0, room))]
        self.sent += len(messages)
        if data := b"".join(answers + messages):
            link.send(data)
        return bool(taken or messages)

    def _message(self, number: int) -> bytes:
        return publish(self.flood.topic, b"", self.flood.qos, number % (LARGEST_IDENTIFIER - SPARE) + 1)


def take_all(player: Player) -> list[Packet]:
    """What has come on a player's link; nothing of it is kept."""
    link = player.link
    while link.pump(0):
        pass
    taken, link.inbox = link.inbox, []
    link.seen.clear()
    return taken


def flood(sender: Player, receiver: Player, wanted: Flood) -> int:
    """Publishes a flood, and answers it at the receiver. It gives how many messages came there.

    Fewer come if the broker drops some. If they still came when the time was up, it raises Gone.
    """
    side, came = Sender(sender, wanted), 0
    until = time.monotonic() + wanted.seconds
    stall = time.monotonic() + STALL_SECONDS
    while came < wanted.count or side.done < wanted.count:
        taken = take_all(receiver)
        came += sum(got.kind == Type.PUBLISH for got in taken)
        if answers := b"".join(data for got in taken if (data := reply(got)) is not None):
            receiver.link.send(answers)
        now = time.monotonic()
        if now > until:
            raise Gone(f"only {came} of {wanted.count} messages came in {wanted.seconds:.0f} s")
        if side.step() or taken:
            stall = now + STALL_SECONDS
        elif now > stall or sender.is_over or receiver.is_over:
            break
        else:
            receiver.link.pump(TURN_SECONDS)
    return came
