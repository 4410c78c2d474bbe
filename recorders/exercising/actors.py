"""Who acts in a scenario: the end of a link that isn't tested."""
from __future__ import annotations

from collections.abc import Mapping

from exercising.links import Gone, Link
from exercising.packets import Packet
from exercising.stage import PATIENCES, Stage


class NothingLeft(Exception):
    """There is nothing more to do in a line of a table: its repetition ends."""


class Actor:
    """One who acts, on one link at a time."""

    def __init__(self, stage: Stage, name: str, friends: Mapping[str, Actor]) -> None:
        self.stage, self.name, self.friends = stage, name, friends
        self.identifier = f"{stage.prefix}{name}"
        self.links: list[Link] = []
        self.held: list[Packet] = []  # messages whose answers are withheld

    @property
    def link(self) -> Link:
        if not self.links:
            raise Gone(f"{self.name} isn't connected")
        return self.links[-1]

    @property
    def is_over(self) -> bool:
        return not self.links or self.link.is_over

    def rest(self) -> None:
        """Waits until the tested end is at rest, and writes that."""
        self.rest_after(has_read=False)

    def rest_after(self, has_read: bool) -> None:
        """The same, where it is known or not that the tested end has read everything."""
        if not self.is_over:
            silence = self.stage.silence.now
            self.stage.longest_rest = max(self.stage.longest_rest, silence)
            self.link.rest(self.stage.rest_at(self.link.standing, has_read))

    def rest_unasked(self) -> None:
        """The same where the tested end isn't to be asked, on a connection on which a REST imposes nothing on it."""
        if not self.is_over and self.link.standing in PATIENCES:
            self.rest_after(has_read=False)

    def leave(self) -> None:
        """The scenario is over."""
        for link in self.links:
            link.close()
