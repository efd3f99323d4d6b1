"""The id maps of a container's user namespace: its ids as the host's, and back."""

from __future__ import annotations

from dataclasses import dataclass

from ..answers import Space
from .config import Config, Range


@dataclass(frozen=True)
class Map:
    """A map; none where the container is in the user namespace of its runtime."""

    ranges: tuple[Range, ...] | None = None

    def out(self, number: int) -> int | None:
        """An id of the container, as the host's."""
        if self.ranges is None:
            return number
        for it in self.ranges:
            if it.inside <= number < it.inside + it.size:
                return it.outside + number - it.inside
        return None

    def into(self, number: int) -> int | None:
        """An id of the host, as the container's."""
        if self.ranges is None:
            return number
        for it in self.ranges:
            if it.outside <= number < it.outside + it.size:
                return it.inside + number - it.outside
        return None


@dataclass(frozen=True)
class Maps:
    """The maps of users and of groups."""

    users: Map = Map()
    groups: Map = Map()

    def space(self) -> Space:
        """As the answer is told by them."""
        return Space(self.users.into, self.groups.into)


def maps_of(config: Config) -> Maps:
    """The maps of a config."""
    if not config.new_space:
        return Maps()
    return Maps(Map(tuple(config.users)), Map(tuple(config.groups)))
