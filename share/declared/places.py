"""Where a declaration says something; what isn't known of it; and how a launcher fails."""

from __future__ import annotations

from dataclasses import dataclass
from enum import Enum


class Bad(Exception):
    """What is wrong with a declaration, in one line."""


@dataclass(frozen=True)
class Place:
    """A key of a declaration, with its file and line. Without a line it isn't there."""

    key: str
    file: str = ""
    line: int = 0

    @property
    def where(self) -> str:
        """The file and the line."""
        return f"{self.file}:{self.line}" if self.line else self.file

    def __str__(self) -> str:
        return f"{self.key} ({self.where})" if self.where else self.key


def listed(places: tuple[Place, ...]) -> str:
    """Places one after another; those of one key stand together."""
    keys: dict[str, list[str]] = {}
    for place in places:
        keys.setdefault(place.key, []).append(place.where)
    texts = []
    for key, found in keys.items():
        where = ", ".join(dict.fromkeys(filter(None, found)))
        texts.append(f"{key} ({where})" if where else key)
    return ", ".join(texts)


class Bears(Enum):
    """What something that isn't known may change of the answer."""

    NOTHING = "nothing"
    IDS = "ids"
    SETS = "sets"
    ALL = "all"


@dataclass(frozen=True)
class Unknown:
    """Something that a script can't say, or that can't be read here."""

    kind: str
    text: str
    places: tuple[Place, ...] = ()
    bears: Bears = Bears.NOTHING

    def on_sets(self) -> bool:
        """Whether the sets may be others."""
        return self.bears in (Bears.SETS, Bears.ALL)

    def on_ids(self) -> bool:
        """Whether the user or the groups may be others."""
        return self.bears in (Bears.IDS, Bears.ALL)

    def __str__(self) -> str:
        named = listed(self.places)
        return f"{named}: {self.text}" if named else self.text


@dataclass(frozen=True)
class Note:
    """What a launcher passes over, or what is said of the answer besides."""

    text: str
    places: tuple[Place, ...] = ()

    def __str__(self) -> str:
        named = listed(self.places)
        return f"{named}: {self.text}" if named else self.text


@dataclass(frozen=True)
class Failure:
    """Why the program isn't started. `step` is the launcher's name or status of it, `call` the
    call that is refused, if it is one, and `answer` how."""

    step: str
    reason: str
    places: tuple[Place, ...] = ()
    call: str = ""
    answer: str = ""
    line: int = 0
