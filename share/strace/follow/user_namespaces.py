"""User namespaces that a log makes: their maps, and the ids of the tasks that enter them.

A script's ids are those of the initial namespace, and each of its namespaces has one root id. So
the ids of a call are led through the map that the log writes into `uid_map` or `gid_map`.
"""

from __future__ import annotations

import re
from dataclasses import dataclass, field

from limits import LAST_NAMESPACE

from ..script.calls import Said, Unheld

# The greatest id.
GREATEST = 4294967294

# What a namespace tells of an id that it has no number for (user_namespaces(7)).
OVERFLOW = 65534

# docs/FORMATS.md: `n0` to `n15`.
SPACES = LAST_NAMESPACE + 1

UID_WORDS = frozenset({"setuid", "setreuid", "setresuid", "setfsuid"})
GID_WORDS = frozenset({"setgid", "setregid", "setresgid", "setfsgid", "setgroups"})

Map = list[tuple[int, int, int]]


@dataclass
class Space:
    """A user namespace, with the maps that were written so far; the initial one has none."""

    number: int = 0
    parent: Space | None = None
    uids: Map | None = None
    gids: Map | None = None
    denied: bool = False
    # Who made it, by the effective user id.
    owner: int = 0
    # Programs that its tasks executed before it had a map: the line, the real and the effective
    # user.
    early: list[tuple[int, int, int]] = field(default_factory=list)

    def outside(self, value: int, groups: bool) -> int | None:
        """The id in the initial namespace."""
        if self.parent is None:
            return value
        for inside, outside, count in (self.gids if groups else self.uids) or ():
            if inside <= value < inside + count:
                found = self.parent.outside(outside + value - inside, groups)
                return found if found is not None and found <= GREATEST else None
        return None

    def inside(self, value: int, groups: bool) -> bool:
        """Whether an id of the initial namespace has a number here."""
        if self.parent is None:
            return True
        for _, outside, count in (self.gids if groups else self.uids) or ():
            first = self.parent.outside(outside, groups)
            if first is not None and first <= value < first + count:
                return True
        return False

    def root(self) -> int | None:
        """The user who is root here, in the initial namespace; None where nobody is."""
        return self.outside(0, groups=False)

    def roots(self) -> list[int | None]:
        """Who is root here, and in the namespaces above."""
        return [self.root(), *(self.parent.roots() if self.parent else ())]

    def is_made_by(self, user: int, space: Space) -> bool:
        """Whether that user of another namespace made it, or the one that it is below of."""
        if self.parent is None:
            return False
        mine = self.parent is space and self.owner == user
        return mine or self.parent.is_made_by(user, space)

    def is_within(self, other: Space) -> bool:
        """Whether it is the other one, or below it."""
        return self is other or (self.parent is not None and self.parent.is_within(other))

    def write(self, name: str, text: str) -> None:
        """A map is written, or `deny` into setgroups; runc writes the end of its string too."""
        text = text.partition("\0")[0]
        if name == "setgroups":
            self.denied = text.strip() == "deny"
            return
        found = [line.split() for line in text.split("\n") if line.strip()]
        if not all(len(row) == 3 and all(map(is_number, row)) for row in found):
            raise Unheld(f"what is written into {name} can't be read")
        rows = [(int(row[0]), int(row[1]), int(row[2])) for row in found]
        if name == "uid_map":
            self.uids = rows
            self.has_root()
        else:
            self.gids = rows

    def has_root(self) -> None:
        """A script's namespace has its root from the beginning: nobody was root by that before."""
        root = self.root()
        for line, *users in self.early:
            if root in users:
                self.uids = None
                raise Unheld(
                    f"user {root} becomes root of the namespace, and has executed a program there "
                    f"at line {line}, when nobody was: a script's namespace has its root from the "
                    "beginning"
                )


def is_number(word: str) -> bool:
    """Whether it is an id or a count, as a map has them."""
    return re.fullmatch(r"[0-9]{1,10}", word) is not None


def led(said: Said, space: Space) -> Said | None:
    """The same by the ids of the initial namespace; None where the namespace has no such id."""
    if space.parent is None:
        return said
    words, answer = said.words.split(), said.answer.split()
    if words[0] in UID_WORDS | GID_WORDS:
        groups = words[0] in GID_WORDS
        values = [outer(word, space, groups) for word in words[1:]]
        if None in values:
            return None
        words[1:] = [value for value in values if value]
        if words[0] in ("setfsuid", "setfsgid"):
            answer[2:] = [told(answer[2], space, groups)]
    elif words[0] == "chown":
        owners = [outer(word, space, place == 1) for place, word in enumerate(words[1:])]
        if None in owners:
            return None
        words[1:] = [value for value in owners if value]
    elif words[0] == "ids":
        answer[1:] = [told(word, space, place >= 4) for place, word in enumerate(answer[1:])]
    elif words[0] == "groups":
        members = [told(word, space, groups=True) for word in answer[1:]]
        known = sorted(int(member) for member in members if member != "*")
        answer[1:] = map(str, known) if len(known) == len(members) else ["*"] * len(members)
    return Said(" ".join(words), " ".join(answer))


def outer(word: str, space: Space, groups: bool) -> str | None:
    """An id of an argument."""
    if word == "-1":
        return word
    found = space.outside(int(word), groups)
    return None if found is None else str(found)


def told(word: str, space: Space, groups: bool) -> str:
    """An id of an answer; any where the namespace has no number for it."""
    if word == "*" or not word.isdigit():
        return word
    if int(word) == OVERFLOW:
        return "*"
    found = space.outside(int(word), groups)
    return "*" if found is None else str(found)
