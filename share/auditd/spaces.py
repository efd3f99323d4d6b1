"""User namespaces, as far as the log tells them (user_namespaces(7)).

The ids of a log and those of a script are of the initial user namespace alike. What a call takes is
of the caller's, and its maps are written into a file, of which no rule makes a record. So they are
known by what /proc said where the log begins; else 0 is taken to be who made the namespace, as
`unshare -r` and rootless containers have it, and other ids are learned from what calls leave.
"""

from __future__ import annotations

from dataclasses import dataclass, field

CLONE_NEWUSER = 0x10000000
GREATEST = 4294967294
OVERFLOW = 65534

# First id inside, first outside, and how many (user_namespaces(7)).
Map = list[tuple[int, int, int]]


@dataclass
class Ids:
    """How the users, or the groups, of a namespace are led to the initial one."""

    known: Map | None = None
    learned: dict[int, int] = field(default_factory=dict)

    def outside(self, value: int) -> int | None:
        """The id in the initial namespace, where that is known."""
        for inside, outside, count in self.known or ():
            if inside <= value < inside + count:
                return outside + value - inside
        return self.learned.get(value)

    def has(self, value: int) -> bool:
        """Whether an id of the initial namespace has a number here."""
        if self.known is not None:
            return any(first <= value < first + count for _, first, count in self.known)
        return value in self.learned.values()


@dataclass(eq=False)
class Space:
    """A user namespace: who made it, and how its ids are led."""

    creator: int | None = None
    parent: Space | None = None
    users: Ids = field(default_factory=Ids)
    groups: Ids = field(default_factory=Ids)

    @property
    def sure(self) -> bool:
        """Whether its maps are known, and no guess."""
        return self.users.known is not None and self.groups.known is not None

    def root(self) -> int:
        """Who is root here. Where nobody is, or it isn't known, a user whom nothing else names."""
        found = self.users.outside(0)
        if found is None and not self.sure:
            found = self.creator
        return GREATEST if found is None else found

    def learn(self, value: int, outside: int, groups: bool) -> int:
        """What an id is outside: as it is known, or else as a call left it."""
        ids = self.groups if groups else self.users
        found = ids.outside(value)
        if found is None:
            found = outside if ids.known is None else GREATEST
            ids.learned[value] = found
        return found

    def has_file(self, owner: int, group: int) -> bool:
        """Whether a file's set-id bits count here: its owner and its group have numbers."""
        mine = self.users.has(owner) or not self.sure and owner == self.creator
        return mine and (self.groups.has(group) or not self.sure)
