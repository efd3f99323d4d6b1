"""The user and the groups of a line, by the image's own passwd and group."""

from __future__ import annotations

from dataclasses import dataclass, field

from ..places import Bears, Place
from ..script import Script
from ..users import Group, Users, is_number
from .engines import Engine
from .line import Line


@dataclass
class Identity:
    """The user, the group and the supplementary groups. `named` says whether a user is named."""

    user: int = 0
    group: int = 0
    more: list[int] = field(default_factory=list)
    named: bool = False


class Finder:
    """Looks the names of a line up."""

    def __init__(self, script: Script, line: Line, users: Users, there: bool) -> None:
        self.script = script
        self.line = line
        self.users = users
        # Whether the image's files are there.
        self.there = there

    def unknown(self, what: str, word: str, place: Place) -> None:
        """A name that the image's files don't have, or that can't be looked up."""
        if self.there:
            self.script.fail("no such user", f"the image has no {what} {word}", place)
        else:
            text = f"the number of the {what} {word}: the image isn't unpacked (--rootfs)"
            self.script.doubt("image", text, place, bears=Bears.ALL)

    def number(self, word: str, found: Group | None, what: str, place: Place) -> int:
        """The number of a group."""
        if found is not None:
            return found.number
        if not is_number(word):
            self.unknown(what, word, place)
        return int(word) if is_number(word) else 0

    def find_user(self, word: str, place: Place) -> Identity:
        """The user of a word, USER or USER:GROUP."""
        name, _, group = word.partition(":")
        found = Identity(named=True)
        entry = self.users.user(name) if name else self.users.user("0")
        if entry is not None:
            found.user, found.group = entry.number, entry.group
            found.more = self.users.groups_of(entry.name, entry.group)[1:]
        elif is_number(name):
            found.user = int(name)
        elif name:
            self.unknown("user", name, place)
        if group:
            found.group = self.number(group, self.users.group(group), "group", place)
            found.more = []
        return found

    def find(self, word: str) -> Identity:
        """All of it. podman gives no group of its own where no user is named."""
        user = self.line.told("--user") or "the USER of the image"
        found = self.find_user(word or "0", Place(user))
        found.named = bool(word)
        for group in self.line.values("--group-add"):
            place = Place(f"--group-add {group}")
            found.more.append(self.number(group, self.users.group(group), "group", place))
        if self.line.engine is Engine.DOCKER or found.named:
            found.more.append(found.group)
        found.more = sorted(set(found.more))
        return found
