"""The users and groups of this machine, or of the files passwd and group of a tree."""

from __future__ import annotations

import grp
import os
import pwd
from dataclasses import dataclass, field
from typing import Protocol


@dataclass(frozen=True)
class User:
    """A user."""

    name: str
    number: int
    group: int


@dataclass(frozen=True)
class Group:
    """A group."""

    name: str
    number: int
    members: tuple[str, ...] = ()


class Users(Protocol):
    """Where names are looked up. A number as a word is looked up as a number."""

    def user(self, word: str) -> User | None:
        """A user, by name or number."""
        ...

    def group(self, word: str) -> Group | None:
        """A group, by name or number."""
        ...

    def groups_of(self, name: str, group: int) -> list[int]:
        """getgrouplist(3): this group, and those that the user is a member of."""
        ...


def is_number(word: str) -> bool:
    """Whether a word is the number of an id."""
    return word.isascii() and word.isdigit() and len(word) < 11 and int(word) < (1 << 32) - 1


class Machine:
    """The users of this machine, by whatever nsswitch.conf(5) names."""

    def user(self, word: str) -> User | None:
        """A user, by name or number."""
        try:
            found = pwd.getpwuid(int(word)) if is_number(word) else pwd.getpwnam(word)
        except (KeyError, ValueError):
            return None
        return User(found.pw_name, found.pw_uid, found.pw_gid)

    def group(self, word: str) -> Group | None:
        """A group, by name or number."""
        try:
            found = grp.getgrgid(int(word)) if is_number(word) else grp.getgrnam(word)
        except (KeyError, ValueError):
            return None
        return Group(found.gr_name, found.gr_gid, tuple(found.gr_mem))

    def groups_of(self, name: str, group: int) -> list[int]:
        """getgrouplist(3)."""
        return os.getgrouplist(name, group)


@dataclass
class Files:
    """The users of two files, as passwd(5) and group(5) have them."""

    users: list[User] = field(default_factory=list)
    groups: list[Group] = field(default_factory=list)

    def user(self, word: str) -> User | None:
        """A user: the first line that has this name, else this number."""
        named = [it for it in self.users if it.name == word]
        numbered = [it for it in self.users if is_number(word) and it.number == int(word)]
        return next(iter(named + numbered), None)

    def group(self, word: str) -> Group | None:
        """A group: the first line that has this name, else this number."""
        named = [it for it in self.groups if it.name == word]
        numbered = [it for it in self.groups if is_number(word) and it.number == int(word)]
        return next(iter(named + numbered), None)

    def groups_of(self, name: str, group: int) -> list[int]:
        """The group, and those that the user is a member of, in the file's order."""
        found = [it.number for it in self.groups if name in it.members and it.number != group]
        return [group, *found]


def fields(text: str, count: int) -> list[list[str]]:
    """The lines that have so many fields at least, and numbers where ids are."""
    rows = [line.split(":") for line in text.splitlines() if line and line[0] not in "#+-"]
    return [row for row in rows if len(row) >= count and is_number(row[2])]


def of_texts(passwd: str, group: str) -> Files:
    """The users of these two texts."""
    users = [
        User(row[0], int(row[2]), int(row[3])) for row in fields(passwd, 4) if is_number(row[3])
    ]
    groups = [
        Group(row[0], int(row[2]), tuple(row[3].split(",")) if row[3:] and row[3] else ())
        for row in fields(group, 3)
    ]
    return Files(users, groups)


def read(path: str) -> str:
    """A file's text; nothing where there is none."""
    try:
        with open(path, "rb") as file:
            return file.read().decode("latin-1")
    except OSError:
        return ""


def of_tree(root: str) -> Users:
    """The users of a tree, or of this machine."""
    if os.path.realpath(root) == "/":
        return Machine()
    return of_texts(read(f"{root}/etc/passwd"), read(f"{root}/etc/group"))
