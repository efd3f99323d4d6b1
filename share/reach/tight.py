"""When bounds are a tight box, which each file leaves in: then it is a law that no call leads out.

The parts and the conditions have the names of the definitions in crates/cred_box/specs/Boxes.antt:
`Box`, `IsTight`, `locked` of `IsIn`, `LeavesIn` of each file. A box is of one user namespace, it
lists its ids, and it bounds no groups.
"""

from __future__ import annotations

from dataclasses import dataclass

from why.names import named

from .bounds import Bounds
from .declared import Executable
from .goals import Goal, Kind
from .growth import SET_USER, SETPCAP, SETUID, Facts, counting
from .start import Start


@dataclass(frozen=True)
class Condition:
    """A condition by its name, whether it holds, and on what."""

    name: str
    holds: bool
    text: str

    def __str__(self) -> str:
        return f"{self.name}: {'holds' if self.holds else 'fails'}, {self.text}"


def no_setuid(now: Bounds) -> Condition:
    """CAP_SETUID is beyond them."""
    lacks = not now.perm & SETUID
    return Condition("no_setuid", lacks, f"CAP_SETUID is {'not ' if lacks else ''}in perm")


def fs_has(now: Bounds) -> Condition:
    """The filesystem id may be each of the three."""
    within = now.fs.every or not now.users.every and now.users.some <= now.fs.some
    return Condition("fs_has", within, f"each of users is {'' if within else 'not '}in fs")


def capset_gives(now: Bounds) -> Condition:
    """What capset(2) may make inheritable is within `inh`."""
    by_setpcap = bool(now.perm & SETPCAP)
    gives = now.bound if by_setpcap else now.bound & now.perm
    what = "bound, since CAP_SETPCAP is in perm," if by_setpcap else "what is in bound and in perm"
    within = not gives & ~now.inh
    more = named(gives) if gives else "nothing"
    text = f"{what} ({more}) is {'' if within else 'not '}within inh"
    return Condition("capset_gives", within, text)


def root_gives(now: Bounds, facts: Facts) -> Condition:
    """What an execve of root's permits is within `perm`."""
    roots = ", ".join(map(str, sorted(facts.roots)))
    if now.nnp:
        return Condition("root_gives", True, "nnp is set")
    if not now.rooted:
        return Condition("root_gives", True, "NOROOT is set")
    if not any(root in now.users for root in facts.roots):
        return Condition("root_gives", True, f"root ({roots}) is not in users")
    within = not (now.bound | now.inh) & ~now.perm
    text = f"bound and inh are {'' if within else 'not '}within perm"
    return Condition("root_gives", within, text)


def locked(now: Bounds) -> Condition:
    """NOROOT stays set where it is."""
    if now.rooted:
        return Condition("locked", True, "NOROOT may be unset")
    holds = not now.perm & SETPCAP or now.locked
    why = "NOROOT is locked" if now.locked else f"CAP_SETPCAP is {'not ' if holds else ''}in perm"
    return Condition("locked", holds, why)


def of_bounds(now: Bounds, facts: Facts) -> list[Condition]:
    """The conditions on the bounds alone."""
    return [no_setuid(now), fs_has(now), capset_gives(now), root_gives(now, facts), locked(now)]


def owner(now: Bounds, file: Executable) -> Condition:
    """The owner of a set-user-ID file is one of the users."""
    name = f"{file.name} owner"
    if now.nnp or file.nosuid or not file.mode & SET_USER:
        why = "it is nosuid" if file.nosuid else "it is not set-user-ID"
        return Condition(name, True, "nnp is set" if now.nnp else why)
    holds = file.owner in now.users
    return Condition(name, holds, f"its owner {file.owner} is {'' if holds else 'not '}in users")


def sets(now: Bounds, facts: Facts, file: Executable) -> Condition:
    """What a file's attribute permits is within `perm`."""
    name = f"{file.name} sets"
    found = counting(facts, file)
    if now.nnp or file.nosuid or found is None:
        why = "nnp is set" if now.nnp else "it is nosuid" if file.nosuid else "no attribute counts"
        return Condition(name, True, why)
    gives = found.perm & now.bound | found.inh & now.inh
    holds = not gives & ~now.perm
    return Condition(name, holds, f"it gives {named(gives)}, {'' if holds else 'not '}within perm")


def of_files(now: Bounds, facts: Facts) -> list[Condition]:
    """The conditions on each file."""
    return [
        condition
        for file in facts.files
        for condition in (owner(now, file), sets(now, facts, file))
    ]


@dataclass(frozen=True)
class Box:
    """Bounds as a box of a user namespace, with the conditions."""

    bounds: Bounds
    facts: Facts
    namespaces: tuple[int, ...]

    def conditions(self) -> list[Condition]:
        """All of them."""
        return [
            self.one_namespace(), self.lists_ids(), *of_bounds(self.bounds, self.facts),
            *of_files(self.bounds, self.facts),
        ]  # fmt: skip

    def one_namespace(self) -> Condition:
        """All threads are in one namespace."""
        holds = len(self.namespaces) == 1
        told = ", ".join(f"n{it}" for it in self.namespaces)
        return Condition("ns", holds, f"the threads are in {told}")

    def lists_ids(self) -> Condition:
        """The user ids are a list."""
        every = self.bounds.users.every or self.bounds.fs.every
        return Condition("users", not every, "every id is no list" if every else "a list")

    def parts(self) -> list[tuple[str, str]]:
        """Each part with its name, as words."""
        now = self.bounds
        return [
            ("ns", " ".join(map(str, self.namespaces))),
            ("root", " ".join(map(str, sorted(self.facts.roots)))),
            ("users", str(now.users)), ("fs", str(now.fs)), ("perm", named(now.perm)),
            ("inh", named(now.inh)), ("bound", named(now.bound)),
            ("nnp", "true" if now.nnp else "false"),
            ("rooted", "true" if now.rooted else "false"),
        ]  # fmt: skip

    def is_of_the_law(self, goals: list[Goal]) -> bool:
        """Whether the law says that none of these can be had: user ids, or capabilities."""
        holds = all(condition.holds for condition in self.conditions())
        return holds and all(goal.kind is not Kind.GID for goal in goals)


def box_of(start: Start, bounds: Bounds, facts: Facts) -> Box:
    """The box of bounds."""
    namespaces = sorted({thread.namespace for thread in start.threads})
    return Box(bounds, facts, tuple(namespaces))
