"""Bounds of what a task has and may come to: what no call leads beyond.

They say of each part alone what it may be at most: which ids, which capabilities. Where what is
asked for lies beyond them no search is needed. `growth` finds the least of them.
"""

from __future__ import annotations

from collections.abc import Iterable
from dataclasses import dataclass

from why.names import NOROOT, named

from .goals import Goal, Kind, Where
from .state import State


@dataclass(frozen=True)
class IdSet:
    """A set of ids; or every id, where a capability sets any."""

    some: frozenset[int] = frozenset()
    every: bool = False

    def __contains__(self, id: int) -> bool:
        return self.every or id in self.some

    def plus(self, ids: Iterable[int]) -> IdSet:
        """These too."""
        return self if self.every else IdSet(self.some | frozenset(ids))

    def __or__(self, other: IdSet) -> IdSet:
        return EVERY if self.every or other.every else IdSet(self.some | other.some)

    def __str__(self) -> str:
        return "every id" if self.every else " ".join(map(str, sorted(self.some))) or "none"


EVERY = IdSet(every=True)


@dataclass(frozen=True)
class Bounds:
    """What a task may have: each of its three user ids, its filesystem user id, a group or a group
    id, the sets. `rooted` says whether NOROOT may be unset, `nnp` that no_new_privs is set."""

    users: IdSet
    fs: IdSet
    groups: IdSet
    perm: int
    inh: int
    bound: int
    nnp: bool
    rooted: bool
    # NOROOT is locked from the start on.
    locked: bool

    def excludes(self, goal: Goal) -> bool:
        """Whether what is asked for lies beyond them."""
        if goal.kind is Kind.UID:
            return goal.number not in self.fs
        if goal.kind is Kind.GID:
            return goal.number not in self.groups
        caps = {
            Where.PERMITTED: self.perm, Where.EFFECTIVE: self.perm, Where.INHERITABLE: self.inh,
            Where.BOUNDING: self.bound, Where.AMBIENT: self.perm & self.inh,
        }[goal.where]  # fmt: skip
        return not caps >> goal.number & 1

    def has(self, state: State) -> bool:
        """Whether a state lies within them."""
        groups = (*state.groups.three(), state.groups.fs, *state.supplementary)
        return (
            all(id in self.users for id in state.users.three())
            and state.users.fs in self.fs
            and all(id in self.groups for id in groups)
            and not state.perm & ~self.perm
            and not state.inh & ~self.inh
            and not state.bound & ~self.bound
            and (state.nnp or not self.nnp)
            and (self.rooted or bool(state.bits & NOROOT))
        )

    def parts(self) -> list[tuple[str, str]]:
        """Each part with its name, as words."""
        found = [
            ("user ids", str(self.users)), ("filesystem user id", str(self.fs)),
            ("groups", str(self.groups)), ("permitted", named(self.perm)),
            ("inheritable", named(self.inh)), ("bounding", named(self.bound)),
        ]  # fmt: skip
        found += [("no_new_privs", "set")] if self.nnp else []
        return found + ([] if self.rooted else [("NOROOT", "set")])


def around(states: list[State]) -> Bounds:
    """The bounds of some states, whatever calls come then."""
    perm = inh = bound = 0
    users, fs, groups = IdSet(), IdSet(), IdSet()
    for state in states:
        perm, inh, bound = perm | state.perm, inh | state.inh, bound | state.bound
        users = users.plus(state.users.three())
        fs = fs.plus((*state.users.three(), state.users.fs))
        ids = state.groups
        groups = groups.plus((*ids.three(), ids.fs, *state.supplementary))
    locked = all(state.bits & NOROOT << 1 for state in states)
    rooted = any(not state.bits & NOROOT for state in states)
    nnp = all(state.nnp for state in states)
    return Bounds(users, fs, groups, perm, inh, bound, nnp, rooted, locked)
