"""Of two states the larger one: whatever the smaller one can come to, it can.

States are compared where their ids and groups are the same; ids and groups themselves are never
compared by size, since to drop one may help: the group's digit of mode 4705 keeps a member out.
That the larger one can do as much is an argument on the definitions of crates/cred_rules/specs,
call by call; random walks are held against it (share/reach/check).
"""

from __future__ import annotations

from collections.abc import Iterable, Iterator
from dataclasses import dataclass

from why.names import KEEP_CAPS, NO_AMBIENT_RAISE, NO_SETUID_FIXUP, NOROOT

from .declared import Executable
from .goals import Goal, Kind
from .state import Ids, State

# Each securebits flag, by its place, with the value that permits more. Its lock is the next bit.
PERMISSIVE = {
    NOROOT.bit_length() - 1: False,
    NO_SETUID_FIXUP.bit_length() - 1: True,
    KEEP_CAPS.bit_length() - 1: True,
    NO_AMBIENT_RAISE.bit_length() - 1: False,
}
# Stands for each id that nothing names.
ANY = -1


@dataclass(frozen=True)
class Node:
    """A state in a user namespace: what the search goes through."""

    state: State
    namespace: int


@dataclass(frozen=True)
class Place:
    """What two states share that are compared."""

    namespace: int
    users: tuple[int, ...]
    groups: tuple[int, ...]
    supplementary: frozenset[int]
    nnp: bool


@dataclass(frozen=True)
class Scope:
    """Which ids are told apart: those that a rule or a question names. Each other one is like any
    other, since a rule asks of an id only whether it equals another one, the id of root, or the
    owner or the group of a file."""

    users: frozenset[int]
    groups: frozenset[int]
    # Groups count where one is asked for, or where a file's execute bits differ.
    by_groups: bool
    # Without a plain program no_new_privs may help: a file's set-id bits and its attribute are
    # ignored then, also one that leads to EPERM.
    nnp_may_help: bool

    def named(self, ids: Ids, known: frozenset[int]) -> tuple[int, ...]:
        """Ids, those that nothing names as one."""
        return tuple(
            id if id in known else ANY for id in (ids.real, ids.effective, ids.saved, ids.fs)
        )

    def place(self, node: Node) -> Place:
        """What a state is compared by."""
        state = node.state
        return Place(
            node.namespace,
            self.named(state.users, self.users),
            self.named(state.groups, self.groups) if self.by_groups else (),
            state.supplementary & self.groups if self.by_groups else frozenset(),
            self.nnp_may_help and state.nnp,
        )


def scope_of(
    goals: Iterable[Goal], files: Iterable[Executable], roots: Iterable[int], plain: bool
) -> Scope:
    """The scope of some questions."""
    users, groups, by_groups = set(roots), set(), False
    for goal in goals:
        if goal.kind is Kind.UID:
            users.add(goal.number)
        if goal.kind is Kind.GID:
            groups.add(goal.number)
            by_groups = True
    for file in files:
        if file.asks_who:
            users.add(file.owner)
            groups.add(file.group)
            by_groups = True
    return Scope(frozenset(users), frozenset(groups), by_groups, not plain)


def bits_at_least(large: int, small: int) -> bool:
    """Whether securebits permit what others do: each flag that is permissive there is here, and
    only what is locked there is locked here."""
    for place, value in PERMISSIVE.items():
        if (small >> place & 1) == value and (large >> place & 1) != value:
            return False
        if large >> place + 1 & 1 and not small >> place + 1 & 1:
            return False
    return True


def at_least(large: State, small: State) -> bool:
    """Of two states with the same ids and groups: whether one has all that the other has."""
    lacks = (
        small.perm & ~large.perm | small.inh & ~large.inh | small.eff & ~large.eff
        | small.bound & ~large.bound | small.amb & ~large.amb
    )  # fmt: skip
    return not lacks and large.nnp <= small.nnp and bits_at_least(large.bits, small.bits)


class Kept:
    """The states that were found, but those that another one of them covers."""

    def __init__(self, scope: Scope) -> None:
        self.scope = scope
        self.by_place: dict[Place, list[Node]] = {}
        self.count = 0

    def covers(self, node: Node) -> bool:
        """Whether one of them is at least this one."""
        those = self.by_place.get(self.scope.place(node), ())
        return any(at_least(that.state, node.state) for that in those)

    def is_below(self, node: Node) -> bool:
        """Whether another one covers this one of them: then that one's calls are enough."""
        those = self.by_place[self.scope.place(node)]
        return any(that is not node and at_least(that.state, node.state) for that in those)

    def add(self, node: Node) -> None:
        """One more."""
        self.by_place.setdefault(self.scope.place(node), []).append(node)
        self.count += 1

    def __iter__(self) -> Iterator[Node]:
        for those in self.by_place.values():
            yield from those
