"""What is asked for: an id that a task acts by, or a capability in one of its sets."""

from __future__ import annotations

from dataclasses import dataclass
from enum import Enum

from why.names import NUMBERS, cap_name

from .state import State


class Kind(Enum):
    """What is asked for, by the option that asks for it."""

    UID = "uid"
    GID = "gid"
    CAP = "cap"


class Where(Enum):
    """The set that a capability is asked for in."""

    PERMITTED = "permitted"
    EFFECTIVE = "effective"
    INHERITABLE = "inheritable"
    BOUNDING = "bounding"
    AMBIENT = "ambient"


def set_of(state: State, where: Where) -> int:
    """A set of a state."""
    return {
        Where.PERMITTED: state.perm, Where.EFFECTIVE: state.eff, Where.INHERITABLE: state.inh,
        Where.BOUNDING: state.bound, Where.AMBIENT: state.amb,
    }[where]  # fmt: skip


@dataclass(frozen=True)
class Goal:
    """One thing that is asked for."""

    kind: Kind
    number: int
    where: Where = Where.PERMITTED

    def is_had(self, state: State) -> bool:
        """Whether a state has it: the id is one that it acts by, the capability in the set. An id
        that is the real or the saved one alone is a call away."""
        if self.kind is Kind.UID:
            return self.number in (state.users.effective, state.users.fs)
        if self.kind is Kind.GID:
            ids = state.groups
            return self.number in (ids.effective, ids.fs) or self.number in state.supplementary
        return bool(set_of(state, self.where) >> self.number & 1)

    def __str__(self) -> str:
        if self.kind is Kind.UID:
            return f"user id {self.number}"
        if self.kind is Kind.GID:
            return f"group id {self.number}"
        return f"{cap_name(self.number)} {self.where.value}"


# What gives root in effect, one step further: a file or a task of root's can be changed, looked
# into or made by it (capabilities(7)).
AS_GOOD_AS_ROOT = tuple(
    NUMBERS[f"CAP_{name}"]
    for name in (
        "SETUID", "SYS_ADMIN", "DAC_OVERRIDE", "SYS_PTRACE", "SETFCAP", "CHOWN", "FOWNER",
        "SYS_MODULE", "SYS_RAWIO",
    )
)  # fmt: skip


def for_root(root: int) -> list[Goal]:
    """What an auditor asks first: the user id of root, and the capabilities that are as good."""
    users = dict.fromkeys((root, 0))
    return [
        *(Goal(Kind.UID, user) for user in users),
        *(Goal(Kind.CAP, number) for number in AS_GOOD_AS_ROOT),
    ]
