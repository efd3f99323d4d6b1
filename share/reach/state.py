"""What the program tells of a task: its ids, its groups, its sets and its flags."""

from __future__ import annotations

from collections.abc import Mapping
from dataclasses import dataclass
from functools import lru_cache

from why.names import flags, named

# The questions by which a task is asked for all of it, in the order of their lines.
QUESTIONS = ("ids", "groups", "caps", "bits")


@dataclass(frozen=True, slots=True)
class Ids:
    """The four user ids, or the four group ids, of a task."""

    real: int
    effective: int
    saved: int
    fs: int

    def three(self) -> tuple[int, int, int]:
        """Those that setresuid(2) and setresgid(2) set."""
        return self.real, self.effective, self.saved

    def __str__(self) -> str:
        return f"{self.real} {self.effective} {self.saved} {self.fs}"


@dataclass(frozen=True, slots=True)
class State:
    """All that decides what calls make of a task, but for its user namespace."""

    users: Ids
    groups: Ids
    supplementary: frozenset[int]
    perm: int
    inh: int
    eff: int
    bound: int
    amb: int
    bits: int
    nnp: bool

    def flag(self, place: int) -> bool:
        """Whether the securebits flag at this place is set."""
        return bool(self.bits >> place & 1)

    def text(self) -> str:
        """All of it in one line."""
        more = " ".join(map(str, sorted(self.supplementary))) or "none"
        return (
            f"users {self.users}; groups {self.groups}; supplementary {more}; "
            f"permitted {named(self.perm)}; inheritable {named(self.inh)}; "
            f"effective {named(self.eff)}; bounding {named(self.bound)}; "
            f"ambient {named(self.amb)}; securebits {flags(self.bits)}; "
            f"no_new_privs {int(self.nnp)}"
        )


@lru_cache(1 << 18)
def told(ids: str, groups: str, caps: str, bits: str) -> State:
    """The state that four answers tell. Most answers come again and again."""
    eight = list(map(int, ids.split()))
    perm, inh, eff, bound, amb = (int(word, 16) for word in caps.split())
    flag, nnp = bits.split()
    return State(
        Ids(*eight[:4]), Ids(*eight[4:]), frozenset(map(int, groups.split())),
        perm, inh, eff, bound, amb, int(flag), nnp == "1",
    )  # fmt: skip


def state_at(answers: Mapping[int, str], line: int) -> State | None:
    """What four questions, from this line on, were told; nothing where the task is gone."""
    found = [answers.get(line + place) for place in range(len(QUESTIONS))]
    ids, groups, caps, bits = found
    if ids is None or groups is None or caps is None or bits is None:
        return None
    return told(ids, groups, caps, bits)
