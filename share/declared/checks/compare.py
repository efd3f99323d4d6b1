"""An answer and the truth: each value is compared."""

from __future__ import annotations

from collections import Counter
from dataclasses import dataclass, field

from ..answers import Answer, Credential
from .stored import Case, Truth

# How many values of a credential are compared: eight ids, the groups, five sets and two flags.
VALUES = 16


@dataclass
class Sum:
    """What came of many cases."""

    cases: int = 0
    started: int = 0
    agree: int = 0
    rows: int = 0
    values: int = 0
    faults: list[str] = field(default_factory=list)
    kinds: Counter[str] = field(default_factory=Counter)

    def add(self, name: str, case: Case, truth: Truth, found: Answer | str, fault: str) -> None:
        """One more."""
        self.cases += 1
        self.kinds[case.kind] += 1
        self.started += truth.started
        self.rows += isinstance(found, Answer) and bool(found.rows)
        self.values += VALUES if truth.started else 1
        if fault:
            self.faults.append(f"{name}: case {case.number} ({case.kind}): {fault}")
        else:
            self.agree += 1

    def __add__(self, other: Sum) -> Sum:
        return Sum(
            self.cases + other.cases, self.started + other.started, self.agree + other.agree,
            self.rows + other.rows, self.values + other.values, self.faults + other.faults,
            self.kinds + other.kinds,
        )  # fmt: skip

    def __str__(self) -> str:
        kinds = ", ".join(f"{count} {kind}" for kind, count in sorted(self.kinds.items()))
        return (
            f"{self.cases} cases ({kinds}), {self.started} started, {self.agree} agree, "
            f"{self.rows} of them by a row of docs/LINUX.md, {len(self.faults)} differ"
        )


def words(values: tuple[int, ...]) -> str:
    """Numbers as the probe writes them."""
    return " ".join(map(str, values))


def of_credential(it: Credential, truth: Truth) -> list[str]:
    """The values that differ."""
    found = {
        "user ids": (words(it.users), truth.users),
        "group ids": (words(it.group_ids), truth.group_ids),
        "groups": (words(tuple(sorted(it.groups))), words(sorted_of(truth.groups))),
        "sets": (" ".join(f"{caps:x}" for caps in it.sets), truth.sets),
        "flags": (f"{it.securebits} {int(it.no_new_privs)}", truth.bits),
    }
    return [f"{name} {mine}, and are {its}" for name, (mine, its) in found.items() if mine != its]


def sorted_of(groups: str) -> tuple[int, ...]:
    """Groups in their order: a kernel sorts them."""
    return tuple(sorted(map(int, groups.split())))


def fault(found: Answer | str, truth: Truth, unknown: bool = False) -> str:
    """What is wrong with an answer; nothing where it is the truth. One that is told not to be known
    may be another."""
    if isinstance(found, str):
        return f"it is not answered: {found}"
    if found.after is None:
        why = found.failure.step if found.failure else "nothing"
        if truth.started:
            return f"it starts, and is told to fail: {why}"
        # systemd has a status for each step; a runtime has a message.
        same = not truth.status or truth.status == why
        return "" if same else f"it fails by {truth.status}, and is told to by {why}"
    if not truth.started and unknown:
        return ""
    if not truth.started:
        return f"it is told to start, and fails: {truth.status} {truth.said[-120:]}".rstrip()
    return "; ".join(of_credential(found.after, truth))
