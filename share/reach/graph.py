"""The states that calls lead through: real, effective and saved user id over some ids.

Each call is made in each state, by a child of root that has set the three ids by setresuid(2).
"""

from __future__ import annotations

import itertools
import re
from collections.abc import Iterator, Sequence
from dataclasses import dataclass

from .asking import LINES, Runner, answers_of
from .faults import NotFound
from .state import QUESTIONS, state_at

# The calls, with how many ids each takes.
CALLS = {"setuid": 1, "seteuid": 1, "setreuid": 2, "setresuid": 3}
KEPT = "-1"
REFUSED = re.compile(r"^(\d+) begin \S+ .* -> (?:eperm|einval)$", re.M)
FIRST = "init t1 p1 0 0 n0"


@dataclass(frozen=True)
class Three:
    """A state: the user ids of a task. Its filesystem id is the effective one."""

    real: int
    effective: int
    saved: int

    def __str__(self) -> str:
        return f"{self.real} {self.effective} {self.saved}"


@dataclass(frozen=True)
class Made:
    """A call in a state: what it leads to, or that it is refused."""

    before: Three
    call: str
    after: Three | None

    @property
    def changes(self) -> bool:
        """Whether it leads to another state."""
        return self.after is not None and self.after != self.before


@dataclass(frozen=True)
class Arrow:
    """A state, another one, and the calls that lead from the one to the other."""

    before: Three
    after: Three
    calls: tuple[str, ...]


@dataclass(frozen=True)
class Counts:
    """How many states, calls, allowed ones, ones that change the state, and arrows there are."""

    states: int
    calls: int
    allowed: int
    changing: int
    arrows: int

    def __str__(self) -> str:
        return (
            f"{self.states} states, {self.calls:,} calls, {self.allowed:,} of them allowed, "
            f"{self.changing:,} change the state, {self.arrows} arrows"
        )


@dataclass(frozen=True)
class Graph:
    """The states over some ids, and each call in each of them."""

    names: tuple[str, ...]
    ids: tuple[int, ...]
    made: tuple[Made, ...]

    @staticmethod
    def of(runner: Runner, names: Sequence[str], ids: Sequence[int]) -> Graph:
        """The graph of some calls."""
        tries = [(state, call) for state in states(ids) for call in calls(names, ids)]
        size = len(QUESTIONS) + 4
        step = (LINES - 1) // size
        made: list[Made] = []
        for first in range(0, len(tries), step):
            made += made_in(runner, tries[first : first + step])
        return Graph(tuple(names), tuple(ids), tuple(made))

    def states(self) -> list[Three]:
        """All states."""
        return list(states(self.ids))

    def arrows(self) -> list[Arrow]:
        """An arrow for each pair of states."""
        found: dict[tuple[Three, Three], list[str]] = {}
        for it in self.made:
            if it.after is not None and it.changes:
                found.setdefault((it.before, it.after), []).append(it.call)
        return [Arrow(before, after, tuple(some)) for (before, after), some in found.items()]

    def counts(self) -> Counts:
        """What there is."""
        allowed = sum(it.after is not None for it in self.made)
        changing = sum(it.changes for it in self.made)
        return Counts(len(self.states()), len(self.made), allowed, changing, len(self.arrows()))


def states(ids: Sequence[int]) -> Iterator[Three]:
    """Every state over some ids."""
    return (Three(*three) for three in itertools.product(ids, repeat=3))


def calls(names: Sequence[str], ids: Sequence[int]) -> Iterator[str]:
    """Every call with some ids; of several words one may keep its id."""
    for name in names:
        words = list(map(str, ids)) if CALLS[name] == 1 else [KEPT, *map(str, ids)]
        for some in itertools.product(words, repeat=CALLS[name]):
            yield " ".join([name, *some])


def made_in(runner: Runner, tries: Sequence[tuple[Three, str]]) -> Iterator[Made]:
    """What each of some calls leads to: as many as a script has room for."""
    lines = [FIRST]
    for three, call in tries:
        lines += ["t1 fork t2 p2", f"t2 setresuid {three}", f"t2 {call}"]
        lines += [*(f"t2 {question}" for question in QUESTIONS), "t2 exit"]
    report = runner.report(lines)
    refused = {int(found[1]) for found in REFUSED.finditer(report)}
    answers = answers_of(report)
    for place, (before, call) in enumerate(tries):
        line = 4 + place * (len(QUESTIONS) + 4)
        state = state_at(answers, line + 1)
        if state is None:
            raise NotFound(f"no answer to {call} in {before}")
        after = None if line in refused else Three(*state.users.three())
        yield Made(before, call, after)
