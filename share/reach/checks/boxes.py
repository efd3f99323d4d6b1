"""The bounds against the search: each state that is kept lies within the bounds of the files as
they stand. So where the bounds say no, no state has it."""

from __future__ import annotations

from dataclasses import dataclass, field

from ..growth import Facts, bounds_of, facts_of
from ..goals import Goal, Kind, Where
from ..search import Search


@dataclass
class Compared:
    """How many questions were asked; of those that no state has, how many the bounds exclude."""

    asked: int = 0
    none: int = 0
    excluded: int = 0
    faults: list[str] = field(default_factory=list)


def goals(search: Search) -> list[Goal]:
    """Every question that ids and sets allow."""
    users = {0, *search.scope.users, *(file.owner for file in search.start.files)}
    groups = {0, *search.scope.groups, *(file.group for file in search.start.files)}
    return [
        *(Goal(Kind.UID, user) for user in sorted(users)),
        *(Goal(Kind.GID, group) for group in sorted(groups) if search.scope.by_groups),
        *(Goal(Kind.CAP, number, where) for where in Where for number in range(41)),
    ]


def compare(name: str, search: Search) -> Compared:
    """Compares the bounds of a start with its closed search."""
    found = Compared()
    facts: Facts = facts_of(search.start, False)
    bounds = bounds_of(search.start, facts)
    larger = bounds_of(search.start, facts_of(search.start, True))
    nodes = list(search.kept)
    for node in nodes:
        if not (bounds.has(node.state) and larger.has(node.state)):
            found.faults.append(f"{name}: beyond the bounds: {node.state.text()}")
    for goal in goals(search):
        had = any(goal.is_had(node.state) for node in nodes)
        excluded = bounds.excludes(goal)
        found.asked += 1
        found.none += not had
        found.excluded += excluded
        if excluded and had:
            found.faults.append(f"{name}: the bounds exclude {goal}, and a state has it")
    return found
