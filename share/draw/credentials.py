"""What a report tells of credentials, and the changes of sets that can be seen from it.

A credential never changes once it is sealed: what an `ask` tells of it holds from its first entry
to its last. So where a report tells the sets of two of a task's credentials, it tells how they
differ.
Nothing is reckoned from the rules: sets that nobody asked for aren't known.
"""

from __future__ import annotations

from dataclasses import dataclass, field

from .spans import Row, Span

# The sets in the order in which `ask H caps` tells them.
PERMITTED, INHERITABLE, EFFECTIVE, BOUNDING, AMBIENT = range(5)

FULL = (1 << 41) - 1

# Which set a change of one capability is about, and whether the capability comes or goes.
SINGLE = {"capdrop": (BOUNDING, "-"), "ambraise": (AMBIENT, "+"), "amblower": (AMBIENT, "-")}


@dataclass(slots=True)
class Credential:
    """A credential, the spans that refer to it, and what questions told of it, by their names."""

    name: str
    slot: str
    sealed: int
    spans: list[Span] = field(default_factory=list)
    told: dict[str, list[str]] = field(default_factory=dict)

    def sets(self) -> list[int] | None:
        """The five sets, where they were asked for."""
        caps = self.told.get("caps")
        return [int(word, 16) for word in caps] if caps else None


@dataclass(slots=True)
class Seal:
    """A task's credential is replaced: by which changes, and what an execve is said to gain."""

    span: Span
    row: Row
    before: str
    changes: list[list[str]]
    gain: list[str]


@dataclass(slots=True)
class Change:
    """What is seen to come and go where a task's credential is replaced.

    `since` names the credential that the sets are compared with, where it isn't the one before.
    `sets` has the place of a set, what came and what went; `asked` the place of a set, a sign, and
    what the calls on the prepared credential named; `gain` what an execve gave, and how.
    """

    place: int
    row: Row
    since: str
    sets: list[tuple[int, int, int]]
    asked: list[tuple[int, str, int]]
    gain: list[int]


def asked_by(changes: list[list[str]]) -> list[tuple[int, str, int]]:
    """The sets that the calls on a prepared credential named, which were all `ok`."""
    found = []
    for change in changes:
        if change[0] == "capset":
            places = (PERMITTED, INHERITABLE, EFFECTIVE)
            found += [(place, "=", int(word, 16)) for place, word in zip(places, change[1:])]
        elif change[0] in SINGLE and int(change[1]) <= 40:
            found.append((*SINGLE[change[0]], 1 << int(change[1])))
        elif change[0] == "ambclear":
            found.append((AMBIENT, "=", 0))
    return found


def differences(before: list[int], after: list[int]) -> list[tuple[int, int, int]]:
    """What came into each set and what went out of it."""
    pairs = enumerate(zip(before, after))
    return [(place, new & ~old, old & ~new) for place, (old, new) in pairs if old != new]


def changes(seals: list[Seal], credentials: dict[str, Credential]) -> list[Change]:
    """Where a task's credential is replaced, what the report tells of its sets."""
    known: dict[str, str] = {}
    found = []
    for seal in seals:
        task = seal.row.name
        before, after = credentials.get(seal.before), credentials[seal.span.cred]
        if before and before.sets():
            known[task] = before.name
        since = known.get(task, "")
        sets, old = after.sets(), credentials[since].sets() if since else None
        seen = differences(old, sets) if old and sets else []
        direct = bool(old and sets) and since == seal.before
        asked = [] if direct else asked_by(seal.changes)
        gain = [int(word, 16) for word in seal.gain]
        if seen or asked or any(gain):
            since = "" if direct or not seen else since
            found.append(Change(seal.span.start, seal.row, since, seen, asked, gain))
        if sets:
            known[task] = after.name
    return found
