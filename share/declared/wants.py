"""What was wanted of the program, and the status that says whether it holds."""

from __future__ import annotations

from dataclasses import dataclass
from enum import IntEnum

from why.names import EFFECTIVE, PERMITTED, cap_name

from . import life
from .answers import Answer
from .declaration import Declaration
from .places import Bad, Failure, Unknown, listed
from .table import NOT_PROVED
from .users import is_number


class Status(IntEnum):
    """How a command ends."""

    TOLD = 0
    NOT_SO = 1
    BAD = 2
    NOT_RUN = 3
    NOT_STARTED = 4
    NOT_KNOWN = 5


@dataclass(frozen=True)
class Wants:
    """What is wanted after the execve: capabilities that are effective, capabilities that are not
    permitted, and a user whom all four user ids are."""

    effective: tuple[int, ...] = ()
    lacking: tuple[int, ...] = ()
    user: str = ""

    def any(self) -> bool:
        """Whether anything is."""
        return bool(self.effective or self.lacking or self.user)

    def asks(self, unknown: Unknown) -> bool:
        """Whether something that isn't known may decide what is wanted."""
        by_sets = bool(self.effective or self.lacking) and unknown.on_sets()
        return by_sets or bool(self.user) and unknown.on_ids()


@dataclass(frozen=True)
class Verdict:
    """A status, and what is said on standard error."""

    status: Status
    lines: tuple[str, ...] = ()


def number_of(user: str, declaration: Declaration) -> int:
    """The number of a user who is wanted."""
    found = None if is_number(user) else declaration.users.user(user)
    if found is None and not is_number(user):
        raise Bad(f"there is no user {user}")
    return found.number if found else int(user)


def taken_by(number: int, found: Answer) -> str:
    """Which line of the declaration leaves a capability ineffective."""
    name = cap_name(number)
    passed = [it.line for it in found.passed if it.line.call == f"ambraise {name}"]
    drops = [it for it in found.written.lines.values() if it.call == f"capdrop {name}"]
    if passed or drops:
        return (passed or drops)[0].comment
    by_rules = found.rules is not None and bool(found.rules.sets[EFFECTIVE] >> number & 1)
    if by_rules and found.rows:
        executed = [it for it in found.written.lines.values() if it.call.startswith("exec ")]
        return f"{listed(executed[0].places)}: {NOT_PROVED}: {'; '.join(found.rows)}"
    return life.where(found, number)


def lacks(declaration: Declaration, wants: Wants, found: Answer) -> list[str]:
    """What doesn't hold, each with the declaration's line."""
    after = found.after
    if after is None:
        return []
    lines = []
    for number in wants.effective:
        if not after.sets[EFFECTIVE] >> number & 1:
            why = taken_by(number, found)
            lines.append(f"{cap_name(number)} is wanted, and isn't effective: {why}")
    for number in wants.lacking:
        if after.sets[PERMITTED] >> number & 1:
            lines.append(f"{cap_name(number)} is not wanted, and is permitted")
    if wants.user:
        number = number_of(wants.user, declaration)
        if set(after.users) != {number}:
            have = " ".join(map(str, after.users))
            lines.append(f"user {wants.user} is wanted, and the user ids are {have}")
    return lines


def not_started(it: Failure) -> str:
    """A failure in one line."""
    call = f": {it.call} is {it.answer}" if it.call else ""
    why = ": ".join(filter(None, [listed(it.places), it.reason]))
    return f"it doesn't start: {it.step}{call}" + (f": {why}" if why else "")


def judged(declaration: Declaration, wants: Wants, found: Answer) -> Verdict:
    """Whether what is wanted holds."""
    if found.failure is not None:
        return Verdict(Status.NOT_STARTED, (not_started(found.failure),))
    doubts = [f"not known: {it}" for it in declaration.script.unknown if wants.asks(it)]
    lines = lacks(declaration, wants, found)
    if doubts:
        return Verdict(Status.NOT_KNOWN, (*doubts, *lines))
    return Verdict(Status.NOT_SO if lines else Status.TOLD, tuple(lines))
