"""Checks of a file and signals: which class of the mode decides, and which capability."""

from __future__ import annotations

from collections.abc import Sequence

from . import sources
from .names import EFFECTIVE, NUMBERS, listed
from .reason import Fault, Reason
from .script import File

OVERRIDE, READ_SEARCH, KILL = (
    NUMBERS[f"CAP_{name}"] for name in ("DAC_OVERRIDE", "DAC_READ_SEARCH", "KILL")
)
VALUES = {"r": 4, "w": 2, "x": 1}


def letters(digit: int) -> str:
    """What a digit of a mode permits: `r-x`."""
    return "".join(letter if digit & value else "-" for letter, value in VALUES.items())


def asked_for(want: str) -> int:
    """The bits that are asked for."""
    return sum(VALUES[letter] for letter in want)


def deciding(file: File, ids: Sequence[int], groups: Sequence[int]) -> tuple[str, int, str]:
    """The class that decides, its digit, and why it is that one."""
    user, group = ids[3], ids[7]
    if user == file.owner:
        return "owner's", file.mode >> 6 & 7, f"the filesystem user id {user} is the owner's"
    other = f"the filesystem user id {user} is not the owner {file.owner}"
    if group == file.group:
        text = f"{other}, and the filesystem group id {group} is its group"
        return "group's", file.mode >> 3 & 7, text
    if file.group in groups:
        text = f"{other}, and the supplementary group {file.group} is its group"
        return "group's", file.mode >> 3 & 7, text
    among = f"its group {file.group} is neither the filesystem group id {group} nor a "
    return "others'", file.mode & 7, f"{other}, and {among}supplementary group"


def passing(file: File, want: str, caps: Sequence[int]) -> list[str]:
    """The capabilities that pass the whole request."""
    found = []
    directory = file.kind == "dir"
    if caps[EFFECTIVE] >> OVERRIDE & 1 and (directory or "x" not in want or file.mode & 0o111):
        found.append("CAP_DAC_OVERRIDE")
    if caps[EFFECTIVE] >> READ_SEARCH & 1 and (want == "r" or directory and "w" not in want):
        found.append("CAP_DAC_READ_SEARCH")
    return found


def may(
    file: File, want: str, ids: Sequence[int], caps: Sequence[int], groups: Sequence[int]
) -> bool:
    """Whether the check passes."""
    asked = asked_for(want)
    return asked & deciding(file, ids, groups)[1] == asked or bool(passing(file, want, caps))


def capabilities(file: File, want: str, caps: Sequence[int]) -> str:
    """Why no capability passes the request."""
    override, read = caps[EFFECTIVE] >> OVERRIDE & 1, caps[EFFECTIVE] >> READ_SEARCH & 1
    if not override and not read:
        return "neither CAP_DAC_OVERRIDE nor CAP_DAC_READ_SEARCH is effective"
    first = "CAP_DAC_OVERRIDE is not effective"
    if override:
        first = f"CAP_DAC_OVERRIDE passes no x where {file.text} has no execute bit"
    second = "CAP_DAC_READ_SEARCH is not effective"
    if read:
        passes = "reading and searching" if file.kind == "dir" else "reading"
        second = f"CAP_DAC_READ_SEARCH passes {passes} alone, and one capability must pass all"
    return f"{first}; {second}"


def refusal(
    file: File,
    want: str,
    ids: Sequence[int],
    caps: Sequence[int],
    groups: Sequence[int],
    source: str = "",
) -> Reason:
    """Why a check is refused."""
    which, digit, why = deciding(file, ids, groups)
    asked = asked_for(want)
    lacks = "".join(letter for letter, value in VALUES.items() if asked & ~digit & value)
    if not lacks or passing(file, want, caps):
        raise Fault(f"{want} of {file.name} was refused, but the {which} bits are {letters(digit)}")
    text = (
        f"EACCES: {why}; so the {which} bits of {file.text} decide, {letters(digit)}: no "
        f"{listed(list(lacks), 'and no')}. And {capabilities(file, want, caps)}"
    )
    return Reason(text, f"{source}; {sources.PERMISSIONS}" if source else (
        f"{sources.PERMISSIONS}; {sources.BYPASSING}"))  # fmt: skip


def allowed(
    file: File, want: str, ids: Sequence[int], caps: Sequence[int], groups: Sequence[int]
) -> Reason:
    """Why a check passes."""
    which, digit, why = deciding(file, ids, groups)
    asked = asked_for(want)
    if asked & digit == asked:
        text = f"passed by the {which} bits of {file.text}, {letters(digit)}: {why}"
        return Reason(text, sources.PERMISSIONS)
    by = passing(file, want, caps)
    if not by:
        raise Fault(f"{want} of {file.name} was passed, and nothing passes it")
    text = f"passed by {by[0]}, which is effective: the {which} bits of {file.text}, "
    return Reason(f"{text}{letters(digit)}, don't permit it", sources.BYPASSING)


def signal_refused(ids: Sequence[int], caps: Sequence[int], target: Sequence[int]) -> Reason:
    """Why a signal is refused."""
    real, effective = ids[0], ids[1]
    victims = (target[0], target[2])
    if caps[EFFECTIVE] >> KILL & 1 or {real, effective} & set(victims):
        raise Fault("the signal was refused, but by the ids or by CAP_KILL it is allowed")
    text = (
        f"EPERM: the sender's real and effective user ids, {real} and {effective}, are neither the "
        f"target's real nor its saved user id, {victims[0]} and {victims[1]}; CAP_KILL is not "
        "effective, and they are of different processes"
    )
    return Reason(text, sources.KILL)


def signal_allowed(
    ids: Sequence[int], caps: Sequence[int], target: Sequence[int], within: bool
) -> Reason:
    """Why a signal is allowed."""
    if within:
        return Reason("allowed: both are threads of one process", sources.KILL)
    if caps[EFFECTIVE] >> KILL & 1:
        return Reason("allowed: CAP_KILL is effective", sources.KILL)
    for name, mine in (("real", ids[0]), ("effective", ids[1])):
        for other, theirs in (("real", target[0]), ("saved", target[2])):
            if mine == theirs:
                text = f"allowed: the sender's {name} user id {mine} is the target's {other} one"
                return Reason(text, sources.KILL)
    raise Fault("the signal was allowed, and no condition for it holds")
