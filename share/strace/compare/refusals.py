"""Why the kernel refuses what the program allows: what holds of the file and of the task."""

from __future__ import annotations

from capabilities import CAPABILITIES

from ..script.script import Line
from .probe import Values

BITS = {"r": 4, "w": 2, "x": 1}

DAC = tuple(1 << CAPABILITIES.index(name) for name in ("DAC_OVERRIDE", "DAC_READ_SEARCH"))
KILL = 1 << CAPABILITIES.index("KILL")


def wanted(line: Line) -> int:
    """What a line asks of a file: the bits of reading, writing and executing."""
    words = line.words
    return 1 if words[1] == "exec" else sum(BITS[letter] for letter in words[3])


def mode_allows(before: Values, line: Line) -> bool:
    """Whether owner, group and mode alone allow it (path_resolution(7), "Permissions")."""
    _, owner, group, mode, *_ = line.facts.words.split()
    real = line.words[1] == "access"
    user, group_id = (ids[0 if real else 3] for ids in (before.users, before.group_ids))
    shift = 0
    if user == int(owner):
        shift = 6
    elif int(group) in (group_id, *before.groups):
        shift = 3
    return int(mode, 8) >> shift & wanted(line) == wanted(line)


def by_capability(before: Values | None, line: Line) -> bool:
    """Whether only a capability can allow it, which counts for no file of another namespace."""
    if before is None or not line.facts.unmapped or not line.facts.words:
        return False
    return not mode_allows(before, line)


def has_kill(before: Values | None) -> bool:
    """Whether the sender of a signal has CAP_KILL effective."""
    return before is not None and bool(before.sets[2] & KILL)
