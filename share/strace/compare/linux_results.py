"""What a call leaves in Linux, by what the program says of the task before it."""

from __future__ import annotations

from dataclasses import replace

from .possible_rows import CAPS, NEEDED, PossibleRow
from .probe import Values

# CAP_DAC_OVERRIDE and CAP_DAC_READ_SEARCH, by which any file may be read.
READS = 0b110


def keeps_filesystem_id(words: list[str], before: Values | None) -> bool:
    """Whether setresuid(2) or setresgid(2) changes nothing, and so leaves the filesystem id."""
    if before is None:
        return True
    real, effective, saved, filesystem = (
        before.users if words[1] == "setresuid" else before.group_ids
    )
    kept = words[2] in ("-1", str(real)) and words[4] in ("-1", str(saved))
    return kept and effective != filesystem


def differ(before: Values) -> bool:
    """Whether the effective user or group isn't the real one."""
    return before.users[0] != before.users[1] or before.group_ids[0] != before.group_ids[1]


def gains_nothing(before: Values | None, kept: PossibleRow) -> list[PossibleRow]:
    """A row by which an execve leaves less, or of what was permitted before more."""
    permitted = before.sets[0] if before else None
    return [replace(kept, part=CAPS, more=False),
            replace(kept, part=CAPS, more=True, bits=permitted)]  # fmt: skip


def is_reset(before: Values) -> bool:
    """Whether an execve that may gain nothing makes the effective ids the real ones."""
    return differ(before) and not before.sets[2] & NEEDED["setuid"]


def stays_dumpable(before: Values, words: list[str]) -> bool:
    """Whether Linux has a process dumpable after the execve of this file: its new effective ids are
    the real ones, and it may read the file."""
    mode, owner, group = int(words[5], 8), int(words[3]), int(words[4])
    in_force = not before.no_new_privs and "nosuid" not in words
    user = owner if in_force and mode & 0o4000 else before.users[1]
    group_id = group if in_force and mode & 0o2010 == 0o2010 else before.group_ids[1]
    shift = 6 if owner == before.users[3] else 0
    if not shift and group in (before.group_ids[3], *before.groups):
        shift = 3
    reads = bool(mode >> shift & 4) or bool(before.sets[2] & READS)
    return (user, group_id) == (before.users[0], before.group_ids[0]) and reads


def keeps_ambient(before: Values, words: list[str]) -> bool:
    """Whether Linux leaves the ambient set over the execve of a file with set-id bits."""
    mode, owner, group = int(words[5], 8), int(words[3]), int(words[4])
    user_stays = not mode & 0o4000 or owner == before.users[1]
    group_stays = mode & 0o2010 != 0o2010 or group in (before.group_ids[3], *before.groups)
    return bool(before.sets[4]) and user_stays and group_stays


def loses_ambient(before: Values) -> bool:
    """Whether execve of a plain file empties the ambient set, by the filesystem group."""
    return bool(before.sets[4]) and before.group_ids[3] != before.group_ids[1]
