"""What attributes say, and what an execve gained (docs/RULES.md)."""

from __future__ import annotations

from dataclasses import dataclass

from .script import NONE, File, Script

ALL = (1 << 41) - 1
LENGTHS = {1: 12, 2: 20, 3: 24}


@dataclass(frozen=True)
class Attribute:
    """What an attribute says."""

    permitted: int
    inheritable: int
    effective: bool
    root: int | None


def read(data: bytes) -> Attribute | None:
    """What these bytes say; nothing where they are damaged."""
    if len(data) < 4 or LENGTHS.get(data[3]) != len(data):
        return None
    words = [int.from_bytes(data[at : at + 4], "little") for at in range(0, len(data), 4)]
    version = data[3]
    sets = [words[1], words[2]]
    if version > 1:
        sets = [words[1] | words[3] << 32, words[2] | words[4] << 32]
    permitted, inheritable = (it & ALL for it in sets)
    return Attribute(permitted, inheritable, bool(words[0] & 1), words[5] if version == 3 else None)


def chain(script: Script, space: int) -> list[int]:
    """The root ids of a namespace and of its ancestors."""
    found = []
    while space >= 0:
        found.append(script.spaces[space].root)
        space = script.spaces[space].parent
    return found


def counts(attribute: Attribute, roots: list[int]) -> bool:
    """Whether an attribute counts for a task of a namespace with this chain."""
    return attribute.root is None or attribute.root != NONE and attribute.root in roots


def gains(script: Script, space: int, file: File, told: list[str]) -> tuple[int, int, int]:
    """What was gained by the file's permitted set, its inheritable set, and as root's. A kernel
    shows the sum; whose it is follows from what the file says.
    """
    before, bounding, after = (int(it, 16) for it in (told[0], told[1], told[4]))
    no_new_privs, noroot, real, effective = told[2] == "1", told[3] == "1", *map(int, told[5:7])
    gained = after & ~before
    roots = chain(script, space)
    attribute = None
    if file.attribute is not None and not (file.nosuid or no_new_privs):
        attribute = read(file.attribute)
        attribute = attribute if attribute and counts(attribute, roots) else None
    is_root = not noroot and roots[0] in (real, effective)
    if is_root and attribute and effective == roots[0] and real != roots[0]:
        is_root = False
    if is_root:
        return 0, 0, gained
    by_file = gained & bounding & (attribute.permitted if attribute else 0)
    return by_file, gained & ~by_file, 0
