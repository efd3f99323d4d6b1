"""The same call by the bytes that the system call takes (capset(2), "Current details").

A call by a record makes the entries that `capset` makes, with the record's sets.
"""
from collections.abc import Iterator
from itertools import product

from processes import ALL
from reports import Script
from suite import Case

ROOT, TASK = 1, 7
# "#define _LINUX_CAPABILITY_VERSION_1 0x19980330", and likewise _VERSION_2 0x20071026 and
# _VERSION_3 0x20080522; "64-bit capabilities use datap[0] and datap[1], whereas 32-bit capabilities
# use only datap[0]."
VERSIONS = {1: (0x19980330, (0,)), 2: (0x20071026, (0, 32)), 3: (0x20080522, (0, 32))}
LOW = 0xFFFFFFFF
# The permitted, inheritable and effective sets: all, none, some of each half, and what isn't
# permitted; the last has bits above the last capability, which say nothing.
SETS = (
    (ALL, 0, ALL),
    (0, 0, 0),
    (1 << 40 | 1 << 10, 1 << 13, 1 << 40),
    (1 << 31 | 1 << 32, 1 << 31, 1 << 31 | 1 << 32),
    (1 << 10, 0, 1 << 11),
    (0xFFFFFFFFFFFFFFFF, 0xFFFFFE0000000000, 0),
)


def record(version: int, target: int, sets: tuple[int, ...]) -> str:
    """The bytes: `hdrp` has the version and the target, and each group of `datap` the words of the
    effective, the permitted and the inheritable set.
    """
    word, groups = VERSIONS[version]
    permitted, inheritable, effective = sets
    words = [word, target]
    words += [it >> half & LOW for half in groups for it in (effective, permitted, inheritable)]
    return b"".join(it.to_bytes(4, "little") for it in words).hex()


def said(version: int, sets: tuple[int, ...]) -> tuple[int, ...]:
    """The sets that such a record says: version 1 has no capability above 31."""
    return tuple(it & (LOW if version == 1 else ALL) for it in sets)


def cases() -> Iterator[Case]:
    """A child of root makes each call, and is asked for its sets."""
    for version, target in product(VERSIONS, (0, TASK)):
        script = Script()
        script.init(ROOT, 1, 0, 0)
        for sets in SETS:
            permitted, inheritable, effective = said(version, sets)
            script.fork(ROOT, TASK, 2)
            # "The new effective set must be a subset of the new permitted set." (capabilities(7))
            refused = bool(effective & ~permitted)
            script.changes(
                TASK,
                f"capset {permitted:x} {inheritable:x} {effective:x}",
                "eperm" if refused else None,
                by=f"capsetraw {record(version, target, sets)}",
            )
            left = (ALL, 0, ALL) if refused else (permitted, inheritable, effective)
            told = " ".join(f"{it:x}" for it in (*left, ALL, 0))
            script.asks(TASK, "caps", f"ok {told}")
            script.exit(TASK)
        yield script.case(f"version {version}, about {target}", len(SETS))
