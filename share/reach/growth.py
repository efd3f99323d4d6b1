"""What calls may add to bounds: the rules a second time, as bounds of each part alone.

Each function here adds what one kind of calls may add. They are applied until nothing is new: then
no call leads beyond. What comes of that is compared with the search and with random walks
(share/reach/check).

Where files may change, the task changes and makes files as far as it may: a file that its
filesystem user owns becomes set-user-ID, CAP_SETFCAP gives a file any attribute. That is told
coarsely: what is added may be more than the calls can do.
"""

from __future__ import annotations

from dataclasses import dataclass, replace

from why.names import NUMBERS

from .bounds import EVERY, Bounds, around
from .declared import Attribute, Executable
from .start import Start

CHOWN, DAC_OVERRIDE, FOWNER, FSETID, SETGID, SETUID, SETPCAP, SETFCAP = (
    1 << NUMBERS[f"CAP_{name}"]
    for name in (
        "CHOWN", "DAC_OVERRIDE", "FOWNER", "FSETID", "SETGID", "SETUID", "SETPCAP", "SETFCAP",
    )
)  # fmt: skip
SET_USER, SET_GROUP, GROUP_EXECUTES, EXECUTES = 0o4000, 0o2000, 0o010, 0o111


@dataclass(frozen=True)
class Facts:
    """What bounds depend on beside themselves: the files, who is root, the root ids that make an
    attribute count, whether files may change, and whether anything is executed."""

    files: tuple[Executable, ...]
    roots: frozenset[int]
    chains: tuple[tuple[int, ...], ...]
    changes: bool
    executes: bool = True


def facts_of(start: Start, changes: bool, executes: bool = True) -> Facts:
    """Those of a start."""
    chains = tuple(tuple(chain) for chain in start.chains())
    return Facts(tuple(start.files), frozenset(start.roots()), chains, changes, executes)


def by_setuid(now: Bounds, facts: Facts) -> Bounds:
    """CAP_SETUID sets any user id."""
    return replace(now, users=EVERY, fs=EVERY) if now.perm & SETUID else now


def by_setgid(now: Bounds, facts: Facts) -> Bounds:
    """CAP_SETGID sets any group id and any group."""
    return replace(now, groups=EVERY) if now.perm & SETGID else now


def by_own_ids(now: Bounds, facts: Facts) -> Bounds:
    """The filesystem id may become one of the three."""
    return replace(now, fs=now.fs | now.users)


def by_setpcap(now: Bounds, facts: Facts) -> Bounds:
    """CAP_SETPCAP unsets NOROOT, unless that is locked."""
    return replace(now, rooted=True) if now.perm & SETPCAP and not now.locked else now


def by_capset(now: Bounds, facts: Facts) -> Bounds:
    """What is bounding and permitted may become inheritable; with CAP_SETPCAP what is bounding."""
    more = now.bound if now.perm & SETPCAP else now.bound & now.perm
    return replace(now, inh=now.inh | more)


# ---- what the task makes of files

def by_own_files(now: Bounds, facts: Facts) -> Bounds:
    """A file that its filesystem user owns becomes set-user-ID."""
    if not facts.changes or now.nnp:
        return now
    return replace(now, users=now.users | now.fs, fs=now.fs | now.users)


def by_owners(now: Bounds, facts: Facts) -> Bounds:
    """CAP_CHOWN gives a file to anybody; CAP_FOWNER makes each file set-user-ID, and one of user 0
    is there always; CAP_FSETID keeps the set-group-ID bit of a file of another group."""
    if not facts.changes or now.nnp:
        return now
    if now.perm & CHOWN:
        now = replace(now, users=EVERY, fs=EVERY, groups=EVERY)
    if now.perm & FOWNER:
        owners = {0, *facts.roots, *(file.owner for file in facts.files)}
        now = replace(now, users=now.users.plus(owners), fs=now.fs.plus(owners))
    return replace(now, groups=EVERY) if now.perm & (FSETID | FOWNER) else now


def by_setfcap(now: Bounds, facts: Facts) -> Bounds:
    """CAP_SETFCAP gives a file any attribute."""
    if not facts.changes or now.nnp or not now.perm & SETFCAP:
        return now
    return replace(now, perm=now.perm | now.bound | now.inh)


# ---- execve

def may_execute(now: Bounds, facts: Facts, file: Executable) -> bool:
    """Whether a task may execute a file, as far as the bounds tell."""
    bits = file.mode & EXECUTES
    if facts.changes and file.owner in now.fs:
        bits = EXECUTES
    return bool(
        bits & 0o001
        or bits & 0o010 and file.group in now.groups
        or bits & 0o100 and file.owner in now.fs
        or bits and now.perm & DAC_OVERRIDE
    )


def counting(facts: Facts, file: Executable) -> Attribute | None:
    """The attribute of a file, where it counts for one of the threads."""
    found = file.attribute
    return found if found and found.counts(facts.chains) else None


def is_refused(now: Bounds, facts: Facts, file: Executable) -> bool:
    """Whether the attribute of a file leads to EINVAL, or to EPERM since it gives too little, and
    nobody can take it away."""
    if facts.changes and now.perm & SETFCAP:
        return False
    found = counting(facts, file)
    if found is None or not found.effective:
        return file.spoiled
    return bool(found.perm & ~(found.perm & now.bound | found.inh & now.inh))


def has_effect(now: Bounds, facts: Facts, file: Executable) -> bool:
    """Whether the set-id bits and the attribute of a file may have effect."""
    if now.nnp or file.nosuid:
        return False
    return may_execute(now, facts, file) and not is_refused(now, facts, file)


def by_set_id_files(now: Bounds, facts: Facts) -> Bounds:
    """A set-user-ID file gives its owner, a set-group-ID file its group."""
    for file in facts.files:
        if not has_effect(now, facts, file):
            continue
        if file.mode & SET_USER:
            now = replace(now, users=now.users.plus([file.owner]), fs=now.fs.plus([file.owner]))
        if file.mode & SET_GROUP and file.mode & GROUP_EXECUTES:
            now = replace(now, groups=now.groups.plus([file.group]))
    return now


def by_attributes(now: Bounds, facts: Facts) -> Bounds:
    """A file's attribute permits what is bounding of its permitted set, and what is inheritable of
    its inheritable set."""
    for file in facts.files:
        found = counting(facts, file)
        if found and has_effect(now, facts, file):
            now = replace(now, perm=now.perm | found.perm & now.bound | found.inh & now.inh)
    return now


def by_root(now: Bounds, facts: Facts) -> Bounds:
    """An execve of root's permits all that is bounding or inheritable, unless NOROOT is set. Where
    files may change the task makes the program itself."""
    if now.nnp or not now.rooted or not any(root in now.users for root in facts.roots):
        return now
    if facts.changes or any(may_execute(now, facts, file) for file in facts.files):
        return replace(now, perm=now.perm | now.bound | now.inh)
    return now


CALLS = (by_setuid, by_setgid, by_own_ids, by_setpcap, by_capset)
CHANGES = (by_own_files, by_owners, by_setfcap)
EXECVES = (by_set_id_files, by_attributes, by_root)


def bounds_of(start: Start, facts: Facts) -> Bounds:
    """The least bounds around the threads of a start that no call leads beyond."""
    now = around([thread.state for thread in start.threads])
    kinds = (*CALLS, *(CHANGES if facts.executes else ()), *(EXECVES if facts.executes else ()))
    while True:
        before = now
        for grow in kinds:
            now = grow(now, facts)
        if now == before:
            return now
