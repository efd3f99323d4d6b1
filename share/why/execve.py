"""execve(2): why it is refused, and each term of its equations with its value."""

from __future__ import annotations

from collections.abc import Sequence
from dataclasses import dataclass

from . import access, sources
from .ids import same
from .names import (
    ALL, AMBIENT, BOUNDING, EFFECTIVE, INHERITABLE, NOROOT, PERMITTED, listed, named,
)  # fmt: skip
from .program import decoded
from .reason import Fault, Reason
from .script import File

NO_ID = 4294967295
SET_UID, SET_GID, GROUP_EXECUTES = 0o4000, 0o2000, 0o010


@dataclass
class Program:
    """The file as the task's execve takes it: what of it is ignored, and what counts."""

    file: File
    ignored: str
    error: str | None
    attribute: tuple[int, int, int, bool, int] | None
    uid: int
    gid: int
    privileged: str


def program(file: File, ids: Sequence[int], bits: Sequence[int], chain: Sequence[int]) -> Program:
    """What of a file counts for a task with these ids, bits and roots."""
    ignored = "it lies on a file system mounted nosuid" if file.nosuid else ""
    if bits[1]:
        ignored = "no_new_privs is set"
    error, attribute, privileged = None, None, []
    if file.attribute and not ignored:
        said = decoded(file.attribute)
        if isinstance(said, str):
            error = said
        elif said[0] < 3 or said[4] in chain and said[4] != NO_ID:
            attribute = said
            privileged.append("it has a capability attribute")
    uid, gid = ids[1], ids[5]
    if file.mode & SET_UID and not ignored:
        uid = file.owner
        privileged.append("its set-user-ID bit is set")
    if file.mode & SET_GID and file.mode & GROUP_EXECUTES and not ignored:
        gid = file.group
        privileged.append("its set-group-ID bit is set")
    return Program(file, ignored, error, attribute, uid, gid, listed(privileged))


def refusal(
    file: File,
    told: str,
    ids: Sequence[int],
    caps: Sequence[int],
    groups: Sequence[int],
    bits: Sequence[int],
    chain: Sequence[int],
) -> Reason:
    """Why an execve is refused."""
    may = access.may(file, "x", ids, caps, groups)
    if told == "eacces":
        if file.kind != "reg":
            return Reason(f"EACCES: {file.name} is a directory", sources.EXECVE)
        return access.refusal(file, "x", ids, caps, groups, sources.EXECVE)
    taken = program(file, ids, bits, chain)
    if file.kind != "reg" or not may:
        raise Fault(f"{file.name} may not be executed, but that was answered {told}")
    if told == "einval" and taken.error:
        text = f"EINVAL: the attribute of {file.name} spells no capabilities ({taken.error})"
        return Reason(text, sources.VERSIONS)
    if told != "eperm" or taken.error or not taken.attribute:
        raise Fault(f"the execve of {file.name} was answered {told}, and no condition holds")
    _, permitted, inheritable, effective, _ = taken.attribute
    lacks = permitted & ~caps[BOUNDING] & ~(caps[INHERITABLE] & inheritable)
    if not effective or not lacks:
        raise Fault(f"{file.name} gives all that its attribute says, but it was answered EPERM")
    text = (
        f"EPERM: the attribute of {file.name} has the effective flag, and {named(lacks)} of its "
        f"permitted set is neither in the bounding set, {named(caps[BOUNDING])}, nor in both "
        f"inheritable sets: of it the task's has {named(caps[INHERITABLE] & lacks)}, the file's "
        f"{named(inheritable & lacks)}"
    )
    return Reason(text, sources.DUMB)


def file_sets(
    taken: Program, ids: Sequence[int], bits: Sequence[int], root: int
) -> tuple[int, int, bool, Reason, bool]:
    """F(permitted), F(inheritable) and F(effective), how they came, and whether by root's rule."""
    permitted = inheritable = 0
    effective = False
    if taken.attribute:
        _, permitted, inheritable, effective, _ = taken.attribute
    name, real = taken.file.name, ids[0]
    if bits[0] & NOROOT or root not in (real, taken.uid):
        return permitted, inheritable, effective, plain(taken, real, bits, root), False
    if taken.attribute and taken.uid == root != real:
        text = (
            f"F's sets are those of the attribute of {name}: the effective user id is root's "
            f"({root}) and the real one, {real}, is not"
        )
        return permitted, inheritable, effective, Reason(text, sources.ROOT_FILE_CAPS), False
    who = "real" if taken.uid != root else "new effective"
    sets = "F(permitted) and F(inheritable) count as all"
    if taken.uid == root:
        sets += " and F(effective) as set"
    text = f"{sets}: the {who} user id is root's ({root})"
    return ALL, ALL, effective or taken.uid == root, Reason(text, sources.BY_ROOT), True


def plain(taken: Program, real: int, bits: Sequence[int], root: int) -> Reason:
    """How F's sets came where the rule for root gives nothing."""
    name = taken.file.name
    if root in (real, taken.uid):
        return Reason(f"F's sets are those of {name} alone: SECBIT_NOROOT is set",
                      sources.SECUREBITS)  # fmt: skip
    two = f"the real user id {real} nor the new effective one {taken.uid}"
    other = f"neither {two} is root's ({root})"
    if taken.attribute:
        text = f"F's sets are those of the attribute of {name}: {other}"
        return Reason(text, sources.EXECVE_SETS)
    if taken.file.attribute and taken.ignored:
        text = f"F's sets are empty: the attribute of {name} is ignored, as {taken.ignored}"
        return Reason(text, sources.EXECVE_IGNORED)
    if taken.file.attribute:
        text = f"F's sets are empty: the attribute of {name} is of another user namespace's root"
        return Reason(text, sources.NAMESPACED)
    if taken.ignored and taken.file.mode & (SET_UID | SET_GID):
        text = f"F's sets are empty: {name} has no attribute, and its set-id bits are ignored, as "
        return Reason(text + taken.ignored, sources.EXECVE_IGNORED)
    text = f"F's sets are empty: {name} has no attribute, and {other}"
    return Reason(text, sources.BY_ROOT)


def changes(
    file: File,
    told: list[str],
    ids: Sequence[int],
    new: Sequence[int],
    before: Sequence[int],
    after: Sequence[int],
    bits: Sequence[int],
    chain: Sequence[int],
    mask: int = ALL,
) -> list[Reason]:
    """What an execve made of the sets, compared with what they became and were told to gain. The
    equations are shown of the capabilities in the mask."""
    root = chain[0]
    taken = program(file, ids, bits, chain)
    if (new[1], new[5]) != (taken.uid, taken.gid):
        raise Fault(f"the effective ids became {new[1]} and {new[5]}")
    permitted, inheritable, effective, how, by_root = file_sets(taken, ids, bits, root)
    sets, found = list(before), [how]
    if taken.uid != ids[1]:
        text = f"the effective user id became {taken.uid}, the owner of {file.name}: "
        found.insert(0, Reason(f"{text}its set-user-ID bit is set", sources.EXECVE_IGNORED))
    sets[AMBIENT] = 0 if taken.privileged else before[AMBIENT]
    inherits = before[INHERITABLE] & inheritable
    gives = permitted & before[BOUNDING]
    sets[PERMITTED] = inherits | gives | sets[AMBIENT]
    if bits[1]:
        sets[PERMITTED] &= before[PERMITTED]
    sets[EFFECTIVE] = sets[PERMITTED] if effective else sets[AMBIENT]
    same(sets, after, f"the equations give others, where {how.text}")
    hold_gains(told, sets[PERMITTED] & ~before[PERMITTED], gives, by_root)
    shown = [value & mask for value in (*before, *sets, permitted, inheritable)]
    if sets[AMBIENT] != before[AMBIENT]:
        text = f"P'(ambient) = none: {file.name} is privileged, since {taken.privileged}"
        found.append(Reason(text, sources.EXECVE_SETS, (AMBIENT, PERMITTED, EFFECTIVE)))
    found += equations(shown[:5], shown[5:10], shown[10], shown[11], effective)
    if bits[1] and (inherits | gives) & ~before[PERMITTED]:
        text = f"permitted is cut to the old permitted set, {named(before[PERMITTED])}"
        found.append(Reason(f"{text}: no_new_privs is set", sources.NO_NEW_PRIVS))
    return found


def hold_gains(told: list[str], gained: int, gives: int, by_root: bool) -> None:
    """The gains that the commit was told are those of the equations."""
    place = told.index("gain")
    file, inherited, root = (int(word, 16) for word in told[place + 1 : place + 4])
    wanted = (0, 0, gained) if by_root else (gained & gives, gained & ~gives, 0)
    if (file, inherited, root) != wanted:
        raise Fault(f"the gains were told as {named(file)}, {named(inherited)}, {named(root)}")


def equations(
    before: Sequence[int], sets: Sequence[int], permitted: int, inheritable: int, effective: bool
) -> list[Reason]:
    """The equations of the manual with their values."""
    source = sources.EXECVE_SETS
    given = before[INHERITABLE] & inheritable | permitted & before[BOUNDING] | sets[AMBIENT]
    first = (
        "P'(permitted) = (P(inheritable) & F(inheritable)) | (F(permitted) & P(bounding)) | "
        f"P'(ambient) = ({named(before[INHERITABLE])} & {named(inheritable)}) | "
        f"({named(permitted)} & {named(before[BOUNDING])}) | {named(sets[AMBIENT])} = "
        f"{named(given)}"
    )
    chosen = "P'(permitted)" if effective else "P'(ambient)"
    second = f"P'(effective) = F(effective) ? P'(permitted) : P'(ambient) = {chosen} = "
    return [
        Reason(first, source, (PERMITTED, EFFECTIVE)),
        Reason(second + named(sets[EFFECTIVE]), source, (EFFECTIVE,)),
    ]
