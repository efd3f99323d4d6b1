"""The credential of a task, and the rules of docs/RULES.md on its own changes.

Each rule takes the rows of docs/LINUX.md that hold: with none it is the manual's, with all of them
Linux's. It is a second reading of the manual pages, apart from the program's definitions, and says
what a kernel must answer to any script.
"""

from __future__ import annotations

from collections.abc import Callable

from . import rows
from .rules import ALL
from .script import NONE

SETGID, SETUID, SETPCAP = 6, 7, 8
NOROOT, NO_FIXUP, KEEP_CAPS, NO_RAISE = 1, 4, 16, 64
LOCKS, BITS, UNPRIVILEGED = 0xAA, 0xFF, 0xF00
# The eight capabilities on files.
ON_FILES = sum(1 << it for it in (0, 1, 2, 3, 4, 9, 27, 32))


class Refused(Exception):
    """A call is refused: the word of its answer."""


class Cred:
    """A credential. Users and groups are each real, effective, saved and filesystem id."""

    __slots__ = (
        "users", "group_ids", "groups", "permitted", "inheritable", "effective", "bounding",
        "ambient", "bits", "no_new_privs", "space", "root", "mapped",
    )  # fmt: skip

    def __init__(
        self, user: int, group: int, space: int, root: int, mapped: Callable[[int], bool]
    ) -> None:
        self.users = [user] * 4
        self.group_ids = [group] * 4
        self.groups: list[int] = []
        self.permitted = self.effective = ALL if user == root else 0
        self.inheritable = self.ambient = self.bits = 0
        self.bounding = ALL
        self.no_new_privs = False
        self.space, self.root = space, root
        # Which ids the namespace has, a function.
        self.mapped = mapped

    def copy(self) -> Cred:
        """One like it."""
        new = object.__new__(Cred)
        for name in Cred.__slots__:
            setattr(new, name, getattr(self, name))
        new.users, new.group_ids = self.users[:], self.group_ids[:]
        return new

    def has(self, number: int) -> bool:
        """Whether it has a capability."""
        return bool(self.effective >> number & 1)


def fixed(cred: Cred, old: list[int]) -> None:
    """The sets after a change of user ids: capabilities(7), "Effect of user ID changes"."""
    if cred.bits & NO_FIXUP:
        return
    root, new = cred.root, cred.users
    if root in old[:3] and root not in new[:3]:
        if not cred.bits & KEEP_CAPS:
            cred.permitted = cred.effective = 0
        cred.ambient = 0
    if old[1] == root and new[1] != root:
        cred.effective = 0
    if old[1] != root and new[1] == root:
        cred.effective = cred.permitted


def chosen(name: str, ids: list[int], new: list[int], privileged: bool) -> list[int]:
    """The real, effective and saved id that a call makes of these: setuid(2) and its kin."""
    real, effective, saved = ids[:3]
    if name == "set":
        if new[0] == NONE:
            raise Refused("einval")
        if privileged:
            return [new[0]] * 3
        if new[0] not in (real, saved):
            raise Refused("eperm")
        return [real, new[0], saved]
    if name == "sete":
        if new[0] == NONE:
            raise Refused("einval")
        new = [NONE, new[0], NONE]
    if name == "setre":
        first, second = (it if it != NONE else ids[place] for place, it in enumerate(new[:2]))
        may = privileged or (
            (new[0] == NONE or new[0] in (real, effective))
            and (new[1] == NONE or new[1] in (real, effective, saved))
        )
        if not may:
            raise Refused("eperm")
        changes = new[0] != NONE or new[1] != NONE and new[1] != real
        return [first, second, second if changes else saved]
    if not privileged and any(it != NONE and it not in ids[:3] for it in new[:3]):
        raise Refused("eperm")
    return [it if it != NONE else ids[place] for place, it in enumerate(new[:3])]


def is_no_op(name: str, ids: list[int], new: list[int]) -> bool:
    """Whether Linux returns from setresuid(2) or setresgid(2) at once: no effective id is named
    that isn't the filesystem id too, and nothing would change.
    """
    if name == "sete":
        new = [NONE, new[0], NONE]
    elif name != "setres":
        return False
    return all(
        it == NONE or it == ids[place] and (place != 1 or it == ids[3])
        for place, it in enumerate(new[:3])
    )


def set_ids(cred: Cred, call: str, new: list[int], on: frozenset[str]) -> Cred:
    """A call on user or group ids."""
    user = call.endswith("uid")
    name = call[:-3]
    cred = cred.copy()
    ids = cred.users if user else cred.group_ids
    if rows.UNMAPPED in on and any(it != NONE and not cred.mapped(it) for it in new):
        raise Refused("einval")
    found = chosen(name, ids, new, cred.has(SETUID if user else SETGID))
    if rows.FILESYSTEM_IDS in on and is_no_op(name, ids, new):
        return cred
    old = ids[:]
    ids[:] = [*found, found[1]]
    if user:
        fixed(cred, old)
    return cred


def set_groups(cred: Cred, groups: list[int], on: frozenset[str]) -> Cred:
    """setgroups(2)."""
    if not cred.has(SETGID) or rows.DENIED_GROUPS in on:
        raise Refused("eperm")
    if len(groups) > (65_536 if rows.GROUPS in on else 1_024):
        raise Refused("einval")
    if rows.UNMAPPED in on and not all(map(cred.mapped, groups)):
        raise Refused("einval")
    cred = cred.copy()
    cred.groups = sorted(groups)
    return cred


def set_fs(cred: Cred, user: bool, new: int, on: frozenset[str]) -> tuple[Cred, int]:
    """setfsuid(2) or setfsgid(2), and the id before."""
    ids = cred.users if user else cred.group_ids
    old = ids[3]
    if new == NONE or not (cred.has(SETUID if user else SETGID) or new in ids):
        return cred, old
    if rows.UNMAPPED in on and not cred.mapped(new):
        return cred, old
    cred = cred.copy()
    (cred.users if user else cred.group_ids)[3] = new
    if user and not cred.bits & NO_FIXUP:
        if old == cred.root and new != cred.root:
            cred.effective &= ~ON_FILES
        if old != cred.root and new == cred.root:
            cred.effective |= cred.permitted & ON_FILES
    return cred, old


def capset(cred: Cred, permitted: int, inheritable: int, effective: int) -> Cred:
    """capset(2): capabilities(7), "Programmatically adjusting capability sets"."""
    may = cred.inheritable | (ALL if cred.has(SETPCAP) else cred.permitted)
    allowed = (
        not inheritable & ~may
        and not inheritable & ~(cred.inheritable | cred.bounding)
        and not permitted & ~cred.permitted
        and not effective & ~permitted
    )
    if not allowed:
        raise Refused("eperm")
    cred = cred.copy()
    cred.permitted, cred.inheritable, cred.effective = permitted, inheritable, effective
    cred.ambient &= permitted & inheritable
    return cred


def drop(cred: Cred, number: int) -> Cred:
    """prctl(2), PR_CAPBSET_DROP."""
    if not cred.has(SETPCAP):
        raise Refused("eperm")
    if number > 40:
        raise Refused("einval")
    cred = cred.copy()
    cred.bounding &= ~(1 << number)
    return cred


def ambient(cred: Cred, form: str, number: int) -> Cred:
    """prctl(2), PR_CAP_AMBIENT."""
    if number > 40:
        raise Refused("einval")
    bit = 1 << number
    if form == "ambraise" and (cred.bits & NO_RAISE or not cred.permitted & cred.inheritable & bit):
        raise Refused("eperm")
    cred = cred.copy()
    if form == "ambclear":
        cred.ambient = 0
    else:
        cred.ambient = cred.ambient | bit if form == "ambraise" else cred.ambient & ~bit
    return cred


def securebits(cred: Cred, new: int, on: frozenset[str]) -> Cred:
    """prctl(2), PR_SET_SECUREBITS."""
    more = rows.SECUREBITS in on
    known = BITS | UNPRIVILEGED if more else BITS
    locks = LOCKS | UNPRIVILEGED & 0xAAA if more else LOCKS
    locked = (cred.bits & locks) >> 1
    changed = cred.bits ^ new
    if locked & changed or cred.bits & locks & ~new or new & ~known:
        raise Refused("eperm")
    if not cred.has(SETPCAP) and not (more and changed and not changed & ~UNPRIVILEGED):
        raise Refused("eperm")
    cred = cred.copy()
    cred.bits = new
    return cred


def keep_caps(cred: Cred, new: int) -> Cred:
    """prctl(2), PR_SET_KEEPCAPS."""
    if new > 1:
        raise Refused("einval")
    if cred.bits & KEEP_CAPS << 1:
        raise Refused("eperm")
    cred = cred.copy()
    cred.bits = cred.bits & ~KEEP_CAPS | KEEP_CAPS * new
    return cred


def no_new_privs(cred: Cred, new: int) -> Cred:
    """prctl(2), PR_SET_NO_NEW_PRIVS."""
    if new != 1:
        raise Refused("einval")
    cred = cred.copy()
    cred.no_new_privs = True
    return cred
