"""The ids of a task as the calls of a log leave them, by the initial namespace.

setuid(2) sets the saved id too where the task has CAP_SETUID, which its result doesn't tell. So the
sets are followed as well, as Linux has them, as far as CAP_SETUID and CAP_SETGID go.
"""

from __future__ import annotations

from dataclasses import dataclass, field, replace

from capabilities import ALL_CAPABILITIES, CAPABILITIES

from ..script.calls import ID_CALLS
from .user_namespaces import Space

NOROOT, NO_SETUID_FIXUP, KEEP_CAPS = 1, 4, 16
SETGID, SETUID = (1 << CAPABILITIES.index(name) for name in ("SETGID", "SETUID"))

# The lengths of an attribute of each version, in bytes.
LENGTHS = {1: 12, 2: 20, 3: 24}

# An attribute: the permitted and the inheritable set, and the effective flag.
Attribute = tuple[int, int, bool]


@dataclass
class Ids:
    """Users and groups, each real, effective, saved and filesystem id; and the sets."""

    users: list[int] = field(default_factory=lambda: [0, 0, 0, 0])
    groups: list[int] = field(default_factory=lambda: [0, 0, 0, 0])
    others: list[int] = field(default_factory=list)
    no_new_privs: bool = False
    permitted: int = ALL_CAPABILITIES
    inheritable: int = 0
    effective: int = ALL_CAPABILITIES
    bounding: int = ALL_CAPABILITIES
    ambient: int = 0
    securebits: int = 0

    def copy(self) -> Ids:
        """The same for a child."""
        return replace(self, users=self.users[:], groups=self.groups[:], others=self.others[:])

    def with_sets(self, *sets: int) -> Ids:
        """The same with these: permitted, inheritable, effective, bounding, ambient, securebits."""
        names = ("permitted", "inheritable", "effective", "bounding", "ambient", "securebits")
        return replace(self, **dict(zip(names, sets, strict=True)))

    def acting(self) -> tuple[int, int, int, int]:
        """The effective and the filesystem ids: where one changes, the process isn't dumpable."""
        return self.users[1], self.users[3], self.groups[1], self.groups[3]

    def in_new_space(self) -> Ids:
        """The same in a user namespace that was made or entered (user_namespaces(7))."""
        found = self.copy()
        found.permitted = found.effective = found.bounding = ALL_CAPABILITIES
        found.inheritable = found.ambient = found.securebits = 0
        return found

    def after(self, words: list[str], root: int | None) -> None:
        """A call that succeeded has changed them; `root` is the user who is root there."""
        name, values = words[0], words[1:]
        if name == "setgroups":
            self.others = list(map(int, values))
        elif name == "nonewprivs":
            self.no_new_privs = True
        elif name in ID_CALLS or name in ("setfsuid", "setfsgid"):
            self.sets(name, list(map(int, values)), root)
        elif name == "securebits":
            self.securebits = int(values[0])
        elif name == "keepcaps":
            self.securebits = self.securebits & ~KEEP_CAPS | KEEP_CAPS * int(values[0])
        elif name == "capsetraw":
            self.capset(bytes.fromhex(values[0]))
        elif name in ("capdrop", "ambraise", "amblower", "ambclear"):
            self.one(name, bit(values[0]) if values else -1)

    def one(self, name: str, bits: int) -> None:
        """prctl(2), PR_CAPBSET_DROP and PR_CAP_AMBIENT."""
        if name == "capdrop":
            self.bounding &= ~bits
        else:
            self.ambient = self.ambient | bits if name == "ambraise" else self.ambient & ~bits

    def capset(self, record: bytes) -> None:
        """capset(2), by the record that the kernel was handed."""
        words = [int.from_bytes(record[at : at + 4], "little") for at in range(8, len(record), 4)]
        low, high = words[:3], words[3:] or [0, 0, 0]
        sets = [one | other << 32 for one, other in zip(low, high, strict=True)]
        self.effective, self.permitted, self.inheritable = (it & ALL_CAPABILITIES for it in sets)
        self.ambient &= self.permitted & self.inheritable

    def sets(self, name: str, values: list[int], root: int | None) -> None:
        """setuid(2) and its forms; capabilities(7), "Effect of user ID changes"."""
        if name.endswith("gid"):
            set_ids(self.groups, name.replace("gid", "uid"), values, bool(self.effective & SETGID))
            return
        old = self.users[:]
        set_ids(self.users, name, values, bool(self.effective & SETUID))
        if self.securebits & NO_SETUID_FIXUP or name == "setfsuid":
            return
        if root in old[:3] and root not in self.users[:3]:
            if not self.securebits & KEEP_CAPS:
                self.permitted = self.effective = 0
            self.ambient = 0
        if old[1] == root and self.users[1] != root:
            self.effective = 0
        elif old[1] != root and self.users[1] == root:
            self.effective = self.permitted

    def executes(self, words: list[str], space: Space, traced: bool) -> bool:
        """What an execve of this file leaves: kind, owner, group, mode, nosuid, attribute.

        `traced` is whether the tracer may not let a task gain anything. Whether others may look
        into the process then is returned, but for a file that the task may not read (prctl(2)).
        """
        acting, had = self.acting(), self.permitted
        mode, owner, group = int(words[3], 8), int(words[1]), int(words[2])
        mapped = space.inside(owner, False) and space.inside(group, True)
        counts = mapped and "nosuid" not in words and not self.no_new_privs
        user = owner if counts and mode & 0o4000 else self.users[1]
        group = group if counts and mode & 0o2010 == 0o2010 else self.groups[1]
        found, root = attribute(words, space.roots()), space.root()
        is_root = not self.securebits & NOROOT and root in (self.users[0], user)
        if found is not None and user == root != self.users[0]:
            is_root = False
        permitted, inheritable, flag = found or (0, 0, False)
        new = self.bounding & permitted | self.inheritable & inheritable
        new = self.bounding | self.inheritable if is_root else new
        flag = flag or (is_root and user == root)
        stays = group in (self.groups[3], *self.others) and user == self.users[1]
        if (not stays or new & ~self.permitted) and (traced or self.no_new_privs):
            new &= self.permitted
            if self.no_new_privs or not self.effective & SETUID:
                user, group = self.users[0], self.groups[0]
        self.users[1:], self.groups[1:] = [user] * 3, [group] * 3
        self.ambient = self.ambient if stays and found is None else 0
        self.permitted = new | self.ambient
        self.effective = self.permitted if flag else self.ambient
        self.securebits &= ~KEEP_CAPS
        is_real = (self.users[0], self.groups[0]) == (user, group)
        return is_real and self.acting() == acting and not self.permitted & ~had


def bit(word: str) -> int:
    """The bit of a capability, by its name or its number."""
    name = word.removeprefix("CAP_")
    place = CAPABILITIES.index(name) if name in CAPABILITIES else int(word)
    return 1 << place if place < len(CAPABILITIES) else 0


def attribute(words: list[str], roots: list[int | None]) -> Attribute | None:
    """What the attribute of a file says, where it has one that counts there."""
    if "caps" not in words or "nosuid" in words:
        return None
    data = bytes.fromhex(words[words.index("caps") + 1].removeprefix("0x"))
    if len(data) < 4 or LENGTHS.get(data[3]) != len(data):
        return None
    flags, *sets = (int.from_bytes(data[at : at + 4], "little") for at in range(0, len(data), 4))
    if data[3] == 3 and sets[4] not in roots:
        return None
    permitted, inheritable = sets[:2]
    if data[3] > 1:
        permitted, inheritable = permitted | sets[2] << 32, inheritable | sets[3] << 32
    return permitted & ALL_CAPABILITIES, inheritable & ALL_CAPABILITIES, bool(flags & 1)


def set_ids(ids: list[int], name: str, values: list[int], privileged: bool) -> None:
    """What a call that succeeded makes of real, effective, saved and filesystem id."""
    kept = [old if new == -1 else new for old, new in zip(ids, values, strict=False)]
    if name == "setfsuid":
        # Its result doesn't tell whether it was permitted: setfsuid(2).
        ids[3] = values[0] if values[0] != -1 and (privileged or values[0] in ids) else ids[3]
    elif name == "setuid":
        all_three = privileged or values[0] not in (ids[0], ids[2])
        ids[:] = [values[0]] * 4 if all_three else [ids[0], values[0], ids[2], values[0]]
    elif name == "setresuid" and kept == ids[:3] and (values[1] == -1 or ids[1] == ids[3]):
        # Then Linux leaves the filesystem id (docs/LINUX.md).
        return
    elif name == "setresuid":
        ids[:] = [*kept, kept[1]]
    elif name == "setreuid":
        saves = values[0] != -1 or (values[1] != -1 and values[1] != ids[0])
        ids[:] = [kept[0], kept[1], kept[1] if saves else ids[2], kept[1]]
