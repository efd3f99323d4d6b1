"""Rows of docs/LINUX.md by which a task, or a file, may be another one than the program says."""

from __future__ import annotations

from dataclasses import dataclass, field, replace

from capabilities import CAPABILITIES

from ..follow.user_namespaces import GID_WORDS, UID_WORDS
from ..script.calls import ID_CALLS
from . import file_rows

# What a kept row may have changed.
IDS, CAPS, FILE_IDS = "ids", "caps", "file ids"
BOUNDING, BITS, GROUPS, FILE = "bounding", "bits", "groups", "file"
# Whether others may look into the process.
DUMPABLE = "dumpable"

# Which ids, where only the user's or only the group's may be others.
USERS, GROUP_IDS = "users", "group ids"


@dataclass(frozen=True)
class PossibleRow:
    """A row that may explain a later difference: in what, and whether the kernel then has more."""

    row: str
    part: str
    number: int
    text: str
    more: bool | None = None
    sure: bool = True
    # Which capabilities or securebits, or which ids, may be others; None where any may.
    bits: int | None = None
    ids: str | None = None

    def what(self) -> tuple[object, ...]:
        """The row, and what it may have changed."""
        return self.row, self.part, self.more, self.bits, self.ids

    def covers(self, gains: int, losses: int) -> tuple[int, int]:
        """Which capabilities the kernel's task may have more by this row, and which less."""
        mask = -1 if self.bits is None else self.bits
        gained, lost = self.more is not False, self.more is not True
        return gains & mask if gained else 0, losses & mask if lost else 0

    def explains(self, words: list[str], kernel: str, report: str) -> bool:
        """Whether this part of a task decides the answer of a line, and as the kernel has it."""
        if self.part not in DEPENDS.get(words[1], ()):
            return False
        if self.part == CAPS:
            return any(self.covers(*capabilities_of(words, kernel, report)))
        if self.part in (IDS, FILE_IDS) and self.ids is not None:
            return self.ids in ids_of(words, kernel, report)
        return True


@dataclass
class Known:
    """What is known of a task besides its credential."""

    kept: list[PossibleRow] = field(default_factory=list)
    # The execve by which its process isn't dumpable in Linux, though it is in the program.
    flag: PossibleRow | None = None

    def copy(self) -> Known:
        """The same for a child."""
        return Known(self.kept[:], self.flag)

    def sets_dumpable(self, *kept: PossibleRow) -> None:
        """Whether it is dumpable is decided anew; by these rows it may be otherwise in Linux."""
        self.kept = [one for one in self.kept if one.part != DUMPABLE]
        self.keep(*(replace(one, part=DUMPABLE, ids=None) for one in kept))

    def leads_on(self, form: str) -> None:
        """What a call decided by others leads to, where it is made here and in Linux."""
        ids = USERS if form in UID_WORDS else GROUP_IDS if form in GID_WORDS else None
        needed = NEEDED.get(form, -1)
        for parts, after in FOLLOWS.get(form, ()):
            found = [
                one
                for one in self.kept
                if one.part in parts
                and (one.bits is None or one.bits & (needed if one.part == CAPS else -1))
            ]
            self.keep(*(replace(one, part=part, more=None, bits=None,
                                ids=ids if part in (IDS, FILE_IDS) else None)
                        for one in found for part in after))  # fmt: skip

    def settles(self, words: list[str]) -> None:
        """A call that sets something whole leaves the same here and in Linux."""
        if words[1] == "securebits":
            self.kept = [one for one in self.kept if one.part != BITS]
        elif words[1] == "setgroups":
            self.kept = [one for one in self.kept if one.part != GROUPS]
        elif words[1] in ("setresuid", "setresgid") and "-1" not in words[2:]:
            mine = USERS if words[1] == "setresuid" else GROUP_IDS
            other = GROUP_IDS if mine == USERS else USERS
            self.kept = [
                replace(one, ids=other) if one.part in (IDS, FILE_IDS) else one
                for one in self.kept
                if one.part not in (IDS, FILE_IDS) or one.ids != mine
            ]

    def of_ids(self) -> list[PossibleRow]:
        """The rows by which ids may be others."""
        return [one for one in self.kept if one.part in (IDS, FILE_IDS)]

    def keep(self, *kept: PossibleRow) -> None:
        """These rows may explain what comes; the newest is asked first."""
        found: dict[object, PossibleRow] = {}
        for one in (*kept, *self.kept):
            found.setdefault(one.what(), one)
        self.kept = list(found.values())


# What the answer of each form depends on. Of the others no kept row explains any.
DEPENDS: dict[str, tuple[str, ...]] = (
    {"ids": (IDS,), "bset": (BOUNDING,), "bits": (BITS,), "groups": (GROUPS,)}
    | {"dumped": (DUMPABLE,)}
    | dict.fromkeys(("caps", "ambis", "capdrop", "setgroups"), (CAPS,))
    | dict.fromkeys(("capsetraw", "ambraise"), (CAPS, BOUNDING, BITS))
    | dict.fromkeys(("securebits", "keepcaps"), (CAPS, BITS))
    | dict.fromkeys({*ID_CALLS, "signal"} - {"setgroups"}, (IDS, CAPS))
    | dict.fromkeys(("setfsuid", "setfsgid", "exec", "ptrace"), (FILE_IDS, CAPS, IDS))
    | dict.fromkeys(("open", "check", "access"), (FILE_IDS, CAPS, IDS, GROUPS))
    | dict.fromkeys(file_rows.FORMS, (FILE_IDS, CAPS, GROUPS))
)

# What each form changes, where the kernel makes it and the program refuses it, or the reverse.
CHANGED: dict[str, tuple[str, ...]] = (
    {"capdrop": (BOUNDING,), "setgroups": (GROUPS,)}
    | {"exec": (IDS, CAPS, FILE_IDS, BITS, DUMPABLE)}
    | dict.fromkeys(("ambraise", "amblower", "ambclear", "capsetraw"), (CAPS,))
    | dict.fromkeys(("securebits", "keepcaps"), (BITS,))
    | dict.fromkeys(UID_WORDS, (IDS, FILE_IDS, CAPS, DUMPABLE))
    | dict.fromkeys(GID_WORDS - {"setgroups"}, (IDS, FILE_IDS, DUMPABLE))
    | {"setfsuid": (FILE_IDS, CAPS, DUMPABLE), "setfsgid": (FILE_IDS, DUMPABLE)}
    | {"nonewprivs": (BITS, IDS, CAPS)}
    | dict.fromkeys(file_rows.FORMS, ())
)

# What a call leaves that is made here and in Linux: which parts of a task it looks at, and which
# are others by that afterwards.
Follows = list[tuple[tuple[str, ...], tuple[str, ...]]]
BY_USERS: Follows = [((IDS, FILE_IDS), (CAPS, DUMPABLE)), ((BITS,), (CAPS,))]
BY_GROUPS: Follows = [((IDS, FILE_IDS), (DUMPABLE,))]
# setuid(2) sets all ids with CAP_SETUID, and setfsuid(2) another one with it alone.
ALL_IDS: Follows = [((CAPS, IDS), (IDS, FILE_IDS, DUMPABLE))]
ONE_ID: Follows = [((CAPS, IDS), (FILE_IDS, DUMPABLE))]
FOLLOWS: dict[str, Follows] = (
    dict.fromkeys(UID_WORDS, BY_USERS)
    | dict.fromkeys(GID_WORDS - {"setgroups"}, BY_GROUPS)
    | {"setuid": BY_USERS + ALL_IDS, "setgid": BY_GROUPS + ALL_IDS}
    | {"setfsuid": BY_USERS + ONE_ID, "setfsgid": BY_GROUPS + ONE_ID}
    | {"exec": [((IDS, FILE_IDS, BITS), (CAPS,))]}
)


def reason(
    kept: list[PossibleRow], words: list[str], kernel: str, report: str
) -> PossibleRow | None:
    """The newest row that explains the whole of a difference, or the newest of several that do."""
    found = [one for one in kept if one.explains(words, kernel, report)]
    if words[1] != "caps":
        return found[0] if found else None
    gains, losses = capabilities_of(words, kernel, report)
    covered: dict[object, tuple[int, int]] = {}
    for one in found:
        # What a row makes more and what it makes less stand apart, but for all rows together.
        for key in ((one.row, one.number), None):
            gained, lost = covered.get(key, (0, 0))
            more, less = one.covers(gains, losses)
            covered[key] = gained | more, lost | less
    for one in found:
        if covered[one.row, one.number] == (gains, losses):
            return one
    return found[0] if covered.get(None) == (gains, losses) else None


def capability(name: str) -> int:
    """The bit of a capability."""
    return 1 << CAPABILITIES.index(name)


# The capability by which a call is allowed that is refused without it.
NEEDED = (
    dict.fromkeys(UID_WORDS, capability("SETUID"))
    | dict.fromkeys(GID_WORDS, capability("SETGID"))
    | dict.fromkeys(("capdrop", "securebits"), capability("SETPCAP"))
    | dict.fromkeys(("open", "check", "access", "exec"),
                    capability("DAC_OVERRIDE") | capability("DAC_READ_SEARCH"))
    | dict.fromkeys(("setattr", "clearattr"), capability("SETFCAP"))
    | {"signal": capability("KILL"), "ptrace": capability("SYS_PTRACE")}
    | {"chown": capability("CHOWN"), "chmod": capability("FOWNER")}
)  # fmt: skip


def capabilities_of(words: list[str], kernel: str, report: str) -> tuple[int, int]:
    """Which capabilities the kernel's task has more and less, or those that decide the answer."""
    ours, others = kernel.split(), report.split()
    if words[1] == "caps" and len(ours) == len(others):
        gains = losses = 0
        for one, other in zip(ours[1:4], others[1:4], strict=True):
            *mask, text = one.split("&=")
            value, told = int(text, 16), int(other, 16)
            gains |= value & ~told
            losses |= told & ~value & (int(mask[0], 16) if mask else -1)
        return gains, losses
    needed = NEEDED.get(words[1], -1)
    if words[1] in ("ambis", "ambraise"):
        named = words[2].removeprefix("CAP_")
        needed = capability(named) if named in CAPABILITIES else 0
    more = ours[1] == "1" if words[1] == "ambis" and len(ours) == 2 else ours[0] == "ok"
    if ours[0] == others[0] and words[1] != "ambis":
        return needed, needed
    return (needed, 0) if more else (0, needed)


def ids_of(words: list[str], kernel: str, report: str) -> tuple[str, ...]:
    """In which ids the answers differ, or which ones decide them."""
    ours, others = kernel.split(), report.split()
    if words[1] == "ids" and len(ours) == len(others):
        differ = [one not in ("*", other) for one, other in zip(ours, others, strict=True)]
        return (USERS,) * any(differ[1:5]) + (GROUP_IDS,) * any(differ[5:])
    if words[1] in UID_WORDS | {"signal"}:
        return (USERS,)
    return (GROUP_IDS,) if words[1] in GID_WORDS else (USERS, GROUP_IDS)
