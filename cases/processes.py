"""Processes with three ids, as the pages speak of them, and the tables of all their calls.

A page's generator says what one call makes of one process, in the page's sentences. Here every
process makes every such call in a child of its own, and is then asked for its ids and its
capability sets: in the initial user namespace, and in one whose root is another user.
"""
from collections.abc import Callable, Iterator, Sequence
from dataclasses import dataclass, replace
from itertools import islice, product
from typing import Any

import suite
from reports import LINES, Script

IDS = (0, 1, 2)
# `(uid_t) -1`, which is no id; as an argument it may keep one.
NONE = -1
ALL = (1 << 41) - 1
# The bits of CAP_NET_RAW, which each process has inheritable and ambient too, and its number.
RAW, NET_RAW = 0x2000, 13
# CAP_CHOWN, CAP_DAC_OVERRIDE, CAP_DAC_READ_SEARCH, CAP_FOWNER, CAP_FSETID, CAP_LINUX_IMMUTABLE,
# CAP_MKNOD and CAP_MAC_OVERRIDE: those on files.
ON_FILES = sum(1 << it for it in (0, 1, 2, 3, 4, 9, 27, 32))
# The securebits.
KEEP_CAPS, NO_SETUID_FIXUP = 0x10, 0x04


@dataclass(frozen=True)
class Namespace:
    """A user namespace: its number, its root's user id, and the ids of the processes in it.

    user_namespaces(7): "a process can have a normal unprivileged user ID outside a user namespace
    while at the same time having a user ID of 0 inside the namespace". The ids of a script are
    those outside. So where a page speaks of the user id 0 of a process it is `root` here:
    capabilities(7), "A namespace's root user ID is the value that user ID 0 inside that namespace
    maps to in the initial user namespace."
    """

    number: int
    root: int
    ids: tuple[int, ...]

    def declared(self) -> list[str]:
        """The line that declares it, if one does: the initial one is there."""
        return [f"ns {self.number} {self.root} 0"] if self.number else []


INITIAL = Namespace(0, 0, IDS)
# A container's, to whose processes the initial namespace's root is one user like any other.
CONTAINER = Namespace(1, 100_000, (100_000, 0, 1))


@dataclass(frozen=True)
class Setting:
    """Where the processes of a table are, and under which securebits."""

    namespace: Namespace = INITIAL
    securebits: int = 0

    def told(self) -> str:
        """How the name of a case tells it."""
        place = f" in n{self.namespace.number}" if self.namespace.number else ""
        return place + (f", with securebits {self.securebits}" if self.securebits else "")


SETTINGS = (
    Setting(),
    Setting(CONTAINER),
    Setting(CONTAINER, KEEP_CAPS),
    Setting(CONTAINER, NO_SETUID_FIXUP),
)


class Refused(Exception):
    """A call is refused, with this error."""


# Whether a capability is permitted, inheritable, effective, in the bounding set and ambient.
Way = tuple[bool, bool, bool, bool, bool]
# The name of a call and its ids.
Words = Sequence[str | int]
# What a page says that a call makes of a process.
Page = Callable[..., Any]


@dataclass(frozen=True)
class Process:
    """A process, as the pages speak of it: its user ids or its group ids.

    It is privileged if it has the capability that a call asks for: CAP_SETUID, or CAP_SETGID.
    """

    real: int
    effective: int
    saved: int
    fs: int
    privileged: bool

    def ids(self) -> str:
        """The four ids, as a report has them."""
        return f"{self.real} {self.effective} {self.saved} {self.fs}"


@dataclass(frozen=True)
class Sets:
    """The capability sets that a change of user ids may change."""

    permitted: int
    effective: int
    ambient: int

    def told(self) -> str:
        """The five sets, as a report has them."""
        return f"ok {self.permitted:x} {RAW:x} {self.effective:x} {ALL:x} {self.ambient:x}"


@dataclass(frozen=True)
class Kind:
    """What differs between calls on user ids and calls on group ids."""

    set_all: str
    set_fs: str
    capability: int
    user: bool

    def told(self, process: Process, root: int) -> str:
        """The eight ids, of which the other four are those of root's task."""
        if self.user:
            return f"ok {process.ids()} 0 0 0 0"
        return f"ok {root} {root} {root} {root} {process.ids()}"


USERS = Kind("setresuid", "setfsuid", 7, True)
GROUPS = Kind("setresgid", "setfsgid", 6, False)


def ways() -> Iterator[Way]:
    """The ways to have a capability, as whether it is permitted, inheritable, effective, in the
    bounding set and ambient: what is effective is permitted, and what is ambient is permitted and
    inheritable.
    """
    for permitted, inheritable, effective, bounding, ambient in product((False, True), repeat=5):
        if (permitted or not effective) and (permitted and inheritable or not ambient):
            yield permitted, inheritable, effective, bounding, ambient


def processes(ids: tuple[int, ...] = IDS) -> Iterator[Process]:
    """Each process with these ids, privileged or not."""
    for privileged, real, effective, saved, fs in product((False, True), ids, ids, ids, ids):
        yield Process(real, effective, saved, fs, privileged)


def followed(process: Process) -> Process:
    """setfsuid(2): "whenever a process's effective user ID is changed, the kernel also changes the
    filesystem user ID to be the same as the new value of the effective user ID", and setresuid(2):
    "Regardless of what changes are made [..]".
    """
    return replace(process, fs=process.effective)


def held(process: Process, kind: Kind) -> Sets:
    """The sets of a process before its call."""
    return Sets(ALL, ALL if process.privileged else ALL & ~(1 << kind.capability), RAW)


def sets_after(old: Process, new: Process, sets: Sets, setting: Setting) -> Sets:
    """The sets after a change of user ids: capabilities(7), "Effect of user ID changes on
    capabilities".
    """
    root, securebits = setting.namespace.root, setting.securebits
    # "SECBIT_NO_SETUID_FIXUP: Setting this flag stops the kernel from adjusting the process's
    # permitted, effective, and ambient capability sets when the thread's effective and filesystem
    # UIDs are switched between zero and nonzero values."
    if securebits & NO_SETUID_FIXUP:
        return sets
    before, after = ((it.real, it.effective, it.saved) for it in (old, new))
    # "If one or more of the real, effective, or saved set user IDs was previously 0, and as a
    # result of the UID changes all of these IDs have a nonzero value, then all capabilities are
    # cleared from the permitted, effective, and ambient capability sets."
    if root in before and root not in after:
        # "SECBIT_KEEP_CAPS: Setting this flag allows a thread that has one or more 0 UIDs to
        # retain capabilities in its permitted set [..] if the thread has set this flag and its
        # effective UID is already nonzero [..], then the effective capabilities will not be
        # cleared."
        kept = securebits & KEEP_CAPS
        sets = Sets(sets.permitted if kept else 0, sets.effective if kept else 0, 0)
    # "If the effective user ID is changed from 0 to nonzero, then all capabilities are cleared from
    # the effective set."
    if old.effective == root and new.effective != root:
        sets = replace(sets, effective=0)
    # "If the effective user ID is changed from nonzero to 0, then the permitted set is copied to
    # the effective set."
    if old.effective != root and new.effective == root:
        sets = replace(sets, effective=sets.permitted)
    return sets


def sets_after_fs(old: Process, new: Process, sets: Sets, setting: Setting) -> Sets:
    """The sets after setfsuid(2), by the same section."""
    root = setting.namespace.root
    if setting.securebits & NO_SETUID_FIXUP:
        return sets
    # "If the filesystem user ID is changed from 0 to nonzero (see setfsuid(2)), then the following
    # capabilities are cleared from the effective set: CAP_CHOWN, [..] and CAP_MKNOD."
    if old.fs == root and new.fs != root:
        return replace(sets, effective=sets.effective & ~ON_FILES)
    # "If the filesystem UID is changed from nonzero to 0, then any of these capabilities that are
    # enabled in the permitted set are enabled in the effective set."
    if old.fs != root and new.fs == root:
        return replace(sets, effective=sets.effective | sets.permitted & ON_FILES)
    return sets


# The tasks of a script: root's, a process of the table, and the child that makes the call.
ROOT, TASK, CHILD = 1, 2, 3


def begun(namespace: Namespace) -> Script:
    """A script with a task of the namespace's root, whose children keep their permitted set when
    they leave root.
    """
    script = Script()
    script.declares(*namespace.declared())
    script.init(ROOT, 1, namespace.root, 0, namespace.number)
    script.changes(ROOT, "keepcaps 1")
    return script


def make(script: Script, process: Process, kind: Kind, setting: Setting) -> None:
    """Makes root's child this process."""
    script.fork(ROOT, TASK, 2)
    ids = process.real, process.effective, process.saved
    script.ids(TASK, f"{kind.set_all} {' '.join(map(str, ids))}")
    script.changes(TASK, f"capset {ALL:x} {RAW:x} {ALL:x}")
    script.changes(TASK, f"{kind.set_fs} {process.fs}", answer=f"ok was {process.effective}")
    script.changes(TASK, f"ambraise {NET_RAW}")
    script.changes(TASK, f"capset {ALL:x} {RAW:x} {ALL:x}")
    script.changes(TASK, f"securebits {setting.securebits}")
    script.changes(TASK, f"capset {ALL:x} {RAW:x} {held(process, kind).effective:x}")


def shown(script: Script, kind: Kind, process: Process, sets: Sets, setting: Setting) -> None:
    """Asks the child for what it is, and ends it."""
    script.asks(CHILD, "ids", kind.told(process, setting.namespace.root))
    script.asks(CHILD, "caps", sets.told())
    script.exit(CHILD)


def tries_ids(
    script: Script, process: Process, kind: Kind, page: Page, words: Words, setting: Setting
) -> None:
    """A child makes a call that sets ids: what the page says must come of it."""
    name, *arguments = words
    script.fork(TASK, CHILD, 3)
    sets = held(process, kind)
    call = " ".join(map(str, words))
    try:
        new = page(process, *arguments)
    except Refused as why:
        new = process
        script.ids(CHILD, call, str(why))
    else:
        script.ids(CHILD, call)
        sets = sets_after(process, new, sets, setting) if kind.user else sets
    shown(script, kind, new, sets, setting)


def tries_fs(
    script: Script, process: Process, kind: Kind, page: Page, words: Words, setting: Setting
) -> None:
    """A child sets its filesystem id: what the page says must come of it."""
    name, argument = words
    script.fork(TASK, CHILD, 3)
    sets = held(process, kind)
    new, answer = page(process, argument)
    script.changes(CHILD, f"{name} {argument}", answer=f"ok was {answer}")
    sets = sets_after_fs(process, new, sets, setting) if kind.user else sets
    shown(script, kind, new, sets, setting)


# What a child does of a call, by a page.
Tries = Callable[[Script, Process, Kind, Page, Words, Setting], None]


def rows(
    setting: Setting, name: str, width: int, kind: Kind, page: Page, tries: Tries
) -> Iterator[suite.Case]:
    """Every call of this name, which takes so many ids, by every process of this setting."""
    ids = setting.namespace.ids
    calls: list[Words] = [[name, *its] for its in product((NONE, *ids), repeat=width)]
    # A process takes nine lines to make and to end, and each of its calls five.
    room = LINES // (5 * len(calls) + 10)
    left = processes(ids)
    while some := list(islice(left, room)):
        script = begun(setting.namespace)
        for process in some:
            make(script, process, kind, setting)
            for words in calls:
                tries(script, process, kind, page, words, setting)
            script.exit(TASK)
        first = some[0]
        privileged = "privileged" if first.privileged else "unprivileged"
        told = f"{name} from {first.ids()}, {privileged}{setting.told()}"
        yield script.case(told, len(some) * len(calls))


def table(
    name: str, width: int, kind: Kind, page: Page, tries: Tries = tries_ids
) -> Iterator[suite.Case]:
    """The rows of this call in every setting. No securebit is about group ids."""
    for setting in SETTINGS:
        if kind.user or not setting.securebits:
            yield from rows(setting, name, width, kind, page, tries)
