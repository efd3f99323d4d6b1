"""Calls that change where a task's paths lead, and what its descriptors are of."""

from __future__ import annotations

import re
from collections.abc import Callable, Iterable
from contextlib import suppress
from dataclasses import replace
from functools import partial

from ..log import lines
from ..log.reader import Call
from ..script.calls import Unheld
from .descriptors import FILE, KIND, LOOSE, NAMESPACE, PIDFD, descriptor
from .paths import Paths
from .pids import NOBODY, Pids
from .places import Located, Mount, Mounts, Where
from .tasks import Task

Handler = Callable[[Task, Call], None]

# The mount of a memfd is in no namespace.
NOWHERE = -1

# mount(2): flags that only say who sees it.
PROPAGATION = frozenset({"MS_SHARED", "MS_PRIVATE", "MS_SLAVE", "MS_UNBINDABLE"})

CLONE_BITS = {
    "CLONE_VM": 0x100,
    "CLONE_FS": 0x200,
    "CLONE_FILES": 0x400,
    "CLONE_PIDFD": 0x1000,
    "CLONE_PARENT": 0x8000,
    "CLONE_THREAD": 0x10000,
    "CLONE_NEWNS": 0x20000,
    "CLONE_NEWUSER": 0x10000000,
    "CLONE_NEWPID": 0x20000000,
}

OPENS = ("open", "openat", "openat2", "creat")

# Calls after which a task's paths lead elsewhere.
FOLLOWED = (
    "chdir", "fchdir", "chroot", "pivot_root", "mount", "umount", "umount2", "move_mount", "setns",
    "unshare",
)  # fmt: skip

# Calls that make descriptors of which the log doesn't tell what they are of.
GIVEN = ("recvmsg", "recvmmsg", "ioctl", "pidfd_getfd", "open_by_handle_at")
RIGHTS = re.compile(r"SCM_RIGHTS, cmsg_data=\[((?:[^<\]]|<[^<>]*>)*)\]")


def clone_flags(text: str) -> frozenset[str]:
    """The flags of clone(2), unshare(2) and setns(2), also where -X raw writes a number."""
    found = set()
    for word in re.sub(r"/\*.*?\*/", "", text).split("|"):
        value = lines.number(word.strip())
        found |= {name for name, bit in CLONE_BITS.items() if value and value & bit}
        found.add(word.strip())
    return frozenset(found)


def argument(call: Call, place: int) -> str:
    """An argument, or nothing where there are fewer."""
    return call.args[place] if place < len(call.args) else ""


def open_flags(call: Call) -> tuple[int, str]:
    """Where the path of an open stands among the arguments, and its flags."""
    place = 0 if call.name in ("open", "creat") else 1
    flags = argument(call, place + 1)
    return place, lines.fields(flags).get("flags", "") if call.name == "openat2" else flags


class PathCalls:
    """Follows the roots, folders, mounts and descriptors of tasks."""

    def __init__(self, paths: Paths, tasks: Callable[[], Iterable[Task]]) -> None:
        self.paths = paths
        self._tasks = tasks

    def handlers(self) -> dict[str, Handler]:
        """Which call is followed how."""
        found: dict[str, Handler] = {
            "chdir": self.chdir,
            "fchdir": self.fchdir,
            "chroot": self.chroot,
            "pivot_root": self.pivot_root,
            "mount": self.mount,
            "umount2": self.umount,
            "umount": self.umount,
            "open_tree": self.open_tree,
            "fsopen": self.fsopen,
            "fsmount": self.fsmount,
            "move_mount": self.move_mount,
            "mount_setattr": self.mount_setattr,
            "memfd_create": self.memfd_create,
            "pidfd_open": self.pidfd_open,
        }
        found |= dict.fromkeys(OPENS, self.open)
        found |= dict.fromkeys(GIVEN, self.given)
        return found | dict.fromkeys(("dup", "dup2", "dup3", "fcntl"), self.dup)

    def chdir(self, task: Task, call: Call) -> None:
        """chdir(2): paths begin here from now on."""
        try:
            task.where.folder = self.paths.locate(task, call, 0)
        except Unheld:
            path = lines.string(argument(call, 0))
            # Nobody knows where a relative path leads then, but it can still be listed.
            task.where.folder = task.where.locate(path) if path is not None else None

    def fchdir(self, task: Task, call: Call) -> None:
        """fchdir(2)."""
        task.where.folder = self.paths.base(task, argument(call, 0))

    def chroot(self, task: Task, call: Call) -> None:
        """chroot(2): absolute paths begin here from now on."""
        task.where.root = self.paths.locate(task, call, 0)

    def pivot_root(self, task: Task, call: Call) -> None:
        """pivot_root(2)."""
        new, old = self.paths.locate(task, call, 0), self.paths.locate(task, call, 1)
        task.where.pivot(new, old, [other.where for other in self._tasks()])

    def mount(self, task: Task, call: Call) -> None:
        """mount(2): another file system, or another part of one, or other flags."""
        flags = set(argument(call, 3).split("|"))
        mounts = task.where.mounts
        if kind := flags & PROPAGATION:
            with suppress(Unheld):
                place = self.paths.locate(task, call, 1).place
                mounts.is_seen(place, kind.pop(), "MS_REC" in flags)
            return
        target = self.paths.locate(task, call, 1)
        kept = Mount(target.place, "MS_NOSUID" in flags, "MS_NOEXEC" in flags)
        if "MS_REMOUNT" in flags:
            # The flags of a mount are its own, whoever else sees it.
            old = replace(target.mount or kept, source=kept.source)
            again = replace(old, nosuid=kept.nosuid, noexec=kept.noexec)
            mounts.over[point_of(target, mounts.over) or target.place] = again
            return
        if flags & {"MS_BIND", "MS_MOVE"}:
            source = self.paths.locate(task, call, 0)
            if "MS_MOVE" in flags and source.point:
                self.unmounts(mounts, source.point, call)
            kept = bound(source)
        elif lines.string(argument(call, 2)) == "proc":
            kept = replace(kept, source="/proc", pids=task.process.pids)
        else:
            kept = replace(kept, source=f"@{call.first}:/")
        self.mounts(mounts, target.place, kept, call)

    def mounts(self, mounts: Mounts, point: str, mount: Mount, call: Call) -> None:
        """Something is mounted at a place."""
        mounts.change(point, call.first, lambda over: over.update({point: mount}))

    def unmounts(self, mounts: Mounts, point: str, call: Call) -> None:
        """What is mounted at a place isn't any more."""
        def remove(over: dict[str, Mount]) -> None:
            over.pop(point, None)

        mounts.change(point, call.first, remove)

    def umount(self, task: Task, call: Call) -> None:
        """umount2(2): what was there before is there again."""
        try:
            target = self.paths.locate(task, call, 0)
        except Unheld:
            return
        point = point_of(target, task.where.mounts.over)
        if point is not None:
            self.unmounts(task.where.mounts, point, call)

    def open_tree(self, task: Task, call: Call) -> None:
        """open_tree(2): a part of a file system, which move_mount(2) mounts."""
        found = self.paths.locate(task, call, 1, 0)
        kind = LOOSE if "OPEN_TREE_CLONE" in argument(call, 2) else FILE
        task.descriptors.opens(call.result.value, kind, found)

    def fsopen(self, task: Task, call: Call) -> None:
        """fsopen(2): a kind of file system."""
        kind = lines.string(argument(call, 0)) or ""
        task.descriptors.opens(call.result.value, KIND, kind)

    def fsmount(self, task: Task, call: Call) -> None:
        """fsmount(2): a new file system, which move_mount(2) mounts."""
        flags = argument(call, 2)
        is_proc = task.descriptors.get(argument(call, 0), KIND) == "proc"
        place = "/proc" if is_proc else f"@{call.first}:/"
        mount = Mount(place, "MOUNT_ATTR_NOSUID" in flags, "MOUNT_ATTR_NOEXEC" in flags)
        mount = replace(mount, pids=task.process.pids if is_proc else None)
        task.descriptors.opens(call.result.value, LOOSE, Located(place, mount))

    def move_mount(self, task: Task, call: Call) -> None:
        """move_mount(2): what a descriptor is of is mounted, or moved."""
        target = self.paths.locate(task, call, 3, 2)
        loose = task.descriptors.get(argument(call, 0), LOOSE)
        if not isinstance(loose, Located):
            loose = self.paths.locate(task, call, 1, 0)
            self.unmounts(task.where.mounts, loose.point or "", call)
        self.mounts(task.where.mounts, target.place, bound(loose), call)
        task.descriptors.opens(descriptor(argument(call, 0)), FILE, loose)

    def mount_setattr(self, task: Task, call: Call) -> None:
        """mount_setattr(2): other flags."""
        fields = lines.fields(argument(call, 3))
        kind = fields.get("propagation", "")
        loose = task.descriptors.get(argument(call, 0), LOOSE)
        found = loose if isinstance(loose, Located) else self.paths.locate(task, call, 1, 0)
        if kind in PROPAGATION and found is not loose:
            task.where.mounts.is_seen(found.place, kind, "AT_RECURSIVE" in argument(call, 2))
        old = replace(found.mount or Mount(""), source=found.place)
        mount = with_attributes(old, fields, call.first)
        if mount == old:
            return
        if found is loose:
            task.descriptors.opens(descriptor(call.args[0]), LOOSE, Located(found.place, mount))
        else:
            over = task.where.mounts.over
            over[point_of(found, over) or found.place] = mount

    def open(self, task: Task, call: Call) -> None:
        """open(2): a descriptor of a file."""
        place, _ = open_flags(call)
        path = lines.string(argument(call, place))
        plain = (place == 0 or call.args[0] == "AT_FDCWD") and not task.where.mounts.over
        if path and plain and not path.startswith(("/proc", "/dev")):
            before = task.where
            mounts = Mounts(before.mounts.root, number=before.mounts.number)
            mounts.doubts = before.mounts.doubts
            where = Where(mounts, before.root, before.folder)
            end = path.rpartition("/")[2]
            task.descriptors.opens(call.result.value, FILE, partial(self.lies, where, path), end)
            return
        try:
            path, base = self.paths.named(task, call, place, place - 1 if place else None)
            found = self.paths.both(self.paths.rooted(task, call), path, base)
        except Unheld:
            task.descriptors.closes(call.result.value)
            return
        self.opened(task, call.result.value, own_process(found, task))

    def lies(self, where: Where, path: str) -> Located | None:
        """Where a file lies that was opened by a path alone."""
        found = where.locate(path)
        if found is None or not self.paths.is_known(found):
            return None
        if self.paths.files.listed is not None:
            return replace(found, real=None)
        real = where.locate(path, None, self.paths.link)
        return replace(found, real=real.place if real else None)

    def opened(self, task: Task, number: int | None, found: Located) -> None:
        """A descriptor of a file, or of a namespace of a process."""
        match = re.fullmatch(r"/proc/(@?\d+)(?:/task/\d+)?/ns/(\w+)", found.place)
        owner = self.paths.tasks.in_proc(match[1], proc_of(found)) if match else None
        if match and owner and match[2] == "user":
            task.descriptors.opens(number, NAMESPACE, owner.process.space)
        elif match and owner and match[2] == "mnt":
            task.descriptors.opens(number, NAMESPACE, owner.where.mounts)
        elif match and owner and match[2].startswith("pid"):
            process = owner.process
            task.descriptors.opens(
                number, NAMESPACE, process.pids if match[2] == "pid" else process.below
            )
        elif match:
            task.descriptors.opens(number, NAMESPACE, match[2])
        else:
            task.descriptors.opens(number, FILE, found)

    def dup(self, task: Task, call: Call) -> None:
        """dup(2) and its forms, and fcntl(2) with F_DUPFD."""
        task.descriptors.duplicates(descriptor(argument(call, 0)), call.result.value)

    def given(self, task: Task, call: Call) -> None:
        """A descriptor of what only -y tells: it isn't the one that had the number before."""
        if not call.name.startswith("recv"):
            task.descriptors.closes(call.result.value)
        for listed in RIGHTS.findall(" ".join(call.args)):
            for number in re.sub(r"<[^<>]*>", "", listed).split(", "):
                task.descriptors.closes(descriptor(number))

    def memfd_create(self, task: Task, call: Call) -> None:
        """memfd_create(2): a file of its creator's without any place, which all may execute."""
        place = f"memfd:{lines.string(argument(call, 0)) or ''}@{call.first}"
        words = f"reg {task.ids.users[3]} {task.ids.groups[3]} 0777"
        self.paths.files.make(place, words)
        task.descriptors.opens(call.result.value, FILE, Located(place, within=NOWHERE))

    def pidfd_open(self, task: Task, call: Call) -> None:
        """pidfd_open(2)."""
        self.is_of(task, call.result.value, self.paths.tasks.find(argument(call, 0), task))

    def with_pidfd(self, task: Task, call: Call, child: Task) -> None:
        """clone(2) or clone3(2) with CLONE_PIDFD: where the log says which descriptor it is."""
        field = "pidfd" if call.name == "clone3" else "parent_tid"
        if match := re.search(rf"\b{field}=\[(\d{{1,9}})", " ".join(call.args)):
            self.is_of(task, int(match[1]), child)

    def is_of(self, task: Task, number: int | None, owner: Task | None) -> None:
        """A new descriptor is a process's."""
        task.descriptors.opens(number, PIDFD, owner.pid if owner else NOBODY)

    def unshare(self, task: Task, flags: frozenset[str]) -> None:
        """unshare(2), but for a user namespace."""
        if "CLONE_FS" in flags or "CLONE_NEWNS" in flags:
            task.where = task.where.copy()
        if "CLONE_NEWNS" in flags:
            self.new_mounts(task, "CLONE_NEWUSER" in flags)
        if "CLONE_FILES" in flags:
            task.descriptors = task.descriptors.copy()
        if "CLONE_NEWPID" in flags:
            task.process.below = Pids()

    def new_mounts(self, task: Task, of_user: bool) -> None:
        """unshare(2) or clone(2) with CLONE_NEWNS, perhaps with CLONE_NEWUSER."""
        where = task.where.copy()
        before = task.where.mounts
        other = before.space is not None and task.process.space is not before.space
        where.mounts = before.copy(slave=of_user or other)
        where.mounts.space = None if of_user else task.process.space
        task.where = where

    def enter_mounts(self, task: Task, mounts: Mounts | None, line: int) -> None:
        """setns(2) into a mount namespace, which the log may tell of."""
        known = mounts or Mounts(Located(f"@{line}:/"))
        task.where = Where(known, known.root, known.root)


def point_of(found: Located, over: dict[str, Mount]) -> str | None:
    """The place that a mount covers, where the path leads to the mount itself."""
    mount = over.get(found.point) if found.point is not None else None
    return found.point if mount is not None and mount.source == found.place else None


def own_process(found: Located, task: Task) -> Located:
    """The same by the pid of the process where the path has `self`."""
    place = re.sub(r"^/proc/(self|thread-self)(?=/|$)", f"/proc/@{task.pid}", found.place)
    return replace(found, place=place)


def bound(source: Located) -> Mount:
    """A mount of what lies there, with the flags that it has there."""
    flags = source.mount or Mount("")
    return replace(flags, source=source.place)


def with_attributes(mount: Mount, fields: dict[str, str], line: int) -> Mount:
    """The same with what mount_setattr(2) sets and clears; it leaves all else."""
    given, cleared = fields.get("attr_set", ""), fields.get("attr_clr", "")
    for name in ("nosuid", "noexec"):
        flag = f"MOUNT_ATTR_{name.upper()}"
        if flag in given or flag in cleared:
            mount = replace(mount, **{name: flag in given})
    return replace(mount, mapped=line) if "MOUNT_ATTR_IDMAP" in given else mount


def proc_of(found: Located) -> Pids | None:
    """The PID namespace that /proc was mounted for, where the path leads through one."""
    return found.mount.pids if found.mount else None
