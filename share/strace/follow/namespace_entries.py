"""User namespaces that tasks of a log make and enter, as the lines of a script have them.

A script's first tasks are each in a namespace, and none goes into another one. So a task that
enters a namespace ends in the script, and goes on as a first task of the namespace, which the
script's head leads to the ids that it had. In a namespace that it has just entered a task has all
capabilities.
"""

from __future__ import annotations

import re
from dataclasses import dataclass

from ..log import lines
from ..log.reader import Call
from ..script.calls import Unheld
from ..script.script import Script
from ..script.start import NO_SETUID_FIXUP
from .descriptors import NAMESPACE, PIDFD
from .ids import Ids
from .path_calls import argument, clone_flags
from .pids import Pids, foreign
from .places import Located, Mounts
from .tasks import Task, Tasks
from .user_namespaces import GREATEST, SPACES, Space

# The kinds of other namespaces, as strace -y names them.
OTHER_KINDS = ("mnt", "pid", "net", "ipc", "uts", "cgroup", "time")

UNKNOWN = "which user namespace it enters isn't known from the log"
UNKNOWN_KIND = (
    "of which kind its namespace is isn't known from the log, and it may be a user namespace: "
    "strace writes it with -y"
)


@dataclass(frozen=True)
class Seat:
    """A first task of a namespace, with the ids that it begins with."""

    task: str
    process: int
    space: Space
    ids: Ids


def lead(seat: Seat, root: int) -> tuple[str, list[str]]:
    """The line that creates the first task of this root, and those that lead it to its ids."""
    ids = seat.ids
    init = f"init {seat.task} p{seat.process} {root} {ids.groups[1]} n{seat.space.number}"
    is_root = ids.users == [root] * 4 and ids.groups == [ids.groups[1]] * 4
    calls = [] if is_root else [f"securebits {NO_SETUID_FIXUP}"]
    if ids.others:
        calls.append("setgroups " + " ".join(map(str, ids.others)))
    if not is_root:
        for name, (real, effective, saved, filesystem) in (("g", ids.groups), ("u", ids.users)):
            calls.append(f"setres{name}id {real} {effective} {saved}")
            if filesystem != effective:
                calls.append(f"setfs{name}id {filesystem}")
        # What leads to the ids isn't the log's: the task isn't less dumpable by it.
        calls += ["securebits 0", "dumpable 1"]
    if ids.no_new_privs:
        calls.append("nonewprivs 1")
    return init, [f"{seat.task} {call}" for call in calls]


class Entries:
    """The namespaces that the log makes, and the tasks that enter them."""

    def __init__(self, tasks: Tasks) -> None:
        self._tasks = tasks
        self.spaces: list[Space] = []
        self.seats: list[Seat] = []

    def made(self, task: Task) -> Space:
        """A namespace more, of a task's making."""
        if len(self.spaces) + 1 == SPACES:
            raise Unheld(f"a script declares {SPACES - 1} user namespaces")
        process = task.process
        space = Space(len(self.spaces) + 1, process.space, owner=task.ids.users[1])
        self.spaces.append(space)
        return self.spaces[-1]

    def sits(self, task: Task, space: Space) -> None:
        """The task is a first task of the namespace now."""
        task.process.space = space
        self.seats.append(Seat(task.name, task.process.number, space, task.ids.copy()))
        task.ids = task.ids.in_new_space()

    def enter(self, task: Task, space: Space) -> str:
        """A task enters a namespace; its name before, which ends in the script."""
        if len(task.process.threads) > 1:
            raise Unheld("a user namespace is entered by one of several threads")
        name = task.name
        self._tasks.again(task)
        self.sits(task, space)
        return name

    def entered(self, task: Task, call: Call) -> Space | None:
        """The user namespace that setns(2) enters, if it enters one."""
        text = argument(call, 0)
        flags = clone_flags(argument(call, 1))
        found = task.descriptors.get(text, NAMESPACE)
        if isinstance(found, Space):
            return found
        is_process, owner = self.owner(task, text)
        if is_process:
            if "CLONE_NEWUSER" not in flags:
                return None
            if owner is None:
                raise Unheld(UNKNOWN)
            return owner.process.space
        # What -y writes behind the descriptor tells which kind of namespace it is of.
        kind = text.partition("<")[2].partition(":")[0]
        other = found not in (None, "user") or kind in OTHER_KINDS
        if "CLONE_NEWUSER" in flags or "user" in (kind, found):
            raise Unheld(UNKNOWN)
        if not (other or only_others(flags)):
            raise Unheld(UNKNOWN_KIND)
        return None

    def owner(self, task: Task, text: str) -> tuple[bool, Task | None]:
        """Whether a descriptor is a pidfd, and of whom, by what the log or -yy tells."""
        pid = task.descriptors.get(text, PIDFD)
        if isinstance(pid, int):
            return True, self._tasks.by_pid.get(pid)
        shown = re.fullmatch(r"\d+<pid:(\d{1,9})>", text)
        return shown is not None, self._tasks.find(f"@{shown[1]}", task) if shown else None

    def pids(self, task: Task, call: Call) -> Pids | None:
        """The PID namespace that setns(2) enters for children, if it enters one."""
        text = argument(call, 0)
        found = task.descriptors.get(text, NAMESPACE)
        if isinstance(found, Pids):
            return found
        _, owner = self.owner(task, text)
        if "CLONE_NEWPID" in clone_flags(argument(call, 1)):
            return owner.process.pids if owner else foreign()
        return foreign() if found == "pid" or "<pid:[" in text else None

    def mounts(self, task: Task, call: Call) -> tuple[bool, Mounts | None]:
        """Whether setns(2) enters a mount namespace, and which one, where the log tells it."""
        text = argument(call, 0)
        found = task.descriptors.get(text, NAMESPACE)
        _, owner = self.owner(task, text)
        enters = "CLONE_NEWNS" in clone_flags(argument(call, 1)) or isinstance(found, Mounts)
        enters = enters or "<mnt:" in text
        if isinstance(found, Mounts):
            return enters, found
        return enters, owner.where.mounts if owner else None

    def map_written(self, task: Task, call: Call, place: Located) -> None:
        """write(2) into uid_map, gid_map or setgroups of a process."""
        _, _, pid, name = (place.place.split("/") + ["", "", ""])[:4]
        pids = place.mount.pids if place.mount else None
        owner = self._tasks.in_proc(pid, pids) if re.fullmatch(r"@?\d{1,9}", pid) else None
        if owner is None or owner.process.space.parent is None:
            return
        text = lines.string(argument(call, 1))
        if text is None:
            raise Unheld(f"what is written into {name} is shortened: strace writes it with -s 4096")
        owner.process.space.write(name, text)

    def head(self, script: Script) -> tuple[list[str], list[str], list[str]]:
        """The lines that declare the namespaces, create the first tasks, and lead these."""
        if not self.spaces:
            return [], [], []
        # Where nobody is root a user is named whom nothing else names.
        used = {word for line in script.body for word in line.text.split()}
        used |= {str(value) for seat in self.seats for value in seat.ids.users}
        nobody = next(value for value in range(GREATEST, 0, -1) if str(value) not in used)
        roots = {space.number: space.root() for space in self.spaces}
        known = {number: nobody if root is None else root for number, root in roots.items()}
        declared = [
            f"ns {space.number} {known[space.number]} {space.parent.number if space.parent else 0}"
            for space in self.spaces
        ]
        led = [lead(seat, known[seat.space.number]) for seat in self.seats]
        return declared, [init for init, _ in led], [line for _, calls in led for line in calls]


def only_others(flags: frozenset[str]) -> bool:
    """Whether setns(2) is told to enter namespaces of other kinds alone."""
    return "0" not in flags and "CLONE_NEWUSER" not in flags


def is_map(place: Located) -> bool:
    """Whether it is a file of /proc that maps ids."""
    parts = place.place.split("/")
    names = ("uid_map", "gid_map", "setgroups")
    return len(parts) == 4 and parts[1] == "proc" and parts[3] in names
