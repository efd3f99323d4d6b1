"""Tasks and processes by their pids, with the numbers that a script gives them."""

from __future__ import annotations

from dataclasses import dataclass, field

from ..log import lines
from .descriptors import Descriptors
from .ids import Ids
from .pids import Pids, foreign
from .places import Located, Where
from .user_namespaces import Space


@dataclass
class Process:
    """A process: its threads that live, and what is known of it besides credentials."""

    number: int
    threads: list[Task] = field(default_factory=list)
    program: Located | None = None
    # Its session, and the line of the log at which it installed a seccomp filter.
    session: int = 0
    filtered: int = 0
    # Its user namespace, and the one where it executed its program.
    space: Space = field(default_factory=Space)
    executed: Space = field(default_factory=Space)
    # Its PID namespace, and that of its children.
    pids: Pids = field(default_factory=Pids)
    below: Pids = field(default_factory=Pids)
    # Whether others may look into it, as far as its calls tell (prctl(2), PR_SET_DUMPABLE).
    dumpable: bool = True
    # The threads that still make the call that is one line of all.
    joining: set[int] = field(default_factory=set)


@dataclass
class Task:
    """A thread of a process."""

    number: int
    pid: int
    process: Process
    where: Where = field(default_factory=Where)
    descriptors: Descriptors = field(default_factory=Descriptors)
    # Its ids as the log's calls leave them. Those by which files are looked at are a thread's own.
    ids: Ids = field(default_factory=Ids)

    @property
    def name(self) -> str:
        """Its name in the script."""
        return f"t{self.number}"


class Tasks:
    """All tasks that live."""

    def __init__(self) -> None:
        self.by_pid: dict[int, Task] = {}
        self.pids: set[int] = set()
        self.told: list[str] = []
        self._tasks = 0
        self._processes = 0
        self._begin = Process(0)
        self._outer = self._begin.space

    def first(self, pid: int) -> Task:
        """The first task, with its process."""
        self._processes += 1
        own = Pids(is_log=True)
        self._begin = Process(self._processes, pids=own, below=own)
        self._outer = self._begin.executed = self._begin.space
        return self._add(Task(0, pid, self._begin))

    def fork(self, pid: int, parent: Task, flags: frozenset[str] = frozenset()) -> Task:
        """A task of a process of its own."""
        self._processes += 1
        process = Process(self._processes, program=parent.process.program)
        process.space, process.executed = parent.process.space, parent.process.executed
        process.session, process.filtered = parent.process.session, parent.process.filtered
        process.dumpable = parent.process.dumpable
        process.pids = Pids() if "CLONE_NEWPID" in flags else parent.process.below
        process.below = process.pids
        process.pids.begins(pid)
        return self._add(self._child(pid, parent, process, flags))

    def descend(self, task: Task, flags: frozenset[str], inner: int | None) -> None:
        """An ancestor of the task made the next one: in which PID namespace, and with which pid."""
        process = task.process
        process.pids = Pids() if "CLONE_NEWPID" in flags else process.below
        process.below = process.pids
        process.pids.begins(task.pid)
        if inner is not None:
            self.tells(process, inner, task.pid)

    def tells(self, process: Process, number: int, pid: int) -> None:
        """A call of this process tells which number a task has in its PID namespace."""
        if process.pids.is_log:
            # Then it isn't strace's own, and who is in it besides isn't known.
            process.pids = process.below = foreign()
        process.pids.has(number, pid)

    def outsider(self, pid: int, ids: Ids) -> Task:
        """The first task of a process that isn't of the log."""
        self._processes += 1
        # It is known only where it is in the user namespace where the log begins.
        process = Process(self._processes, space=self._outer, executed=self._outer)
        process.session = pid
        return self._add(Task(0, pid, process, ids=ids))

    def spawn(self, pid: int, creator: Task, flags: frozenset[str] = frozenset()) -> Task:
        """A thread more of a process."""
        return self._add(self._child(pid, creator, creator.process, flags))

    def _child(self, pid: int, parent: Task, process: Process, flags: frozenset[str]) -> Task:
        """A task that has what its parent had, or shares it (clone(2))."""
        where = parent.where if "CLONE_FS" in flags else parent.where.copy()
        shares = "CLONE_FILES" in flags
        descriptors = parent.descriptors if shares else parent.descriptors.copy()
        return Task(0, pid, process, where, descriptors, parent.ids.copy())

    def _add(self, task: Task) -> Task:
        """A task more, with the next number."""
        self._tasks += 1
        task.number = self._tasks
        task.process.threads.append(task)
        self.by_pid[task.pid] = task
        self.pids.add(task.pid)
        self.told.append(f"{task.name} p{task.process.number} {task.pid}")
        return task

    def again(self, task: Task) -> None:
        """The only task of a process goes on under other names: it is in another user namespace."""
        self._tasks += 1
        self._processes += 1
        task.number, task.process.number = self._tasks, self._processes
        self.told.append(f"{task.name} p{task.process.number} {task.pid}")

    def find(self, text: str, asker: Task) -> Task | None:
        """The task that another names: by a pid of its PID namespace, or by `@` and the log's."""
        told = text.startswith("@") or lines.TRANSLATED.search(text) is not None
        number = lines.pid(text.removeprefix("@"))
        if number is None:
            return None
        return self.by_pid.get(number if told else asker.process.pids.of(number))

    def in_proc(self, text: str, pids: Pids | None) -> Task | None:
        """The task that a folder of /proc is of: by its number in the PID namespace that /proc was
        mounted for, which else is the one where the log begins; or by `@` and the log's."""
        number = int(text.removeprefix("@"))
        known = pids or self._begin.pids
        return self.by_pid.get(number if text.startswith("@") else known.of(number))

    def lives(self, task: Task) -> bool:
        """Whether the task hasn't ended."""
        return task in task.process.threads

    def end(self, task: Task) -> None:
        """The task is gone."""
        task.process.threads.remove(task)
        if self.by_pid.get(task.pid) is task:
            del self.by_pid[task.pid]

    def rename(self, old: int, pid: int) -> None:
        """The thread has another pid now: that of its process, whose first thread is gone."""
        task = self.by_pid.pop(old, None)
        if task:
            task.pid = pid
            self.by_pid[pid] = task
            self.told.append(f"t{task.number} p{task.process.number} {pid}")
