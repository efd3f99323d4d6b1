"""The processes that live in a script: how they begin and end, and what goes on in the next one."""

from __future__ import annotations

from collections import Counter
from dataclasses import dataclass, field

from .begin import lead
from .records import Event
from .script import USUAL, Limits, Script
from .tasks import Held, Kept, Process, Task
from .window import Window

# So many threads of a process are followed.
MOST_THREADS = 16


@dataclass
class Carried:
    """What goes from one script to the next: the processes that live, and what was used up."""

    processes: dict[int, Kept] = field(default_factory=dict)
    # Clones whose child has begun already: its pid, and the place of the clone.
    done: set[tuple[int, int]] = field(default_factory=set)
    # Processes that have ended, with their last ids and program: a late record may come still.
    ended: dict[int, tuple[tuple[int, ...], str]] = field(default_factory=dict)


class Living:
    """The processes of a script that is written of the events of a window."""

    def __init__(self, window: Window, carried: Carried, again: dict[int, bool],
                 bounding: int, limits: Limits = USUAL) -> None:  # fmt: skip
        self.window, self.bounding = window, bounding
        # The places at which a process begins anew, since it differs; and whether by ids, so that
        # no later call of it is taken for a sign of a user namespace.
        self.again = again
        self.script = Script(limits)
        self.counts: Counter[str] = Counter()
        self.living: dict[int, Process] = {}
        self.carried = dict(carried.processes)
        self.done = set(carried.done)
        self.ended = dict(carried.ended)
        self._number = 0

    def new_task(self, process: Process, ids: tuple[int, ...], number: int = 0) -> Task:
        """A task with the next number."""
        self._number += 1
        one, two, three, four, five, six, seven, eight = ids
        return Task(f"t{self._number}", process, (one, two, three, four, five, six, seven, eight),
                    number)  # fmt: skip

    # Beginnings and ends.

    def start(self, process: Process, threads: list[Held], numbers: list[int],
              dumpable: bool | None) -> None:  # fmt: skip
        """The threads of a process as first tasks, and the lines that lead them there."""
        for task in process.threads:
            self.end_task(task)
        process.threads = [
            self.new_task(process, held.ids, number)
            for held, number in zip(threads, numbers, strict=True)
        ]
        name = process.threads[0].name[1:]
        space = process.space
        for task in process.threads:
            self.script.begins(task.name, f"p{name}", space)
        several, root = len(threads) > 1, space.root() if space else 0
        for task, held in zip(process.threads, threads, strict=True):
            last = task is process.threads[-1]
            task.no_new_privs = held.no_new_privs
            for line in lead(task.name, held, several, dumpable if last else None, root):
                self.script.add(line)

    def go_on(self, pid: int, kept: Kept) -> Process:
        """A process of an earlier script goes on in this one."""
        process = Process(pid, kept.parent, kept.program, kept.known.copy(), space=kept.space,
                          untold=kept.untold, crowd=kept.crowd, killed=kept.killed,
                          clones=list(kept.clones))  # fmt: skip
        self.living[pid] = process
        self.start(process, list(kept.threads), list(kept.numbers), kept.dumpable)
        return process

    def end_task(self, task: Task) -> None:
        """A thread ends."""
        task.process.threads = [one for one in task.process.threads if one is not task]
        self.script.add(f"{task.name} exit")
        self.script.living -= 1

    def end(self, process: Process) -> None:
        """A process ends."""
        if process.threads:
            self.ended[process.pid] = process.threads[0].ids, process.program
        for task in list(process.threads):
            self.end_task(task)
        if self.living.get(process.pid) is process:
            del self.living[process.pid]

    def forget(self) -> None:
        """Auditing begins anew: nothing is known of what was."""
        self.counts["times that auditing began anew"] += 1
        for process in list(self.living.values()):
            self.end(process)
        self.living, self.carried, self.ended = {}, {}, {}

    def known(self, pid: int) -> Process | None:
        """A process that lives in this script, or goes on in it."""
        process = self.living.get(pid)
        if process is None:
            kept = self.carried.pop(pid, None)
            process = self.go_on(pid, kept) if kept else None
        return process

    def fork(self, parent: Task, pid: int, event: Event) -> Process:
        """A process is made."""
        self.done.add((pid, event.place))
        self.ended.pop(pid, None)
        of = parent.process
        process = Process(pid, of.pid, of.program, of.known.copy(), space=of.space, forked_by=of,
                          born=len(self.script.body),
                          untold=of.untold or event.name == "clone3")  # fmt: skip
        task = self.new_task(process, parent.ids, pid)
        task.no_new_privs = parent.no_new_privs
        process.threads = [task]
        self.script.add(f"{parent.name} fork {task.name} p{task.name[1:]}")
        self.script.more()
        self.living[pid] = process
        return process

    def spawn(self, parent: Task, number: int) -> None:
        """A thread is made. Of a process with many not each is followed: then which of them made a
        call is in doubt."""
        if len(parent.process.threads) >= MOST_THREADS:
            parent.process.crowd += 1
            parent.process.known.executed = False
            self.counts["threads that aren't followed one by one"] += 1
            return
        task = self.new_task(parent.process, parent.ids, number)
        task.no_new_privs = parent.no_new_privs
        parent.process.threads.append(task)
        self.script.add(f"{parent.name} spawn {task.name}")
        self.script.more()
