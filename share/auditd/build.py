"""From events to a script: each call as its line, and then what the record says of the task."""

from __future__ import annotations

from dataclasses import replace
from functools import lru_cache

from .begin import first_seen, in_new_space
from .lines import Lines
from .records import Eight, Event
from .script import Kind
from .signs import is_initial, is_inside
from .spaces import CLONE_NEWUSER, Space
from .tasks import Clone, Process, Task, thread_of
from .window import MAKES

CLONE_THREAD = 0x10000
SIGKILL = 9


class Builder(Lines):
    """Writes one script of the events of a window."""

    def first(self, event: Event, process: Process, why: str) -> Task:
        """The process begins with this record: its ids are the record's."""
        root = process.space.root() if process.space else 0
        held, process.known.sets = first_seen(event, self.window, self.bounding, root)
        process.known.executed = event.executes and event.done
        process.known.groups = False
        process.clones = []
        self.start(process, [held], [event.pid], None)
        self.counts[why] += 1
        self.living[event.pid] = process
        process.program = event.program
        if event.name == "prctl" and event.done:
            # What it changed isn't in the ids.
            checks = len(self.script.checks)
            self.call(event, process.threads[0], len(self.script.body))
            del self.script.checks[checks:]
        return process.threads[0]

    def take(self, event: Event) -> None:
        """One record more."""
        if event.anew:
            self.forget()
        process = self.process_of(event)
        if process is None:
            process = Process(event.pid, event.parent, event.program, untold=True)
            process.seen = float(event.time)
            task = self.first(event, process, "processes first seen in the middle")
        elif event.place in self.again:
            process.untold = process.untold and not self.again[event.place]
            task = self.first(event, process, "processes that began anew")
        elif process.space is None and process.untold and is_inside(event, process):
            process.space = Space(event.ids[1] if event.executes else None)
            task = self.first(event, process, "processes in user namespaces that were there before")
        elif is_other_program(event, process):
            task = self.differs(event, process)
        else:
            task = self.compared(event, process)
        process.parent = event.parent
        process.program = event.program
        self.others(event, task)

    def differs(self, event: Event, process: Process) -> Task:
        """Another program without an execve: a check that never agrees."""
        task = process.threads[0]
        place = self.script.add(f"{task.name} ids")
        self.check(place, event, last_name(process.program), Kind.PROGRAM, task, place)
        return task

    def compared(self, event: Event, process: Process) -> Task:
        """The lines of a record that is compared."""
        threads = process.threads
        task = threads[0] if len(threads) == 1 else thread_of(event, process)
        begin = len(self.script.body)
        self.call(event, task, begin)
        place = self.script.add(f"{task.name} ids")
        self.check(place, event, answer_of(event.ids), Kind.IDS, task, begin)
        if event.executes and event.gained and event.done:
            self.sets_are(event, task, event.gained.after, Kind.SETS, begin)
            process.known.sets = True
        elif event.capset and event.done:
            self.sets_are(event, task, event.capset, Kind.SETS, begin)
            process.known.sets = True
        process.known.executed |= event.executes and event.done
        if event.ids != task.ids or event.name == "prctl":
            task.changed = event.place
        if process.untold and is_initial(event):
            process.untold = False
        task.ids = event.ids
        task.made = event.name, *event.args[:3]
        return task

    # What a record says of other tasks, and of namespaces.

    def others(self, event: Event, task: Task) -> None:
        """Tasks that are made, and those that end."""
        name, process = event.name, task.process
        if name in MAKES and event.done and event.result > 0:
            self.makes(event, task)
        elif name == "kill" and event.done and event.args[1] == SIGKILL:
            self.killed(event)
        elif name == "exit_group" or name == "exit" and len(process.threads) == 1:
            self.end(process)
        elif name == "exit" and process.crowd:
            process.crowd -= 1
        elif name == "exit":
            self.end_task(task)
        elif event.done and name == "unshare" and event.args[0] & CLONE_NEWUSER:
            self.enter(task, Space(task.ids[1], process.space))
        elif event.done and name == "setns" and event.args[1] & CLONE_NEWUSER:
            self.enter(task, Space())

    def enter(self, task: Task, space: Space) -> None:
        """The task makes or enters a user namespace: there it is another first task of the script,
        with all capabilities."""
        process = task.process
        process.space = space
        process.known.sets = process.known.executed = True
        self.counts["user namespaces whose maps are a guess"] += 1
        self.start(process, [in_new_space(task.ids, task.no_new_privs)], [task.number], None)

    def makes(self, event: Event, task: Task) -> None:
        """clone(2) and its kin, of which the result is the child's pid."""
        child = event.result
        if (child, event.place) in self.done:
            return
        flags = event.args[0] if event.name == "clone" else 0
        first = self.window.next_of(child, event.place)
        if flags & CLONE_THREAD or event.name == "clone3" and not may_be_child(first, event):
            self.taken_again(child, task)
            self.spawn(task, child)
            return
        before = self.living.get(child)
        if before is not None and before.parent == event.pid and before.seen >= float(event.time):
            # The child's own records came first.
            return
        if first is not None and self.is_of_host(first, event):
            task.process.clones.append(Clone(event))
            return
        if before is not None:
            self.end(before)
        self.carried.pop(child, None)
        if first is None:
            task.process.clones.append(Clone(event))
            return
        process = self.fork(task, child, event)
        if flags & CLONE_NEWUSER:
            self.enter(process.threads[0], Space(task.ids[1], process.space))

    def is_of_host(self, first: Event, made: Event) -> bool:
        """Whether the number of a child, which is below its parent's, is one of a PID namespace,
        since the process of the host that has it goes on with the parent that it had."""
        has = self.living.get(first.pid) or self.carried.get(first.pid)
        return has is not None and first.pid < made.pid != first.parent == has.parent

    def taken_again(self, number: int, task: Task) -> None:
        """A thread has a number: a process that had it has ended, though no record says so. Below
        the caller's own it may be one of a PID namespace."""
        if number <= task.process.pid:
            return
        before = self.living.get(number)
        if before is not None:
            self.end(before)
        self.carried.pop(number, None)

    def killed(self, event: Event) -> None:
        """SIGKILL was sent to these: their numbers may be of others from now on."""
        for pid in event.objects:
            process = self.living.get(pid)
            kept = self.carried.get(pid)
            if process is not None:
                process.killed = True
            elif kept is not None:
                self.carried[pid] = replace(kept, killed=True)


def may_be_child(first: Event | None, made: Event) -> bool:
    """Whether the first call under a number may be of a child that clone3(2) made, rather than of a
    later process that has the number of a thread again: by its parent, or by its program where that
    parent has ended."""
    if first is None:
        return False
    return first.parent == made.pid or first.executes or first.program == made.program


@lru_cache(maxsize=4096)
def answer_of(ids: Eight) -> str:
    """The answer of `ids` where a task has these."""
    return "ok {} {} {} {} {} {} {} {}".format(*ids)


def is_other_program(event: Event, process: Process) -> bool:
    """Whether the task executes another program than before, with no execve. The path itself is
    another one after chroot(2): it is told from the task's root."""
    if event.program == process.program or event.executes or not process.program:
        return False
    return last_name(event.program) != last_name(process.program)


def last_name(path: str) -> str:
    """The last name of a program's path."""
    return path.removesuffix(" (deleted)").rpartition("/")[2]
