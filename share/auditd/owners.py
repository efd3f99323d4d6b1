"""Who made a recorded call: a process that is known, or one that some other record made."""

from __future__ import annotations

from .living import Living
from .records import Event
from .tasks import Clone, Known, Process, thread_of


class Owners(Living):
    """Finds the process of a record."""

    def process_of(self, event: Event) -> Process | None:
        """The process of a record: known, or forked by a record that comes later, or by one whose
        number is of a PID namespace. None where it is first seen here."""
        process = self.known(event.pid)
        if process is not None and self.comes_again(event, process):
            self.end(process)
            process = None
        if process is not None:
            return process
        parent = self.known(event.parent)
        if parent is None or not parent.threads or self.is_late(event):
            return None
        return self.adopt(event, parent)

    def comes_again(self, event: Event, process: Process) -> bool:
        """Whether it is another process of the same number, though no record says that the first
        one ended: of another parent, where the first one was killed, or where that parent's record
        of making it comes later, as of vfork(2)."""
        return event.parent != process.parent and (
            process.killed or any(
                one.pid == event.parent for one in self.window.makers(event.pid, event.place)
            )
        )  # fmt: skip

    def is_late(self, event: Event) -> bool:
        """Whether it is the late record of a process that has ended, and not a new one."""
        if event.pid not in self.ended or self.window.makers(event.pid, event.place):
            return False
        ids, program = self.ended[event.pid]
        return event.ids == ids and event.program == program

    def adopt(self, event: Event, parent: Process) -> Process | None:
        """A child that acts before its parent's record comes, or whose number there is another."""
        later = [
            one for one in self.window.makers(event.pid, event.place)
            if one.pid == event.parent and (event.pid, one.place) not in self.done
        ]  # fmt: skip
        if later:
            return self.fork(thread_of(later[0], parent), event.pid, later[0])
        thread = next((one for one in parent.threads if one.number == event.pid), None)
        if thread is not None and len(parent.threads) > 1:
            # What clone3 made wasn't a thread.
            process = self.fork(thread, event.pid, event)
            self.end_task(thread)
            return process
        clone = clone_of(event, parent)
        if clone is None:
            # It was made before the log begins, or the record of that was lost.
            return None
        made = clone.event
        self.counts["children known by their parent's number alone"] += made.result != event.pid
        process = self.fork(parent.threads[0], event.pid, made)
        if not clone.same or parent.changed_since(made.place):
            process.known = Known()
        return process


def clone_of(event: Event, parent: Process) -> Clone | None:
    """The clone of a parent that made this child: by its number, or the first whose child is known
    by another number, as in a PID namespace."""
    clones = parent.clones
    made = next((one for one in clones if one.event.result == event.pid), None)
    made = made or next((one for one in clones if one.event.result < event.pid), None)
    if made is not None:
        clones.remove(made)
    return made
