"""What becomes of the calls that the kernel refused: lines that ask why, or a list of them."""

from __future__ import annotations

from collections.abc import Iterable

from ..files.listing import Files
from ..files.refused_paths import RefusedPaths
from ..follow import ptrace
from ..follow.outside import Outside
from ..follow.tasks import Task
from ..log.reader import Call, Item
from .calls import ID_CALLS, Said, Unheld
from .other_tasks import OtherTasks
from .refused import Refused, is_refused

UNREAD = "its arguments, or the ids that they stand for, aren't known from the log"


class RefusedCalls(OtherTasks):
    """Keeps the calls that were refused, where the script has no line of them."""

    def __init__(
        self, files: Files, asking: bool, known_folder: bool, outside: Outside | None
    ) -> None:
        super().__init__(files, asking, known_folder, outside)
        self.refused: list[Refused] = []
        self._refused_paths = RefusedPaths(self.paths, self.script)

    def looks_through(self, task: Task, call: Call) -> bool:
        """Whether a path was refused since it leads through a link of another process's folder of
        /proc, which asks to look into that one (proc(5)): then the script says so."""
        if call.result.error != "EACCES" or call.context or self.stopped is not None:
            return False
        try:
            target = ptrace.through(self.paths, task, call)
        except (Unheld, IndexError):
            return False
        if not target:
            return False
        other = self.paths.owner(task, target) or self.outsider(task, target, call)
        if other is None or other.process is task.process or ptrace.may_look(task, other):
            return False
        facts = ptrace.facts(task, other.process)
        self.say(task, call, Said(f"ptrace fs {other.name}", "eperm"), facts)
        return True

    def ask_path(self, task: Task, call: Call) -> None:
        """A directory of its path may have refused a call: a line can ask that."""
        if call.result.error == "EACCES" and self.files.listed is None and self.stopped is None:
            self.script.add(call.first, *self._refused_paths.lines(task, call))

    def note_refusal(self, task: Task, call: Call, place: int, why: str = "") -> None:
        """Keeps a call that was refused, where the script has no line of it."""
        if not is_refused(call) or call.context:
            return
        if self.stopped is None and not why:
            # A call that libc has all threads make has a line elsewhere.
            said = call.name in ID_CALLS or any(it.call is call for it in self.script.body[place:])
            if said:
                return
        if self.stopped is not None:
            why = "it stands behind the end of the script"
        process = task.process
        inside = process.space.parent is not None
        self.refused.append(Refused(call, task.name, place, why, process.filtered, inside))

    def note_others(self, items: Iterable[Item]) -> None:
        """Keeps the refused calls that are nowhere: id calls that no line could say."""
        told = {(it.call.pid, it.call.first) for it in self.script.body if it.call}
        told |= {(it.call.pid, it.call.first) for it in self.refused} | set(self.joint)
        for item in items:
            if isinstance(item, Call) and is_refused(item) and not item.context:
                if (item.pid, item.first) not in told:
                    self.refused.append(Refused(item, why=UNREAD))
