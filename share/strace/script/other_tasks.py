"""The lines of calls that are about other tasks: signals, and looks into them."""

from __future__ import annotations

from dataclasses import replace

from ..files.listing import Files
from ..follow import ptrace
from ..follow.namespace_entries import Entries
from ..follow.outside import PROC, Outside, Outsider
from ..follow.path_calls import argument
from ..follow.paths import Paths
from ..follow.tasks import Task
from ..log import lines
from ..log.reader import Call
from .calls import Said, answer
from .credential_lines import CredentialLines
from .refused import is_refused
from .script import TASKS, Facts, Stop
from .start import BadStart, start_of_all, status_of


class OtherTasks(CredentialLines):
    """Writes the lines of such calls; also where the target isn't of the log, if it is known."""

    def __init__(
        self, files: Files, asking: bool, known_folder: bool, outside: Outside | None
    ) -> None:
        super().__init__(asking)
        self.files = files
        self.notes: list[str] = []
        self.stopped: Stop | None = None
        self.paths = Paths(files, known_folder, self.tasks)
        self.entries = Entries(self.tasks)
        self.most = 1
        self._outside = outside
        self.paths.runs_beside = self.runs_beside
        # Processes that aren't of the log, by their pids: their tasks, or None where nothing is
        # known of one.
        self._outsiders: dict[int, tuple[Task, Outsider] | None] = {}

    def room(self, line: int, more: int) -> None:
        """Tells where there are more tasks than a script holds; first tasks are there at once."""
        self.most = max(self.most, len(self.tasks.by_pid) + more)
        if self.most + len(self.entries.seats) > TASKS:
            raise Stop(line, f"a script holds {TASKS} tasks that live")

    def kill(self, task: Task, call: Call) -> None:
        """kill(2), tkill(2), tgkill(2), where the target is a task of the log."""
        target = argument(call, 1 if call.name == "tgkill" else 0)
        other = self.tasks.find(target, task)
        if other is None and call.result.error == "EPERM":
            other = self.outsider(task, target, call)
        said = answer(call.result)
        if other is None or said not in ("ok", "eperm"):
            self.not_converted.call(call)
        else:
            sender, process = task.process, other.process
            facts = Facts(
                apart=sender.session != process.session,
                outside=not process.space.is_within(sender.space),
                maker=process.space.is_made_by(task.ids.users[1], sender.space),
            )
            facts = self.with_race(facts, task, process, call)
            self.say(task, call, Said(f"signal {other.name}", said), facts)

    def looks(self, task: Task, call: Call) -> bool:
        """Whether the call asks to look into another task of the log: then the script says it."""
        mode, targets, answered = ptrace.look(call) or ("", [], "")
        if mode == "fs":
            tasks = [self.paths.owner(task, target) for target in targets]
        else:
            tasks = [self.tasks.find(target, task) for target in targets]
        if tasks == [None] and is_refused(call):
            tasks = [self.outsider(task, targets[0], call)]
        others = [one for one in tasks if one is None or one.process is not task.process]
        if len(others) != 1 or others[0] is None:
            return False
        said = Said(f"ptrace {mode} {others[0].name}", answered)
        facts = ptrace.facts(task, others[0].process)
        if argument(call, 0) in ptrace.ATTACHES:
            facts = replace(facts, traced=self.tracer_of(others[0]))
        self.say(task, call, said, self.with_race(facts, task, others[0].process, call))
        return True

    def tracer_of(self, task: Task) -> str:
        """Who traces a task: each of the log's strace does."""
        found = self._outsiders.get(task.pid)
        if found is None or found[0] is not task:
            return f"strace traces {task.name} already"
        return f"pid {found[1].tracer} traces {task.name} already" if found[1].tracer else ""

    def outsider(self, asker: Task, text: str, call: Call) -> Task | None:
        """The task of a process that isn't of the log, where what it is is known besides."""
        pid = lines.number(text)
        if self._outside is None or pid is None or pid <= 0 or not asker.process.pids.is_log:
            return None
        if self.stopped is None and pid not in self._outsiders:
            self._outsiders[pid] = self.takes_in(pid, call)
        found = self._outsiders.get(pid)
        return found[0] if found else None

    def runs_beside(self, pid: int) -> bool:
        """Whether /proc has a process that isn't of the log, and that is the one of its time."""
        outside = self._outside
        of_log = pid in self.tasks.pids and pid not in self._outsiders
        if outside is None or outside.folder != PROC or of_log:
            return False
        return outside.find(pid) is not None

    def takes_in(self, pid: int, call: Call) -> tuple[Task, Outsider] | None:
        """A process more for the script, that isn't of the log."""
        known = self._outside.find(pid) if self._outside else None
        if known is None or pid in self.tasks.pids:
            return None
        try:
            status = status_of(known.status)
        except BadStart:
            return None
        self.room(call.first, 1)
        task = self.tasks.outsider(pid, status.ids())
        task.process.dumpable = known.dumpable
        start = start_of_all([status], task.number)
        start.call(f"dumpable {int(known.dumpable)}")
        self.script.begin_also(f"init {task.name} p{task.process.number} 0 0 n0", start.lines)
        self.notes.append(
            f"pid {pid} isn't of the log: {task.name} is what its status says as this is read"
        )
        return task, known
