"""A script from the calls of a log."""

from __future__ import annotations

from collections.abc import Callable, Iterable
from dataclasses import replace

from ..files import changes, file_calls, opens
from ..files.changes import Changes, Known
from ..files.listing import Files, Missing
from ..follow import path_calls, ptrace
from ..follow.after_script_end import look_on
from ..follow.all_threads import AllThreads
from ..follow.descriptors import FILE, told
from ..follow.namespace_entries import is_map
from ..follow.outside import Outside
from ..follow.path_calls import PathCalls, argument, clone_flags
from ..follow.places import BEGIN, Located, Mounts, Where
from ..follow.tasks import Process, Task
from ..log.lines import fields
from ..log.reader import CREATIONS, EXECUTIONS, Call, Gone, Item, Renamed
from .calls import ADDRESSES, ID_CALLS, OWN_CALLS, SET_CALLS, Said, Unheld, answer
from .refused import Refused, is_refused
from .refused_calls import RefusedCalls
from .script import Line, Stop
from .start import Start

ENDS = ("exit", "exit_group")

# What a thread of a process shares with the others (clone(2)).
THREAD = frozenset({"CLONE_FS", "CLONE_FILES"})

# The calls of which a script has lines.
SAYING = frozenset(
    [*ID_CALLS, *OWN_CALLS, *SET_CALLS, *EXECUTIONS, *CREATIONS, *ENDS, "kill", *ptrace.CALLS]
)

# What each follows without saying anything in the script.
SILENT = (
    "chdir", "fchdir", "memfd_create", "pidfd_open", "dup", "dup2", "dup3", "fcntl", "chroot",
    *path_calls.OPENS,
)  # fmt: skip


class Converter(RefusedCalls):
    """Makes the script call by call."""

    def __init__(
        self,
        files: Files,
        asking: bool = False,
        folder: str | None = None,
        root: str = "/",
        known: Known | None = None,
        outside: Outside | None = None,
    ) -> None:
        super().__init__(files, asking, folder is not None, outside)
        self.strangers: set[int] = set()
        self.changes = Changes(self.paths, known or Known())
        # How many lines the log has, and how many calls are left where the script ends before it.
        self.count = self.left = 0
        self._folder = folder
        self._root = root.rstrip("/") or "/"
        self._path_calls = PathCalls(self.paths, lambda: self.tasks.by_pid.values())
        self._follow = self._path_calls.handlers()
        self.file_lines = opens.FileLines(
            self.paths, self.script, self.changes, self.not_converted
        )
        self._handlers: dict[str, Callable[[Task, Call], None]] = {}
        self._take_handlers()

    def _take_handlers(self) -> None:
        """Which call is read by what."""
        handlers = (
            (ID_CALLS, self.id_call),
            (OWN_CALLS, self.own_call),
            (SET_CALLS, self.set_call),
            (EXECUTIONS, self.execute),
            (CREATIONS, self.create),
            (ENDS, self.end),
            (("kill", "tkill", "tgkill"), self.kill),
            ((*ptrace.CALLS, *ptrace.LINKS), self.trace),
            (self._follow, self.move),
            (changes.CALLS, self.file_lines.change),
            (("unshare", "setns"), self.change_namespace),
            (opens.ACCESSES, self.file_lines.access),
            ((*file_calls.STAT, *file_calls.GET), self.file_lines.tell),
            (("write",), self.write),
            (("setsid", "seccomp"), self.mark),
        )
        for names, handler in handlers:
            self._handlers |= dict.fromkeys(names, handler)

    def wanted(self) -> frozenset[str]:
        """The calls that a log is read for."""
        return frozenset(self._handlers)

    def run(self, items: Iterable[Item], first: int, start: Start) -> None:
        """Makes the script of all these, as far as one can."""
        items = list(items)
        tasks = [self.tasks.first(first)]
        tasks += [self.tasks.spawn(pid, tasks[0], THREAD) for pid in start.threads[1:]]
        for one, ids in zip(tasks, start.ids, strict=True):
            one.ids = ids.copy()
        where = tasks[0].where
        where.root = Located(self._root)
        where.mounts = Mounts(where.root, outside=self._root.rstrip("/"))
        where.mounts.belongs(tasks[0].process.space)
        where.folder = self.begins(items, tasks[0])
        begins = next((item for item in items if isinstance(item, Call)), None)
        traced = begins is not None and begins.name == "execve" and begins.pid == first
        self.script.begin_with(start.inits(), start.lines if traced else start.in_the_middle())
        self.script.known = self.files
        self.script.tracer = start.traces if traced else None
        if not traced and self.files.listed is None and self._root == "/":
            self.notes.append(
                "the log doesn't begin with an execve: the root of its first process is taken for "
                "that of this machine (--root names another, as that of a container)"
            )
        self.together = AllThreads(items, SAYING)
        try:
            for self.at, item in enumerate(items):
                self.due_lines()
                self.item(item)
        except Stop as stop:
            self.stopped = stop
            rest = items[self.at :]
            self.left = sum(isinstance(item, Call) and item.name in SAYING for item in rest)
        self.script.head(*self.entries.head(self.script))
        if self.stopped is not None:
            look_on(self, items)
        self.note_others(items)

    def is_part(self) -> bool:
        """Whether the script isn't the whole log: it ends before, or lacks tasks."""
        return bool(self.stopped or self.strangers)

    def what_is_left(self) -> list[str]:
        """What of the log the script doesn't have."""
        found = []
        if self.stopped:
            rest = f"{self.count - self.stopped.line + 1} of {self.count} lines of the log, with "
            rest += f"{self.left} calls that a script has lines for"
            found += [str(self.stopped), f"left: {rest}"]
        if self.strangers:
            found.append(f"left: the calls of {len(self.strangers)} tasks that no call made")
        return found

    def begins(self, items: list[Item], task: Task) -> Located:
        """The folder where the log begins: the one that is named, or that -y tells first."""
        if self._folder is not None:
            return Located("" if self._folder == "." else self._folder.rstrip("/") or "/")
        for item in items:
            if not isinstance(item, Call):
                continue
            if item.name in ("chdir", "fchdir", "chroot", "pivot_root", *CREATIONS):
                break
            shown = told(argument(item, 0)) if item.pid == task.pid else None
            if shown and item.args[0].startswith("AT_FDCWD"):
                self.paths.known = True
                return task.where.within(shown[0])
        return BEGIN

    def item(self, item: Item) -> None:
        """What the log tells next."""
        if isinstance(item, Renamed):
            self.tasks.rename(item.old, item.pid)
            return
        task = self.tasks.by_pid.get(item.pid)
        self.paths.line = item.last
        if isinstance(item, Gone):
            if task:
                self.gone([task], item.last)
            return
        if task is None and item.context:
            # Another process than those that are converted: it may change a file of theirs.
            nobody = Task(0, item.pid, Process(0), Where(folder=None))
            self.changes.elsewhere(nobody, item)
            return
        if task is None:
            self.stranger(item)
            return
        place = len(self.script.body)
        try:
            if not (is_refused(item) and self.looks_through(task, item)):
                self._handlers.get(item.name, self.other)(task, item)
        except (Unheld, Missing, Stop) as reason:
            self.note_refusal(task, item, place, str(reason))
            if isinstance(reason, Stop):
                raise
            raise Stop(item.first, f"{item.name}: {reason}") from None
        if is_refused(item) and len(self.script.body) == place:
            self.ask_path(task, item)
        self.note_refusal(task, item, place)

    def other(self, task: Task, call: Call) -> None:
        """A call that no line says: it is here since the kernel refused it."""
        self.not_converted.call(call)

    def stranger(self, call: Call) -> None:
        """A call of a task that no call of the log made, or that is on its way out."""
        self.not_converted.call(call)
        if is_refused(call):
            self.refused.append(Refused(call, why="no call of the log made its task"))
        if call.pid not in self.tasks.pids and call.pid not in self.strangers:
            self.strangers.add(call.pid)
            self.notes.append(
                f"line {call.first}: no call of this log made pid {call.pid}, so its calls are "
                "passed over: was it a thread of the first process, --start names a folder with "
                "the status of each; a process of its own is taken by --task "
                "(docs/A-REAL-PROCESS.md)"
            )

    def create(self, task: Task, call: Call) -> None:
        """fork(2), vfork(2) or clone(2)."""
        made = call.result.value
        if call.result.error or made is None or made <= 0:
            self.not_converted.call(call)
            return
        text = next((arg[6:] for arg in call.args if arg.startswith("flags=")), "")
        if call.name == "clone3":
            if not argument(call, 0).startswith("{"):
                raise Unheld(ADDRESSES)
            text = fields(call.args[0]).get("flags", "")
        flags = clone_flags(text)
        if call.context:
            self.tasks.descend(task, flags, call.inner)
            return
        if old := self.tasks.by_pid.get(made):
            self.gone([old], call.first)
        self.room(call.first, 1)
        if "CLONE_THREAD" in flags:
            child = self.tasks.spawn(made, task, flags)
            self.say(task, call, Said(f"spawn {child.name}", "ok"))
        else:
            self.fork(task, call, made, flags)

    def fork(self, task: Task, call: Call, made: int, flags: frozenset[str]) -> None:
        """A new process, which may be in a user namespace of its own."""
        if call.inner is not None:
            self.tasks.tells(task.process, call.inner, made)
        child = self.tasks.fork(made, task, flags)
        if "CLONE_PIDFD" in flags:
            self._path_calls.with_pidfd(task, call, child)
        if "CLONE_NEWNS" in flags:
            self._path_calls.new_mounts(child, "CLONE_NEWUSER" in flags)
        if "CLONE_NEWUSER" in flags:
            self.entries.sits(child, self.entries.made(task))
            child.where.mounts.belongs(child.process.space)
            self.script.goes_on_as(task.name, child.name)
            self.stays_undumpable(child, call)
            self.room(call.first, 0)
        else:
            self.say(task, call, Said(f"fork {child.name} p{child.process.number}", "ok"))

    def end(self, task: Task, call: Call) -> None:
        """_exit(2) of one thread, or of all."""
        threads = [task] if call.name == "exit" else list(task.process.threads)
        self.gone(threads, call.first)

    def gone(self, ended: list[Task], line: int) -> None:
        """These tasks of one process are gone."""
        for task in ended:
            self.tasks.end(task)
        self.script.add(line, *(Line(f"{task.name} exit") for task in ended))

    def execute(self, task: Task, call: Call) -> None:
        """execve(2) or execveat(2): the other threads of the process are gone after it."""
        said = answer(call.result)
        place, at = (1, 0) if call.name == "execveat" else (0, None)
        if call.context:
            if said == "ok":
                task.process.program = self.paths.locate(task, call, place, at)
            return
        if said is None:
            self.not_converted.call(call)
            return
        try:
            *scripts, program = self.paths.programs(task, call, place, at)
            named = self.paths.locate(task, call, place, at)
        except Missing:
            if said == "ok":
                raise
            self.not_converted.call(call)
            return
        for found in (*scripts, program):
            self.changes.uses(found, call.first, True)
        # A script file has to be executable too. What is refused by EACCES is asked about alone:
        # the reason may be one that the program doesn't know, which would execute the file.
        asked = [*scripts, program][:1] if said == "eacces" else scripts
        for found in asked:
            name = self.script.file(call.first, found)
            facts = opens.facts_of(task, found, self.changes.now(found))
            answered = said if said == "eacces" else "ok"
            self.say(task, call, Said(f"check {name} x", answered), facts)
        if said != "eacces":
            name = self.script.file(call.first, program)
            facts = opens.facts_of(task, program, self.changes.now(program))
            by = tuple((it.path, self.changes.now(it)) for it in scripts)
            self.say(task, call, Said(f"exec {name}", said), replace(facts, scripts=by))
        if said == "ok":
            where = Located(program.path) if scripts else named
            self.executed(task, where, self.changes.now(program), call.first)

    def executed(self, task: Task, program: Located, words: str, line: int) -> None:
        """The task has executed a program: it is the only one of its process."""
        process, space = task.process, task.process.space
        process.program = program
        traced = self.script.tracer is False and space.parent is None
        process.dumpable = task.ids.executes(words.split(), space, traced)
        process.executed = space
        if space.parent is not None and space.uids is None:
            space.early.append((line, task.ids.users[0], task.ids.users[1]))
        task.descriptors = task.descriptors.copy()
        for other in [one for one in task.process.threads if one is not task]:
            self.tasks.end(other)

    def trace(self, task: Task, call: Call) -> None:
        """ptrace(2), process_vm_readv(2), kcmp(2), and a link of /proc/PID that is read."""
        if not self.looks(task, call):
            self.not_converted.call(call)

    def mark(self, task: Task, call: Call) -> None:
        """setsid(2) and seccomp(2): what they do shows in results of other calls."""
        self.not_converted.call(call)
        if call.name == "setsid" and call.result.error is None:
            task.process.session = task.pid
        elif call.name == "seccomp" and call.result.value == 0:
            task.process.filtered = call.first

    def move(self, task: Task, call: Call) -> None:
        """A call that changes where paths lead, or what a descriptor is of."""
        succeeds = call.result.error is None and (call.result.value or 0) >= 0
        if succeeds:
            self._follow[call.name](task, call)
        if call.context:
            return
        if succeeds and call.name in path_calls.OPENS:
            self.changes.opens(task, call)
        found = self.file_lines.lines(task, call) if call.name in path_calls.OPENS else None
        if found:
            self.script.add(call.first, *found)
        elif self.looks(task, call):
            return
        elif not succeeds or call.name not in SILENT:
            self.not_converted.call(call)

    def write(self, task: Task, call: Call) -> None:
        """write(2), of a map of a user namespace."""
        found = task.descriptors.get(argument(call, 0), FILE) or self.paths.base(task, call.args[0])
        if isinstance(found, Located) and is_map(found) and (call.result.value or 0) > 0:
            self.entries.map_written(task, call, found)
            return
        if isinstance(found, Located) and argument(call, 1).startswith('"#!'):
            self.files.begins(found.place, argument(call, 1))
        self.not_converted.call(call)

    def change_namespace(self, task: Task, call: Call) -> None:
        """unshare(2), setns(2)."""
        if call.result.value != 0:
            self.not_converted.call(call)
            return
        space, flags = None, clone_flags(argument(call, 0))
        if call.name == "setns":
            space = self.entries.entered(task, call)
            enters, mounts = self.entries.mounts(task, call)
            if enters:
                self._path_calls.enter_mounts(task, mounts, call.first)
            task.process.below = self.entries.pids(task, call) or task.process.below
        else:
            self._path_calls.unshare(task, flags)
            if "CLONE_NEWUSER" in flags:
                space = self.entries.made(task)
                task.where.mounts.belongs(space)
        if space is not None:
            before = self.entries.enter(task, space)
            self.script.add(call.first, Line(f"{before} exit"))
            self.script.goes_on_as(before, task.name)
            self.stays_undumpable(task, call)
            self.room(call.first, 0)
