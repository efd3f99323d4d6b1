"""What stands after each entry of a report: tasks, labels, files, calls of all threads.

The report says what each event was answered; this keeps the books that go with it, so that an entry
can be told with what stood in its way. No rule on credentials is known here.
"""

from __future__ import annotations

from limits import HOLDS

from . import obstacles
from .records import Cast, Decision, Home, Label, Task
from .file_events import FileEvents
from .file_rules import Version, named
from .ptrace_rules import Flag
from .ptrace_events import PtraceEvents
from .reason import CAPS, IDS, Fault
from .script import File, Script

RULED = frozenset(("eperm", "einval", "eacces"))


class Journal(PtraceEvents, FileEvents):
    """The entries of a report, followed one after another."""

    def __init__(self, script: Script, report: str, line: int | None = None) -> None:
        self.script = script
        # The line of which all entries are told, not its refusals and changes alone.
        self.whole = line
        self.tasks: dict[str, Task] = {}
        self.gone_tasks: dict[str, tuple[int, str]] = {}
        self.processes: dict[str, dict[str, None]] = {}
        self.labels: dict[str, Label] = {}
        self.gone_labels: dict[str, tuple[int, str]] = {}
        self.files: dict[str, tuple[int, int]] = {}
        self.infos: dict[str, File | Version] = dict(script.files)
        self.gone_files: dict[str, int] = {}
        self.casts: dict[str, Cast] = {}
        self.flags: dict[str, Flag] = {}
        self.ended_casts: dict[int, str] = {}
        self.slots: dict[int, int] = {}
        self.namespaces: dict[int, int] = {}
        self.homes: dict[int, Home] = {}
        self.known: dict[tuple[int, str], list[str]] = {}
        self.decisions: list[Decision] = []
        self.births: list[Decision] = []
        self.lendings: list[Decision] = []
        self.index = self.line = 0
        self.entries = report.split("\n")
        if self.entries[-1] == "":
            self.entries.pop()
        # Which entries, one behind another, are of one line: (line, first, behind the last).
        self.runs: list[tuple[int, int, int]] = []
        self.follow()

    def follow(self) -> None:
        """Follows all entries."""
        begun, line = 0, 0
        handlers = {name[3:]: getattr(self, name) for name in dir(self) if name.startswith("on_")}
        for index, entry in enumerate(self.entries):
            event, _, answer = entry.partition(" -> ")
            words = event.split(" ")
            number = int(words[0])
            if number != line:
                if index:
                    self.runs.append((line, begun, index))
                begun, line = index, number
            self.index, self.line = index, number
            handlers[words[1]](words[1:], answer.split(" "))
        if self.entries:
            self.runs.append((line, begun, len(self.entries)))

    # What several events have in common.

    def actor(self, task: str | None) -> str:
        """The task that the line is of."""
        first = self.script.lines[self.line - 1].split(None, 1)[0]
        return first if first[0] == "t" and first[1:].isdigit() else task or ""

    def decide(
        self, words: list[str], told: list[str], task: str, before: int | None = None,
        after: int | None = None,
    ) -> Decision:  # fmt: skip
        """Keeps an entry that is told."""
        decision = Decision(self.index, self.line, words, told, task, before, after)
        decision.file = self.infos.get(named(words) or "")
        self.decisions.append(decision)
        return decision

    def refuse(
        self, words: list[str], told: list[str], task: str | None = None, before: int | None = None
    ) -> Decision:
        """Keeps a refusal; one that is about what is there, with what stood in the way."""
        decision = self.decide(words, told, task or self.actor(None), before)
        if told[0] not in RULED and not (told[0] == "aborted" and told[2] == "eperm"):
            try:
                decision.reason = obstacles.reason(self, words, told)
            except Fault as fault:
                decision.reason = fault
        return decision

    def seal(self, told: list[str], place: int, task: Task) -> int:
        """A credential that came into use, and where it stands."""
        number = int(told[place][1:])
        self.slots[number] = int(told[place + 1][1:])
        self.namespaces[number] = task.namespace
        full = len(self.labels) >= HOLDS and self.holds() >= HOLDS
        self.homes[number] = Home(self.index, task.name, bool(task.overrides), full)
        return number

    def holds(self) -> int:
        """How many labels hold."""
        return sum(label.slot is None for label in self.labels.values())

    def leaves(self, task: Task, number: int) -> None:
        """A task no longer acts with a credential."""
        home = self.homes[number]
        if home.task == task.name and home.until is None:
            home.until = self.index

    def current(self, task: Task, number: int) -> None:
        """A credential becomes the task's current one."""
        self.leaves(task, task.current)
        task.current, task.since = number, self.line

    def born(self, words: list[str], told: list[str], task: Task) -> None:
        """A task is there."""
        self.tasks[task.name] = task
        self.processes.setdefault(task.process, {})[task.name] = None
        self.gone_tasks.pop(task.name, None)
        birth = Decision(self.index, self.line, words, told, task.name, None, task.current)
        birth.creator = task.creator
        self.births.append(birth)

    def ends(self, name: str, how: str) -> None:
        """A task is gone."""
        task = self.tasks.pop(name)
        self.leaves(task, task.current)
        self.gone_tasks[name] = (self.line, how)
        members = self.processes[task.process]
        del members[name]
        if not members:
            del self.processes[task.process]
            self.flags.pop(task.process, None)
        cast = self.casts.get(task.process)
        if cast is not None and name in cast.waiting:
            del cast.waiting[name]
            self.completed(task.process, cast)

    def completed(self, process: str, cast: Cast) -> None:
        """A call that nobody waits for any more is over."""
        if not cast.waiting:
            del self.casts[process]
            self.ended_casts[cast.line] = f"every thread had made it by line {self.line}"

    def dropped(self, process: str, how: str) -> None:
        """A call of all threads is given up."""
        cast = self.casts.pop(process, None)
        if cast is not None:
            self.ended_casts[cast.line] = how

    # The events.

    def on_init(self, words: list[str], told: list[str]) -> None:
        """A first task."""
        if told[0] != "ok":
            self.refuse(words, told, words[1])
            return
        namespace = int(words[5][1:])
        number = int(told[1][1:])
        self.flags.setdefault(words[2], Flag("first", self.line))
        task = Task(words[1], words[2], namespace, number, self.line, "first task", None)
        self.born(words, told, task)
        self.seal(told, 1, task)

    def on_take(self, words: list[str], told: list[str]) -> None:
        """A hold on what a task acts with, or is acted on by."""
        if told[0] == "ok":
            self.labels[words[1]] = Label(int(told[1][1:]), self.line)
        else:
            self.refuse(words, told)

    on_takereal = on_takefile = on_take

    def on_drop(self, words: list[str], told: list[str]) -> None:
        """A hold is given up."""
        if told[0] != "ok":
            self.refuse(words, told)
            return
        del self.labels[words[1]]
        self.gone_labels[words[1]] = (self.line, "dropped")

    def on_ask(self, words: list[str], told: list[str]) -> None:
        """A question: its answer is kept; a check that isn't passed is told."""
        if told[0] == "ok":
            credential = self.labels[words[1]].credential
            if words[2] in (IDS, CAPS, "bits", "groups"):
                self.known[credential, words[2]] = told[1:]
            if self.line == self.whole:
                self.decide(words, told, self.actor(None), credential)
            return
        label = self.labels.get(words[1])
        before = label.credential if label and label.slot is None else None
        self.refuse(words, told, None, before)

    def on_prepare(self, words: list[str], told: list[str]) -> None:
        """A credential is prepared."""
        if told[0] != "ok":
            self.refuse(words, told, words[2])
            return
        base = self.labels[words[3]].credential
        self.labels[words[1]] = Label(base, self.line, words[2], int(told[1][1:]))

    def on_change(self, words: list[str], told: list[str]) -> None:
        """A prepared credential is changed."""
        label = self.labels.get(words[1])
        task = label.task if label else None
        before = label.credential if label and label.slot is not None else None
        if told[0] != "ok":
            self.refuse(words, told, task, before)
            return
        label = self.labels[words[1]]
        label.change, label.access = words[2:], words[2] == "access"
        label.file = self.decide(words, told, label.task, before).file

    def on_commit(self, words: list[str], told: list[str]) -> None:
        """A prepared credential becomes the task's."""
        label = self.labels.get(words[1])
        if told[0] != "ok":
            self.refuse(words, told, label.task if label else None)
            if told[0] == "stale":
                self.give_up(words[1], "given up by the stale commit")
            return
        label = self.labels[words[1]]
        task = self.tasks[label.task]
        number = self.seal(told, 1, task)
        decision = self.decide(words, told, label.task, task.current, number)
        decision.change, decision.file = label.change, label.file
        if len(told) > 3:
            self.flagged(task, number, "execve", told[-3:] == ["0", "0", "0"])
        else:
            self.flagged(task, number)
        self.current(task, number)
        self.give_up(words[1], "committed")
        if len(told) > 3:
            self.executes(task)

    def executes(self, task: Task) -> None:
        """An execve ends the other threads, and a call that they were in."""
        self.dropped(task.process, f"the execve of {task.name} in line {self.line} dropped it")
        for other in [name for name in self.processes[task.process] if name != task.name]:
            self.ends(other, f"the execve of {task.name} ended it")

    def give_up(self, name: str, how: str) -> None:
        """A prepared label is gone."""
        del self.labels[name]
        self.gone_labels[name] = (self.line, how)

    def on_abort(self, words: list[str], told: list[str]) -> None:
        """A prepared credential is given up."""
        if told[0] == "ok":
            self.give_up(words[1], "aborted")
        else:
            self.refuse(words, told)

    def on_override(self, words: list[str], told: list[str]) -> None:
        """A task acts with another credential."""
        if told[0] != "ok":
            self.refuse(words, told, words[1])
            return
        task, label = self.tasks[words[1]], self.labels[words[2]]
        number = int(told[1][1:])
        if label.slot is not None:
            self.seal(told, 1, task)
            self.homes[number].overridden = False
            self.give_up(words[2], "lent to its task by the override")
        task.overrides.append((number, self.line))
        self.lends(words, told, task, number)

    def on_revert(self, words: list[str], told: list[str]) -> None:
        """The newest override ends."""
        if told[0] != "ok":
            self.refuse(words, told, words[1])
            return
        task = self.tasks[words[1]]
        self.leaves(task, task.overrides.pop()[0])
        self.lends(words, told, task, task.overrides[-1][0] if task.overrides else task.current)

    def lends(self, words: list[str], told: list[str], task: Task, number: int) -> None:
        """A task acts with another credential from now on."""
        if self.script.line(self.line).split(" ")[1] != "access":
            lent = Decision(self.index, self.line, words, told, task.name, None, number)
            self.lendings.append(lent)

    def on_begin(self, words: list[str], told: list[str]) -> None:
        """A call that sets ids, by the thread that begins it."""
        task = self.caller(words, told)
        if task is None:
            return
        number = self.seal(told, 1, task)
        self.decide(words, told, words[1], task.current, number)
        self.flagged(task, number)
        self.current(task, number)
        waiting = {name: None for name in self.processes[task.process] if name != task.name}
        cast = self.casts[task.process] = Cast(self.line, words[1], words[2:], waiting)
        self.completed(task.process, cast)

    def caller(self, words: list[str], told: list[str]) -> Task | None:
        """The task that makes a call on ids, where it is not refused."""
        task = self.tasks.get(words[1])
        if told[0] != "ok":
            self.refuse(words, told, words[1], task.current if task else None)
            return None
        return self.tasks[words[1]]

    def on_raw(self, words: list[str], told: list[str]) -> None:
        """A call that sets the ids of one thread alone."""
        task = self.caller(words, told)
        if task is None:
            return
        number = self.seal(told, 1, task)
        self.decide(words, told, words[1], task.current, number)
        self.flagged(task, number)
        self.current(task, number)

    def on_act(self, words: list[str], told: list[str]) -> None:
        """A waiting thread makes the call too."""
        process, cast = self.cast_of(int(words[1]))
        if told[0] not in ("ok", "aborted") or cast is None:
            self.refuse(words, told)
            return
        task = self.tasks[told[1]]
        if told[0] == "aborted":
            self.refuse(words, told, task.name, task.current).change = cast.words
            self.dropped(process, f"{task.name} could not follow in line {self.line}")
            for name in list(self.processes[process]):
                self.ends(name, f"its process ended, since {told[1]} could not follow a call,")
            return
        number = self.seal(told, 2, task)
        self.decide(words, told, task.name, task.current, number).change = cast.words
        self.flagged(task, number)
        self.current(task, number)
        del cast.waiting[task.name]
        self.completed(process, cast)

    def cast_of(self, line: int) -> tuple[str, Cast | None]:
        """The call that a line began, while it is open."""
        found = ((process, cast) for process, cast in self.casts.items() if cast.line == line)
        return next(found, ("", None))

    def on_spawn(self, words: list[str], told: list[str]) -> None:
        """A thread more."""
        if told[0] != "ok":
            self.refuse(words, told, words[1])
            return
        task = self.tasks[words[1]]
        how = f"spawned by {task.name}"
        number = int(told[1][1:])
        space, line = task.namespace, self.line
        child = Task(words[2], task.process, space, number, line, how, task.name)
        self.born(words, told, child)
        cast = self.casts.get(task.process)
        if cast is not None and task.name in cast.waiting:
            cast.waiting[words[2]] = None

    def on_fork(self, words: list[str], told: list[str]) -> None:
        """A process more."""
        if told[0] != "ok":
            self.refuse(words, told, words[1])
            return
        task = self.tasks[words[1]]
        how = f"forked by {task.name}"
        number = int(told[1][1:])
        self.flags[words[3]] = self.flags[task.process]
        space, line = task.namespace, self.line
        self.born(words, told, Task(words[2], words[3], space, number, line, how, task.name))

    def on_exit(self, words: list[str], told: list[str]) -> None:
        """A task ends."""
        if told[0] == "ok":
            self.ends(words[1], "it ended")
        else:
            self.refuse(words, told, words[1])

    def on_signal(self, words: list[str], told: list[str]) -> None:
        """A signal."""
        if told[0] == "ok" and self.line != self.whole:
            return
        labels = [self.labels[word].credential for word in (words[2], words[4])]
        entry = words, told, words[1], labels[0]
        decision = self.decide(*entry) if told[0] == "ok" else self.refuse(*entry)
        decision.target = labels[1]
        sender, other = self.tasks.get(words[1]), self.tasks.get(words[3])
        decision.within = bool(sender and other and sender.process == other.process)

    def on_sweep(self, words: list[str], told: list[str]) -> None:
        """What was given up is dropped."""
