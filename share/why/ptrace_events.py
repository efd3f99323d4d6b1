"""The events of a report that ask to look into tasks, and what makes processes dumpable or not."""

from __future__ import annotations

from .records import Decision, Label, Task
from .ptrace_rules import Flag


class PtraceEvents:
    """What a journal keeps of both."""

    line: int
    whole: int | None
    tasks: dict[str, Task]
    labels: dict[str, Label]
    flags: dict[str, Flag]

    def decide(
        self, words: list[str], told: list[str], task: str, before: int | None = None,
        after: int | None = None,
    ) -> Decision:  # fmt: skip
        """Keeps an entry that is told."""
        raise NotImplementedError

    def refuse(
        self, words: list[str], told: list[str], task: str | None = None, before: int | None = None
    ) -> Decision:
        """Keeps a refusal."""
        raise NotImplementedError

    def flagged(self, task: Task, new: int, kind: str = "ids", value: bool = True) -> None:
        """The task has another credential, which says something of its process being dumpable."""
        process = task.process
        before = self.flags.get(process)
        self.flags[process] = Flag(kind, self.line, before, value, task.current, new)

    def on_ptrace(self, words: list[str], told: list[str]) -> None:
        """A look into another task."""
        if told[0] == "ok" and self.line != self.whole:
            return
        labels = [self.labels[word].credential for word in (words[3], words[5])]
        entry = words, told, words[2], labels[0]
        decision = self.decide(*entry) if told[0] == "ok" else self.refuse(*entry)
        decision.target = labels[1]
        sender, other = self.tasks.get(words[2]), self.tasks.get(words[4])
        decision.within = bool(sender and other and sender.process == other.process)
        decision.flag = self.flags.get(other.process) if other else None

    def on_dumpable(self, words: list[str], told: list[str]) -> None:
        """A process is to be dumpable, or not."""
        if told[0] != "ok":
            self.refuse(words, told, words[1])
            return
        process = self.tasks[words[1]].process
        self.flags[process] = Flag("set", self.line, None, words[2] == "1")
        if self.line == self.whole:
            self.decide(words, told, words[1])

    def on_dumped(self, words: list[str], told: list[str]) -> None:
        """Whether a process is dumpable."""
        if told[0] != "ok":
            self.refuse(words, told, words[1])
        elif self.line == self.whole:
            decision = self.decide(words, told, words[1])
            decision.flag = self.flags[self.tasks[words[1]].process]
