"""What a journal records: tasks, labels, calls of all threads, and what is told."""

from __future__ import annotations

from .file_rules import Version
from .ptrace_rules import Flag
from .reason import Fault, Reason
from .script import File


class Task:
    """A task that lives: which credential it has, since when, and what it acts with instead."""

    __slots__ = ("creator", "current", "how", "made", "name", "namespace", "overrides", "process",
                 "since")  # fmt: skip

    def __init__(
        self, name: str, process: str, namespace: int, current: int, made: int, how: str,
        creator: str | None,
    ) -> None:  # fmt: skip
        self.name, self.process, self.namespace = name, process, namespace
        self.current, self.made, self.how, self.creator = current, made, how, creator
        self.since = made
        # The credentials, each with the line of its override.
        self.overrides: list[tuple[int, int]] = []


class Label:
    """What a label holds, or what is prepared under it: then `slot` is kept."""

    __slots__ = ("access", "change", "credential", "file", "line", "slot", "task")

    def __init__(self, credential: int, line: int, task: str = "", slot: int | None = None) -> None:
        self.credential, self.line, self.task, self.slot = credential, line, task, slot
        self.change: list[str] | None = None
        self.file: File | Version | None = None
        self.access = False


class Cast:
    """A call that the threads of a process follow."""

    __slots__ = ("caller", "line", "waiting", "words")

    def __init__(
        self, line: int, caller: str, words: list[str], waiting: dict[str, None]
    ) -> None:
        self.line, self.caller, self.words, self.waiting = line, caller, words, waiting


class Home:
    """Where a sealed credential can be asked for: a task acts with it behind an entry."""

    __slots__ = ("full", "index", "overridden", "task", "until")

    def __init__(self, index: int, task: str, overridden: bool, full: bool) -> None:
        self.index, self.task, self.overridden, self.full = index, task, overridden, full
        self.until: int | None = None


class Decision:
    """An entry that is told: a refusal, or an event that may change a task's credential.

    `change` has the words of what is committed or followed; `within` says of a signal and of a look
    whether it stays in one process. `target` is the credential of who is signalled or looked into,
    and `creator` who made a task. `flag` is what may have made the process that is looked into
    dumpable or not, and `file` the file that it is decided on, as it stood.
    """

    __slots__ = ("after", "before", "change", "creator", "file", "flag", "index", "line", "reason",
                 "target", "task", "told", "within", "words")  # fmt: skip

    def __init__(
        self, index: int, line: int, words: list[str], told: list[str], task: str,
        before: int | None = None, after: int | None = None,
    ) -> None:  # fmt: skip
        self.index, self.line, self.words, self.told, self.task = index, line, words, told, task
        self.before, self.after = before, after
        self.change: list[str] | None = None
        self.creator: str | None = None
        self.target: int | None = None
        self.within = False
        self.flag: Flag | None = None
        self.file: File | Version | None = None
        self.reason: Reason | Fault | None = None

    @property
    def refused(self) -> bool:
        """Whether the program refused it."""
        return self.told[0] != "ok"
