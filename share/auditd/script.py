"""A script that is written: its lines, and what the answers of some must be."""

from __future__ import annotations

from dataclasses import dataclass, field
from enum import Enum

from .records import Event
from .spaces import Space
from .tasks import Process, Task


@dataclass(frozen=True)
class Limits:
    """Where a script ends: near the limits of docs/FORMATS.md, since what comes with one record
    must fit in still, and the questions at the end. And how many events are looked at together, and
    how many of these are kept for what comes behind the script."""

    lines: int = 19_000
    bytes: int = 1_000_000
    files: int = 250
    tasks: int = 58
    events: int = 14_000
    behind: int = 4_000
    spaces: int = 12


USUAL = Limits()
# What the program takes, by docs/FORMATS.md: of tasks, files, namespaces, lines and bytes.
TASKS, FILES, SPACES, LINES, BYTES = 64, 256, 15, 20_000, 1 << 20


class Kind(str, Enum):
    """What is compared. As a string it is a quick key."""

    CALL = "call"
    IDS = "ids"
    SETS = "sets"
    BEFORE = "sets before"
    PROGRAM = "program"


@dataclass(slots=True)
class Check:
    """An answer that the log tells: of which line of the body, and what it must be."""

    place: int
    event: Event
    expected: str
    kind: Kind
    task: Task
    # Whether the sets were known there, and whether the process was executed in the log.
    sets_known: bool
    executed: bool
    # Where the lines of the event begin.
    begin: int
    # The process that the call is about.
    other: Process | None = None
    # The user namespace of the task, where its maps aren't known.
    guess: Space | None = None


@dataclass(frozen=True)
class Init:
    """A first task: its name, its process and its user namespace."""

    task: str
    process: str
    space: Space | None


@dataclass
class Script:
    """The lines: files first, then namespaces and first tasks, then what happens."""

    limits: Limits = USUAL
    files: dict[str, str] = field(default_factory=dict)
    inits: list[Init] = field(default_factory=list)
    # The user namespaces, with their numbers.
    spaces: dict[Space, int] = field(default_factory=dict)
    body: list[str] = field(default_factory=list)
    checks: list[Check] = field(default_factory=list)
    bytes: int = 0
    # Tasks that were forked and live, less the first ones that have ended; and the most of it.
    living: int = 0
    peak: int = 0

    def file(self, words: str, mark: str = "") -> str:
        """The name of a file in this state. A mark keeps it apart from others that are alike."""
        key = words + mark
        name = self.files.get(key)
        if name is None:
            name = self.files[key] = f"f{len(self.files)}"
            self.bytes += len(words) + len(name) + 7
        return name

    def add(self, line: str) -> int:
        """One line more; its place in the body."""
        self.body.append(line)
        self.bytes += len(line) + 1
        return len(self.body) - 1

    def begins(self, task: str, process: str, space: Space | None) -> None:
        """A first task, which is there from the first line on."""
        self.inits.append(Init(task, process, space))
        self.bytes += len(task) + len(process) + 30
        if space is not None:
            self.declare(space)

    def declare(self, space: Space) -> int:
        """The number of a user namespace, whose parent has one too."""
        if space.parent is not None:
            self.declare(space.parent)
        return self.spaces.setdefault(space, len(self.spaces) + 1)

    def more(self) -> None:
        """A task more lives."""
        self.living += 1
        self.peak = max(self.peak, self.living)

    def full(self) -> bool:
        """Whether the script is to end here."""
        limits, files, spaces, inits = self.limits, self.files, self.spaces, self.inits
        return (
            len(files) + len(spaces) + len(inits) + len(self.body) > limits.lines
            or self.bytes > limits.bytes
            or len(files) > limits.files
            or len(inits) + self.peak > limits.tasks
            or len(spaces) > limits.spaces
        )

    def taken(self) -> bool:
        """Whether the program takes it. One record may bring several processes of an earlier
        script, each with all of its threads and the lines that lead them there."""
        return (
            len(self.inits) + self.peak <= TASKS
            and len(self.files) <= FILES
            and len(self.spaces) <= SPACES
            and self.lead() + len(self.body) <= LINES
            and self.bytes <= BYTES
        )

    def lead(self) -> int:
        """How many lines stand before the body."""
        return len(self.files) + len(self.spaces) + len(self.inits)

    def head(self) -> list[str]:
        """The lines before the body. Who is root of a namespace may have been learned meanwhile."""
        spaces = [
            f"ns {number} {space.root()} {self.spaces[space.parent] if space.parent else 0}"
            for space, number in self.spaces.items()
        ]
        inits = [
            f"init {one.task} {one.process} {one.space.root()} 0 n{self.spaces[one.space]}"
            if one.space else f"init {one.task} {one.process} 0 0 n0"
            for one in self.inits
        ]  # fmt: skip
        files = [f"file {name} {words.partition(' @')[0]}" for words, name in self.files.items()]
        return [*files, *spaces, *inits]

    def text(self) -> str:
        """The whole script."""
        return "\n".join([*self.head(), *self.body, ""])
