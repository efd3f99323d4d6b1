"""The script that is written, and what it can hold."""

from __future__ import annotations

from dataclasses import dataclass, field

import limits

from ..files.listing import Files, Found, Listing, Names
from ..log.reader import Call

# docs/FORMATS.md, the exit statuses and the tests of a line.
LINES, BYTES = limits.LINES, limits.BYTES
FILES, TASKS = limits.FILES, limits.TASKS


class Stop(Exception):
    """The script ends before this line of the log."""

    def __init__(self, line: int, what: str) -> None:
        super().__init__(f"line {line}: {what}; the script ends before it")
        self.line = line


@dataclass(frozen=True)
class Facts:
    """What the log tells of a call besides, where its result may come from that."""

    # Where the file lies, and whether its mount has noexec.
    place: str = ""
    noexec: bool = False
    # The line at which the task installed a seccomp filter, or one of its ancestors.
    filtered: int = 0
    # Whether the file's owner or group has no number in the task's user namespace.
    unmapped: bool = False
    # Whether sender and target of a signal are in different sessions; whether the target is outside
    # of the sender's user namespace and those below, or of a look isn't dumpable and has executed
    # its program there; whether it is in one of the sender's making.
    apart: bool = False
    outside: bool = False
    maker: bool = False
    # Who traces the task already that the call asks to trace.
    traced: str = ""
    # The line at which the process that is asked about begins to change, while the call asks.
    meanwhile: int = 0
    # Whether the task is in a namespace of the log that takes no groups.
    denied: bool = False
    # The file as it is there, and whether the task, or one that is looked into, is in a user
    # namespace of the log.
    words: str = ""
    inside: bool = False
    # The script files by which a program is executed: the path and the words of each.
    scripts: tuple[tuple[str, str], ...] = ()


NO_FACTS = Facts()


@dataclass(frozen=True)
class Line:
    """A line of the script, the call that it stands for, and the answer that is the kernel's."""

    text: str
    call: Call | None = None
    answer: str | None = None
    facts: Facts = NO_FACTS

    @property
    def words(self) -> list[str]:
        """The words of the line. A raw call has those of the same call of all threads."""
        words = self.text.split()
        return words[:1] + words[2:] if words[1:2] == ["raw"] else words


@dataclass
class Script:
    """The lines that declare, those that lead to the beginning, and those of the log's calls."""

    begin: list[str] = field(default_factory=list)
    body: list[Line] = field(default_factory=list)
    names: Names = field(default_factory=Names)
    # What is known of files, and whether the tracer has CAP_SYS_PTRACE, where that is known.
    known: Files = field(default_factory=lambda: Files(Listing()))
    tracer: bool | None = None
    # Tasks that go on under another name, or have a child of another name, in another namespace:
    # before which line of the body, and both names.
    renamed: list[tuple[int, str, str]] = field(default_factory=list)
    _files: dict[str, str] = field(default_factory=dict)
    _bytes: int = 0
    _lead: list[str] = field(default_factory=list)
    _last: set[str] = field(default_factory=set)

    def begin_with(self, inits: list[str], lead: list[str]) -> None:
        """The first tasks, and what leads them to where the log begins."""
        self.begin, self._lead = inits + lead, lead
        self._bytes = sum(len(text) + 1 for text in self.begin)

    def head(self, declared: list[str], inits: list[str], lead: list[str]) -> None:
        """The namespaces, with their first tasks, which stand before all calls."""
        first = self.begin[: len(self.begin) - len(self._lead)]
        self.begin = [*declared, *first, *inits, *self._lead, *lead]

    def begin_also(self, init: str, lead: list[str]) -> None:
        """One first task more, of a process of its own, and what leads it to its credential."""
        count = len(self.begin) - len(self._lead)
        self.begin[count:count] = [init]
        self.begin += lead
        self._lead = self._lead + lead
        self._bytes += sum(len(text) + 1 for text in (init, *lead))

    def add(self, line: int, *added: Line) -> None:
        """These lines come next, all of them or none; `line` is that of the log."""
        size = sum(len(one.text) + 1 for one in added)
        if len(self._files) + len(self.begin) + len(self.body) + len(added) > LINES:
            raise Stop(line, f"a script holds {LINES} lines")
        if self._bytes + size > BYTES:
            raise Stop(line, f"a script holds {BYTES} bytes")
        self._bytes += size
        self.body += added

    def goes_on_as(self, before: str, after: str) -> None:
        """What is known of one task holds for another name from here on."""
        self.renamed.append((len(self.body), before, after))

    def renames(self) -> dict[int, list[tuple[str, str]]]:
        """Before which lines of the script tasks have other names."""
        found: dict[int, list[tuple[str, str]]] = {}
        for place, before, after in self.renamed:
            number = len(self._files) + len(self.begin) + place + 1
            found.setdefault(number, []).append((before, after))
        return found

    def file(self, line: int, found: Found) -> str:
        """The name of a file, which is declared at its first use."""
        if found.path not in self._files:
            if len(self._files) == FILES:
                raise Stop(line, f"a script declares {FILES} files")
            text = f"file {self.names.name(found.path)} {found.file.words}"
            self._files[found.path] = text
            self._last |= {name.rpartition("/")[2] for name in (found.path, found.place)}
            self._bytes += len(text) + 1
        return self.names.name(found.path)

    def has_room_for(self, found: Found) -> bool:
        """Whether the file may be declared, if it isn't yet."""
        return found.path in self._files or len(self._files) < FILES

    def declares(self, path: str) -> bool:
        """Whether the file was declared already."""
        return path in self._files

    def has_name(self, last: str) -> bool:
        """Whether a file was declared whose path ends so."""
        return last in self._last

    def lines(self) -> list[Line]:
        """The whole script."""
        return [Line(text) for text in [*self._files.values(), *self.begin]] + self.body

    def text(self) -> str:
        """The whole script, as it is written."""
        return "".join(line.text + "\n" for line in self.lines())

    def table(self) -> list[str]:
        """Which path each name of a file stands for."""
        return [f"{name} {path}" for path, name in self.names.of_path.items()]
