"""A whole log: the wanted calls with their results, in an order that a script can keep.

A call stands where it begins, since whatever it made, as a new task, may show up before it ends. An
execve stands where it ends: until then other threads of its process may make calls.
"""

from __future__ import annotations

import re
from collections import Counter
from collections.abc import Callable, Collection, Iterator
from dataclasses import dataclass, field
from functools import lru_cache
from typing import Protocol

from . import lines
from .lines import BadLog, Result

# No line of strace is as long, and a stream without line feeds would fill the memory.
LONGEST = 4 << 20

NO_END = "this call has no end: the line is cut, or another text is mixed in"

EXECUTIONS = ("execve", "execveat")

SUPERSEDED = re.compile(r"superseded by execve in pid (\d{1,9})")

# The first process, where only later lines tell its pid, as on a terminal.
UNKNOWN = 0

# What calls return whose end the log hasn't, as where strace was killed: more than any pid. What
# they made may be there.
UNTOLD = 1 << 40
CREATIONS = ("fork", "vfork", "clone", "clone3")

# With -C strace writes a table of its counts behind the log, as with -c in its place.
SUMMARY = "% time "


@dataclass(frozen=True, slots=True)
class Call:
    """A call that returned, with the lines of the log at which it begins and ends."""

    pid: int
    name: str
    args: tuple[str, ...]
    result: Result
    first: int
    last: int
    # What a call that makes a task returned in its PID namespace, where that isn't the log's pid.
    inner: int | None = None
    # Whether it was another task's, and only says where paths lead.
    context: bool = False

    @property
    def text(self) -> str:
        """The call as it is told of, with long arguments shortened."""
        shown = (arg if len(arg) < 60 else arg[:57] + "..." for arg in self.args)
        return f"{self.name}({', '.join(shown)})"


@dataclass(frozen=True)
class Gone:
    """A task ended."""

    pid: int
    last: int


@dataclass(frozen=True)
class Renamed:
    """A thread that isn't the first one executed a program, and has the first one's pid now."""

    old: int
    pid: int
    last: int


Item = Call | Gone | Renamed


@dataclass(frozen=True)
class Begun:
    """A call that isn't ended yet."""

    name: str
    text: str
    line: int


@lru_cache(maxsize=1024)
def parsed(text: str) -> tuple[tuple[str, ...], Result] | None:
    """The arguments and the result of a call. Long logs have the same few calls over and over."""
    if (found := lines.plain_open(text)) is not None:
        return found
    parts = lines.split(text)
    result = lines.result(parts[1]) if parts else None
    return (tuple(parts[0]), result) if parts and result else None


class Source(Protocol):
    """What bytes are read from."""

    def read(self, count: int, /) -> bytes:
        """At most so many bytes, and none at the end."""


class Cut(BadLog):
    """The log ends in the middle, as where strace was killed: what stands before is whole."""


def text_lines(source: Source) -> Iterator[str]:
    """The lines of a log, each byte a character. The last one has to end with a line feed too."""
    kept = b""
    count = 0
    while chunk := source.read(1 << 20):
        parts = (kept + chunk).split(b"\n")
        kept = parts.pop()
        for part in parts:
            # A log that went through another system has its line ends.
            yield part.removesuffix(b"\r").decode("latin-1")
        count += len(parts)
        if len(kept) > LONGEST:
            raise BadLog(count + 1, "it is too long for a line of strace")
    if kept:
        raise Cut(count + 1, "the log is cut in the middle of this line")


@dataclass
class Reader:
    """Reads a log line by line, and keeps the wanted calls."""

    wanted: Collection[str]
    found: list[tuple[int, Item]] = field(default_factory=list)
    begun: dict[int, Begun] = field(default_factory=dict)
    other_calls: Counter[str] = field(default_factory=Counter)
    count: int = 0
    # Where the log is cut, and why what follows isn't read.
    cut: BadLog | None = None
    first_pid: int | None = None
    # Lines with calls that tell what a file is: they are read where a file changes in the log.
    _telling: list[tuple[int, str]] = field(default_factory=list)
    _alive: set[int] = field(default_factory=set)
    _children: set[int] = field(default_factory=set)
    # Calls that nobody wants, and that haven't ended yet.
    _others: dict[int, Begun] = field(default_factory=dict)
    _before: str = ""
    _attached: int | None = None

    def read(self, texts: Iterator[str], progress: Callable[[int], None]) -> list[Item]:
        """Everything that was found, in its order."""
        try:
            self.lines(texts, progress)
        except Cut as cut:
            if self.first_pid is None:
                raise
            self.cut = cut
            self.count = cut.line
        if self._before and self.cut is None:
            raise BadLog(self.count, "the log is cut in the middle of a call")
        if self.first_pid is None:
            raise BadLog(self.count + 1, "the log has no call")
        self.tell_of_files()
        for pid, begun in self.begun.items():
            self.without_end(pid, begun)
        self.found.sort(key=lambda pair: pair[0])
        return [item for _, item in self.found]

    def tell_of_files(self) -> None:
        """Reads what tells of files, where one changes in the log."""
        changes = any(isinstance(it, Call) and it.name in lines.CHANGING for _, it in self.found)
        last = self.count
        for self.count, text in self._telling:
            match = lines.HEAD.match(text)
            if match is None or not match["call"]:
                raise BadLog(self.count, NO_END)
            if changes:
                begun = Begun(match["call"], "", self.count)
                self.ends(self.pid_of(match), begun, text[match.end() :])
            elif not (lines.is_refused(text) and self.refused(text, match["call"])):
                self.other_calls[match["call"]] += 1
        self.count = last

    def without_end(self, pid: int, begun: Begun) -> None:
        """A call is begun, and the log ends."""
        if begun.name not in CREATIONS:
            self.other_calls[begun.name] += 1
            return
        parts = lines.split(begun.text + ")")
        args = tuple(parts[0]) if parts else ()
        untold = Result(UNTOLD + begun.line, None)
        call = Call(pid, begun.name, args, untold, begun.line, begun.line)
        self.found.append((begun.line, call))

    def lines(self, texts: Iterator[str], progress: Callable[[int], None]) -> None:
        """Reads all lines."""
        for text in texts:
            self.count += 1
            if text.startswith(SUMMARY):
                break
            self.line(text)
            if self.count % 50_000 == 0:
                progress(self.count)

    def line(self, text: str) -> None:
        """Reads one line."""
        if self.first_pid and self._attached is None:
            name, rest = lines.whole(text) or ("", "")
            if name and not (name in self.wanted and lines.is_asked(name, rest)):
                if not (lines.is_refused(rest) and self.refused(text, name)):
                    self.other_calls[name] += 1
                return
            if name in lines.TELLING:
                self._telling.append((self.count, text))
                return
        if self._attached is not None:
            text, self._before = self._before + text, ""
        self.told_by_task(text)
        if self._attached is not None and not self._before:
            self.attached(self._attached)
            self._attached = None

    def told_by_task(self, text: str) -> None:
        """Reads a line with what was before a message in its middle."""
        match = lines.HEAD.match(text)
        if match is None:
            self.message(text)
            return
        kind = match.lastgroup
        rest = text[match.end() :]
        if kind == "call":
            rest = lines.PID_CHANGED.sub(lines.UNFINISHED, rest)
            if not lines.has_result(rest):
                self.cut_by_message(text)
                return
            pid = self.pid_of(match)
            name = match["call"]
            if name in self.wanted and lines.is_asked(name, rest):
                self.call(pid, name, rest)
            else:
                self.other(pid, name, rest)
        elif kind == "resumed":
            self.resumed(self.pid_of(match), match["resumed"], rest)
        elif kind == "ended":
            self.ended(self.pid_of(match), match["ended"])

    def other(self, pid: int, name: str, rest: str) -> None:
        """A call that isn't wanted: what matters is whether it was refused."""
        if rest.endswith(lines.UNFINISHED):
            text = rest[: -len(lines.UNFINISHED)].rstrip()
            self._others[pid] = Begun(name, text, self.count)
        elif lines.is_refused(rest) and self.refuses(pid, Begun(name, "", self.count), rest):
            return
        self.other_calls[name] += 1

    def refused(self, text: str, name: str) -> bool:
        """Keeps a call that the kernel refused, though nobody wanted it; whether it is one."""
        match = lines.HEAD.match(text)
        if match is None:
            return False
        begun = Begun(name, "", self.count)
        return self.refuses(self.pid_of(match), begun, text[match.end() :])

    def refuses(self, pid: int, begun: Begun, rest: str) -> bool:
        """The same of a call that may have begun on another line."""
        parts = parsed(begun.text + rest)
        if parts is None or pid in self.begun:
            return False
        self.found.append((begun.line, Call(pid, begun.name, *parts, begun.line, self.count)))
        return True

    def message(self, text: str) -> None:
        """A line that isn't a task's."""
        if not lines.MESSAGE.fullmatch(text):
            raise BadLog(self.count, "this is no line of strace -f")
        if match := lines.ATTACHED.match(text):
            self.attached(int(match[1]))
            # Strace was told to trace this one, before anything was traced.
            self.first_pid = self.first_pid or int(match[1])

    def cut_by_message(self, text: str) -> None:
        """A message stands in the middle of a line, which the next line ends, or nothing does."""
        if ended := lines.SUPERSEDED.search(text):
            self.told_by_task(text[ended.start() :])
            return
        match = lines.ATTACHED.search(text)
        if match is None or self._attached is not None:
            raise BadLog(self.count, NO_END)
        self._before = text[: match.start()]
        self._attached = int(match[1])

    def attached(self, pid: int) -> None:
        """Strace says that it traces one process more."""
        self._children.add(pid)
        self._alive.add(pid)

    def pid_of(self, match: re.Match[str]) -> int:
        """Whose line it is. On a terminal strace names nobody while one process is left."""
        word = match["pid"] or match["shown"]
        pid = int(word) if word and len(word) < 10 else self.unnamed(word)
        if match["shown"] and self.first_pid == UNKNOWN and pid not in self._children:
            self.told_first(pid)
        if self.first_pid is None:
            self.first_pid = pid
        if match.lastgroup != "ended":
            self._alive.add(pid)
        return pid

    def unnamed(self, word: str | None) -> int:
        """The one task that is left, where a line has no pid."""
        if word:
            raise BadLog(self.count, f"{word[:20]} is no pid")
        if len(self._alive) == 1:
            return next(iter(self._alive))
        if self.first_pid is None:
            return UNKNOWN
        raise BadLog(self.count, "it has no pid, and more than one process is there, or none")

    def told_first(self, pid: int) -> None:
        """The first process is this one, as a line tells that names it."""
        self.first_pid = pid
        self._alive.discard(UNKNOWN)
        self.found = [(key, renamed(item, pid)) for key, item in self.found]
        if UNKNOWN in self.begun:
            self.begun[pid] = self.begun.pop(UNKNOWN)

    def call(self, pid: int, name: str, rest: str) -> None:
        """A call begins, and most end on the same line."""
        if (open_call := self.begun.get(pid)) is not None:
            what = f"pid {pid} hasn't ended its call of line {open_call.line} yet"
            raise BadLog(self.count, what)
        if rest.endswith(lines.UNFINISHED) and lines.split(rest) is None:
            text = rest[: -len(lines.UNFINISHED)].rstrip()
            self.begun[pid] = Begun(name, text, self.count)
        else:
            self.ends(pid, Begun(name, "", self.count), rest)

    def resumed(self, pid: int, name: str, rest: str) -> None:
        """A call goes on that was broken off by another task's line."""
        if not lines.has_result(rest):
            raise BadLog(self.count, NO_END)
        other = self._others.pop(pid, None)
        if other is not None and other.name == name and lines.is_refused(other.text + rest):
            self.other_calls[name] -= self.refuses(pid, other, rest)
            return
        begun = self.begun.pop(pid, None)
        if begun is not None and begun.name == name:
            self.ends(pid, begun, rest)
        elif begun is not None or (name in self.wanted and name not in lines.ASKED):
            what = f"pid {pid} goes on with a call of {name}, which it hasn't begun"
            raise BadLog(self.count, what)

    def ends(self, pid: int, begun: Begun, rest: str) -> None:
        """A call has ended: its arguments and its result are known."""
        if rest.endswith(lines.DETACHED):
            text = begun.text + rest.removesuffix(lines.DETACHED).rstrip()
            self.begun[pid] = Begun(begun.name, text, begun.line)
            return
        if rest.endswith(lines.INJECTED):
            self.other_calls[f"{begun.name} injected by strace"] += 1
            return
        parts = parsed(begun.text + rest)
        if parts is None:
            raise BadLog(self.count, f"the arguments or the result of {begun.name} can't be read")
        call = Call(pid, begun.name, *parts, begun.line, self.count)
        self.found.append((call.last if call.name in EXECUTIONS else call.first, call))

    def ended(self, pid: int, how: str) -> None:
        """A task ended, or its number went to the thread of its process that executed a program."""
        if match := SUPERSEDED.fullmatch(how):
            old = int(match[1])
            if old in self.begun:
                self.begun[pid] = self.begun.pop(old)
            self._alive.discard(old)
            self._alive.add(pid)
            self.found.append((self.count, Renamed(old, pid, self.count)))
            return
        begun = self.begun.pop(pid, None)
        if begun is not None and begun.name in CREATIONS:
            self.without_end(pid, begun)
        self._alive.discard(pid)
        self.found.append((self.count, Gone(pid, self.count)))


def renamed(item: Item, pid: int) -> Item:
    """The same, of this pid where that wasn't known."""
    if item.pid != UNKNOWN:
        return item
    if isinstance(item, Call):
        return Call(pid, item.name, item.args, item.result, item.first, item.last)
    return Gone(pid, item.last) if isinstance(item, Gone) else Renamed(item.old, pid, item.last)
