"""The script of a declaration: the launcher's calls, each with where it comes from.

Questions about the credential are lines of it too: as it starts, before the execve and behind it.
"""

from __future__ import annotations

from dataclasses import dataclass, field
from enum import Enum

from kernel.script import File

from .places import Bears, Failure, Note, Place, Unknown, listed

QUESTIONS = ("ids", "caps", "groups", "bits")
TASK = "t1"
# A comment is cut to this length.
LONG = 300


class Moment(Enum):
    """When the credential is asked for."""

    START = "start"
    BEFORE = "before"
    AFTER = "after"


@dataclass(frozen=True)
class Line:
    """A call of the launcher. Where it is refused the launcher fails by `step`, or, where it passes
    over a refusal, goes on."""

    call: str
    places: tuple[Place, ...] = ()
    why: str = ""
    step: str = ""
    passes: bool = False
    asks: Moment | None = None

    @property
    def comment(self) -> str:
        """Where the line comes from."""
        parts = [part for part in (listed(self.places), self.why) if part]
        return ": ".join(parts)

    @property
    def text(self) -> str:
        """The line of the script."""
        return f"{TASK} {self.call}"


@dataclass
class Written:
    """The text of a script, and the line that each of its numbers is."""

    text: str
    lines: dict[int, Line]


@dataclass
class Script:
    """A script as it is made."""

    declared: list[str] = field(default_factory=list)
    files: list[File] = field(default_factory=list)
    first: str = ""
    lines: list[Line] = field(default_factory=list)
    notes: list[Note] = field(default_factory=list)
    unknown: list[Unknown] = field(default_factory=list)
    failure: Failure | None = None
    # The root ids of the program's user namespace and of those above it.
    roots: list[int] = field(default_factory=lambda: [0])

    def add(
        self, call: str, *places: Place, why: str = "", step: str = "", passes: bool = False
    ) -> None:
        """A call more."""
        self.lines.append(Line(call, places, why, step or call.split()[0], passes))

    def ask(self, moment: Moment) -> None:
        """Asks for the credential."""
        self.lines += [Line(question, why="asked here", asks=moment) for question in QUESTIONS]

    def note(self, text: str, *places: Place) -> None:
        """Something that is said besides."""
        found = Note(text, places)
        if found not in self.notes:
            self.notes.append(found)

    def doubt(
        self, kind: str, text: str, *places: Place, bears: Bears = Bears.NOTHING
    ) -> None:
        """Something that isn't known."""
        found = Unknown(kind, text, places, bears)
        if found not in self.unknown:
            self.unknown.append(found)

    def fail(self, step: str, reason: str, *places: Place) -> None:
        """The launcher fails without a call that is refused. The first failure is the one told."""
        if self.failure is None:
            self.failure = Failure(step, reason, places)

    def file(self, file: File) -> None:
        """A file, as it stands."""
        self.files.append(file)
        words = f"file {file.name} {'dir' if file.is_dir else 'reg'} {file.owner} {file.group} "
        words += f"{file.mode:04o}{' nosuid' if file.nosuid else ''}"
        attribute = f" caps {file.attribute.hex()}" if file.attribute else ""
        self.declared.append(words + attribute)

    def written(self) -> Written:
        """The text, with comments, and which line of it each call is."""
        texts = [*self.declared, self.first]
        found: dict[int, Line] = {}
        last = ""
        for line in self.lines:
            if line.comment and line.comment != last:
                texts.append(comment(line.comment))
            last = line.comment
            texts.append(line.text)
            found[len(texts)] = line
        return Written("\n".join(texts) + "\n", found)


def comment(text: str) -> str:
    """A line that the program passes over: printable ASCII alone."""
    plain = "".join(c if c.isascii() and c.isprintable() else "?" for c in text)
    return f"# {plain}"[:LONG]
