"""Checks a kernel against scripts: what it answers, what it must, and which row explains a
difference."""

from __future__ import annotations

from dataclasses import dataclass, field
from typing import Protocol

from .runnable import processes, why_not
from .machine import LATE, Lost
from .model import expected
from .numbers import Full
from .report import report_of
from .rows import EXPECTED, MANUAL
from .script import Script, parse
from .setup import Place
from .shrink import shrunk

AGREES, ROWS, DIFFERS, NOT_ASKED = "agrees", "rows", "differs", "not asked"
LOST = "no answer"


def begins(wanted: dict[int, str], kernel: dict[int, str]) -> bool:
    """Whether a kernel answers so, as far as it was waited for."""
    return all(wanted[line] == answer for line, answer in kernel.items() if line)


class Answering(Protocol):
    """What answers scripts: a machine, or a wrong kernel."""

    kernel: str
    place: Place

    def answers(self, script: Script) -> dict[int, str]:
        """What each line was answered."""


@dataclass
class Verdict:
    """What came of a script: the rows or the reason, and how the kernel differs."""

    kind: str
    calls: int = 0
    rows: list[str] = field(default_factory=list)
    told: str = ""


@dataclass
class Difference:
    """The first line that is answered otherwise."""

    number: int
    text: str
    kernel: str
    manual: str
    linux: str


class Holder:
    """Checks a machine against scripts. Where it is strict, against the manual alone."""

    def __init__(self, machine: Answering, strict: bool = False) -> None:
        self.machine = machine
        self.place = machine.place
        self.rows = MANUAL if strict else EXPECTED

    def asked(self, script: Script) -> dict[int, str]:
        """What the kernel answers, as far as it does."""
        try:
            return self.machine.answers(script)
        except Lost as why:
            return why.answers | {0: str(why)}

    def first(self, script: Script, kernel: dict[int, str]) -> Difference | None:
        """The first line where the kernel says neither what the manual says nor what Linux does.

        A script runs by one of the two as a whole; the line is the first that the longer lived
        of them doesn't explain.
        """
        manual, _ = expected(script, self.place, MANUAL)
        linux, _ = expected(script, self.place, self.rows)
        found = None
        for wanted in (manual, linux):
            for line in script.lines:
                answer = kernel.get(line.number, LOST)
                if answer != wanted[line.number]:
                    break
            else:
                return None
            if found is None or line.number >= found.number:
                text = " ".join(line.words)
                found = Difference(
                    line.number, text, answer, manual[line.number], linux[line.number]
                )
        return found

    def differs(self, lines: list[str]) -> bool:
        """Whether a smaller script differs too."""
        try:
            script = parse("\n".join([*lines, ""]))
            if why_not(script, self.place) or not script.lines or unborn(script):
                return False
            return self.first(script, self.asked(script)) is not None
        except (KeyError, IndexError, ValueError):
            return False

    def smallest(self, script: Script, difference: Difference) -> list[str]:
        """The fewest lines that still differ."""
        lines = [
            line for line in script.text.split("\n")[: difference.number]
            if line.split() and line.split()[0][0] != "#" and line.split()[0] != "lane"
        ]  # fmt: skip
        return shrunk(lines, self.differs) if self.differs(lines) else lines[-20:]

    def told(self, script: Script, difference: Difference) -> str:
        """A difference, with its smallest script."""
        lines = self.smallest(script, difference)
        small = parse("\n".join([*lines, ""]))
        kernel = self.asked(small)
        found = self.first(small, kernel) or difference
        said = f"line {found.number}, {found.text}: the kernel {found.kernel}"
        said += f", the manual {found.manual}"
        if found.linux != found.manual:
            said += f", Linux {found.linux}"
        if 0 in kernel:
            said += f" ({kernel[0]})"
        return "\n".join([said, *(f"    {line}" for line in lines)])

    def held(self, script: Script, wanted: str | None = None) -> Verdict:
        """Checks the kernel against a script; `wanted` is the report, where there is one."""
        if reason := why_not(script, self.place):
            return Verdict(NOT_ASKED, told=reason)
        calls = len(script.lines)
        kernel = self.asked(script)
        if wanted is not None and 0 not in kernel:
            try:
                if report_of(script, kernel) == wanted:
                    return Verdict(AGREES, calls)
            except Full:
                return Verdict(NOT_ASKED, told="the table of credentials, which no kernel has")
        manual, _ = expected(script, self.place, MANUAL)
        if wanted is None and kernel == manual:
            return Verdict(AGREES, calls)
        linux, named = expected(script, self.place, self.rows)
        if kernel == linux and named:
            return Verdict(ROWS, calls, sorted(named))
        if LATE in kernel.get(0, "") and (begins(manual, kernel) or begins(linux, kernel)):
            return Verdict(NOT_ASKED, told=kernel[0])
        difference = self.first(script, kernel)
        if difference is None:
            return Verdict(DIFFERS, calls, told="the report is another one, and the answers aren't")
        return Verdict(DIFFERS, calls, told=self.told(script, difference))


def unborn(script: Script) -> bool:
    """Whether a line names a task that no line has made: cut-down scripts that do aren't tried."""
    born = set(processes(script))
    held: set[str] = set()
    for line in script.lines:
        words = line.words
        if words[0] in ("take", "takereal"):
            held.add(words[1])
        named = [it for it in words if it[0] == "t" and it[1:].isdigit()]
        labels = words[1:2] if words[0] in ("ask", "drop") else ()
        if any(it not in born for it in named) or any(it not in held for it in labels):
            return True
    return False
