"""Why a program has a capability or doesn't: credtrace-why's sentences, at declared lines."""

from __future__ import annotations

from why.life import Life
from why.names import cap_name
from why.program import report_of
from why.script import Script as WhyScript
from why.tell import Teller, wrapped

from .answers import Answer
from .places import listed
from .script import TASK, Line, Written


class AtLines(Teller):
    """Tells of a script, and names its lines by where they come from."""

    def __init__(self, written: Written, report: str, capability: int) -> None:
        self.written = written
        super().__init__(WhyScript(written.text), report, None, 1 << capability)

    def source(self, line: int) -> Line | None:
        """The line as it was made of the declaration."""
        return self.written.lines.get(line)

    def place(self, line: int) -> str:
        """Where a line comes from; its number, where that is nowhere."""
        source = self.source(line)
        if source is None or not (source.places or source.why):
            return f"line {line} of the script"
        return listed(source.places) or source.why

    def heading(self, line: int) -> str:
        """Where a line comes from, and the line."""
        source = self.source(line)
        why = f" ({source.why})" if source and source.places and source.why else ""
        return f"{self.place(line)}{why}: {self.script.line(line)}"


def told(found: Answer, capability: int) -> list[str]:
    """The life of a capability, and the calls on it that are refused and passed over."""
    report = report_of(found.written.text.encode("latin-1"))
    life = Life(AtLines(found.written, report, capability), TASK, capability)
    lines = life.told()
    for it in found.passed:
        if it.line.call.endswith(f" {cap_name(capability)}"):
            text = f"passed over: {it.line.comment}: {it.line.call} is {it.answer}"
            lines += wrapped(text, 0)
    return lines


def where(found: Answer, capability: int) -> str:
    """Where a capability is in the end, or where it went: one sentence."""
    name, sentence = cap_name(capability), ""
    for line in told(found, capability):
        if line.startswith(f"{name} "):
            sentence = line
        elif sentence and line.startswith(" "):
            sentence += f" {line.strip()}"
    return sentence.rstrip(".")
