"""What is told of a line, as text."""

from __future__ import annotations

import textwrap
from collections.abc import Sequence

from . import linux
from .values import Values
from .records import Decision
from .explain import Explainer
from .journal import Journal
from .names import CALLS, ERRORS, ID_CALLS, KINDS, SETS, cap_name, cap_number, flags, named
from .reason import A_FAULT, BITS, CAPS, GROUPS, IDS, Bad, Fault, NotFound, Reason
from .script import DECLARATIONS, Script

WIDTH = 100
# A longer line is not told whole.
LONG = 160


def wrapped(text: str, indent: int = 2) -> list[str]:
    """A text below its line."""
    first, rest = " " * indent, " " * (indent + 2)
    return textwrap.wrap(
        text, WIDTH, initial_indent=first, subsequent_indent=rest, break_long_words=False,
        break_on_hyphens=False,
    )  # fmt: skip


def readable(text: str) -> str:
    """Sets may be longer than a line: then they are broken behind a comma."""
    return ", ".join(part.replace(",CAP_", ", CAP_") for part in text.split(", "))


def sentence(reason: Reason) -> str:
    """A reason with its source."""
    return readable(f"{reason.text}. {reason.source}")


def manual_name(words: list[str]) -> str:
    """What the manual calls the call of an event or of a line."""
    if words[0] == "raw":
        return f"{next(CALLS[word] for word in words if word in ID_CALLS)} of one thread alone"
    return CALLS.get(words[2] if words[0] in ("begin", "ask", "change") else words[0], words[0])


def answer_of(told: list[str]) -> str:
    """An answer, as it is told."""
    return ERRORS.get(told[0], " ".join(told))


class Teller:
    """Tells of lines, over what is known of them."""

    def __init__(
        self, script: Script, report: str, line: int | None = None, mask: int | None = None
    ) -> None:
        self.script = script
        self.journal = Journal(script, report, line)
        self.values = Values(self.journal)
        self.explainer = Explainer(self.journal, self.values)
        if mask is not None:
            self.explainer.mask = mask
        self.faults = 0
        self.not_found: NotFound | None = None

    def changed(self, decision: Decision) -> bool:
        """Whether a set is another one behind it."""
        if decision.after is None or decision.before is None:
            return False
        return self.values.caps(decision.before) != self.values.caps(decision.after)

    def may_have_changed(self, decision: Decision) -> bool:
        """Whether a set is another one behind it; also where that couldn't be asked."""
        try:
            return self.changed(decision)
        except (Fault, NotFound):
            return True

    def told(self, decisions: list[Decision]) -> list[str]:
        """What is told of some entries, under the texts of their lines."""
        found, line = [], None
        full = self.explainer.full
        explained = self.explainer.explained(decisions)
        for decision, reasons in zip(decisions, explained, strict=True):
            shows = full or decision.refused
            if isinstance(reasons, list) and not (shows or self.changed(decision)):
                if not any(it.source == linux.SOURCE for it in reasons):
                    continue
            if decision.line != line:
                line = decision.line
                found.append(self.heading(line))
            found += self.entry(decision)
            found += self.of(reasons)
        return found

    def heading(self, line: int) -> str:
        """The number and the text of a line."""
        text = self.script.line(line)
        return f"{self.place(line)}: {text if len(text) <= LONG else text[:LONG] + ' ...'}"

    def place(self, line: int) -> str:
        """How a line is named."""
        return f"line {line}"

    def whole_line(self, line: int, task: str | None = None) -> list[str]:
        """All that is told of one line, or of a task in it."""
        journal, text = self.journal, self.script.line(line)
        words = text.split(" ")
        if not text or text.startswith("#"):
            raise Bad(f"line {line} is {'a comment' if text else 'blank'}: it makes no event")
        if words[0] in (*DECLARATIONS, "lane"):
            return [self.heading(line), f"  {words[0]} makes no event"]
        found = [it for it in journal.decisions + journal.births if it.line == line]
        found = [it for it in found if not self.is_means(it)]
        shown = [it for it in found if task in (None, it.task)]
        if found and not shown:
            return [self.heading(line), f"  {task} is not asked for anything there"]
        if found:
            return self.told(sorted(shown, key=lambda it: it.index))
        return [self.heading(line), *self.plain(line)]

    def is_means(self, decision: Decision) -> bool:
        """Whether the commit of the line tells of this change."""
        changes = decision.words[0] == "change" and not decision.refused
        return changes and self.of_task(decision.line)

    def of_task(self, line: int) -> bool:
        """Whether a line is the call of a task."""
        return self.script.line(line).split(" ", 1)[0][1:].isdigit()

    def plain(self, line: int) -> list[str]:
        """The entries of a line of which nothing more is to be said."""
        told = [entry for entry in self.journal.entries if entry.startswith(f"{line} ")]
        if not told:
            return ["  it made no event"]
        words = self.script.line(line).split(" ")
        name = manual_name(words[1:] if self.of_task(line) else words)
        return wrapped(f"{name}: {told[0 if len(told) == 1 else 1].partition(' -> ')[2]}")

    def of(self, reasons: list[Reason] | Fault | NotFound) -> list[str]:
        """The sentences, or why there are none."""
        if isinstance(reasons, NotFound):
            self.not_found = reasons
            return wrapped(f"not told: {reasons}", 4)
        if isinstance(reasons, Fault):
            self.faults += 1
            return wrapped(f"no reason: {A_FAULT}: {reasons}", 4)
        return [text for reason in reasons for text in wrapped(sentence(reason), 4)]

    def entry(self, decision: Decision) -> list[str]:
        """What was called and answered, and what changed."""
        name, how = self.called(decision)
        if decision.task:
            name += f"{',' if ',' in name else ''} by {decision.task}"
        name += how
        answer = answer_of(decision.told) if decision.refused else self.granted(decision)
        found = wrapped(f"{name}: {answer}")
        if decision.after is not None and decision.before is not None:
            try:
                found += [text for it in self.differences(decision) for text in wrapped(it, 4)]
            except (Fault, NotFound):
                pass  # It is said below, in place of the reason.
        return found

    def called(self, decision: Decision) -> tuple[str, str]:
        """The call, by the manual's name; and where in it this is."""
        words, line = decision.words, self.script.line(decision.line).split(" ")
        if words[0] == "act" and decision.change:
            return manual_name(decision.change), ", as it follows"
        if self.of_task(decision.line):
            refused = words[0] == "commit" and decision.refused
            return manual_name(line[1:]), ", at its commit" if refused else ""
        if words[0] == "commit" and decision.change:
            return f"{manual_name(decision.change)}, {CALLS['commit']}", ""
        return manual_name(words), ""

    def granted(self, decision: Decision) -> str:
        """The answer of what was not refused."""
        if decision.after is not None and decision.before is not None:
            return f"ok, c{decision.before} -> c{decision.after}"
        words, told = decision.words, decision.told
        if decision.after is not None:
            return f"ok, with c{decision.after}"
        if words[0] == "ask" and words[2] in (IDS, CAPS, GROUPS, BITS):
            return f"c{decision.before} has " + "; ".join(shown(words[2], told[1:]))
        if words[0] == "ask" and len(told) > 1:
            says = "is" if told[1] == "1" else "is not"
            where = {"capable": "effective", "bset": "in the bounding set", "ambis": "ambient"}
            name = cap_name(cap_number(words[3]))
            return f"{name} {says} {where[words[2]]} in c{decision.before}"
        return " ".join(told)

    def differences(self, decision: Decision) -> list[str]:
        """What of a task's credential changed: before and after, as names."""
        before, after = decision.before, decision.after
        found = []
        kinds = (IDS, GROUPS, CAPS, BITS) if self.explainer.full else (CAPS,)
        for kind in kinds:
            old, new = (parts(kind, self.values.words(it, kind)) for it in (before, after))
            found += [
                readable(f"{name}: {was} -> {now}")
                for (name, was), (_, now) in zip(old, new, strict=True)
                if was != now
            ]
        return found


def parts(kind: str, words: Sequence[str]) -> list[tuple[str, str]]:
    """The parts of a credential that a question tells, each with its name, as words."""
    if kind == IDS:
        names = [f"{which} {who} id" for who in ("user", "group") for which in KINDS]
        return list(zip(names, words, strict=True))
    if kind == CAPS:
        return [(name, named(int(word, 16))) for name, word in zip(SETS, words, strict=True)]
    if kind == GROUPS:
        return [("supplementary groups", " ".join(words) or "none")]
    bits, no_new_privs = words
    return [("securebits", flags(int(bits))), ("no_new_privs", no_new_privs)]


def shown(kind: str, words: Sequence[str]) -> list[str]:
    """An answer in words."""
    if kind == IDS:
        users, groups = words[:4], words[4:]
        return [f"user ids {' '.join(users)}", f"group ids {' '.join(groups)}"]
    return [readable(f"{name} {value}") for name, value in parts(kind, words)]
