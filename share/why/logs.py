"""Why the calls of a log of strace were answered as they were: for the tools on logs."""

from __future__ import annotations

from collections import Counter
from dataclasses import dataclass, field

from .records import Decision
from .life import Life
from .reason import Bad, Fault, NotFound
from .script import Script
from .tell import Teller

# The questions by which libcap finds the last capability: it asks for numbers until one is none.
PROBES = frozenset({"bset", "ambis"})


@dataclass
class Told:
    """What is told of lines of a script, by their numbers, and what isn't."""

    lines: list[tuple[int, list[str]]] = field(default_factory=list)
    # Questions about capabilities that there aren't, by their numbers.
    probes: Counter[int] = field(default_factory=Counter)


class LogTeller:
    """Tells of the lines of a log's script."""

    def __init__(self, script: str, report: str) -> None:
        self.script, self.report = script, report
        self.teller = Teller(Script(script), report)

    @property
    def faults(self) -> int:
        """How many sentences didn't lead to what was answered."""
        return self.teller.faults

    def refused(self, lines: set[int]) -> Told:
        """The refusals of these lines."""
        told = Told()
        decisions = []
        for it in self.teller.journal.decisions:
            if it.refused and it.line in lines:
                if is_probe(it):
                    told.probes[int(it.words[3])] += 1
                else:
                    decisions.append(it)
        told.lines = self._explained(decisions)
        return told

    def changes(self, lines: set[int]) -> list[tuple[int, list[str]]]:
        """The changes of a capability set by these lines."""
        decisions = [
            it
            for it in self.teller.journal.decisions
            if it.line in lines and not it.refused and not self.teller.is_means(it)
        ]
        # What the sets are is asked for all at once, before they are compared.
        self.teller.explainer.ask(decisions)
        return self._explained([it for it in decisions if self.teller.may_have_changed(it)])

    def _explained(self, decisions: list[Decision]) -> list[tuple[int, list[str]]]:
        """What is told of each."""
        explained = self.teller.explainer.explained(decisions)
        return [
            (it.line, self.teller.entry(it) + self.teller.of(reasons))
            for it, reasons in zip(decisions, explained, strict=True)
        ]

    def lives(self, capability: int) -> list[list[str]]:
        """The life of a capability in each task."""
        teller = Teller(Script(self.script), self.report, None, 1 << capability)
        tasks = list(dict.fromkeys(it.task for it in teller.journal.births))
        found = [Life(teller, task, capability).told() for task in tasks]
        self.teller.faults += teller.faults
        return found


def is_probe(decision: Decision) -> bool:
    """Whether it asks about a capability that there isn't."""
    words = decision.words
    return words[0] == "ask" and words[2] in PROBES and decision.told[:1] == ["einval"] and (
        words[3].isdigit())  # fmt: skip


def refused(script: str, report: str, lines: set[int]) -> Told:
    """The refusals of these lines of a script, each with what is told of it."""
    return LogTeller(script, report).refused(lines)


__all__ = ["Bad", "Fault", "LogTeller", "NotFound", "Told", "refused"]
