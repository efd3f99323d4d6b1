"""A script that is drawn: its report, the sets of its credentials, and why it was answered so.

The sets are asked of copies of the script, and the sentences are those of credtrace-why.
"""

from __future__ import annotations

from dataclasses import dataclass, field

from why.program import audited, report_of
from why.reason import CAPS, Bad, Fault, NotFound, Reason
from why.script import Script
from why.tell import Teller, sentence
from scripts.names import without_names

# With which words a script's first line begins that is no comment and no line of a task.
FIRST_WORDS = frozenset(("ns", "file", "init", "lane"))


@dataclass
class Told:
    """What is known of a script's run besides its report."""

    sets: dict[str, list[str]] = field(default_factory=dict)
    # By the numbers of entries, counted from 1: why they were refused, or changed sets.
    reasons: dict[int, list[str]] = field(default_factory=dict)


def is_script(given: bytes) -> bool:
    """Whether this looks like a script, and not like a report, whose lines begin with a number."""
    for line in given.split(b"\n"):
        words = line.decode("latin-1").split()
        if words:
            first = words[0]
            is_task = first[0] == "t" and first[1:].isdigit()
            return first[0] == "#" or first in FIRST_WORDS or is_task
    return False


def run(script: bytes, report: bytes | None) -> tuple[bytes, str]:
    """The script without names, and its report: that of `run`, or the one that is given."""
    plain = without_names(script)
    return plain, report_of(plain) if report is None else audited(plain, report)


def sentences(reasons: list[Reason] | Fault | NotFound) -> list[str]:
    """Why an entry was answered so, or why that isn't told."""
    if isinstance(reasons, list):
        return [sentence(it) for it in reasons]
    return [f"not told: {reasons}"]


def told_of(script: bytes, report: str) -> Told:
    """What is told of a script with its report."""
    teller = Teller(Script(script.decode("latin-1")), report)
    values, journal = teller.values, teller.journal
    for credential in journal.homes:
        values.want(credential, CAPS)
    teller.explainer.ask(journal.decisions)
    # Where the sets can't be asked for, that is said in place of the reason.
    shown = [
        it
        for it in journal.decisions
        if it.refused or not teller.is_means(it) and teller.may_have_changed(it)
    ]
    explained = teller.explainer.explained(shown)
    found = Told()
    for it, reasons in zip(shown, explained, strict=True):
        found.reasons[it.index + 1] = sentences(reasons)
    found.sets = {f"c{number}": [*words] for (number, kind), words in values.known.items()
                  if kind == CAPS}  # fmt: skip
    return found


__all__ = ["Bad", "NotFound", "Told", "is_script", "run", "told_of"]
