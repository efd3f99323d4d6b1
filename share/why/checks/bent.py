"""Reports that are bent: with another error, or other sets, the sentences must be faults.

So it is seen that a sentence is compared with what was answered, and not made up for it.
"""

from __future__ import annotations

from ..records import Decision
from ..program import TOP
from ..reason import CAPS, Fault
from ..script import Script
from ..tell import Teller

OTHER = {"eperm": "einval", "einval": "eperm", "eacces": "eperm"}
SCRIPTS = (
    *sorted((TOP / "examples").glob("*.trace")),
    *sorted((TOP / "cases").glob("prctl/*.trace")),
    *sorted((TOP / "cases").glob("execve/*.trace")),
    *sorted((TOP / "cases").glob("set*/*.trace")),
)


def is_fault(teller: Teller, decision: Decision) -> bool:
    """Whether the sentence of a decision is a fault."""
    try:
        teller.explainer.reasons(decision)
    except Fault:
        return True
    return False


def of_errors(teller: Teller) -> list[str]:
    """Each refusal by a rule is answered with another error."""
    found = []
    for decision in teller.journal.decisions:
        told = decision.told
        if decision.reason is None and told[0] in OTHER:
            decision.told = [OTHER[told[0]]]
            if not is_fault(teller, decision):
                found.append(f"line {decision.line}: {told[0]} may be {OTHER[told[0]]}")
            decision.told = told
    return found


def of_sets(teller: Teller) -> list[str]:
    """A capability is put into each set, or taken out of it, behind each change of a credential."""
    found = []
    known = teller.values.known
    for decision in teller.journal.decisions:
        if decision.refused or decision.after is None or decision.before == decision.after:
            continue
        true = known[decision.after, CAPS]
        for place in range(5):
            other = [*true]
            other[place] = format(int(true[place], 16) ^ 1 << 20, "x")
            known[decision.after, CAPS] = other
            if not is_fault(teller, decision):
                found.append(f"line {decision.line}: set {place} may be {other[place]}")
        known[decision.after, CAPS] = true
    return found


def faults() -> list[str]:
    """Bent answers that made no fault."""
    found = []
    for path in SCRIPTS:
        report = path.with_suffix(".report")
        if report.exists():
            teller = Teller(Script(path.read_text()), report.read_text())
            teller.explainer.explained(teller.journal.decisions)
            found += [f"{path.name}: {it}" for it in of_errors(teller) + of_sets(teller)]
    return found
