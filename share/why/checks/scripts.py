"""Every script of cases/ and examples/: each refusal and each change of a set has its sentence."""

from __future__ import annotations

from collections import Counter
from collections.abc import Iterator
from dataclasses import dataclass, field
from pathlib import Path

import suite
from program import LANE

from ..records import Decision
from ..program import TOP, report_of, runs
from ..reason import Bad, Fault, NotFound
from ..script import Script
from ..tell import Teller

# How many answers of a kind are kept to be read.
KEPT = 3
# A script with lanes is run by `lanes` so often.
LANE_RUNS = 2


@dataclass(frozen=True)
class File:
    """A file of cases."""

    name: str
    path: Path


@dataclass
class Sum:
    """What was found in some scripts."""

    scripts: int = 0
    refusals: int = 0
    changes: int = 0
    faults: list[str] = field(default_factory=list)
    sources: Counter[str] = field(default_factory=Counter)
    samples: dict[tuple[str, ...], list[list[str]]] = field(default_factory=dict)

    def __add__(self, other: Sum) -> Sum:
        """Both."""
        return Sum(
            self.scripts + other.scripts, self.refusals + other.refusals,
            self.changes + other.changes, self.faults + other.faults, self.sources + other.sources,
            {**other.samples, **self.samples},
        )  # fmt: skip


def files() -> list[File]:
    """The files with scripts, those that take longest first."""
    found = [
        File(f"{subject.name}/{path.stem}", path)
        for subject in suite.subjects()
        for path in sorted(subject.iterdir())
        if path.suffix in (".trace", ".lines", ".py")
    ]
    found += [File(f"examples/{it.stem}", it) for it in sorted((TOP / "examples").glob("*.trace"))]
    long = ("execve/every", "setresuid/every", "setreuid/every", "access/every", "kill/every")
    return sorted(found, key=lambda it: not it.name.startswith(long))


def cases(file: File) -> Iterator[tuple[str, bytes, bytes]]:
    """The scripts of a file, each with a report: that of `run`, and others that are legal."""
    for case in suite.READERS[file.path.suffix](file.path, file.name):
        if case.words != ("run",) or case.ends() != 0:
            continue
        report = case.written
        yield case.name, case.given, report_of(case.given).encode() if report is None else report
        for turns in case.reports:
            yield f"{case.name}, turns", case.given, turns
        if LANE.search(case.given):
            for _ in range(LANE_RUNS):
                yield f"{case.name}, lanes", case.given, runs(["lanes"], case.given)[1].encode()


def explained(file: File, samples: bool) -> Sum:
    """Explains all scripts of a file, and counts."""
    found = Sum()
    for name, given, report in cases(file):
        try:
            teller = Teller(Script(given.decode("latin-1")), report.decode("latin-1"))
            count(name, teller, found, samples)
        except (Bad, Fault, NotFound) as fault:
            found.faults.append(f"{name}: {fault}")
        found.scripts += 1
    return found


def count(name: str, teller: Teller, found: Sum, samples: bool) -> None:
    """Counts the sentences of a script; one that lacks or doesn't lead to the answer is a fault."""
    decisions = teller.journal.decisions
    for decision, reasons in zip(decisions, teller.explainer.explained(decisions), strict=True):
        if not isinstance(reasons, list):
            found.faults.append(f"{name}: line {decision.line}: {reasons}")
            continue
        changed = not decision.refused and teller.changed(decision)
        found.refusals += decision.refused
        found.changes += changed
        if not (decision.refused or changed):
            continue
        if not reasons:
            found.faults.append(f"{name}: line {decision.line}: no sentence")
        for reason in reasons:
            found.sources[reason.source] += 1
        if samples:
            keep(name, teller, decision, found)


def keep(name: str, teller: Teller, decision: Decision, found: Sum) -> None:
    """Keeps an answer of its kind, to be read."""
    words, told = decision.words, decision.told
    own = words[2:3] if words[0] in ("begin", "change", "ask", "raw") else decision.change
    call = (own or [])[:1]
    kept = found.samples.setdefault((words[0], *call, told[0]), [])
    if len(kept) < KEPT:
        kept.append([f"{name}:", *teller.told([decision])])
