"""The scripts that the checks ask about: those of cases/, examples/ and examples/reach."""

from __future__ import annotations

from collections.abc import Iterator
from dataclasses import dataclass
from pathlib import Path

from ..asking import Runner
from ..faults import Bad
from ..start import Options, Start, started

TOP = Path(__file__).resolve().parents[3]
REACH = TOP / "examples" / "reach"
EXAMPLES = TOP / "examples"


@dataclass(frozen=True)
class Case:
    """A script by its name, with the options that it is asked about with."""

    name: str
    text: str
    plain: bool = True
    # No task is asked about but this one.
    task: str = ""


def of_reach() -> list[Case]:
    """The scripts of examples/reach."""
    return [
        Case(path.stem, path.read_text(encoding="ascii"), True, "t1")
        for path in sorted(REACH.glob("*.trace"))
    ]


def of_examples() -> list[Case]:
    """The other examples."""
    return [
        Case(f"examples/{path.stem}", path.read_text(encoding="ascii"))
        for path in sorted(EXAMPLES.glob("*.trace"))
    ]


def of_cases() -> Iterator[Case]:
    """Every script of cases/ that the program runs."""
    import suite

    for subject in suite.subjects():
        for path in sorted(subject.iterdir()):
            if path.suffix not in (".trace", ".lines", ".py"):
                continue
            name = f"{subject.name}/{path.stem}"
            for case in suite.READERS[path.suffix](path, name):
                if case.words == ("run",) and case.ends() == 0:
                    yield Case(case.name, case.given.decode("latin-1"))


def live_tasks(text: str) -> list[str]:
    """The tasks that live at the end of a script."""
    from why.journal import Journal
    from why.program import report_of
    from why.script import Script

    return list(Journal(Script(text), report_of(text.encode("latin-1"))).tasks)


def starts(case: Case, most: int = 2) -> Iterator[Start]:
    """Starts of a script: of the tasks that live at its end, one of each process, so many at most.
    A task that can't be asked about is left out."""
    names = [case.task] if case.task else live_tasks(case.text)
    done: set[str] = set()
    for task in names:
        if len(done) == most:
            return
        try:
            start = started(Runner(False), case.text, Options(task, plain=case.plain))
        except Bad:
            continue
        process = start.journal.tasks[task].process
        if process not in done:
            done.add(process)
            yield start
