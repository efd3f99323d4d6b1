"""Each line is told of by itself, and so is the life of some capabilities in each task: no sentence
of these is a fault either."""

from __future__ import annotations

from ..life import Life
from ..names import NUMBERS
from ..program import TOP
from ..reason import Bad, NotFound
from ..script import Script
from ..tell import Teller

CAPS = [NUMBERS[name] for name in ("CAP_NET_RAW", "CAP_SETUID", "CAP_DAC_OVERRIDE")]
SCRIPTS = (
    *sorted((TOP / "examples").glob("*.trace")),
    *sorted((TOP / "cases").glob("threads/*.trace")),
    *sorted((TOP / "cases").glob("lanes/*.trace")),
)
LINES = 100


def of_lines(script: Script, report: str) -> list[str]:
    """Faults of single lines."""
    found = []
    for number in range(1, len(script.lines) + 1):
        teller = Teller(script, report, number)
        try:
            told = teller.whole_line(number)
        except Bad:
            continue  # A comment makes no event.
        if teller.faults or not told:
            found.append(f"line {number}: {told}")
    return found


def of_lives(script: Script, report: str) -> list[str]:
    """Faults of the lives of capabilities."""
    found = []
    tasks = {it.task for it in Teller(script, report).journal.births}
    for task in sorted(tasks):
        for capability in CAPS:
            teller = Teller(script, report, None, 1 << capability)
            told = Life(teller, task, capability).told()
            if teller.faults:
                found.append(f"{task}: {told}")
    return found


def faults() -> list[str]:
    """What isn't told, over short scripts and their reports."""
    found = []
    for path in SCRIPTS:
        script = Script(path.read_text(encoding="ascii"))
        for report in (path.with_suffix(".report"), path.with_suffix(".turns")):
            if len(script.lines) > LINES or not report.exists():
                continue
            text = report.read_text(encoding="ascii")
            try:
                found += [f"{path.name}: {it}" for it in of_lines(script, text)]
                found += [f"{path.name}: {it}" for it in of_lives(script, text)]
            except NotFound as fault:
                found.append(f"{path.name}: {fault}")
    return found
