"""Questions on the scripts of examples/reach, with the answers that were worked out by hand.

A line of the table is a script, a question, and a status; where it can be had also the number of
calls, which is 0 where it is had at once. Each witness is run by the program once more.
"""

from __future__ import annotations

import contextlib
import io
from dataclasses import dataclass
from pathlib import Path

from ..answer import Inquiry, Verdict
from ..asking import Runner
from ..command import inquiry_of, parsed, status_of
from ..goals import Goal
from ..state import QUESTIONS, state_at
from ..witness import Witness

FOLDER = Path(__file__).resolve().parents[3] / "examples" / "reach"
TABLE = FOLDER / "questions"


@dataclass(frozen=True)
class Asked:
    """A question with its answer: a status, and the number of calls where it can be had."""

    script: str
    words: tuple[str, ...]
    status: int
    calls: int | None

    def __str__(self) -> str:
        return f"{self.script} {' '.join(self.words)}"


def table() -> list[Asked]:
    """All questions."""
    found = []
    for line in TABLE.read_text(encoding="ascii").splitlines():
        if not line or line.startswith("#"):
            continue
        question, _, answer = line.partition(" : ")
        script, *words = question.split()
        status, *calls = answer.split()
        found.append(Asked(script, tuple(words), int(status), int(calls[0]) if calls else None))
    return found


def inquiry(asked: Asked) -> Inquiry:
    """The inquiry of a question."""
    given = parsed([str(FOLDER / f"{asked.script}.trace"), *asked.words])
    return inquiry_of(given)


def has_it(witness: Witness, goal: Goal) -> bool:
    """Whether the program leads the task to what is asked for by the lines of a witness."""
    asked = [f"{witness.task} {question}" for question in QUESTIONS]
    answers = Runner().answers([*witness.lines, *asked])
    state = state_at(answers, len(witness.lines) + 1)
    return state is not None and goal.is_had(state)


def faults() -> list[str]:
    """What is answered otherwise."""
    found = []
    for asked in table():
        with contextlib.redirect_stderr(io.StringIO()):
            inquired = inquiry(asked)
            answers = inquired.answered()
        first = answers[0]
        calls = None
        if first.verdict is Verdict.HAS:
            calls = 0
        elif first.witness:
            calls = len(first.witness.calls)
        status = status_of(answers)
        if (status, calls) != (asked.status, asked.calls):
            found.append(f"{asked}: status {status}, calls {calls}")
        if first.witness and not has_it(first.witness, first.goal):
            found.append(f"{asked}: the witness doesn't lead there")
    return found
