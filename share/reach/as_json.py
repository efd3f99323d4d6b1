"""Answers as JSON."""

from __future__ import annotations

import json

from .answer import Answer, Inquiry
from .rows import rows_of
from .told import NOT_MODELLED, box_of, states_of


def answer_of(answer: Answer) -> dict[str, object]:
    """One answer."""
    goal = answer.goal
    found: dict[str, object] = {
        "asked": goal.kind.value, "number": goal.number, "set": goal.where.value,
        "text": str(goal), "answer": answer.verdict.value, "by": answer.by.value,
    }  # fmt: skip
    if goal.kind.value != "cap":
        del found["set"]
    if answer.thread:
        found["thread"] = answer.thread
    if answer.witness:
        found["calls"] = answer.witness.calls
        found["lines"] = answer.witness.shown
        found["witness"] = answer.witness.text
    if answer.why:
        found["why"] = answer.why
    return found


def as_json(inquiry: Inquiry, answers: list[Answer], box: bool) -> str:
    """All that is told, as one object."""
    start = inquiry.start
    found: dict[str, object] = {
        "task": start.task, "line": start.line, "answers": [answer_of(it) for it in answers],
        "states": inquiry.states, "calls": inquiry.calls,
        "bounds": dict(inquiry.bounds.parts()),
        "files": [file.name for file in start.files], "files_stay": inquiry.how.files_stay,
        "threads": [thread.name for thread in start.threads],
        "not_modelled": NOT_MODELLED, "rows": [row.name for row in rows_of(inquiry, answers)],
    }  # fmt: skip
    if box:
        found["box"] = [line.strip() for line in box_of(inquiry)]
    if inquiry.how.states:
        found["closed"] = inquiry.closed
        found["state_lines"] = [line.strip() for line in states_of(inquiry)]
    return json.dumps(found, indent=2)
