"""Random walks that change files too, against the bounds that allow for that. A script has one
world of files, so each walk is a script of its own."""

from __future__ import annotations

import random
from dataclasses import dataclass, field

from ..bounds import Bounds
from ..growth import bounds_of, facts_of
from ..search import Search
from ..state import QUESTIONS, state_at
from .chance import attribute
from .walks import Walker

STEPS = 30
MODES = (0o4755, 0o6755, 0o2755, 0o755, 0o4711, 0o700)


@dataclass
class FileWalked:
    """What walks have come to: steps, and those beyond the bounds."""

    steps: int = 0
    changes: int = 0
    outside: list[str] = field(default_factory=list)


def file_call(walker: Walker, name: str) -> str:
    """A call that changes a file, an execve, or any other call."""
    chance, drawn = walker.chance, walker.chance.random()
    if drawn < 0.12:
        return f"chmod {name} {chance.choice(MODES):04o}"
    if drawn < 0.2:
        return f"chown {name} {walker.id(walker.users, True)} {walker.id(walker.groups, True)}"
    if drawn < 0.26:
        return chance.choice((f"setattr {name} {attribute(chance)}", f"clearattr {name}"))
    return f"exec {name}" if drawn < 0.45 else walker.call()


def one_walk(search: Search, walker: Walker) -> tuple[list[str], list[int]]:
    """A script with a walk, and the lines behind which it is asked about."""
    thread = walker.chance.choice(search.start.threads).name
    task = search.task
    lines = [*search.start.prefix, f"{thread} fork {task} p{task[1:]}"]
    marks = []
    for _ in range(STEPS):
        name = walker.chance.choice(search.files)
        lines.append(f"{task} {file_call(walker, name)}")
        marks.append(len(lines) + 1)
        lines += [f"{task} {question}" for question in QUESTIONS]
    return lines, marks


def walk(search: Search, seed: str, walks: int) -> FileWalked:
    """So many walks, against the bounds in which files may change."""
    found = FileWalked()
    bounds: Bounds = bounds_of(search.start, facts_of(search.start, True))
    walker = Walker(search, random.Random(seed))
    for _ in range(walks if search.files else 0):
        lines, marks = one_walk(search, walker)
        answers = search.runner.answers(lines)
        for line in marks:
            state = state_at(answers, line)
            found.steps += 1
            found.changes += lines[line - 2].split()[1] in ("chmod", "chown", "setattr")
            if state is not None and not bounds.has(state):
                calls = [it for at in marks if at <= line for it in [lines[at - 2]]]
                found.outside.append(f"{state.text()} by {'; '.join(calls)}")
    return found
