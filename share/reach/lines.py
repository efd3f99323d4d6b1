"""The lines of a script: what is added to it, and what its copies leave out."""

from __future__ import annotations

import re
from collections.abc import Iterator, Sequence

import limits
from why.values import NOTHING

DECLARATIONS = ("file", "ns", "init")
TASKS = re.compile(r"\b[tp](\d{1,5})\b")
# The greatest number of a task, and of the line that `act` names.
LAST_TASK, LAST_LINE = limits.LAST_NUMBER, limits.LINES
NONE = "#"


def words_of(line: str) -> list[str]:
    """The words of a line; a comment has none."""
    words = line.split()
    return [] if words and words[0].startswith("#") else words


def behind_declarations(lines: Sequence[str]) -> int:
    """How many lines there are up to the last declaration."""
    numbered = enumerate(map(words_of, lines), 1)
    return max((at for at, words in numbered if words and words[0] in DECLARATIONS), default=0)


def act_of(line: str) -> int | None:
    """The line that began the call of which this is a step, if it is one."""
    words = words_of(line)
    return int(words[1]) if len(words) == 2 and words[0] == "act" else None


def with_declared(lines: Sequence[str], added: Sequence[str]) -> list[str]:
    """The lines with declarations more. `act` names a line by its number: that of a call moves."""
    if not added:
        return list(lines)
    place = behind_declarations(lines)
    return [*lines[:place], *added, *(moved(line, place, len(added)) for line in lines[place:])]


def moved(line: str, place: int, count: int) -> str:
    """A line, of which those behind a place have moved by so many."""
    number = act_of(line)
    if number is None or number <= place:
        return line
    return f"act {number + count}" if number + count <= LAST_LINE else NONE


def changes_nothing(line: str) -> bool:
    """Whether a line leaves all credentials, tasks, labels and files as they are. Those of lanes do
    too: `run` runs the lines in their order."""
    words = words_of(line)
    if not words or words[0] in ("lane", "ask"):
        return True
    return words[0][0] == "t" and words[0][1:].isdigit() and words[1] in NOTHING


def without_idle(lines: Sequence[str]) -> list[str]:
    """The lines that change something, with the numbers in `act` that they have then."""
    found: list[str] = []
    place: dict[int, int] = {}
    for number, line in enumerate(lines, 1):
        begun = act_of(line)
        if begun is not None:
            if begun in place:
                found.append(f"act {place[begun]}")
        elif not changes_nothing(line):
            found.append(line)
            place[number] = len(found)
    return found


def free_numbers(lines: Sequence[str]) -> Iterator[int]:
    """Numbers that no task and no process of these lines has, those behind the greatest first."""
    used = {int(found[1]) for line in lines for found in TASKS.finditer(line)}
    last = max(used, default=0)
    yield from range(last + 1, LAST_TASK + 1)
    yield from (number for number in range(last, 0, -1) if number not in used)
