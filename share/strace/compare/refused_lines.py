"""Calls that the kernel refused and the program allows.

They changed nothing, so what comes later is told by a script in which they are comments.
"""

from __future__ import annotations

from collections.abc import Callable
from dataclasses import dataclass, replace

from ..script.script import Line
from . import file_rows
from .possible_rows import CHANGED

# How often a script is run again without the first such lines, and then without all such lines.
RUNS = 20

# A report's answers by the lines of its script.
Answers = Callable[[str], dict[int, str]]


@dataclass(frozen=True)
class ScriptRun:
    """A script as it was run, its report's answers, and those of the lines that are comments."""

    lines: list[Line]
    found: dict[int, str]

    def text(self) -> str:
        """The script that was run."""
        return text_of(self.lines)


def text_of(lines: list[Line]) -> str:
    """The text of a script."""
    return "".join(line.text + "\n" for line in lines)


def refused(line: Line) -> bool:
    """Whether the kernel refused a call that would have changed something."""
    answer, form = line.answer, line.words[1:2]
    return answer is not None and not answer.startswith("ok") and form[0] in CHANGED


def only_kernel_refused(line: Line, answer: str | None) -> bool:
    """Whether the kernel refused what the program didn't."""
    return refused(line) and answer is not None and answer.split()[0] in ("ok", "aborted")


def outside_of_rules(line: Line) -> bool:
    """Whether something else than the rules may have refused it, as the log itself tells."""
    denied = line.facts.denied and line.words[1] == "setgroups"
    return refused(line) and bool(line.facts.filtered or denied)


def as_comments(lines: list[Line]) -> tuple[str, int]:
    """The script where nobody runs it: what may be refused so is a comment; and how many are."""
    kept = [as_comment(line) if outside_of_rules(line) else line for line in lines]
    return text_of(kept), sum(map(outside_of_rules, lines))


def first_ones(lines: list[Line], numbers: list[int]) -> list[int]:
    """The first of these lines in each process, but not in one that descends from another of them,
    or has executed a file that another one changed, nor one on such a file: what such a process may
    do can come from what the other one's line changed."""
    found: list[int] = []
    process_of: dict[str, str] = {}
    passed: set[str] = set()
    changed: set[str] = set()
    for number, line in enumerate(lines, 1):
        task, form, *others = [*line.words, ""][:4]
        process = process_of.get(task, "")
        if task == "init":
            process_of[form] = others[0]
        elif form in file_rows.OF_FILES and others[0] in changed:
            passed |= {process} if form == "exec" or number in numbers else set()
        elif number in numbers:
            found += [number] if process not in passed else []
            passed.add(process)
            changed |= {others[0]} if form in file_rows.FORMS else set()
        elif form == "spawn":
            process_of[others[0]] = process
        elif form == "fork":
            process_of[others[0]] = others[1]
            passed |= {others[1]} if process in passed else set()
    return found


def as_comment(line: Line) -> Line:
    """The line as a comment, which takes its place."""
    return line if line.text.startswith("#") else replace(line, text=f"# {line.text}")


def run_script(lines: list[Line], answers: Answers) -> ScriptRun:
    """Runs a script, as often as it takes until the kernel's refusals leave no trace in it."""
    lines = lines[:]
    told: dict[int, str] = {}
    found = answers(text_of(lines))
    for count in range(2 * RUNS):
        numbers = [
            number
            for number, line in enumerate(lines, 1)
            if number not in told and only_kernel_refused(line, found.get(number))
        ]
        if not numbers:
            break
        for number in first_ones(lines, numbers) if count < RUNS else numbers:
            told[number] = found[number]
            lines[number - 1] = as_comment(lines[number - 1])
        found = answers(text_of(lines))
    return ScriptRun(lines, found | told)
