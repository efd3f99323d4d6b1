"""The calls that lead to what is asked for: none of them can be left out, and no capability out of
the sets of a capset(2). That is not to say that no other way is shorter.

All candidates of a round stand in one script: the calls, less more and more of what is tried to be
left out, up to the first that is needed.
"""

from __future__ import annotations

from collections.abc import Sequence
from dataclasses import dataclass

from why.names import LAST

from . import lines
from .asking import LINES, Runner
from .faults import NotFound
from .goals import Goal
from .search import Path
from .start import Start
from .state import QUESTIONS, state_at

# In which order the sets of a capset are made smaller: what is effective has to be permitted.
PLACES = (3, 2, 1)


@dataclass(frozen=True)
class Left:
    """What is left out: a call, or a capability of one of the sets of a capset."""

    call: int
    place: int = 0
    number: int = 0


def without(calls: Sequence[str], left: set[Left]) -> list[str]:
    """The calls without what is left out."""
    gone = {it.call for it in left if not it.place}
    found = []
    for at, call in enumerate(calls):
        words = call.split()
        for it in left:
            if it.call == at and it.place:
                words[it.place] = f"{int(words[it.place], 16) & ~(1 << it.number):x}"
        if at not in gone:
            found.append(" ".join(words))
    return found


def calls_of(calls: Sequence[str]) -> list[Left]:
    """Each call, the last one first."""
    return [Left(at) for at in reversed(range(len(calls)))]


def capabilities_of(calls: Sequence[str]) -> list[Left]:
    """Each capability in a set of a capset."""
    return [
        Left(at, place, number)
        for at, words in enumerate(call.split() for call in calls)
        if words[0] == "capset"
        for place in PLACES
        for number in range(LAST + 1)
        if int(words[place], 16) >> number & 1
    ]


class Shortening:
    """Shortens the calls that lead a thread to a goal."""

    def __init__(self, runner: Runner, start: Start, goal: Goal, thread: str) -> None:
        self.runner = runner
        self.start = start
        self.goal = goal
        self.thread = thread
        self.task = f"t{start.free[0]}"

    def lines_of(self, calls: Sequence[str]) -> list[str]:
        """A fork that makes the calls and is asked about."""
        task = self.task
        return [
            f"{self.thread} fork {task} p{task[1:]}", *(f"{task} {call}" for call in calls),
            *(f"{task} {question}" for question in QUESTIONS), f"{task} exit",
        ]  # fmt: skip

    def are_enough(self, candidates: Sequence[Sequence[str]]) -> list[bool]:
        """Of some candidates, as many as there is room for, whether each leads to the goal."""
        script = list(self.start.prefix)
        asked = []
        for calls in candidates:
            some = self.lines_of(calls)
            if len(script) + len(some) > LINES:
                break
            script += some
            asked.append(len(script) - len(QUESTIONS))
        answers = self.runner.answers(script)
        states = [state_at(answers, line) for line in asked]
        return [state is not None and self.goal.is_had(state) for state in states]

    def shortened(self, calls: Sequence[str]) -> list[str]:
        """The calls without what isn't needed."""
        if not all(self.are_enough([calls])):
            raise NotFound("the calls that were found don't lead there once more")
        found = list(calls)
        for parts in (calls_of, capabilities_of):
            before: list[str] = []
            while found != before:
                before, found = found, self.with_less(found, parts(found))
        return found

    def with_less(self, calls: list[str], parts: list[Left]) -> list[str]:
        """The calls without those of some parts that aren't needed, one behind another."""
        left: set[Left] = set()
        while parts:
            tried = [without(calls, left | set(parts[: count + 1])) for count in range(len(parts))]
            enough = self.are_enough(tried)
            good = enough.index(False) if False in enough else len(enough)
            left |= set(parts[:good])
            # The one behind those is needed, where it was tried.
            parts = parts[good + (good < len(enough)) :]
        return without(calls, left)


@dataclass(frozen=True)
class Witness:
    """A script that leads to what is asked for, and which of its lines are the calls."""

    task: str
    calls: list[str]
    lines: list[str]
    first: int

    @property
    def text(self) -> str:
        """The script."""
        return "\n".join(self.lines) + "\n"

    @property
    def shown(self) -> list[str]:
        """The lines that were added to the script."""
        return self.lines[self.first - 1 :]


def witness_of(start: Start, path: Path, calls: Sequence[str], goal: Goal) -> Witness:
    """The script of a witness. Where the process has other threads, a child makes the calls: an id
    call of libc is every thread's, and one that can't follow ends the process."""
    executed = {call.split()[1] for call in calls if call.startswith("exec ")}
    added = [line for line in start.added if line.split()[1] in executed]
    script = lines.with_declared(start.given, added)
    first = len(script) + 1
    task = path.thread
    if start.together and calls:
        task = f"t{start.free[0]}"
        script.append(f"{path.thread} fork {task} p{task[1:]}")
    script += [f"{task} {call}" for call in calls]
    return Witness(task, list(calls), script, first)
