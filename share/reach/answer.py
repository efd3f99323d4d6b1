"""The answer to each question: first by the bounds, then by the search."""

from __future__ import annotations

from collections.abc import Sequence
from dataclasses import dataclass, replace
from enum import Enum

from .asking import Runner
from .bounds import Bounds
from .faults import Limit
from .goals import Goal
from .growth import Facts, bounds_of, facts_of
from .order import Scope, scope_of
from .search import MOST_STATES, Path, Search
from .start import Start
from .witness import Shortening, Witness, witness_of


class Verdict(Enum):
    """What is answered."""

    CANT = "can't"
    HAS = "has"
    CAN = "can"
    UNKNOWN = "not known"


class By(Enum):
    """What an answer was found by."""

    START = "start"
    BOUNDS = "bounds"
    SEARCH = "search"


@dataclass(frozen=True)
class Answer:
    """The answer to one question. `why` says why it isn't known."""

    goal: Goal
    verdict: Verdict
    by: By
    thread: str = ""
    witness: Witness | None = None
    why: str = ""


@dataclass(frozen=True)
class How:
    """How it is asked: whether files stay as they are, how many states are kept at most, and
    whether every state is wanted."""

    files_stay: bool = False
    most: int = MOST_STATES
    states: bool = False


class Inquiry:
    """Some questions of one start."""

    def __init__(self, runner: Runner, start: Start, goals: Sequence[Goal], how: How) -> None:
        self.runner = runner
        self.start = start
        self.goals = list(goals)
        self.how = how
        self.facts: Facts = facts_of(start, not how.files_stay)
        self.bounds: Bounds = bounds_of(start, self.facts)
        self.scope: Scope = scope_of(goals, start.files, start.roots(), start.plain is not None)
        self.answers: dict[Goal, Answer] = {}
        self.search: Search | None = None
        self.states = self.calls = 0
        # Whether the search came to its end.
        self.closed = False

    def answered(self) -> list[Answer]:
        """All answers, in the order of the questions."""
        for goal in self.goals:
            self.by_start(goal)
        self.by_bounds()
        self.by_search(self.without_execve(), False)
        self.by_search(self.waiting(), True)
        if self.how.states and not self.closed:
            self.see_all()
        return [self.answers[goal] for goal in self.goals]

    def waiting(self) -> list[Goal]:
        """The questions without an answer."""
        return [goal for goal in self.goals if goal not in self.answers]

    def by_start(self, goal: Goal) -> None:
        """What a thread has at the line."""
        for thread in self.start.threads:
            if goal.is_had(thread.state):
                self.answers[goal] = Answer(goal, Verdict.HAS, By.START, thread.name)
                return

    def by_bounds(self) -> None:
        """What lies beyond the bounds."""
        for goal in self.waiting():
            if self.bounds.excludes(goal):
                self.answers[goal] = Answer(goal, Verdict.CANT, By.BOUNDS)

    def without_execve(self) -> list[Goal]:
        """What may be had without an execve, as far as the bounds tell: a witness without one is
        looked for first."""
        facts = replace(self.facts, changes=False, executes=False)
        bounds = bounds_of(self.start, facts)
        return [goal for goal in self.waiting() if not bounds.excludes(goal)]

    def by_search(self, goals: list[Goal], executes: bool) -> None:
        """Searches for these. What isn't found without an execve is looked for with one."""
        if not goals:
            return
        search = Search(self.runner, self.start, self.scope, goals, executes, self.how.most)
        limit = ""
        try:
            search.run()
        except Limit as met:
            limit = str(met)
        self.states += search.kept.count
        self.calls += search.tried
        for goal, node in search.found.items():
            self.answers[goal] = self.found(goal, search.path(node))
        if executes:
            self.search = search
            self.closed = not limit and not search.over
            for goal in search.pending:
                self.answers[goal] = self.not_found(goal, limit)

    def found(self, goal: Goal, path: Path) -> Answer:
        """That it can, with the calls."""
        calls = Shortening(self.runner, self.start, goal, path.thread).shortened(path.calls)
        witness = witness_of(self.start, path, calls, goal)
        return Answer(goal, Verdict.CAN, By.SEARCH, path.thread, witness)

    def not_found(self, goal: Goal, limit: str) -> Answer:
        """That it can't, or that it isn't known: the search tries no calls that change files, so
        its end says something only where they stay as they are."""
        if limit:
            return Answer(goal, Verdict.UNKNOWN, By.SEARCH, why=limit)
        if self.how.files_stay or not self.may_change():
            return Answer(goal, Verdict.CANT, By.SEARCH)
        why = "no call on its credential leads there, but it may change or make a file"
        return Answer(goal, Verdict.UNKNOWN, By.SEARCH, why=why)

    def may_change(self) -> bool:
        """Whether a change of files may matter at all: under no_new_privs it doesn't."""
        return not self.bounds.nnp

    def see_all(self) -> None:
        """Finds every state, without a question."""
        self.search = Search(self.runner, self.start, self.scope, (), True, self.how.most)
        self.search.run()
        self.closed = True
