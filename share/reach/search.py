"""The search: from the start, level by level, until what is asked for is found or no state is new.

A call is tried in a fork of the task, whose state is asked behind it. A script has as many tries as
there is room for: it is the script up to the line, and for each state a fork that goes the way to
it, and of that fork one for each try.
"""

from __future__ import annotations

from collections.abc import Iterable, Iterator
from dataclasses import dataclass, field

from .asking import BYTES, LINES, Runner
from .faults import Limit, NotFound
from .goals import Goal
from .moves import Calls, moves, raised
from .order import Kept, Node, Scope
from .start import Start
from .state import QUESTIONS, State, state_at

MOST_STATES = 20000


@dataclass(frozen=True)
class Try:
    """Calls that are tried in a state."""

    node: Node
    calls: Calls


@dataclass(frozen=True)
class Step:
    """How a state was reached: from which one, by which calls."""

    before: Node
    calls: Calls


@dataclass(frozen=True)
class Path:
    """The thread that it begins with, and the calls from there on."""

    thread: str
    calls: Calls


@dataclass
class Batch:
    """A script of tries, and the lines behind which each is asked about."""

    lines: list[str]
    size: int
    marks: list[tuple[int, Try | Node]] = field(default_factory=list)
    last: Node | None = None

    def add(self, some: list[str]) -> None:
        """Lines more."""
        self.lines += some
        self.size += sum(map(len, some)) + len(some)


class Search:
    """The states that calls lead to, and how."""

    def __init__(
        self, runner: Runner, start: Start, scope: Scope, goals: Iterable[Goal],
        executes: bool = True, most: int = MOST_STATES,
    ) -> None:  # fmt: skip
        self.runner = runner
        self.start = start
        self.scope = scope
        self.most = most
        self.files = [file.name for file in start.files] if executes else []
        self.kept = Kept(scope)
        self.steps: dict[Node, Step] = {}
        self.threads: dict[Node, str] = {}
        self.pending = list(goals)
        self.whole = not self.pending
        self.found: dict[Goal, Node] = {}
        self.tried = 0
        self.prefix_size = sum(map(len, start.prefix)) + len(start.prefix)
        self.task, self.other = (f"t{number}" for number in start.free)

    @property
    def over(self) -> bool:
        """Whether all that is asked for was found."""
        return not self.pending and not self.whole

    def run(self) -> None:
        """Goes on until all is found or no state is new."""
        level = []
        for thread in self.start.threads:
            node = Node(thread.state, thread.namespace)
            if self.see(node):
                self.threads[node] = thread.name
                level.append(node)
        while level and not self.over:
            level = self.level_behind(level)

    def level_behind(self, level: list[Node]) -> list[Node]:
        """The states behind these. First they are made as large as they may be: a state that
        another one covers needs no more calls."""
        level = level + self.behind(
            Try(node, calls) for node in level for calls in raised(node.state)
        )
        return self.behind(
            Try(node, calls)
            for node in level
            if not self.kept.is_below(node)
            for calls in moves(node.state, self.scope, self.files)
        )

    def see(self, node: Node, step: Step | None = None) -> bool:
        """Keeps a state that none covers, and notes what it has; whether it was kept."""
        if self.kept.covers(node):
            return False
        if self.kept.count >= self.most:
            raise Limit(f"more than {self.most:,} states")
        self.kept.add(node)
        if step is not None:
            self.steps[node] = step
        for goal in [goal for goal in self.pending if goal.is_had(node.state)]:
            self.found[goal] = node
            self.pending.remove(goal)
        return True

    def path(self, node: Node) -> Path:
        """How a state is reached."""
        parts: list[Calls] = []
        while node in self.steps:
            step = self.steps[node]
            parts.append(step.calls)
            node = step.before
        return Path(self.threads[node], tuple(call for part in reversed(parts) for call in part))

    def behind(self, tries: Iterable[Try]) -> list[Node]:
        """The new states that tries lead to."""
        found: list[Node] = []
        if self.over:
            return found
        for batch in self.batches(tries):
            found += self.told(batch)
            self.runner.progress(self.kept.count, self.tried)
            if self.over:
                break
        return found

    def batches(self, tries: Iterable[Try]) -> Iterator[Batch]:
        """Scripts of tries."""
        batch = self.empty()
        for one in tries:
            some = self.lines_of(batch, one)
            if batch.marks and self.is_full(batch, some):
                yield self.ended(batch)
                batch = self.empty()
                some = self.lines_of(batch, one)
            if self.is_full(batch, some):
                raise Limit("the way to a state is longer than a script may be")
            self.put(batch, one, some)
        if batch.marks:
            yield self.ended(batch)

    def empty(self) -> Batch:
        """A script up to the line."""
        return Batch(list(self.start.prefix), self.prefix_size)

    def is_full(self, batch: Batch, some: list[str]) -> bool:
        """Whether there is no room for these lines."""
        size = batch.size + sum(map(len, some)) + len(some)
        return len(batch.lines) + len(some) >= LINES or size >= BYTES - 100

    def way_to(self, node: Node) -> list[str]:
        """A fork that goes to a state, and is asked for it."""
        path, task = self.path(node), self.task
        return [
            f"{path.thread} fork {task} p{task[1:]}", *(f"{task} {call}" for call in path.calls),
            *(f"{task} {question}" for question in QUESTIONS),
        ]  # fmt: skip

    def lines_of(self, batch: Batch, one: Try) -> list[str]:
        """The lines of a try, with the way to its state where that is another one."""
        some: list[str] = []
        if one.node is not batch.last:
            some += [] if batch.last is None else [f"{self.task} exit"]
            some += self.way_to(one.node)
        other = self.other
        some.append(f"{self.task} fork {other} p{other[1:]}")
        some += [f"{other} {call}" for call in one.calls]
        some += [f"{other} {question}" for question in QUESTIONS]
        return [*some, f"{other} exit"]

    def put(self, batch: Batch, one: Try, some: list[str]) -> None:
        """Puts the lines of a try into a script."""
        end = len(batch.lines) + len(some)
        if one.node is not batch.last:
            before = len(QUESTIONS) + len(one.calls) + 2
            batch.marks.append((end - before - len(QUESTIONS) + 1, one.node))
        batch.marks.append((end - len(QUESTIONS), one))
        batch.add(some)
        batch.last = one.node

    def ended(self, batch: Batch) -> Batch:
        """A whole script."""
        batch.add([f"{self.task} exit"])
        return batch

    def told(self, batch: Batch) -> list[Node]:
        """The new states of a script."""
        answers = self.runner.answers(batch.lines)
        found: list[Node] = []
        for line, what in batch.marks:
            state = state_at(answers, line)
            if isinstance(what, Node):
                if state != what.state:
                    raise NotFound(f"the way to a state leads elsewhere at line {line} of a copy")
                continue
            self.tried += 1
            node = None if state is None else self.node_of(state, what)
            found += [] if node is None else [node]
            if self.over:
                break
        return found

    def node_of(self, state: State, one: Try) -> Node | None:
        """The state that a try leads to, where it is kept."""
        node = Node(state, one.node.namespace)
        is_kept = state != one.node.state and self.see(node, Step(one.node, one.calls))
        return node if is_kept else None
