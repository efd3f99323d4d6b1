"""One script, by all that is compared: its closed search with walks and with the bounds."""

from __future__ import annotations

from dataclasses import dataclass, field, fields

from ..asking import Runner
from ..faults import Bad, Limit, NotFound
from ..order import scope_of
from ..search import Search
from ..start import Start
from . import boxes, filewalks, walks
from .scripts import Case, starts


@dataclass(frozen=True)
class Size:
    """How much is done of a script: how many states are kept at most, in how many scripts walks go,
    and how many walks change files."""

    most: int
    scripts: int
    filewalks: int


@dataclass
class Sum:
    """What was done."""

    scripts: int = 0
    starts: int = 0
    again: int = 0
    large: int = 0
    long: int = 0
    states: int = 0
    tried: int = 0
    steps: int = 0
    seen: int = 0
    file_steps: int = 0
    none: int = 0
    excluded: int = 0
    faults: list[str] = field(default_factory=list)

    def __add__(self, other: Sum) -> Sum:
        """Both."""
        return Sum(
            **{it.name: getattr(self, it.name) + getattr(other, it.name) for it in fields(self)}
        )


def closed(start: Start, most: int) -> Search:
    """The search of all that a start leads to."""
    scope = scope_of((), start.files, start.roots(), start.plain is not None)
    search = Search(Runner(False), start, scope, (), True, most)
    search.run()
    return search


# The starts that this process has compared: many scripts of cases/ end alike.
DONE: set[object] = set()


def is_again(start: Start) -> bool:
    """Whether the like was compared already: the same states, files and namespaces."""
    states = frozenset((thread.state, thread.namespace) for thread in start.threads)
    chains = tuple(tuple(chain) for chain in start.chains())
    key = (states, tuple(start.files), chains, start.plain is None)
    found = key in DONE
    DONE.add(key)
    return found


def of_start(case: Case, start: Start, size: Size, total: Sum) -> None:
    """Compares one start of a script. Without walks the like of it is compared once."""
    name = f"{case.name} {start.task}"
    total.starts += 1
    if not size.scripts and is_again(start):
        total.again += 1
        return
    try:
        search = closed(start, size.most)
    except Limit:
        total.large += 1
        return
    total.states += search.kept.count
    total.tried += search.tried
    compared = boxes.compare(name, search)
    total.none += compared.none
    total.excluded += compared.excluded
    total.faults += compared.faults
    if size.scripts:
        walked = walks.walk(search, name, size.scripts)
        total.steps += walked.steps
        total.seen += len(walked.seen)
        total.faults += [f"{name}: no kept state covers {text}" for text in walked.outside[:1]]
    changed = filewalks.walk(search, name, size.filewalks)
    total.file_steps += changed.steps
    total.faults += [f"{name}: beyond the bounds: {text}" for text in changed.outside[:1]]


def compare(case: Case, size: Size) -> Sum:
    """Compares a script."""
    total = Sum(scripts=1)
    try:
        for start in starts(case):
            of_start(case, start, size, total)
    except Limit:
        # The script is nearly as long as one may be: no question has room behind it.
        total.long += 1
    except (Bad, NotFound) as fault:
        total.faults.append(f"{case.name}: {fault}")
    return total
