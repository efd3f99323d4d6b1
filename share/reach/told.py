"""What is told of answers, as text."""

from __future__ import annotations

import textwrap

from why.names import listed

from . import tight
from .answer import Answer, By, Inquiry, Verdict
from .bounds import Bounds
from .rows import rows_of

WIDTH = 100
# So many files are named; more are counted.
MOST_NAMED = 12
NOT_MODELLED = (
    "a user namespace that it makes, another process that it looks into, what is written into a "
    "file (docs/NOT-MODELLED.md)"
)


def wrapped(text: str, indent: int = 2) -> list[str]:
    """A text, broken where it is longer than a line."""
    first, rest = " " * indent, " " * (indent + 2)
    return textwrap.wrap(
        text.replace(",CAP_", ", CAP_"), WIDTH, initial_indent=first, subsequent_indent=rest,
        break_long_words=False, break_on_hyphens=False,
    )  # fmt: skip


def plural(count: int, thing: str) -> str:
    """So many of a thing."""
    return f"{count:,} {thing}" + ("" if count == 1 else "s")


def headline(inquiry: Inquiry, answer: Answer) -> str:
    """The answer in one line."""
    task, goal = inquiry.start.task, answer.goal
    searched = f"{plural(inquiry.states, 'state')}, {plural(inquiry.calls, 'call')}"
    if answer.verdict is Verdict.HAS:
        other = "" if answer.thread == task else f", in its thread {answer.thread}"
        return f"{task} has {goal}{other}"
    if answer.verdict is Verdict.CAN and answer.witness:
        return f"{task} can get {goal}: {plural(len(answer.witness.calls), 'call')}"
    if answer.verdict is Verdict.CANT:
        how = "beyond its bounds" if answer.by is By.BOUNDS else f"{searched}, no state is new"
        return f"{task} can't get {goal}: {how}"
    more = ": --files-stay asks of the files as they stand" if not _limited(answer) else ""
    return f"not known whether {task} can get {goal}: {answer.why} ({searched}){more}"


def _limited(answer: Answer) -> bool:
    """Whether a limit was met, and not a change of files."""
    return "file" not in answer.why


def files_of(inquiry: Inquiry) -> str:
    """The files that an answer is said within."""
    files = [file.text() for file in inquiry.start.files]
    shown = files[:MOST_NAMED]
    more = [plural(len(files) - len(shown), "file") + " more"] if files[MOST_NAMED:] else []
    how = "as they stand" if inquiry.how.files_stay else "whatever it makes of them"
    return f"{listed([*shown, *more])}, {how}" if files else "none"


def bounds_of(bounds: Bounds) -> str:
    """What a task may come to at most."""
    return "; ".join(f"{name} {text}" for name, text in bounds.parts())


def ids_of(inquiry: Inquiry) -> str:
    """The ids that a search tells apart."""
    scope = inquiry.scope
    users = listed(sorted(scope.users))
    groups = f"groups {listed(sorted(scope.groups))}" if scope.by_groups else "no group"
    return f"users {users} and {groups} are told apart, each other one is like any other"


def within(inquiry: Inquiry, answers: list[Answer]) -> list[str]:
    """What a 'can't' is said within."""
    found: list[str] = []
    if any(it.by is By.BOUNDS for it in answers):
        found += wrapped(f"bounds: {bounds_of(inquiry.bounds)}")
    found += wrapped(f"files: {files_of(inquiry)}")
    if any(it.by is By.SEARCH for it in answers):
        found += wrapped(f"ids: {ids_of(inquiry)}")
    threads = [thread.name for thread in inquiry.start.threads]
    if threads[1:]:
        found += wrapped(f"threads: {listed(threads)}")
    elif inquiry.start.together:
        found += wrapped(f"threads: {threads[0]} alone")
    found += wrapped(f"not modelled: {NOT_MODELLED}")
    for row in rows_of(inquiry, answers):
        found += wrapped(f"docs/LINUX.md: {row.name}: {row.text}")
    return found


def box_of(inquiry: Inquiry) -> list[str]:
    """The bounds as a box, one line a part, and the conditions under which no call leads out."""
    box = tight.box_of(inquiry.start, inquiry.bounds, inquiry.facts)
    found = [f"  {name}: {text}" for name, text in box.parts()]
    conditions = box.conditions()
    fails = [it.name for it in conditions if not it.holds]
    what = f"not tight: {listed(fails)}" if fails else "tight, and each file leaves in it"
    return [*found, *(f"  {it}" for it in conditions), f"  {what}"]


def states_of(inquiry: Inquiry) -> list[str]:
    """The states that were found, one line each, with the calls that lead there."""
    search = inquiry.search
    if search is None:
        return []
    found = []
    for node in search.kept:
        path = search.path(node)
        calls = f" by {'; '.join(path.calls)}" if path.calls else ""
        found.append(f"  {node.state.text()}; from {path.thread}{calls}")
    return found


def calls_of(inquiry: Inquiry, answer: Answer) -> list[str]:
    """The calls that lead there, each with its reasons; of an execve also what file it is."""
    if answer.witness is None:
        return []
    from .reasons import sentences

    files = {file.name: file.text() for file in inquiry.start.files}
    found = []
    for line, *said in sentences(answer.witness):
        words = line.split()
        file = f": {files[words[2]]}" if words[1] == "exec" else ""
        found += [f"  {line}{file}", *(f"  {text}" for text in said)]
    return found


def told(inquiry: Inquiry, answers: list[Answer], box: bool) -> list[str]:
    """All that is told."""
    found: list[str] = []
    for answer in answers:
        found.append(headline(inquiry, answer))
        found += calls_of(inquiry, answer)
    cant = [answer for answer in answers if answer.verdict is Verdict.CANT]
    if cant:
        found += within(inquiry, cant)
    if box:
        found += ["box:", *box_of(inquiry)]
    if inquiry.how.states:
        closed = "closed" if inquiry.closed else "not closed"
        count = inquiry.search.kept.count if inquiry.search else 0
        found += [f"states: {count:,}, {closed}", *states_of(inquiry)]
    return found
