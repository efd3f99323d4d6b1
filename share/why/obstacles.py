"""What stood in the way of an event: a task or a label that is there or isn't, a call that is open,
a limit. Each sentence has its condition, which is asked of the journal's books."""

from __future__ import annotations

from collections.abc import Callable
from typing import TYPE_CHECKING

from limits import DEPTH, HOLDS, OPEN_FILES, PREPARED, SLOTS, TASKS

from . import sources
from .file_rules import EVENTS
from .names import CALLS, counted, listed
from .reason import Fault, Reason
from .records import Task

if TYPE_CHECKING:
    from .journal import Journal

LIMITS = {
    "tasks": (TASKS, "live tasks"), "files": (OPEN_FILES, "open files"), "holds": (HOLDS, "holds"),
    "prepared": (PREPARED, "prepared labels"),
}  # fmt: skip


def held(condition: bool, what: str) -> None:
    """A sentence whose condition fails is a fault of the tool."""
    if not condition:
        raise Fault(f"it was answered so, but {what}")


def at(journal: Journal, line: int) -> str:
    """A line with its text."""
    return f"line {line} (`{journal.script.line(line)[:80]}`)"


def source_of(words: list[str]) -> str:
    """What the kernel's documentation has of an event on a label."""
    return {
        "ask": sources.ACCESSING, "open": sources.OPEN_FILES, "signal": sources.ACCESSING,
        "ptrace": sources.ACCESSING, **dict.fromkeys(EVENTS, sources.ACCESSING),
        "drop": sources.MANAGING, "override": sources.OVERRIDING, "revert": sources.OVERRIDING,
    }.get(words[0], sources.ALTERING)  # fmt: skip


def no_task(journal: Journal, words: list[str], told: list[str]) -> Reason:
    """A task that isn't there."""
    name = told[2]
    held(name not in journal.tasks, f"{name} lives")
    gone = journal.gone_tasks.get(name)
    why = "no line before has made it"
    if gone:
        why = f"{gone[1]} in {at(journal, gone[0])}"
    call = journal.script.line(journal.line).split(" ")[1:]
    page = {"signal": "kill", "ptrace": "ptrace"}.get(call[0] if call else "")
    asked = call[-1:] == [name] and words[0] != "take"
    source = sources.errors(page) if page is not None and asked else sources.TASKS
    return Reason(f"no task {name}: {why}", source)


def exists(journal: Journal, words: list[str], told: list[str]) -> Reason:
    """Something of this name is there already."""
    name = told[1]
    if name[0] == "t":
        held(name in journal.tasks, f"no task {name} lives")
        since = journal.tasks[name].made
        return Reason(f"task {name} lives since {at(journal, since)}", sources.TASKS)
    if name[0] == "p":
        members = list(journal.processes.get(name, ()))
        held(bool(members), f"no thread of {name} lives")
        since = journal.tasks[members[0]].made
        text = f"process {name} has {counted(len(members), 'thread')}: {members[0]}"
        return Reason(f"{text} lives since {at(journal, since)}", sources.TASKS)
    if name[0] == "h":
        held(name in journal.labels, f"no label {name} stands")
        label = journal.labels[name]
        how = "holds a credential" if label.slot is None else "is prepared"
        return Reason(f"label {name} {how} since {at(journal, label.line)}", sources.HOLDING)
    if name[0] == "f":
        held(name in journal.files, f"{name} is not open")
        since = journal.files[name][1]
        return Reason(f"descriptor {name} is open since {at(journal, since)}", sources.FILES)
    raise Fault(f"no sentence for exists {name}")


def busy(journal: Journal, words: list[str], told: list[str]) -> Reason:
    """A call which not every thread has made."""
    line = int(told[1])
    _, cast = journal.cast_of(line)
    if cast is None:
        raise Fault(f"it was answered so, but no call of line {line} is open")
    text = f"the call that {cast.caller} began in {at(journal, line)} is not over"
    threads = listed(list(cast.waiting))
    return Reason(f"{text}: {threads} still {'has' if len(cast.waiting) == 1 else 'have'} to make "
                  "it", sources.THREADS)  # fmt: skip


def task_of(journal: Journal, words: list[str]) -> Task | None:
    """The task that acts by an event, where it lives."""
    if words[0] == "commit":
        label = journal.labels.get(words[1])
        return journal.tasks.get(label.task) if label else None
    return journal.tasks.get(words[1])


def overridden(journal: Journal, words: list[str], told: list[str]) -> Reason:
    """A task that acts with a credential that is lent to it."""
    task = task_of(journal, words)
    if task is None or len(task.overrides) != int(told[1]):
        raise Fault("it was answered so, but it has other overrides")
    lines = [at(journal, line) for _, line in task.overrides]
    what = CALLS.get(words[2] if words[0] in ("begin", "raw") else words[0], words[0])
    text = f"{task.name} acts under {counted(len(lines), 'override')}, of {listed(lines)}"
    return Reason(f"{text}, where {what} is not allowed", sources.OVERRIDING)


def not_overridden(journal: Journal, words: list[str], told: list[str]) -> Reason:
    """A task that acts with its own credential."""
    task = journal.tasks.get(words[1])
    if task is None or task.overrides:
        raise Fault("it was answered so, but it has an override")
    text = f"{task.name} acts with its own credential, c{task.current}: no override stands"
    return Reason(text, sources.OVERRIDING)


def too_deep(journal: Journal, words: list[str], told: list[str]) -> Reason:
    """As many overrides as there may be."""
    task = journal.tasks.get(words[1])
    if task is None or len(task.overrides) != DEPTH:
        raise Fault(f"it was answered so, but it hasn't {DEPTH} overrides")
    lines = [str(line) for _, line in task.overrides]
    return Reason(f"{task.name} has {DEPTH} overrides already, of lines {listed(lines)}, and no "
                  "more may stand", sources.HOLDING)  # fmt: skip


def no_hold(journal: Journal, words: list[str], told: list[str]) -> Reason:
    """A label that holds nothing."""
    name = told[2]
    label = journal.labels.get(name)
    if label is not None:
        held(label.slot is not None, f"{name} holds c{label.credential}")
        if words[0] == "override":
            held(not label.access or label.task != words[1], f"{name} is prepared for access(2)")
        text = f"{name} is prepared, by {at(journal, label.line)}, and holds no sealed credential"
        if words[0] == "override" and label.task != words[1]:
            text += f"; it is prepared for {label.task}, not for {words[1]}"
        elif words[0] == "override":
            text += ", and it is not prepared for access(2)"
        return Reason(text, sources.HOLDING)
    return Reason(f"{name} holds nothing: {gone_label(journal, name)}", source_of(words))


def gone_label(journal: Journal, name: str) -> str:
    """Why a label isn't there."""
    gone = journal.gone_labels.get(name)
    if gone is None:
        return "no line before has taken or prepared it"
    return f"it was {gone[1]} in {at(journal, gone[0])}"


def no_prepared(journal: Journal, words: list[str], told: list[str]) -> Reason:
    """A label under which nothing is prepared, or nothing that may be committed."""
    name = told[2]
    label = journal.labels.get(name)
    if label is None:
        return Reason(f"nothing is prepared under {name}: {gone_label(journal, name)}",
                      sources.ALTERING)  # fmt: skip
    since = at(journal, label.line)
    if label.slot is None:
        return Reason(f"{name} is a hold, of {since}, and not prepared", sources.HOLDING)
    held(words[0] == "commit" and (label.change is None or label.access), f"{name} is prepared")
    why = "it is prepared for access(2), for an override alone" if label.access else (
        "no change of it was made that was not refused")  # fmt: skip
    return Reason(f"{name}, of {since}, has nothing to commit: {why}", sources.HOLDING)


def no_broadcast(journal: Journal, words: list[str], told: list[str]) -> Reason:
    """A call that no thread waits for."""
    line = int(told[2])
    held(journal.cast_of(line)[1] is None, f"the call of line {line} is open")
    why = journal.ended_casts.get(line)
    if why is None:
        behind = line >= journal.line
        why = f"line {line} " + ("has not run yet" if behind else "began none")
    return Reason(f"no call of line {line} waits for a thread: {why}", sources.BROADCASTS)


def stale(journal: Journal, words: list[str], told: list[str]) -> Reason:
    """A commit whose base is no longer the task's current credential."""
    base, now = int(told[1][1:]), int(told[2][1:])
    label = journal.labels[words[1]]
    task = journal.tasks[label.task]
    held(label.credential == base and task.current == now and base != now, "the two are the same")
    text = (
        f"{words[1]} was prepared in line {label.line} from c{base}, but since "
        f"{at(journal, task.since)} the current credential of {task.name} is c{now}; to commit it "
        "would undo that"
    )
    return Reason(text, sources.ALTERING)


def too_many(journal: Journal, words: list[str], told: list[str]) -> Reason:
    """A limit is reached."""
    limit, things = LIMITS[told[2]]
    lines = {
        "tasks": [task.made for task in journal.tasks.values()],
        "files": [line for _, line in journal.files.values()],
        "holds": [label.line for label in journal.labels.values() if label.slot is None],
        "prepared": [label.line for label in journal.labels.values() if label.slot is not None],
    }[told[2]]
    held(len(lines) == limit, f"there are {len(lines)} {things}")
    text = f"there are {limit} {things}, as many as there may be, of {at_lines(lines)}"
    return Reason(text, sources.HOLDING if told[2] in ("holds", "prepared") else sources.TASKS
                  if told[2] == "tasks" else sources.FILES)  # fmt: skip


def at_lines(lines: list[int]) -> str:
    """Lines as spans, the first of them."""
    found: list[list[int]] = []
    for line in sorted(set(lines)):
        if found and line - found[-1][1] == 1:
            found[-1][1] = line
        else:
            found.append([line, line])
    texts = [str(a) if a == b else f"{a} to {b}" for a, b in found[:4]]
    rest = f" and others up to {found[-1][1]}" if found[4:] else ""
    return f"{'line' if len(set(lines)) == 1 else 'lines'} {', '.join(texts)}{rest}"


def references(journal: Journal) -> list[tuple[str, int, int]]:
    """What refers to a slot: its kind, the slot, and the line that put it there."""
    slots = journal.slots
    found = []
    for task in journal.tasks.values():
        found.append(("current credentials", slots[task.current], task.since))
        found += [("overrides", slots[number], line) for number, line in task.overrides]
    found += [("open files", slots[number], line) for number, line in journal.files.values()]
    for label in journal.labels.values():
        kind = "holds" if label.slot is None else "bases of prepared labels"
        found.append((kind, slots[label.credential], label.line))
        if label.slot is not None:
            found.append(("what prepared labels will seal", label.slot, label.line))
    return found


def table_full(journal: Journal, words: list[str], told: list[str]) -> Reason:
    """All slots are live."""
    kinds: dict[int, tuple[str, int]] = {}
    for kind, slot, line in references(journal):
        kinds.setdefault(slot, (kind, line))
    held(len(kinds) == SLOTS, f"{len(kinds)} slots are live")
    lines: dict[str, list[int]] = {}
    for kind, line in kinds.values():
        lines.setdefault(kind, []).append(line)
    parts = [f"{len(them)} for {kind} ({at_lines(them)})" for kind, them in lines.items()]
    text = f"all {SLOTS} slots are live, also after the sweep: {listed(parts)}"
    if told[0] == "aborted":
        text += f"; so {told[1]} gets no new credential, and its process ends with all its threads"
    return Reason(text, sources.HOLDING)


def ebadf(journal: Journal, words: list[str], told: list[str]) -> Reason:
    """A descriptor that isn't open."""
    name = words[2] if words[0] == "takefile" else words[1]
    held(name not in journal.files, f"{name} is open")
    closed = journal.gone_files.get(name)
    why = f"it was closed in {at(journal, closed)}" if closed else "no line before has opened it"
    return Reason(f"EBADF: {name} is not open: {why}", sources.CLOSE)


ANSWERS: dict[str, Callable[[Journal, list[str], list[str]], Reason]] = {
    "no task": no_task, "no hold": no_hold, "no prepared": no_prepared, "ebadf": ebadf,
    "no broadcast": no_broadcast, "exists": exists, "busy": busy, "overridden": overridden,
    "not overridden": not_overridden, "too deep": too_deep, "stale": stale, "too many": too_many,
    "table full": table_full, "aborted": table_full,
}  # fmt: skip


def reason(journal: Journal, words: list[str], told: list[str]) -> Reason:
    """Why an event was refused that isn't decided on a credential."""
    found = ANSWERS.get(" ".join(told[:2])) or ANSWERS.get(told[0])
    if found is None:
        raise Fault(f"no sentence for the answer {' '.join(told)}")
    return found(journal, words, told)
