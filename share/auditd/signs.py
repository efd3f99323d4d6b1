"""Signs in a record of whether its task is in a user namespace, or in the initial one."""

from __future__ import annotations

from .files import program_of
from .records import Event
from .tasks import ID_CALLS, Process, word


def named_and_left(event: Event) -> list[tuple[int, int]]:
    """The ids that a call names, each with what it left in its place."""
    count = ID_CALLS.get(event.name)
    if count is None or not event.done:
        return []
    at = 4 if event.name.endswith("gid") else 0
    words = [int(word(arg, event.short)) for arg in event.args[:count]]
    # setuid(2) may leave the real id, and sets the effective one.
    left = event.ids[at + 1 : at + 2] if count == 1 else event.ids[at : at + count]
    return [(named, now) for named, now in zip(words, left, strict=True) if named != -1]


def is_initial(event: Event) -> bool:
    """Whether a call left the ids that it named: so the task is in the initial user namespace, or
    in one that leads each id to itself."""
    pairs = named_and_left(event)
    return bool(pairs) and all(named == now for named, now in pairs)


def is_inside(event: Event, process: Process) -> bool:
    """Whether a record shows that its task is in a user namespace that isn't the initial one."""
    return keeps_sets(event) if event.executes else is_led(event, process)


def keeps_sets(event: Event) -> bool:
    """Whether an execve of a file without capabilities left some to a task that isn't root outside,
    and not by its ambient set: then it is root in its namespace (capabilities(7))."""
    if event.gained is None or not event.done or 0 in event.ids[:2]:
        return False
    path, after = program_of(event), event.gained.after
    return path is not None and not path.attribute and after.permitted != 0 == after.ambient


def is_led(event: Event, process: Process) -> bool:
    """Whether a call that succeeded left another id than it named, and nothing else: only in a user
    namespace that isn't the initial one. Root outside is no such id."""
    pairs = named_and_left(event)
    if not pairs or len(process.threads) != 1:
        return False
    at = 4 if event.name.endswith("gid") else 0
    if process.threads[0].ids[4 - at : 8 - at] != event.ids[4 - at : 8 - at]:
        return False
    return any(named != now for named, now in pairs) and all(now != 0 for _, now in pairs)
