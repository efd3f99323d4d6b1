"""The lines that lead a task from root to what it has, and what a process first seen has."""

from __future__ import annotations

from collections.abc import Iterable

from strace.script.start import (
    NO_SETUID_FIXUP,
    Start,
    Status,
    first_part,
    last_part,
    set_ids,
)

from .records import ALL, Eight, Event, Four
from .tasks import FILE_IDS, ID_CALLS, Held
from .window import Window

# The calls after which sets may be others.
CHANGES = frozenset({*ID_CALLS, *FILE_IDS, "prctl", "capset", "execve", "execveat"})


def status_of(held: Held) -> Status:
    """The same as /proc/PID/status tells it."""
    return Status(
        list(held.ids[:4]),
        list(held.ids[4:]),
        list(held.groups),
        held.permitted,
        held.inheritable,
        held.effective,
        held.bounding,
        held.ambient,
        held.no_new_privs,
        held.bits,
        None,
        None,
    )


def lead(name: str, held: Held, several: bool, dumpable: bool | None, root: int) -> list[str]:
    """The lines of a first task that is root with all capabilities. Whether its process is dumpable
    is told last, where it is known. In a user namespace root is another user than 0."""
    start = Start(task=name)
    status = status_of(held)
    raw = "raw " if several else ""
    first_part(start, status)
    moves = root != 0 and not status.users_change()
    if moves:
        start.call(f"securebits {NO_SETUID_FIXUP}")
    set_ids(start, status, raw)
    if moves:
        start.call(f"{raw}setresuid 0 0 0")
        start.call(f"securebits {held.bits}")
    last_part(start, status)
    if dumpable is not None and start.lines:
        start.call(f"dumpable {int(dumpable)}")
    return start.lines


def with_sets(ids: Eight, sets: Four, bounding: int) -> Held:
    """What a task has by a record of its sets, which has no bounding set."""
    return Held(ids, sets.permitted, sets.inheritable, sets.effective, bounding, sets.ambient)


def guessed(ids: Eight, bounding: int, root: int = 0) -> Held:
    """What a task may have of which no record says it: all for root, and nothing for others."""
    permitted = bounding if root in ids[:3] else 0
    return Held(ids, permitted, 0, bounding if ids[1] == root else 0, bounding, 0)


def in_new_space(ids: Eight, no_new_privs: bool) -> Held:
    """What a task has in a user namespace that it made or entered (user_namespaces(7))."""
    return Held(ids, ALL, 0, ALL, ALL, 0, no_new_privs=no_new_privs)


def first_seen(
    event: Event, window: Window, bounding: int, root: int = 0
) -> tuple[Held, bool]:
    """What a process has after its first record, and whether the log says it: by the nearest record
    of its sets, before anything else may have changed them."""
    for one in window.of(event.pid, event.place):
        if one is event and one.capset and one.done:
            return with_sets(event.ids, one.capset, bounding), True
        if one.gained:
            sets = one.gained.after if one is event else one.gained.before
            return with_sets(event.ids, sets, bounding | sets.permitted), True
        if one is not event and one.name in CHANGES:
            break
    return guessed(event.ids, bounding, root), False


def usual_bounding(events: Iterable[Event]) -> int:
    """The bounding set of most: what root's programs get."""
    found: dict[int, int] = {}
    for event in events:
        if event.gained and event.ids[0] == event.ids[1] == 0:
            sets = event.gained.after.permitted
            found[sets] = found.get(sets, 0) + 1
    return max(found, key=lambda sets: found[sets], default=ALL)
