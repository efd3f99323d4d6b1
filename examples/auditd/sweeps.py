"""Changes the stored logs at each place, and counts what is said of that.

An attack is an edit of the log: from one record of a task that isn't root on, its process has other
ids. No kernel was attacked.
"""

from __future__ import annotations

import copy
from collections import Counter
from collections.abc import Callable, Iterator
from dataclasses import dataclass, field
from pathlib import Path

from auditd.compare import Comparer, Result
from auditd.findings import Class
from auditd.gather import Gatherer
from auditd.records import Eight, Event


def read(log: Path) -> list[Event]:
    """The events of a log."""
    lines = log.read_text(encoding="latin-1").split("\n")
    return list(Gatherer().events(lines))


def compared(events: Iterator[Event]) -> Result:
    """What comes of these events, which are read anew for each run."""
    return Comparer().run(copy.copy(event) for event in events)


def all_zero(_ids: Eight) -> Eight:
    """Root in all ids."""
    return (0, 0, 0, 0, 0, 0, 0, 0)


def effective_zero(ids: Eight) -> Eight:
    """Root by the effective and the filesystem id alone."""
    return (ids[0], 0, ids[2], 0, ids[4], ids[5], ids[6], ids[7])


def another_user(_ids: Eight) -> Eight:
    """Another user, who isn't root."""
    return (65000, 65000, 65000, 65000, 65000, 65000, 65000, 65000)


ATTACKS: dict[str, Callable[[Eight], Eight]] = {
    "root": all_zero, "effective root": effective_zero, "another user": another_user,
}  # fmt: skip


def attacked(events: list[Event], at: int, change: Callable[[Eight], Eight]) -> Iterator[Event]:
    """The same, with other ids of a process from this record on."""
    pid = events[at].pid
    for place, event in enumerate(events):
        event = copy.copy(event)
        if place >= at and event.pid == pid:
            event.ids = change(event.ids)
        yield event


@dataclass
class Counts:
    """What a sweep counts, and of what it is told."""

    numbers: Counter[str] = field(default_factory=Counter)
    told: list[str] = field(default_factory=list)


def attacks(name: str, logs: dict[str, list[Event]], step: int = 1) -> Counts:
    """An attack at each record of a task that isn't root."""
    found, change = Counts(), ATTACKS[name]
    for log, events in logs.items():
        places = [at for at, event in enumerate(events) if 0 not in event.ids[:3]]
        for at in places[::step]:
            stamp = events[at].stamp
            result = compared(attacked(events, at, change))
            classes = result.classes()
            here = {one.found for one in result.findings if one.event.stamp == stamp}
            found.numbers["unexplained at that record"] += Class.UNEXPLAINED in here
            if classes[Class.UNEXPLAINED]:
                found.numbers["unexplained"] += 1
            elif classes[Class.MISSING]:
                found.numbers["a call missing"] += 1
            elif classes[Class.DOUBTFUL]:
                found.numbers["doubtful"] += 1
            else:
                found.numbers["not seen"] += 1
                found.told.append(f"{log}: {stamp} {events[at].name}")
    return found


def middle(logs: dict[str, list[Event]], step: int = 1) -> Counts:
    """The log begins at each record."""
    found = Counts()
    for log, events in logs.items():
        for at in range(1, len(events), step):
            classes = compared(iter(events[at:])).classes()
            note(found, classes, f"{log}: from {events[at].stamp}")
    return found


def lost(logs: dict[str, list[Event]], step: int = 1) -> Counts:
    """Each call is lost in turn."""
    found = Counts()
    for log, events in logs.items():
        for at in range(0, len(events), step):
            result = compared(iter(events[:at] + events[at + 1 :]))
            event = events[at]
            note(found, result.classes(), f"{log}: without {event.stamp} {event.name}")
    return found


def note(found: Counts, classes: dict[Class, int], what: str) -> None:
    """What came of one run."""
    found.numbers["runs"] += 1
    for one in (Class.UNEXPLAINED, Class.MISSING, Class.DOUBTFUL):
        found.numbers[f"runs with {one.value}"] += classes[one] > 0
    if classes[Class.UNEXPLAINED]:
        found.told.append(what)
