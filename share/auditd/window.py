"""The events that come next: those of a script that is written, and some more behind it."""

from __future__ import annotations

from bisect import bisect_left
from collections import deque
from collections.abc import Iterator
from itertools import islice

from .records import Event

# The calls that make a task.
MAKES = frozenset({"clone", "fork", "vfork", "clone3"})


class Window:
    """A part of the log that lies in memory, with what is asked about it."""

    def __init__(self) -> None:
        self._events: deque[Event] = deque()
        # Whether the log ends with it.
        self.last = False
        self._by_pid: dict[int, list[Event]] = {}
        self._made: dict[int, list[Event]] = {}

    def __len__(self) -> int:
        return len(self._events)

    def first(self, count: int) -> Iterator[Event]:
        """So many of its events, from the first one on."""
        return islice(self._events, count)

    def add(self, event: Event) -> None:
        """One event more."""
        self._events.append(event)
        self._by_pid.setdefault(event.pid, []).append(event)
        if makes(event):
            self._made.setdefault(event.result, []).append(event)

    def drop(self, count: int) -> None:
        """So many of the first events need not be seen again."""
        for _ in range(count):
            event = self._events.popleft()
            forget_first(self._by_pid, event.pid)
            if makes(event):
                forget_first(self._made, event.result)

    def of(self, pid: int, place: int) -> Iterator[Event]:
        """The events of a process from this place on, up to where auditing begins anew."""
        found = self._by_pid.get(pid, [])
        for event in found[bisect_left(found, place, key=place_of) :]:
            if event.anew and event.place > place:
                return
            yield event

    def next_of(self, pid: int, place: int) -> Event | None:
        """The next call of a process with this number from here on."""
        return next(self.of(pid, place), None)

    def makers(self, pid: int, place: int) -> list[Event]:
        """The later events that say that they made this process."""
        found = self._made.get(pid, [])
        return found[bisect_left(found, place + 1, key=place_of) :]


def makes(event: Event) -> bool:
    """Whether a call made a task."""
    return event.name in MAKES and event.done and event.result > 0


def forget_first(found: dict[int, list[Event]], number: int) -> None:
    """Gives up the first event that stands below a number."""
    events = found[number]
    if len(events) == 1:
        del found[number]
    else:
        del events[0]


def place_of(event: Event) -> int:
    """The order of events."""
    return event.place


class Reader:
    """Takes windows from the events of a log."""

    def __init__(self, events: Iterator[Event]) -> None:
        self._events = events
        self._window = Window()
        self._count = 0

    def window(self, size: int) -> Window | None:
        """The next window; None where the log is at its end."""
        window = self._window
        wanted, count = max(0, size - len(window)), 0
        for count, event in enumerate(islice(self._events, wanted), 1):
            event.place = self._count
            self._count += 1
            window.add(event)
        window.last = window.last or count < wanted
        return window if len(window) else None
