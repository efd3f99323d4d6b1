"""The events of a log, each with all of its records, in the order in which they happened.

The kernel gives an event its serial number as it writes the first record, and the records of events
may be mixed. At a boot the numbers begin again.
"""

from __future__ import annotations

from collections import Counter
from collections.abc import Iterable, Iterator
from dataclasses import dataclass, field

from .numbers import Number, numbers_of
from .records import HEAD, UNUSED, Damaged, Event, read_call, read_capset, read_gained, read_object

# How many records an event may be spread over, and how many events a late one is waited for.
SPREAD, LATE = 400, 64
# Numbers that begin again are lower and come later, by this many seconds at least.
BOOT_SECONDS = 0.5
# Records that say that auditing began, was switched off or on, or ended.
ANEW = frozenset({"DAEMON_START", "DAEMON_END", "DAEMON_ABORT"})
SWITCHED = "audit_enabled="
EXECUTES = frozenset({"execve", "execveat"})


@dataclass
class Gatherer:
    """Collects the records of events, and says how many there were of which kind."""

    counts: Counter[str] = field(default_factory=Counter)
    # The host of the log, and how many records are of others.
    node: str | None = None
    others: Counter[str] = field(default_factory=Counter)
    # The first damaged record, with its line.
    damaged: list[str] = field(default_factory=list)
    _numbers: dict[str, dict[int, Number]] = field(default_factory=dict)
    _open: dict[tuple[str, str], Event] = field(default_factory=dict)
    _ready: list[tuple[int, int, int, Event]] = field(default_factory=list)
    _due: int = SPREAD
    _boots: int = 0
    _greatest: int = 0
    _latest: float = 0.0
    _next: int = 0
    _anew: bool = False
    _count: int = 0

    def events(self, lines: Iterable[str]) -> Iterator[Event]:
        """The calls of a log, each as soon as none that was before it can come any more."""
        number = 0
        for number, text in enumerate(lines, 1):
            if text.startswith(UNUSED):
                continue
            found = HEAD.match(text)
            if found is None:
                if text.strip() and not text.startswith("----"):
                    self._bad(number, "it is no record")
                continue
            kind = found[2]
            if kind in KINDS:
                self._take(number, found[1], kind, (found[3], found[4]), text, found.end())
            elif kind in ANEW or kind == "CONFIG_CHANGE" and SWITCHED in text:
                self._anew = True
            if number >= self._due:
                self._due = number + SPREAD
                yield from self._released(number - SPREAD, LATE)
        self.counts["records"] += number
        yield from self._released(number + 1, 0)

    def _bad(self, number: int, what: str) -> None:
        self.counts["damaged records"] += 1
        if len(self.damaged) < 3:
            self.damaged.append(f"line {number}: {what}")

    def _take(self, number: int, node: str | None, kind: str, key: tuple[str, str],
              text: str, start: int) -> None:  # fmt: skip
        """One record more."""
        if node != self.node:
            if self.node is None and not self._count:
                self.node = node
            else:
                self.others[node or "this host"] += 1
                return
        self._count += 1
        event = self._open.get(key)
        if event is None:
            event = self._open[key] = Event(key[0], int(key[1]))
        event.last = number
        try:
            KINDS[kind](self, event, text, start)
        except Damaged as fault:
            self._bad(number, str(fault))

    def call(self, event: Event, text: str, start: int) -> None:
        """The record of the call itself."""
        read_call(event, text, start)
        numbers = self._numbers.get(event.architecture)
        if numbers is None:
            numbers = self._numbers[event.architecture] = numbers_of(event.architecture)
        found = numbers.get(event.number)
        if found is None:
            event.name = str(event.number)
            self.counts["calls of which nothing is compared but the ids"] += 1
        else:
            event.name, event.short = found.name, found.short
            event.executes = found.name in EXECUTES
        if not numbers:
            event.name = ""
            self.counts[f"calls of the architecture {event.architecture}, which isn't known"] += 1

    def _released(self, before: int, late: int) -> list[Event]:
        """The events whose last record came before this line, but the latest ones."""
        ready = [key for key, event in self._open.items() if event.last < before]
        for key in ready:
            event = self._open.pop(key)
            if event.name:
                self._push(event)
        self._ready.sort()
        count = max(0, len(self._ready) - late)
        found = [event for _, _, _, event in self._ready[:count]]
        del self._ready[:count]
        self.counts["calls"] += count
        return found

    def _push(self, event: Event) -> None:
        """An event is whole. Its number is compared with those before it."""
        time = float(event.time)
        if event.serial < self._greatest and time > self._latest + BOOT_SECONDS:
            self._boots += 1
            self._greatest = 0
            self._anew = True
        event.anew, self._anew = self._anew and self._next > 0, False
        self._greatest = max(self._greatest, event.serial)
        self._latest = max(self._latest, time)
        self._next += 1
        self._ready.append((self._boots, event.serial, self._next, event))


def capset(_gatherer: Gatherer, event: Event, text: str, start: int) -> None:
    """The sets after a capset(2)."""
    event.capset = read_capset(text, start)


def gained(_gatherer: Gatherer, event: Event, text: str, start: int) -> None:
    """The sets of an execve."""
    event.gained = read_gained(text, start)


def object_(_gatherer: Gatherer, event: Event, text: str, start: int) -> None:
    """A task that the call is about."""
    found = read_object(text, start)
    if found is not None:
        event.objects += (found,)


def path(_gatherer: Gatherer, event: Event, text: str, start: int) -> None:
    """A file that the call names."""
    event.paths += (text[start:],)


KINDS = {
    "SYSCALL": Gatherer.call,
    "PATH": path,
    "CAPSET": capset,
    "BPRM_FCAPS": gained,
    "OBJ_PID": object_,
}
