"""Processes and their threads, and what is known of them. A record names the process alone."""

from __future__ import annotations

from dataclasses import dataclass, field

from .records import Eight, Event
from .spaces import Space

# The calls that set ids, with how many they take.
ID_CALLS = {
    "setuid": 1, "setgid": 1, "setreuid": 2, "setregid": 2, "setresuid": 3, "setresgid": 3,
}  # fmt: skip
FILE_IDS = frozenset({"setfsuid", "setfsgid"})
KEEP = (1 << 32) - 1
SHORT = (1 << 16) - 1


@dataclass(frozen=True, slots=True)
class Held:
    """What a thread has: its ids, sets, groups, securebits and no_new_privs."""

    ids: Eight
    permitted: int
    inheritable: int
    effective: int
    bounding: int
    ambient: int
    groups: tuple[int, ...] = ()
    bits: int = 0
    no_new_privs: bool = False


@dataclass(slots=True)
class Known:
    """What is known of a process, and what is a guess since it was first seen in the middle."""

    # Its sets, by a record or by all that led to them.
    sets: bool = False
    # All of its threads, and that KEEP_CAPS isn't set: it was executed in the log.
    executed: bool = False
    # Its supplementary groups.
    groups: bool = False

    def copy(self) -> Known:
        """The same for a child."""
        return Known(self.sets, self.executed, self.groups)


@dataclass(frozen=True, slots=True)
class Clone:
    """A clone whose child makes no call yet, or under a number that isn't the one it is told by, as
    in a PID namespace; and whether the parent's ids and sets are what they were then."""

    event: Event
    same: bool = True


@dataclass(frozen=True, slots=True)
class Kept:
    """A process between two scripts."""

    threads: tuple[Held, ...]
    numbers: tuple[int, ...]
    # None where it isn't known.
    dumpable: bool | None
    program: str
    parent: int
    known: Known
    space: Space | None = None
    untold: bool = False
    clones: tuple[Clone, ...] = ()
    crowd: int = 0
    killed: bool = False


@dataclass(eq=False, slots=True)
class Process:
    """A process of a script."""

    pid: int
    parent: int
    program: str
    known: Known = field(default_factory=Known)
    threads: list[Task] = field(default_factory=list)
    space: Space | None = None
    # Which process forked it in this script, and at which place.
    forked_by: Process | None = None
    born: int = -1
    # The time of the record with which it was first seen.
    seen: float = 0.0
    # Whether it may be in a user namespace of which the log doesn't have the beginning: it was
    # first seen in the middle, or made by clone3(2), whose flags no record has.
    untold: bool = False
    # How many threads it has besides those that are followed.
    crowd: int = 0
    # Whether SIGKILL was sent to it: no record says that it ended.
    killed: bool = False
    # Clones whose children make no call yet.
    clones: list[Clone] = field(default_factory=list)
    # The last record that agreed with the rules, and the one before.
    agreed: Event | None = None
    before: Event | None = None

    def changed_since(self, place: int) -> bool:
        """Whether ids or sets may have changed since, or which thread it was isn't known."""
        return len(self.threads) != 1 or self.threads[0].changed > place

    def agreed_before(self, event: Event) -> Event | None:
        """The last record before this one that agreed."""
        return self.before if event is self.agreed else self.agreed


@dataclass(eq=False, slots=True)
class Task:
    """A thread in a script: its name there, and the ids that its last record has."""

    name: str
    process: Process
    ids: Eight
    number: int = 0
    # The last call, and the place of the last one that changed something.
    made: tuple[str, int, int, int] | None = None
    changed: int = -1
    no_new_privs: bool = False


def word(value: int, short: bool = False) -> str:
    """An id as an argument, -1 where it keeps the id."""
    value &= SHORT if short else KEEP
    return "-1" if value == (SHORT if short else KEEP) else str(value)


def could_make(event: Event, before: Eight) -> bool:
    """Whether a thread with these ids may have made the call: by its form, not by rules."""
    after = event.ids
    if not event.done or not (event.name in ID_CALLS or event.name in FILE_IDS or event.executes):
        return before == after
    if event.executes:
        return before[0] == after[0] and before[4] == after[4]
    at = 4 if event.name.endswith("gid") else 0
    if before[4 - at : 8 - at] != after[4 - at : 8 - at]:
        return False
    words = [int(word(arg, event.short)) for arg in event.args[: ID_CALLS.get(event.name, 1)]]
    return could_set(event.name, words, before[at : at + 4], after[at : at + 4])


def could_set(name: str, words: list[int], old: tuple[int, ...], new: tuple[int, ...]) -> bool:
    """The same for four ids, of users or of groups."""
    if name.startswith("setfs"):
        return old[:3] == new[:3] and new[3] in (words[0], old[3])
    if len(words) == 1:
        return new[1] == words[0] and new[0] in (old[0], words[0])
    for place, value in enumerate(words):
        if new[place] != (old[place] if value == -1 else value):
            return False
    return len(words) == 2 or words[1] != -1 or new[3] in (old[3], old[1])


def thread_of(event: Event, process: Process) -> Task:
    """Which thread made a call: one whose ids the call can lead to those of the record, and that
    hasn't just made the same call. The choice is in favour of agreement."""
    threads = process.threads
    fit = [one for one in threads if could_make(event, one.ids)]
    made = event.name, *event.args[:3]
    fresh = [one for one in fit if one.made != made]
    return (fresh or fit or threads)[0]
