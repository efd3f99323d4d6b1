"""Id calls, which libc has every thread of a process make: in a script they are one line (nptl(7)).

The threads make the call one after another, and who has made it may go on before the last one has.
The line may stand at any place between the first and the last of them, as long as the others do
nothing in between that their ids decide. A thread that is on its way out isn't asked by libc: if
all that comes of it is its end, it may as well have ended before. Where no such place is there, or
no other thread makes the call, it is a raw one of the thread that makes it.
"""

from __future__ import annotations

from bisect import bisect_right
from collections.abc import Collection
from dataclasses import dataclass

from ..log.reader import CREATIONS, EXECUTIONS, Call, Gone, Item
from ..script.calls import ID_CALLS
from .tasks import Process, Task

# What a thread may still do of which nobody asks what its ids are: to end, and to signal others of
# its process, as Go's runtime does all the time.
UNASKED = ("exit", "exit_group", "tgkill")

# Calls that may change who makes them.
CHANGING = frozenset([*ID_CALLS, *EXECUTIONS, "setfsuid", "setfsgid", "capset", "prctl"])

# A signal within a process is always allowed, whatever ids the sender has.
SIGNALS = frozenset({"kill", "tkill", "tgkill"})


@dataclass(frozen=True)
class Made:
    """A thread's call: where it is, and what of the thread comes before it and after it."""

    thread: Task
    place: int
    before: int
    after: int


@dataclass(frozen=True)
class Joined:
    """A call of all threads: before which item of the log its line stands, and who makes it."""

    stands: int
    made: list[Made]
    leaving: list[Task]

    def last(self) -> Made:
        """The last of the calls. By libc's order it is that of the thread that began it all."""
        return max(self.made, key=lambda one: one.place)


class AllThreads:
    """What each task does next in the log."""

    def __init__(self, items: list[Item], saying: Collection[str]) -> None:
        self._items = items
        saying = frozenset(saying) - SIGNALS
        self._places: dict[int, list[int]] = {}
        self._last: dict[int, int] = {}
        # Where in the log each task's calls begin and end that change its credential.
        self._changes: dict[int, list[tuple[int, int]]] = {}
        for place, item in enumerate(items):
            if isinstance(item, Call) and changes(item):
                self._changes.setdefault(item.pid, []).append((item.first, item.last))
            if isinstance(item, Gone) or (isinstance(item, Call) and item.name in saying):
                self._places.setdefault(item.pid, []).append(place)
            if isinstance(item, Call) and item.name not in UNASKED:
                self._last[item.pid] = place

    def joined(self, process: Process, caller: Task, place: int) -> Joined | None:
        """The calls that are one line with this one; None where it is the thread's own."""
        made = [Made(caller, place, place, self._after(caller.pid, place))]
        leaving = []
        for thread in process.threads:
            found = None if thread is caller else self._follows(thread, made[0])
            if found is not None:
                made.append(found)
            elif thread is not caller and self._last.get(thread.pid, -1) <= place:
                leaving.append(thread)
            elif thread is not caller:
                return None
        after = min(one.after for one in made)
        if len(made) == 1 or max(one.before for one in made) >= after:
            return None
        return Joined(min(after, max(one.place for one in made)), made, leaving)

    def meanwhile(self, process: Process, call: Call) -> int:
        """The line at which a thread of the process begins to change its credential, while another
        task's call is under way: which of the two comes first the log doesn't tell. 0 for none."""
        for thread in process.threads:
            found = self._changes.get(thread.pid, [])
            last = bisect_right(found, (call.last, call.last))
            if last and found[last - 1][1] > call.first:
                return found[last - 1][0]
        return 0

    def call(self, place: int) -> Call:
        """The call at a place."""
        item = self._items[place]
        assert isinstance(item, Call)
        return item

    def _after(self, pid: int, place: int) -> int:
        """Where a task next does something that its ids decide, or ends."""
        places = self._places.get(pid, [])
        found = bisect_right(places, place)
        return places[found] if found < len(places) else len(self._items)

    def _follows(self, thread: Task, first: Made) -> Made | None:
        """The call of another thread, where its next id call is the same one."""
        call, before = self.call(first.place), first.place
        places = self._places.get(thread.pid, [])
        for place in places[bisect_right(places, first.place) :]:
            item = self._items[place]
            if not isinstance(item, Call) or makes_thread(item):
                return None
            if item.name in ID_CALLS:
                after = self._after(thread.pid, place)
                return Made(thread, place, before, after) if is_same(item, call) else None
            before = place
        return None


def changes(call: Call) -> bool:
    """Whether a call may have changed the credential of who makes it: one that fails hasn't."""
    asks = "".join(call.args[:1]).startswith(("PR_GET", "PR_CAPBSET_READ"))
    return call.name in CHANGING and call.result.error is None and not asks


def makes_thread(call: Call) -> bool:
    """Whether the call made a thread of its process, of which nobody knows whether it follows."""
    made = call.name in CREATIONS and call.result.error is None
    return made and any("CLONE_THREAD" in arg for arg in call.args)


def is_same(one: Call, other: Call) -> bool:
    """Whether two threads make the same call with the same result."""
    return (one.name, one.args, one.result) == (other.name, other.args, other.result)
