"""Which number and which slot each credential has, as docs/RULES.md says ("Holding credentials").

No kernel tells either: they are counted here, so that an answer looks as the program's own.
"""

from __future__ import annotations

import heapq

from limits import SLOTS


class Full(Exception):
    """All slots are live. No kernel has a table of credentials."""


class Numbers:
    """The credentials that tasks and labels refer to."""

    def __init__(self) -> None:
        self.sealed = 0
        self.place: dict[int, int] = {}
        self.uses: dict[int, int] = {}
        self.free = list(range(SLOTS))
        # The current credential of each task and label.
        self.current: dict[str, int] = {}

    def keep(self) -> int:
        """The least free slot, after a sweep where there is none."""
        if not self.free:
            self.place = {it: slot for it, slot in self.place.items() if self.uses[it]}
            taken = set(self.place.values())
            self.free = [it for it in range(SLOTS) if it not in taken]
        if not self.free:
            raise Full
        return heapq.heappop(self.free)

    def abort(self, slot: int) -> None:
        """The slot that was kept is free again."""
        heapq.heappush(self.free, slot)

    def seal(self, slot: int) -> int:
        """The number of a new credential in this slot, to which nothing refers yet."""
        number = self.sealed
        self.sealed += 1
        self.place[number] = slot
        self.uses[number] = 0
        return number

    def drop(self, who: str) -> None:
        """A task or a label is gone."""
        if who in self.current:
            self.uses[self.current.pop(who)] -= 1

    def refer(self, who: str, number: int) -> None:
        """A task or a label refers to this credential now."""
        self.drop(who)
        self.current[who] = number
        self.uses[number] += 1

    def becomes(self, who: str, slot: int) -> str:
        """A task has a new credential in this slot."""
        self.refer(who, self.seal(slot))
        return self.of(who)

    def of(self, who: str) -> str:
        """The credential of a task or a label, as an answer names it."""
        number = self.current[who]
        return f"c{number} s{self.place[number]}"
