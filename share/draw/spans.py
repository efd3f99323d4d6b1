"""What lasts from one entry to another, and the rows in which that is drawn."""

from __future__ import annotations

import heapq
from dataclasses import dataclass, field

# The kinds of spans, as the page's script knows them.
BAND, HOLD, PREPARED, OVERRIDE, FILE = range(5)

# The end of what no entry of the report ends.
OPEN = 0


@dataclass(slots=True)
class Span:
    """Something that began by an entry and ended by another one; both are counted from 1.

    Of a hold the label is its own, of an override that of what is lent, of a band the task's name.
    """

    kind: int
    label: str
    cred: str
    start: int
    end: int = OPEN
    slot: str = ""

    def meets(self, first: int, last: int) -> bool:
        """Whether some of it lies between two entries."""
        return self.start <= last and (self.end == OPEN or self.end >= first)


@dataclass
class Row:
    """A task, or what belongs to no task."""

    name: str
    process: str = ""
    bands: list[Span] = field(default_factory=list)
    spans: list[Span] = field(default_factory=list)


def levels(spans: list[Span], reach: int) -> list[int]:
    """For each span, which are in the order of their starts, a level on which nothing else is then.

    A span takes its last entry's place too; so the next one on a level begins behind it.
    """
    busy: list[tuple[int, int]] = []
    free: list[int] = []
    found: list[int] = []
    count = 0
    for span in spans:
        while busy and busy[0][0] < span.start:
            heapq.heappush(free, heapq.heappop(busy)[1])
        if free:
            level = heapq.heappop(free)
        else:
            level, count = count, count + 1
        heapq.heappush(busy, (span.end or reach, level))
        found.append(level)
    return found
