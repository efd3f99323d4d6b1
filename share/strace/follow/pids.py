"""PID namespaces: the log's pids by the numbers that the tasks of a namespace know."""

from __future__ import annotations

from dataclasses import dataclass, field

# A process that the log doesn't have.
NOBODY = -1


@dataclass
class Pids:
    """A PID namespace. In strace's own the numbers are those of the log."""

    is_log: bool = False
    known: dict[int, int] = field(default_factory=dict)

    def of(self, number: int) -> int:
        """The log's pid of the process that has this number here."""
        return number if self.is_log else self.known.get(number, NOBODY)

    def begins(self, pid: int) -> None:
        """The first process of a namespace has the number 1."""
        if not self.is_log:
            self.known.setdefault(1, pid)

    def has(self, number: int, pid: int) -> None:
        """The number of a process is told."""
        self.known[number] = pid


def foreign() -> Pids:
    """A namespace that the log didn't make: its first process isn't one of the log."""
    return Pids(known={1: NOBODY})
