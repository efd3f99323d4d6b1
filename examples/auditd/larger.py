#!/usr/bin/env python3
"""Writes a log as large as is wanted, on standard output: the stored ones again and again.

    examples/auditd/larger.py RECORDS > LOG
    /usr/bin/time -v share/credtrace-compare-auditd LOG

In each round the stored logs happen beside each other, as on a host, with other pids, times and
serial numbers than before. As of a kernel pids follow one another, and none comes again in 10^7
records.
"""

from __future__ import annotations

import re
import sys
from collections.abc import Iterator
from dataclasses import dataclass
from pathlib import Path

HERE = Path(__file__).resolve().parent
# Not the edited one, nor those that only make sense with what /proc said where they begin, nor that
# whose pids lie far apart.
LEFT_OUT = ("overwritten", "begun", "begun-mapped", "nosuid", "strace", "pids-again")
STAMP = re.compile(r"audit\((\d+\.\d+):(\d+)\)")
PIDS = re.compile(r"\b(o?pid|ppid)=(\d+)")
# A call that makes a task returns its pid, or where that has namespaces of pids a small number.
MADE = re.compile(r"syscall=(?:56|57|58|435) success=yes exit=(\d+)")
# A log's pids are few and lie together: those from its least one on, below this many more.
APART = 2048
# The times of a round lie so many seconds behind those of the one before.
SECONDS = 30
BEGINS = 1796137000


@dataclass(frozen=True)
class Told:
    """An event of a stored log: when it happened, in seconds, and its records."""

    after: float
    lines: tuple[str, ...]


def pids_of(text: str) -> list[int]:
    """The pids of a log that are to be others."""
    found = [*PIDS.findall(text), *(("made", number) for number in MADE.findall(text))]
    least = min(int(number) for name, number in found if name == "pid")
    return sorted({int(number) for _, number in found if 0 <= int(number) - least < APART})


def events_of(text: str, pids: dict[int, int]) -> Iterator[Told]:
    """The events of a log, whose pids become the places that they have among all of a round."""
    found: dict[str, list[str]] = {}
    for line in text.splitlines():
        stamp = STAMP.search(line)
        if stamp is not None:
            found.setdefault(f"{stamp[1]}:{stamp[2]}", []).append(line)
    first = min(float(stamp.partition(":")[0]) for stamp in found)

    def pid(number: str) -> str:
        place = pids.get(int(number))
        return number if place is None else f"{{{place}}}"

    for time, lines in found.items():
        changed = []
        for line in lines:
            line = PIDS.sub(lambda it: f"{it[1]}={pid(it[2])}", line)
            line = MADE.sub(lambda it: it[0].replace(f"exit={it[1]}", f"exit={pid(it[1])}"), line)
            changed.append(STAMP.sub("audit(@)", line))
        yield Told(float(time.partition(":")[0]) - first, tuple(changed))


def rounds(count: int) -> Iterator[str]:
    """So many records."""
    logs = [path for path in sorted(HERE.glob("*/log")) if path.parent.name not in LEFT_OUT]
    events: list[Told] = []
    size = 0
    for path in logs:
        text = path.read_text(encoding="latin-1")
        pids = {pid: at for at, pid in enumerate(pids_of(text), size)}
        size += len(pids)
        events += events_of(text, pids)
    events.sort(key=lambda event: event.after)
    number = re.compile(r"\{(\d+)\}")
    serial = turn = 0
    while True:
        # Below the greatest pid of a 64-bit kernel, 4194304.
        first = 1000 + turn * size % (4_193_000 // size * size)
        for event in events:
            serial += 1
            stamp = f"audit({BEGINS + turn * SECONDS + event.after:.3f}:{serial})"
            for line in event.lines:
                if count == 0:
                    return
                count -= 1
                line = number.sub(lambda it: str(first + int(it[1])), line)
                yield line.replace("audit(@)", stamp)
        turn += 1


if __name__ == "__main__":
    for record in rounds(int(sys.argv[1])):
        sys.stdout.write(record + "\n")
