"""Where a log comes from: files, also packed ones, in the order of time; a window of time."""

from __future__ import annotations

import datetime
import re
import sys
import zlib
from collections.abc import Iterator
from dataclasses import dataclass, field
from itertools import chain

from strace.log.reader import Source
from strace.log.sources import source_of
from tool.inputs import Fault, shown

from .records import HEAD, Event

# The longest line that is read: a record of the kernel has some 8 KiB at most.
LONGEST = 1 << 20
EVERY = 50_000

# The words of ausearch(8) for a time.
AGO = {"now": 0, "recent": 600}
DAYS = {"today": 0, "yesterday": 1, "week-ago": 7}


def parts_of(source: Source) -> Iterator[list[str]]:
    """The lines of a log, many at a time, each byte a character."""
    kept = ""
    while chunk := source.read(1 << 20):
        parts = (kept + chunk.decode("latin-1")).split("\n")
        kept = parts.pop()
        if len(kept) > LONGEST:
            raise Fault("a line of it is too long for a log of the audit system")
        yield parts
    if kept:
        yield [kept]


def first_time(path: str) -> float:
    """The time of the first record of a file."""
    with source_of(path) as source:
        for text in chain.from_iterable(parts_of(source)):
            found = HEAD.match(text)
            if found:
                return float(found[3])
    return 0.0


@dataclass
class Logs:
    """The logs that were named, as one."""

    paths: list[str]
    # Whether it is told on a terminal how far they are read.
    tells: bool = True
    # Where one of them couldn't be read to its end.
    cut: list[str] = field(default_factory=list)

    def lines(self) -> Iterator[str]:
        """All lines."""
        count = 0
        for path in self._in_order():
            try:
                with source_of(path) as source:
                    for part in parts_of(source):
                        yield from part
                        count += len(part)
                        if self.tells and count >= EVERY:
                            progress(count)
            except (OSError, zlib.error) as fault:
                reason = fault.strerror if isinstance(fault, OSError) else None
                if not count:
                    raise Fault(f"{shown(path)}: {reason or fault}") from None
                self.cut.append(f"{shown(path)}: {reason or fault}: what stands before is compared")
            except Fault as fault:
                raise Fault(f"{shown(path)}: {fault}") from None
        if self.tells and count >= EVERY and sys.stderr.isatty():
            print(f"\r{count} records", file=sys.stderr)

    def _in_order(self) -> list[str]:
        """The files, the oldest first: auditd gives the newest the first name."""
        if len(self.paths) == 1:
            return self.paths
        if self.paths.count("-"):
            raise Fault("standard input is read alone, without other logs")
        try:
            return sorted(self.paths, key=first_time)
        except (OSError, zlib.error) as fault:
            name = fault.filename if isinstance(fault, OSError) else "a log"
            reason = fault.strerror if isinstance(fault, OSError) else fault
            raise Fault(f"{name}: {reason}") from None


def progress(count: int) -> None:
    """Tells on a terminal how far the log is read."""
    if sys.stderr.isatty():
        print(f"\r{count} records", end="", file=sys.stderr, flush=True)


def time_of(word: str, now: datetime.datetime) -> float:
    """A time: seconds since 1970, as records have them, a date, an hour, or a word of ausearch."""
    if re.fullmatch(r"\d+(\.\d+)?", word):
        return float(word)
    if word in AGO:
        return now.timestamp() - AGO[word]
    day = now.replace(hour=0, minute=0, second=0, microsecond=0)
    if word in DAYS:
        return (day - datetime.timedelta(days=DAYS[word])).timestamp()
    try:
        if re.fullmatch(r"\d\d?:\d\d(:\d\d)?", word):
            found = datetime.time.fromisoformat(word.zfill(5) if word.count(":") == 1 else word)
            return datetime.datetime.combine(day, found).timestamp()
        return datetime.datetime.fromisoformat(word).timestamp()
    except ValueError:
        raise Fault(
            f"{word} is no time: one is 2026-12-31T23:59:59, 23:59, a number of seconds since "
            f"1970, or one of {', '.join([*AGO, *DAYS])}"
        ) from None


def within(events: Iterator[Event], since: float | None, until: float | None) -> Iterator[Event]:
    """The events of a window of time."""
    if since is None and until is None:
        yield from events
        return
    for event in events:
        time = float(event.time)
        if (since is None or time >= since) and (until is None or time <= until):
            yield event


def family(events: Iterator[Event], first: int) -> Iterator[Event]:
    """The events of a process and its descendants."""
    known = {first}
    for event in events:
        if event.pid in known or event.parent in known:
            known.add(event.pid)
            if event.name in ("clone", "fork", "vfork", "clone3") and event.done:
                known.add(event.result)
            yield event
