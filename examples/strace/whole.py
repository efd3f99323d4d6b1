"""Whether each refused call of a log is told of, by the log's text alone."""

from __future__ import annotations

import re
from collections.abc import Iterable
from pathlib import Path

from strace.options import Options, converted
from watch.log_report import log_report

PID = re.compile(r"(?:\[pid +)?(\d+)?")
DENIED = re.compile(r"\) *= -1 E(?:PERM|ACCES) \((?!.*\(INJECTED\)$)")


def refused_in(lines: Iterable[str]) -> set[int]:
    """The lines at which calls begin that the kernel refused."""
    found: set[int] = set()
    begun: dict[str, int] = {}
    for number, line in enumerate(lines, 1):
        match = PID.match(line)
        pid = (match[1] if match else None) or ""
        if line.endswith("<unfinished ...>"):
            begun[pid] = number
            continue
        first = begun.pop(pid, number) if "> resumed" in line or " resumed>" in line else number
        if DENIED.search(line):
            found.add(first)
    return found


def told_otherwise(options: Options) -> set[int]:
    """The lines with a refused call of which nothing is told, or something of one that isn't."""
    report = log_report(converted(options))
    told = {line for it in report.refusals for line in (it.call.first, *it.threads)}
    text = Path(options.logs[0]).read_text(encoding="latin-1")
    return told ^ refused_in(text.split("\n"))
