"""A host of a fleet: its logs, and what comes of them as plain values, which a worker can send."""

from __future__ import annotations

from dataclasses import dataclass
from pathlib import Path
from typing import Any

from tool.inputs import Fault

from .compare_auditd import NOT_COMPARED, compared, parser
from .telling import Teller, summary

# What a host's folder has besides its logs: what /proc said where they begin.
START = "start"


@dataclass(frozen=True)
class Host:
    """A host, as it was named: the words of the command that compares it."""

    name: str
    words: tuple[str, ...]


def host_of(name: str, options: list[str]) -> Host:
    """The host of a log, or of a folder. A worker may run in another folder."""
    path = Path(name).absolute()
    if not path.is_dir():
        return Host(name, (*options, str(path)))
    start = ["--start", str(path / START)] if (path / START).is_dir() else []
    # auditd calls them audit.log, audit.log.1 and so on, and logrotate may pack them.
    logs = sorted(str(one) for one in path.iterdir() if "log" in one.name and one.is_file())
    # Without any the folder itself is named, which says what is wrong.
    return Host(name, (*options, *start, *(logs or [str(path)])))


# What came of a host. `failed` says in a line why nothing did.
Outcome = dict[str, Any]


def failed(why: str) -> Outcome:
    """What is told of a host that wasn't compared."""
    return {"status": NOT_COMPARED, "failed": why, "findings": []}


def outcome_of(words: list[str]) -> Outcome:
    """Compares a host's logs."""
    given = parser().parse_args(words)
    try:
        done = compared(given, tells=False)
    except Fault as fault:
        return failed(str(fault))
    teller = Teller(given.names, given.lost)
    return {
        "status": done.status,
        "findings": [teller.values(finding, place) for finding, place in done.findings],
        "summary": summary(done.result, given.lost),
        "notes": done.notes,
    }
