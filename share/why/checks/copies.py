"""Copies of scripts say of each credential what the script's own questions were told of it."""

from __future__ import annotations

from ..values import Values
from ..journal import Journal
from ..reason import Fault, NotFound
from ..script import Script
from . import scripts

# Longer scripts than these take too long to be asked once more; so do the generators of all calls.
LINES = 1000
ALL_CALLS = "/every-"


def differing(given: bytes, report: bytes) -> list[str]:
    """The credentials of a script that a copy tells otherwise."""
    journal = Journal(Script(given.decode("latin-1")), report.decode("latin-1"))
    own = dict(journal.known)
    journal.known.clear()
    values = Values(journal)
    for credential, kind in own:
        values.want(credential, kind)
    try:
        values.ask()
    except (Fault, NotFound) as fault:
        return [str(fault)]
    return [
        f"c{credential} has the {kind} {' '.join(told)}"
        for (credential, kind), told in values.known.items()
        if own[credential, kind] != told
    ]


def faults() -> list[str]:
    """What copies tell otherwise, over the short scripts of cases/ and examples/."""
    found = []
    for file in scripts.files():
        for name, given, report in scripts.cases(file) if ALL_CALLS not in file.name else ():
            if given.count(b"\n") < LINES and b" ask " in report:
                found += [f"{name}: a copy tells that {it}" for it in differing(given, report)]
    return found
