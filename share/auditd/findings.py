"""What differs, which class it is of, and why."""

from __future__ import annotations

from dataclasses import dataclass
from enum import Enum

from .records import Event
from .script import Kind


class Class(Enum):
    """What a difference is. An attack is unexplained, or looks like a call that is missing."""

    EXPLAINED = "explained"
    MISSING = "a call missing"
    DOUBTFUL = "doubtful"
    UNEXPLAINED = "unexplained"


class Reason(Enum):
    """Why a difference is of its class."""

    # Explained: the log or a known gap accounts for it, and the kernel gave less than the rules.
    REFUSED = "refused by what the log doesn't show, as a security module"
    NO_SET_IDS = "set-id bits without effect: a nosuid mount, or a traced task"
    LESS = "less than the rules give: a bounding set or a mount that the log doesn't show"
    # A call missing.
    LACKS = (
        "by the rules calls that the log lacks can lead there: records were lost, no rule records "
        "such a call, or an overwritten credential looks like it"
    )
    LACKS_SETS = (
        "by the rules a capset(2) or prctl(2) that the log lacks can lead there: its record was "
        "lost, or an overwritten credential looks like it"
    )
    LACKS_EXECVE = "the task executes another program, and the log has no execve(2) of it"
    # Doubtful.
    GUESS = "the sets before are a guess: the process was first seen in the middle"
    THREADS = (
        "the process was first seen in the middle: it may have threads that the log doesn't show"
    )
    MAPS = "the maps of its user namespace aren't in the log: they are a guess"
    # Unexplained.
    GAINS = "no rule leads there"


@dataclass(frozen=True)
class Finding:
    """A difference between the log and the rules."""

    event: Event
    kind: Kind
    log: str
    rules: str
    found: Class
    reason: Reason
    # The last record of the process that agreed.
    agreed: Event | None
    # The script that leads there, and its last line.
    script: list[str]
