"""Calls that the kernel refused and of which the script has no line."""

from __future__ import annotations

from dataclasses import dataclass

from ..log.reader import Call

ERRORS = ("EPERM", "EACCES")


@dataclass(frozen=True)
class Refused:
    """Such a call, and where it would stand in the script."""

    call: Call
    # The task, where it is one of the script's, and before which line of the log's calls.
    task: str = ""
    place: int = 0
    # What the log has of it besides: why no line says it, the line at which the task's process
    # installed a seccomp filter, and whether the task is in a user namespace of the log.
    why: str = ""
    filtered: int = 0
    inside: bool = False


def is_refused(call: Call) -> bool:
    """Whether the kernel refused a call for want of a permission."""
    return call.result.error in ERRORS
