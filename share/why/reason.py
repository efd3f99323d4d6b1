"""What is said of an entry: a sentence with its source; and what isn't one."""

from __future__ import annotations

from typing import NamedTuple

# What a credential is asked for.
IDS, CAPS, GROUPS, BITS = "ids", "caps", "groups", "bits"


# How it is told that a sentence doesn't lead to the answer.
A_FAULT = "this is a fault of credtrace-why"


class Reason(NamedTuple):
    """A sentence with the values in it, and the place in the manual that says so; and which sets it
    is on, by their places, where it is on some alone."""

    text: str
    source: str
    sets: tuple[int, ...] = ()


class Fault(Exception):
    """A sentence doesn't lead to what the program answered: the tool is wrong, or its reading."""


class Bad(ValueError):
    """What is wrong with an input, in one line."""


class NotFound(ValueError):
    """What couldn't be found out, in one line: no program, or no room for a question."""
