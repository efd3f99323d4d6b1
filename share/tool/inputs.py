"""What is wrong with an input, and how an input is named where it is told of."""

from __future__ import annotations

from pathlib import Path


class Fault(Exception):
    """What is wrong with the words, the log or another input, in one line."""


def shown(path: str) -> str:
    """The name of an input as it is told of."""
    return "standard input" if path == "-" else Path(path).name or path
