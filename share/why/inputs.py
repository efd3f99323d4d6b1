"""What a command is given: the bytes of a file, a capability, the number of a line."""

from __future__ import annotations

import argparse
import sys

from .names import LAST, NUMBERS
from .reason import Bad


def shown(path: str) -> str:
    """The name of an input as it is told of."""
    name = "standard input" if path == "-" else path
    return "".join(c if c.isprintable() else "?" for c in name)[:200]


def bytes_of(path: str, limit: int) -> bytes:
    """The bytes of an input: one more than may be, where there are more."""
    try:
        if path == "-" and sys.stdin is None:
            raise Bad("it is closed")
        if path == "-":
            return sys.stdin.buffer.read(limit + 1)
        with open(path, "rb") as file:
            return file.read(limit + 1)
    except (OSError, ValueError) as fault:
        raise Bad(getattr(fault, "strerror", None) or str(fault)) from None


def capability(word: str) -> int:
    """The number of a capability that is given by its name, with or without CAP_, or its number."""
    name = word.upper() if word.upper().startswith("CAP_") else f"CAP_{word.upper()}"
    if name in NUMBERS:
        return NUMBERS[name]
    if word.isascii() and word.isdigit() and len(word) < 3 and int(word) <= LAST:
        return int(word)
    raise argparse.ArgumentTypeError(f"{shown(word)} is no capability")


def line_number(word: str) -> int:
    """The number of a line."""
    if word.isascii() and word.isdigit() and len(word) < 7:
        return int(word)
    raise argparse.ArgumentTypeError(f"{shown(word)} is no number of a line")
