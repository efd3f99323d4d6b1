"""Summaries of scripts of many sizes.

docs/FORMATS.md, "A script that is made from a number": of N + 1 lines, the first makes a task, and
for i from 1 to N the line behind the i-th is chosen by the remainder of i divided by 5.
"""
from collections.abc import Iterator

from suite import UNREAD, Case

# By the remainder: how many entries the line makes, and whether a credential is sealed or the call
# is refused.
ENTRIES = {1: 1, 2: 5, 3: 3, 4: 5, 0: 5}
SEALED = (1, 2, 4)
REFUSED = (0,)
# The sizes: all small ones, and one in every five hundred.
SIZES = (*range(1, 41), *range(345, 19_000, 500))


def summary(size: int) -> str:
    """The summary of the script of this size."""
    kinds = [it % 5 for it in range(1, size + 1)]
    entries = 1 + sum(ENTRIES[it] for it in kinds)
    credentials = 1 + sum(it in SEALED for it in kinds)
    refusals = sum(it in REFUSED for it in kinds)
    return f"lines {size + 1} entries {entries} credentials {credentials} refusals {refusals}\n"


def cases() -> Iterator[Case]:
    """A run of each size."""
    for size in SIZES:
        yield Case(f"gen {size}", ("gen", str(size)), UNREAD, summary(size).encode())
