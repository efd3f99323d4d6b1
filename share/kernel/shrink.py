"""Cuts a script down to the fewest lines that still differ."""

from __future__ import annotations

from collections.abc import Callable

Differs = Callable[[list[str]], bool]
# How many scripts are tried at most for one difference.
TRIES = 1_500


def declares(line: str) -> bool:
    """Whether a line declares something, so that others may need it."""
    return line.split()[:1] in (["file"], ["ns"])


def family(lines: list[str]) -> list[str]:
    """The lines of the tasks and labels that the last line names, and of those that they come from;
    all declarations.
    """
    kept, named = [lines[-1]], set(words_of(lines[-1]))
    for line in reversed(lines[:-1]):
        words = words_of(line)
        made = [it for it in words if it in named]
        if declares(line) or made:
            kept.append(line)
            named.update(words)
    return kept[::-1]


def words_of(line: str) -> list[str]:
    """The tasks, processes and labels of a line."""
    return [it for it in line.split() if it[0] in "tph" and it[1:].isdigit()]


def without_unused(lines: list[str]) -> list[str]:
    """Without the files that no other line names."""
    used = {word for line in lines if not line.startswith("file ") for word in line.split()}
    return [it for it in lines if not it.startswith("file ") or it.split()[1] in used]


class Shrinker:
    """Tries scripts, up to a number of them."""

    def __init__(self, differs: Differs) -> None:
        self.differs = differs
        self.left = TRIES

    def holds(self, lines: list[str]) -> bool:
        """Whether a script still differs."""
        if self.left <= 0:
            return False
        self.left -= 1
        return self.differs(lines)

    def chunks(self, lines: list[str]) -> list[str]:
        """Leaves out runs of lines, halves first and single ones last, while it still differs."""
        size = len(lines) // 2
        while size:
            at, found = 0, False
            while at < len(lines):
                fewer = lines[:at] + lines[at + size :]
                if fewer and self.holds(fewer):
                    lines, found = fewer, True
                else:
                    at += size
            if not found or size > 1:
                size = size // 2 if size > 1 or not found else 1
        return lines


def shrunk(lines: list[str], differs: Differs) -> list[str]:
    """The fewest lines, each of which is wanted."""
    shrinker = Shrinker(differs)
    for fewer in (family(lines), without_unused(lines)):
        if len(fewer) < len(lines) and shrinker.holds(fewer):
            lines = fewer
    fewer = without_unused(lines)
    if len(fewer) < len(lines) and shrinker.holds(fewer):
        lines = fewer
    lines = shrinker.chunks(lines)
    fewer = without_unused(lines)
    return fewer if len(fewer) < len(lines) and shrinker.holds(fewer) else lines
