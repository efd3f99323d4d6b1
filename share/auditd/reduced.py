"""A script of its last line alone: what the tasks of that line, and who made them, did before."""

from __future__ import annotations

from dataclasses import dataclass

ASKS = frozenset({"ids", "caps", "groups", "bits", "dumped"})
LOOKS = frozenset({"signal", "ptrace"})
MAKES = frozenset({"fork", "spawn"})


@dataclass(frozen=True)
class Ending:
    """The lines that lead to an answer, which is that of the last one: those before the body, and
    the body, in which the lines of the record begin at a place."""

    head: list[str]
    body: list[str]
    begin: int

    def text(self) -> str:
        """The whole script."""
        return "\n".join([*self.head, *self.body, ""])


def ending(whole: Ending) -> Ending:
    """The lines that lead to the last one."""
    words = [line.split() for line in whole.body]
    wanted = lineage(words)
    last = len(words) - 1
    kept = [
        place for place, parts in enumerate(words)
        if place == last or place < wanted.get(parts[0], 0) and is_kept(parts, wanted)
    ]  # fmt: skip
    used = {words[place][2] for place in kept if len(words[place]) > 2}
    head = [
        line for line in whole.head
        if line.startswith("ns ") or (name := line.split()[1]) in used or name in wanted
    ]  # fmt: skip
    begin = sum(place < whole.begin for place in kept)
    return Ending(head, [whole.body[place] for place in kept], begin)


def lineage(words: list[list[str]]) -> dict[str, int]:
    """The tasks, each with the place up to which its lines matter."""
    last = words[-1]
    wanted = {last[0]: len(words)}
    if last[1] in LOOKS:
        wanted[last[-1]] = len(words)
    for place in range(len(words) - 1, -1, -1):
        parts = words[place]
        if parts[1] in MAKES and parts[2] in wanted:
            wanted[parts[0]] = max(wanted.get(parts[0], 0), place + 1)
    return wanted


def is_kept(parts: list[str], wanted: dict[str, int]) -> bool:
    """Whether a line of a wanted task changes something of it, or makes another wanted one."""
    if parts[1] in MAKES:
        return parts[2] in wanted
    return parts[1] not in ASKS and parts[1] not in LOOKS
