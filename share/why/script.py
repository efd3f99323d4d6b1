"""A script: its lines, the files and the namespaces that they declare, and labels that are free."""

from __future__ import annotations

import re
from collections.abc import Iterator
from dataclasses import dataclass

from .reason import Bad

# The files and namespaces stand first, and make no event.
DECLARATIONS = ("file", "ns")
QUERIES = frozenset("ids caps groups bits capable bset ambis check".split())


@dataclass(frozen=True)
class File:
    """A file that the script declares."""

    name: str
    kind: str
    owner: int
    group: int
    mode: int
    nosuid: bool
    attribute: str | None

    @property
    def text(self) -> str:
        """The mode as the script has it."""
        return f"{self.mode:04o}"


class Script:
    """The lines of a script that the program has judged to be one."""

    def __init__(self, text: str) -> None:
        self.lines = text.split("\n")
        if self.lines[-1] == "":
            self.lines.pop()
        self.declarations: list[str] = []
        self.files: dict[str, File] = {}
        self.roots: dict[int, list[int]] = {0: [0]}
        self.spaces: dict[int, list[int]] = {0: [0]}
        for line in self.lines:
            words = line.split()
            if not words or words[0] not in DECLARATIONS:
                if words and words[0] != "init" and not words[0].startswith("#"):
                    break
                continue
            self.declarations.append(line)
            if words[0] == "file":
                self.declare_file(words)
            else:
                number, root, parent = map(int, words[1:4])
                self.roots[number] = [root, *self.roots[parent]]
                self.spaces[number] = [number, *self.spaces[parent]]

    def declare_file(self, words: list[str]) -> None:
        """Keeps the file of a line."""
        more = words[6:]
        self.files[words[1]] = File(
            words[1], words[2], int(words[3]), int(words[4]), int(words[5], 8),
            "nosuid" in more, more[-1] if "caps" in more else None,
        )  # fmt: skip

    def line(self, number: int) -> str:
        """The text of a line, counted from 1."""
        if not 1 <= number <= len(self.lines):
            raise Bad(f"the script has no line {number}: it has {len(self.lines)}")
        return " ".join(self.lines[number - 1].split())

    def free_labels(self) -> Iterator[str]:
        """Labels that no line names."""
        used = set(re.findall(r"\bh\d+\b", "\n".join(self.lines)))
        labels = (f"h{number}" for number in range(99999, 0, -1))
        return (label for label in labels if label not in used)


def chain(script: Script, namespace: int) -> list[int]:
    """The root ids of a namespace and of those above it; its own is the first."""
    return script.roots[namespace]
