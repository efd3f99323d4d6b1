"""The line of each key of a JSON text, which the standard library doesn't tell."""

from __future__ import annotations

import re
from dataclasses import dataclass

# A string, a bracket or a separator; other values are passed over.
TOKEN = re.compile(r'"(?:[^"\\]|\\.)*"|[{}\[\],:]|[^\s{}\[\],:"]+', re.DOTALL)


@dataclass
class Level:
    """An object or a list that is open: its path, and the key or the index that comes next."""

    path: str
    is_object: bool
    key: str = ""
    index: int = 0
    wants_key: bool = True

    def here(self) -> str:
        """The path of the value that comes next."""
        if not self.is_object:
            return f"{self.path}[{self.index}]"
        return f"{self.path}.{self.key}".lstrip(".")


def lines(text: str) -> dict[str, int]:
    """The line of each value of a JSON text that json.loads() has read, by its path:
    `process.args`, `mounts[2].source`. Of a key that is there twice the last one counts."""
    found: dict[str, int] = {}
    levels: list[Level] = []
    number, at = 1, 0
    for token in TOKEN.finditer(text):
        number += text.count("\n", at, token.start())
        at = token.start()
        word = token[0]
        level = levels[-1] if levels else None
        if word in "}]":
            levels.pop()
        elif word == ":" or level is None and word not in "{[":
            continue
        elif word == ",":
            assert level is not None
            level.index, level.wants_key = level.index + 1, True
        elif level is not None and level.is_object and level.wants_key:
            level.key, level.wants_key = word[1:-1], False
            found[level.here()] = number
        else:
            path = level.here() if level else ""
            found.setdefault(path, number)
            if word in "{[":
                levels.append(Level(path, word == "{"))
    return found
