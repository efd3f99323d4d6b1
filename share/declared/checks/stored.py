"""The cases of examples/declared, each with what the real program said when they were recorded.

Cases are lines of JSON. Sets are hexadecimal numbers; names are listed where their spelling is what
matters.
"""

from __future__ import annotations

import json
import stat
from collections.abc import Iterator
from dataclasses import dataclass, field
from functools import lru_cache
from pathlib import Path
from typing import Any

from tool.program import TOP

from ..launcher import Launcher, read
from ..tree import Found, Tree
from ..users import Users, of_texts

FOLDER = TOP / "examples" / "declared"


@dataclass(frozen=True)
class Truth:
    """What the program under a real launcher said of itself; or, where it wasn't started, the
    launcher's status or message."""

    users: str = ""
    group_ids: str = ""
    groups: str = ""
    sets: str = ""
    bits: str = ""
    status: str = ""
    said: str = ""

    @property
    def started(self) -> bool:
        """Whether the program ran."""
        return bool(self.sets)

    def as_json(self) -> dict[str, str]:
        """As it is stored: what is empty isn't."""
        return {key: value for key, value in vars(self).items() if value}


def truth_of(told: str, status: str = "", said: str = "") -> Truth:
    """The truth, by what the probe has written."""
    words = dict(line.partition(" ")[::2] for line in told.splitlines() if " " in line)
    words = {key: " ".join(value.split()) for key, value in words.items()}
    if "caps" not in words:
        return Truth(status=status, said=said)
    return Truth(words["uid"], words["gid"], words.get("groups", ""), words["caps"], words["bits"],
                 status)  # fmt: skip


@dataclass(frozen=True)
class Case:
    """A case: what is declared, and the truth of each launcher that it was recorded with."""

    number: int
    kind: str
    declared: dict[str, Any]
    truths: dict[str, Truth] = field(default_factory=dict)

    def as_json(self) -> str:
        """The line that stores it."""
        truths = {name: it.as_json() for name, it in self.truths.items()}
        whole = {"kind": self.kind, **self.declared, "truth": truths}
        return json.dumps(whole, separators=(",", ":"))


def cases(name: str) -> Iterator[Case]:
    """The cases of a file."""
    text = (FOLDER / f"{name}.jsonl").read_text(encoding="utf-8")
    for number, line in enumerate(text.splitlines(), 1):
        whole = json.loads(line)
        kind, truths = whole.pop("kind"), whole.pop("truth", {})
        found = {launcher: Truth(**it) for launcher, it in truths.items()}
        yield Case(number, kind, whole, found)


@dataclass
class Stored:
    """A tree whose files were recorded."""

    files: dict[str, Found]
    top: str = ""

    def find(self, path: str) -> Found:
        """The file of a path."""
        found = self.files.get(self.top + path)
        if found is None:
            raise FileNotFoundError(2, "No such file or directory")
        return found

    def under(self, path: str) -> Tree:
        """The tree with this folder of it as root."""
        return Stored(self.files, self.top + path.rstrip("/"))


def as_stored(it: Found) -> list[object]:
    """A file, as it is stored. The mode tells a folder, as stat(2) does."""
    attribute = it.attribute.hex() if it.attribute else ""
    head = it.head if it.head.startswith(b"#!") else it.head[:4]
    mode = it.mode | (stat.S_IFDIR if it.is_dir else 0)
    return [it.owner, it.group, f"{mode:04o}", attribute, head.decode("latin-1")]


def found_of(row: list[Any]) -> Found:
    """A file that was stored."""
    owner, group, mode, attribute, head = row
    bits, is_dir = stat.S_IMODE(int(mode, 8)), stat.S_ISDIR(int(mode, 8))
    attribute_of = bytes.fromhex(attribute) or None
    return Found(owner, group, bits, is_dir, not is_dir, attribute_of, head=head.encode("latin-1"))


@lru_cache(None)
def tree(name: str) -> Stored:
    """A tree by its name."""
    whole = json.loads((FOLDER / "trees.json").read_text(encoding="utf-8"))
    return Stored({path: found_of(row) for path, row in whole[name].items()})


@lru_cache(None)
def users_of(passwd: str, group: str) -> Users:
    """The users of two stored files."""
    texts = ((FOLDER / name).read_text(encoding="latin-1") for name in (passwd, group))
    return of_texts(*texts)


def users() -> Users:
    """The users of the machine on which it was recorded."""
    return users_of("passwd", "group")


@lru_cache(None)
def launcher() -> Launcher:
    """What the launchers had."""
    return read(str(FOLDER / "start"))


def path_of(name: str) -> Path:
    """A file of the stored data."""
    return FOLDER / name
