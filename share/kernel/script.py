"""A script as the driver and the reports want it: its declarations, and its lines in words."""

from __future__ import annotations

import re
from dataclasses import dataclass, field

from capabilities import CAPABILITIES

NUMBERS = {f"CAP_{name}": number for number, name in enumerate(CAPABILITIES)}
NONE = 0xFFFFFFFF

ID_CALLS = (
    "setuid", "seteuid", "setreuid", "setresuid",
    "setgid", "setegid", "setregid", "setresgid", "setgroups",
)  # fmt: skip
CHANGES = (
    "setfsuid", "setfsgid", "capset", "capdrop", "ambraise", "amblower", "ambclear",
    "securebits", "keepcaps", "nonewprivs", "exec",
)  # fmt: skip
QUERIES = ("ids", "caps", "groups", "bits", "capable", "bset", "ambis", "check")


@dataclass(frozen=True)
class File:
    """A declared file."""

    name: str
    is_dir: bool
    owner: int
    group: int
    mode: int
    nosuid: bool
    attribute: bytes | None


@dataclass(frozen=True)
class Namespace:
    """A user namespace: its root id, and the number of its parent."""

    root: int
    parent: int


@dataclass(frozen=True)
class Line:
    """A line that makes events: its number and its words."""

    number: int
    words: tuple[str, ...]


@dataclass
class Script:
    """A script, which is taken to be a good one."""

    files: dict[str, File] = field(default_factory=dict)
    spaces: dict[int, Namespace] = field(default_factory=lambda: {0: Namespace(0, -1)})
    lines: list[Line] = field(default_factory=list)
    text: str = ""


def capability(word: str) -> int:
    """The number of a capability."""
    return NUMBERS[word] if word in NUMBERS else int(word)


def hex_bytes(word: str) -> bytes:
    """The bytes of an attribute."""
    return bytes.fromhex(word.removeprefix("0x"))


def file_of(words: list[str]) -> File:
    """The file that a line declares."""
    name, kind, owner, group, mode, *more = words[1:]
    attribute = hex_bytes(more[-1]) if "caps" in more else None
    is_nosuid = "nosuid" in more[:1]
    return File(name, kind == "dir", int(owner), int(group), int(mode, 8), is_nosuid, attribute)


def parse(text: str) -> Script:
    """The script of a text. Lanes are run one after another, as `run` does."""
    script = Script(text=text)
    for number, line in enumerate(text.split("\n"), 1):
        words = line.split()
        if not words or words[0][0] == "#" or words[0] == "lane":
            continue
        if words[0] == "file":
            script.files[words[1]] = file_of(words)
        elif words[0] == "ns":
            script.spaces[int(words[1])] = Namespace(int(words[2]), int(words[3]))
        else:
            script.lines.append(Line(number, tuple(words)))
    return script


FILE_IDS = re.compile(r"^ *file +\S+ +\S+ +(\d+) +(\d+)", re.M)
FIRST_IDS = re.compile(r"^ *(?:ns +\d+ +(\d+)|init +\S+ +\S+ +(\d+) +(\d+))", re.M)


def numbers(form: re.Pattern[str], script: Script) -> set[int]:
    """The numbers of lines of a form."""
    return {int(word) for words in form.findall(script.text) for word in words if word}


def called(script: Script) -> set[int]:
    """The ids that calls name."""
    found: set[int] = set()
    for line in script.lines:
        words = line.words[2:] if line.words[0] == "begin" else line.words[1:]
        if words[:1] and (words[0] in ID_CALLS or words[0] in ("setfsuid", "setfsgid")):
            found.update(int(word) for word in words[1:] if word != "-1")
    return found
