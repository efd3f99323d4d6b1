"""ExecStart= and its kin: which program is executed, with which prefixes (systemd.service(5))."""

from __future__ import annotations

import re
from dataclasses import dataclass

from ..places import Bad, Place
from ..tree import Tree
from .settings import Settings
from .words import split

KEYS = (
    "ExecStart", "ExecStartPre", "ExecStartPost", "ExecCondition", "ExecReload", "ExecStop",
    "ExecStopPost",
)  # fmt: skip
# Where systemd looks for a program that is named without a slash.
PATHS = ("/usr/local/sbin", "/usr/local/bin", "/usr/sbin", "/usr/bin", "/sbin", "/bin")


@dataclass(frozen=True)
class Prefixes:
    """The special letters before a command: `+` leaves all privileges, `!` the user, `!!` counts as
    none, as Linux has ambient capabilities. `-`, `@` and `:` change nothing here."""

    full: bool = False
    keeps_user: bool = False

    @property
    def sandboxed(self) -> bool:
        """Whether capabilities and sandboxing are set."""
        return not self.full

    @property
    def changes_user(self) -> bool:
        """Whether the user and the groups are set."""
        return not self.full and not self.keeps_user


@dataclass(frozen=True)
class Command:
    """A command of a unit."""

    path: str
    text: str
    prefixes: Prefixes
    place: Place


@dataclass(frozen=True)
class Choice:
    """Which command is meant: the key, and its number from 1."""

    key: str = "ExecStart"
    number: int = 1


def choice(word: str) -> Choice:
    """The words of --command: `ExecStart:2`, `2` or `ExecStop`."""
    found = re.fullmatch(r"([A-Za-z]+)?=?:?([1-9][0-9]{0,3})?", word)
    key = found[1] or "ExecStart" if found else ""
    if not found or key not in KEYS or not word:
        raise Bad(f"{word[:80]} names no command: ExecStart:2 is the second of ExecStart=, and the "
                  f"keys are {', '.join(KEYS)}")  # fmt: skip
    return Choice(key, int(found[2] or 1))


def texts(value: str) -> list[str]:
    """The commands of one line, which stand apart by a semicolon."""
    return [it.strip() for it in re.split(r"(?:^|\s);(?=\s|$)", value) if it.strip()]


def prefixes(text: str) -> Prefixes:
    """What the letters before a command say."""
    return Prefixes("+" in text, "!" in text and "!!" not in text)


def all_of(settings: Settings, key: str) -> list[Command]:
    """The commands of a key."""
    found = []
    for it in settings.of(key):
        for text in texts(it.value):
            letters = re.match(r"[-@:+!]*", text)
            marks = letters[0] if letters else ""
            words = split(text[len(marks):])
            if words:
                path = settings.expanded(words[0], it.place)
                found.append(Command(path, text, prefixes(marks), it.place))
    return found


def chosen(settings: Settings, which: Choice) -> Command:
    """The command that is meant."""
    found = all_of(settings, which.key)
    if not found:
        raise Bad(f"{settings.name.full}: it has no {which.key}=")
    if which.number > len(found):
        count = f"{len(found)} command{'' if len(found) == 1 else 's'}"
        raise Bad(f"{settings.name.full}: {which.key}= has {count}, and no number {which.number}")
    return found[which.number - 1]


def is_program(tree: Tree, path: str) -> bool:
    """Whether a path leads to a file that someone may execute."""
    try:
        found = tree.find(path)
    except (OSError, ValueError):
        return False
    return bool(found.mode & 0o111) and not found.is_dir


def path_of(command: Command, tree: Tree) -> str:
    """The path of a command's program."""
    if "/" in command.path:
        return command.path
    paths = [f"{folder}/{command.path}" for folder in PATHS]
    return next((path for path in paths if is_program(tree, path)), paths[2])
