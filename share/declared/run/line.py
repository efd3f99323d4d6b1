"""The words of a line of docker run or podman run, by the options of each.

The options that take no value are those of `docker run --help` and `podman run --help`; each other
one takes one.
"""

from __future__ import annotations

import os
from dataclasses import dataclass, field

from ..places import Bad
from .engines import Engine

FLAGS = {
    Engine.DOCKER: frozenset(
        "--detach --disable-content-trust --help --init --interactive --no-healthcheck "
        "--oom-kill-disable --privileged --publish-all --quiet --read-only --rm --sig-proxy --tty "
        "--use-api-socket".split()
    ),
    Engine.PODMAN: frozenset(
        "--detach --disable-content-trust --env-host --help --http-proxy --init --interactive "
        "--no-healthcheck --no-hosts --oom-kill-disable --passwd --privileged --publish-all "
        "--quiet --read-only --read-only-tmpfs --replace --rm --rmi --rootfs --sig-proxy "
        "--tls-verify --tty --unsetenv-all".split()
    ),
}
SHORT = {
    "a": "--attach", "c": "--cpu-shares", "d": "--detach", "e": "--env", "h": "--hostname",
    "i": "--interactive", "l": "--label", "m": "--memory", "P": "--publish-all", "p": "--publish",
    "q": "--quiet", "t": "--tty", "u": "--user", "v": "--volume", "w": "--workdir",
}  # fmt: skip
FALSE = frozenset(("0", "f", "F", "false", "FALSE", "False"))


@dataclass(frozen=True)
class Option:
    """An option with its value; of a flag that is `true` or what stands behind `=`."""

    name: str
    value: str

    def __str__(self) -> str:
        return self.name if self.value == "true" else f"{self.name} {self.value}"


@dataclass
class Line:
    """A line: its options, its image, and the words behind that."""

    engine: Engine
    options: list[Option] = field(default_factory=list)
    image: str = ""
    words: list[str] = field(default_factory=list)

    def values(self, name: str) -> list[str]:
        """The values of an option, in their order."""
        return [it.value for it in self.options if it.name == name]

    def last(self, name: str) -> str:
        """The last value of an option; empty where it isn't there."""
        return (self.values(name) or [""])[-1]

    def has(self, name: str) -> bool:
        """Whether a flag is set."""
        found = self.values(name)
        return bool(found) and found[-1] not in FALSE

    def told(self, *names: str) -> str:
        """These options, as they stand on the line."""
        return " ".join(str(it) for it in self.options if it.name in names)


def engine_of(words: list[str]) -> Engine:
    """The engine of a line."""
    name = os.path.basename(words[0]) if words else ""
    for engine in Engine:
        if name == engine.value:
            return engine
    raise Bad("the line is to begin with docker run or podman run, behind --")


def start(words: list[str]) -> int:
    """Where the options of run begin: behind `run`, or `container run`."""
    place = 2 if words[1:2] == ["container"] else 1
    if words[place : place + 1] != ["run"]:
        found = words[place] if words[place:] else "nothing"
        raise Bad(f"{words[0]} {found[:40]} is not told: only a line of {words[0]} run is")
    return place + 1


class Reader:
    """Goes through the words."""

    def __init__(self, words: list[str]) -> None:
        self.line = Line(engine_of(words))
        self.rest = words[start(words) :]

    def value(self, name: str) -> str:
        """The word behind an option."""
        if not self.rest:
            raise Bad(f"{name} has no value: the line ends there")
        return self.rest.pop(0)

    def long(self, word: str) -> None:
        """An option with its whole name."""
        name, equals, value = word.partition("=")
        if equals:
            self.line.options.append(Option(name, value))
        elif name in FLAGS[self.line.engine]:
            self.line.options.append(Option(name, "true"))
        else:
            self.line.options.append(Option(name, self.value(name)))

    def short(self, word: str) -> None:
        """Options of a letter: flags may stand together, and a value behind its letter."""
        letters = word[1:]
        while letters:
            letter, letters = letters[0], letters[1:]
            name = SHORT.get(letter)
            if name is None:
                raise Bad(f"-{letter} is no option of {self.line.engine.value} run")
            if name in FLAGS[self.line.engine]:
                self.line.options.append(Option(name, "true"))
            else:
                value = letters.removeprefix("=") or self.value(name)
                self.line.options.append(Option(name, value))
                return

    def read(self) -> Line:
        """The line."""
        while self.rest and self.rest[0].startswith("-") and self.rest[0] != "-":
            word = self.rest.pop(0)
            if word == "--":
                break
            if word.startswith("--"):
                self.long(word)
            else:
                self.short(word)
        if not self.rest:
            raise Bad("the line names no image")
        self.line.image, self.line.words = self.rest[0], self.rest[1:]
        return self.line


def parsed(words: list[str]) -> Line:
    """The line of these words."""
    if any("\0" in word for word in words):
        raise Bad("a word has a NUL byte")
    return Reader(words).read()
