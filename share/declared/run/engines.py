"""docker and podman: their default capabilities, a table a version, and how each makes the sets.

Measured: docker 20.10 over runc, podman 4.3 over crun, both started by root.
"""

from __future__ import annotations

from dataclasses import dataclass
from enum import Enum

from why.names import ALL, NUMBERS

from ..oci.orders import Runtime


def mask(names: str) -> int:
    """A set of names without CAP_."""
    return sum(1 << NUMBERS[f"CAP_{name}"] for name in names.split())


class Engine(Enum):
    """Who reads the line."""

    DOCKER = "docker"
    PODMAN = "podman"

    @property
    def runtime(self) -> Runtime:
        """The runtime that it calls where none is named."""
        return Runtime.RUNC if self is Engine.DOCKER else Runtime.CRUN


@dataclass(frozen=True)
class Version:
    """A version that was measured: its default capabilities, and those that it has a name of."""

    engine: Engine
    name: str
    default: int
    known: int

    def __str__(self) -> str:
        return f"{self.engine.value} {self.name}"


MEASURED = (
    Version(
        Engine.DOCKER, "20.10",
        mask("CHOWN DAC_OVERRIDE FSETID FOWNER MKNOD NET_RAW SETGID SETUID SETFCAP SETPCAP "
             "NET_BIND_SERVICE SYS_CHROOT KILL AUDIT_WRITE"),
        ALL & ((1 << 38) - 1),
    ),
    Version(
        Engine.PODMAN, "4.3",
        mask("CHOWN DAC_OVERRIDE FOWNER FSETID KILL NET_BIND_SERVICE SETFCAP SETGID SETPCAP SETUID "
             "SYS_CHROOT"),
        ALL,
    ),
)  # fmt: skip


def numbers(name: str) -> tuple[int, ...]:
    """The numbers of a version's name."""
    return tuple(int(part) for part in name.split(".") if part.isdigit())


def nearest(engine: Engine, asked: str) -> tuple[Version, bool]:
    """The measured version that answers for one, and whether it is that one."""
    own = [it for it in MEASURED if it.engine is engine]
    if not asked:
        return own[0], True
    wanted = numbers(asked)
    same = [it for it in own if wanted[: len(numbers(it.name))] == numbers(it.name)]
    if same:
        return same[0], True
    older = [it for it in own if numbers(it.name) <= wanted]
    return (older[-1] if older else own[0]), False


@dataclass(frozen=True)
class Asked:
    """What a line asks for. A name may be ALL."""

    add: frozenset[str]
    drop: frozenset[str]
    privileged: bool = False

    @property
    def adds_all(self) -> bool:
        """Whether all are added."""
        return "ALL" in self.add

    def of(self, names: frozenset[str]) -> int:
        """The capabilities that are named."""
        return sum(1 << NUMBERS[f"CAP_{name}"] for name in names - {"ALL"})


@dataclass(frozen=True)
class Sets:
    """The sets that are written to config.json."""

    bounding: int
    effective: int
    permitted: int
    inheritable: int
    ambient: int


def known_to(version: Version, has: int) -> int:
    """The capabilities that the engine gives. podman leaves out what it doesn't have itself; docker
    doesn't, and then its runtime is refused."""
    return version.known & has if version.engine is Engine.PODMAN else version.known


def granted(version: Version, has: int, asked: Asked) -> int:
    """The capabilities of the container."""
    known = known_to(version, has)
    if asked.privileged:
        return known
    if asked.adds_all:
        return known & ~asked.of(asked.drop)
    if "ALL" in asked.drop:
        return known & asked.of(asked.add)
    return known & (version.default & ~asked.of(asked.drop) | asked.of(asked.add))


def sets(version: Version, has: int, asked: Asked, user: int) -> Sets:
    """The sets of a user."""
    caps = granted(version, has, asked)
    if not user:
        return Sets(caps, caps, caps, 0, 0)
    if version.engine is Engine.DOCKER:
        return Sets(caps, 0, 0, 0, 0)
    # What is added, also where it is dropped again: then crun is refused by capset(2).
    known = known_to(version, has)
    own = known if asked.adds_all else known & asked.of(asked.add)
    return Sets(caps, own, own, own, own)
