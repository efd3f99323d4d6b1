"""The file of a unit and its drop-ins, in the order of systemd.unit(5), "Unit File Load Path"."""

from __future__ import annotations

import os
from dataclasses import dataclass, field
from pathlib import Path

from ..places import Bad

PATHS = (
    "/etc/systemd/system", "/run/systemd/system", "/usr/local/lib/systemd/system",
    "/usr/lib/systemd/system", "/lib/systemd/system",
)  # fmt: skip
KIND = ".service"


@dataclass(frozen=True)
class Name:
    """The name of a unit: `prefix@instance.service`. `instance` is None where it has no @."""

    full: str

    @property
    def stem(self) -> str:
        """Without its kind."""
        return self.full.removesuffix(KIND)

    @property
    def prefix(self) -> str:
        """What stands before @."""
        return self.stem.partition("@")[0]

    @property
    def instance(self) -> str | None:
        """What stands behind @."""
        return self.stem.partition("@")[2] if "@" in self.stem else None

    @property
    def template(self) -> str | None:
        """The name of the template of an instance."""
        return f"{self.prefix}@{KIND}" if self.instance else None


@dataclass
class Fragments:
    """The files of a unit: its own, and the drop-ins."""

    name: Name
    main: Path
    dropins: list[Path] = field(default_factory=list)

    def files(self) -> list[Path]:
        """All of them, in the order in which they are read."""
        return [self.main, *self.dropins]


def folders(name: Name) -> list[str]:
    """The folders of drop-ins that a unit has, from its own to those of all services."""
    found = [name.full]
    if name.template:
        found.append(name.template)
    parts = name.prefix.split("-")
    found += ["-".join(parts[:count]) + "-" + KIND for count in range(len(parts) - 1, 0, -1)]
    return [f"{it}.d" for it in [*found, KIND[1:]]]


def dropins(name: Name, paths: list[Path]) -> list[Path]:
    """The drop-ins: by file name, and of two alike the one of the earlier folder."""
    found: dict[str, Path] = {}
    for folder in folders(name):
        for path in paths:
            try:
                names = sorted(os.listdir(path / folder))
            except OSError:
                continue
            for it in names:
                if it.endswith(".conf"):
                    found.setdefault(it, path / folder / it)
    return [found[it] for it in sorted(found)]


def is_masked(path: Path) -> bool:
    """Whether a unit's file is empty, or leads to /dev/null: then it can't be started."""
    try:
        return os.path.realpath(path) == "/dev/null" or path.stat().st_size == 0
    except OSError:
        return False


def by_path(word: str) -> Fragments:
    """The files of a unit that is named by its path: drop-ins lie beside it."""
    path = Path(word)
    if path.is_dir():
        raise Bad(f"{word}: Is a directory")
    name = Name(path.name if path.name.endswith(KIND) else path.name + KIND)
    return Fragments(name, path, dropins(name, [path.parent]))


def by_name(word: str, paths: list[Path]) -> Fragments:
    """The files of a unit that is named, in the folders of units."""
    full = word if word.endswith(KIND) else word + KIND
    if full.rpartition(".")[0].rpartition(".")[2] in ("socket", "timer", "target", "mount", "path"):
        raise Bad(f"{word} is no service")
    name = Name(full)
    for it in filter(None, (name.full, name.template)):
        for path in paths:
            if (path / it).exists() or (path / it).is_symlink():
                return Fragments(name, path / it, dropins(name, paths))
    where = ", ".join(map(str, paths))
    raise Bad(f"{word}: there is no {name.full} in {where}")


def find(word: str, root: str = "/", unit_paths: list[str] | None = None) -> Fragments:
    """The files of a unit: of a name, or of a path, which has a slash."""
    if "\0" in word or not word:
        raise Bad("a unit is named by its name, or by the path of its file")
    if "/" in word:
        found = by_path(word)
    elif unit_paths:
        found = by_name(word, [Path(it) for it in unit_paths])
    else:
        found = by_name(word, [Path(root, it.lstrip("/")) for it in PATHS])
    if is_masked(found.main):
        raise Bad(f"{found.main}: the unit is masked: it is empty, or a link to /dev/null")
    return found
