"""The files below a root, as a task with that root sees them: links stay inside, and mounts hide.

A stored tree stands in for one in the checks.
"""

from __future__ import annotations

import os
import stat
from dataclasses import dataclass, field
from pathlib import PurePosixPath
from typing import Protocol

from .places import Place

LINKS = 40
HEAD = 256
ATTRIBUTE = "security.capability"


@dataclass(frozen=True)
class Mount:
    """A bind mount below the root: what is seen at `at` is what lies at `source` on the machine."""

    at: str
    source: str
    nosuid: bool = False
    noexec: bool = False
    place: Place = Place("")


@dataclass(frozen=True)
class Found:
    """A file, as it stands. `head` is how its bytes begin."""

    owner: int
    group: int
    mode: int
    is_dir: bool = False
    is_regular: bool = True
    attribute: bytes | None = None
    nosuid: bool = False
    noexec: bool = False
    head: bytes = b""


class Tree(Protocol):
    """Where files are looked up."""

    def find(self, path: str) -> Found:
        """The file of a path; OSError where there is none, or where it can't be looked at."""
        ...

    def under(self, path: str) -> Tree:
        """The tree with this folder of it as root."""
        ...


def below(path: str, folder: str) -> bool:
    """Whether a path is a folder, or lies in it."""
    parts = PurePosixPath(folder).parts
    return PurePosixPath(path).parts[: len(parts)] == parts


@dataclass
class Disk:
    """Files of this machine, below a root."""

    root: str = "/"
    mounts: list[Mount] = field(default_factory=list)

    def under(self, path: str) -> Tree:
        """The tree with this folder of it as root."""
        return Disk(self.place(path), [])

    def mount_of(self, path: str) -> Mount | None:
        """The bind mount that a path lies in: of several, the deepest one."""
        found = [it for it in self.mounts if below(path, it.at)]
        return max(found, key=lambda it: len(PurePosixPath(it.at).parts)) if found else None

    def real(self, path: str) -> str:
        """Where a path without links lies on the machine."""
        mount = self.mount_of(path)
        base, start = (mount.source, mount.at) if mount else (self.root, "/")
        rest = PurePosixPath(path).relative_to(start)
        return str(PurePosixPath(base, rest))

    def place(self, path: str) -> str:
        """Where the file of a path lies on the machine: links are followed inside the root."""
        return self.real(self.followed(path))

    def followed(self, path: str) -> str:
        """The path without its links, below the root."""
        done: list[str] = []
        rest = [part for part in path.split("/") if part]
        links = 0
        while rest:
            part = rest.pop(0)
            if part in (".", ".."):
                done = done[:-1] if part == ".." else done
                continue
            here = self.real("/" + "/".join([*done, part]))
            if not os.path.islink(here):
                done.append(part)
                continue
            links += 1
            if links > LINKS:
                raise OSError(40, "Too many levels of symbolic links")
            to = os.readlink(here)
            done = [] if to.startswith("/") else done
            rest = [it for it in to.split("/") if it] + rest
        return "/" + "/".join(done)

    def find(self, path: str) -> Found:
        """The file of a path."""
        whole = self.followed(path)
        real, mount = self.real(whole), self.mount_of(whole)
        status = os.stat(real)
        flags = os.statvfs(real).f_flag
        nosuid = bool(flags & os.ST_NOSUID) or mount is not None and mount.nosuid
        noexec = bool(flags & os.ST_NOEXEC) or mount is not None and mount.noexec
        mode = status.st_mode
        return Found(
            status.st_uid, status.st_gid, stat.S_IMODE(mode), stat.S_ISDIR(mode),
            stat.S_ISREG(mode), attribute_of(real), nosuid, noexec, head_of(real, status),
        )  # fmt: skip


def attribute_of(real: str) -> bytes | None:
    """The capability attribute of a file."""
    try:
        return os.getxattr(real, ATTRIBUTE)
    except OSError:
        return None


def head_of(real: str, status: os.stat_result) -> bytes:
    """How the bytes of a regular file begin; nothing where it may not be read."""
    if not stat.S_ISREG(status.st_mode):
        return b""
    try:
        with open(real, "rb") as file:
            return file.read(HEAD)
    except OSError:
        return b""
