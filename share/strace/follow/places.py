"""Where a task's paths lead: its root, its folder, and the mounts that the log tells of.

A place is a path of the file system where the log was recorded, as before the log's first call.
What a log mounts anew, as a tmpfs, or enters without telling, isn't there: such a place begins with
`@LINE:`, the line of the log that made it. A place without a slash in front begins where the log
does.
"""

from __future__ import annotations

import os
import re
from collections.abc import Callable
from dataclasses import dataclass, field, replace
from itertools import count

from .pids import Pids
from .user_namespaces import Space

# How many symbolic links are followed (path_resolution(7)).
LINKS = 40

# Whether a place is a symbolic link, and to where; None where it is none, or nobody can say.
Link = Callable[[str], str | None]


@dataclass(frozen=True)
class Mount:
    """What lies where something is mounted, and with which flags; None for what was before."""

    source: str
    nosuid: bool | None = None
    noexec: bool | None = None
    # Of /proc, the PID namespace that it was mounted for.
    pids: Pids | None = None
    # The line of the log by which the owners of its files are others (mount_setattr(2)).
    mapped: int = 0


@dataclass(frozen=True)
class Located:
    """Where a path leads, and the mount through which it came, if the log made it."""

    place: str
    mount: Mount | None = None
    # The place that the last mount on the way covers.
    point: str | None = None
    # The place behind symbolic links, where those were followed.
    real: str | None = None
    # The mount namespace whose mounts it was found through, where that is known.
    within: int | None = None
    # The line of the log that may have mounted another file there.
    doubt: int = 0

    def start(self, follows: bool) -> str:
        """Where a path goes on from here."""
        return self.real if follows and self.real is not None else self.place


ROOT = Located("/")

# The folder where the log begins.
BEGIN = Located("")


@dataclass(frozen=True)
class Kind:
    """Who sees what is mounted below a place (mount_namespaces(7), "Shared subtrees")."""

    # MS_SHARED, MS_SLAVE, MS_PRIVATE or MS_UNBINDABLE; nothing where the log doesn't tell.
    name: str = ""
    # The mounts of a peer group have one number; whether others than those may be in it.
    group: int = 0
    alone: bool = False


NUMBERS = count(1)


@dataclass(eq=False)
class Mounts:
    """The mounts of a mount namespace that the log made, by the place that each covers."""

    root: Located = ROOT
    over: dict[str, Mount] = field(default_factory=dict)
    # Namespaces are told apart by a number.
    number: int = field(default_factory=count().__next__)
    # The root where the log begins, if it is another: what strace tells may be from outside of it.
    outside: str = ""
    # All namespaces that were copied from one another, and what is said of who sees what below a
    # place; where another one has mounted something of which nobody knows whether it is seen here,
    # by the line of the log.
    family: list[Mounts] = field(default_factory=list, repr=False)
    kinds: dict[str, Kind] = field(default_factory=dict)
    doubts: dict[str, int] = field(default_factory=dict)
    # The user namespace that it is of, where that is known.
    space: Space | None = None

    def __post_init__(self) -> None:
        """It is one of its family."""
        self.family.append(self)

    def copy(self, slave: bool = False) -> Mounts:
        """The same for a new mount namespace, a slave where it is of another user namespace."""
        kinds = dict(self.kinds)
        if slave:
            kinds = {"": Kind()} | kinds
            kinds = {place: slave_of(kind) for place, kind in kinds.items()}
        made = Mounts(self.root, dict(self.over), outside=self.outside, family=self.family)
        made.kinds, made.doubts = kinds, dict(self.doubts)
        return made

    def belongs(self, space: Space) -> None:
        """It is of this user namespace, where it wasn't of one already."""
        self.space = self.space or space

    def kind(self, place: str) -> Kind:
        """Who sees what is mounted at a place."""
        above = [one for one in self.kinds if one == "" or is_below(place, one)]
        return self.kinds[max(above, key=len)] if above else Kind()

    def is_seen(self, place: str, name: str, all_below: bool) -> None:
        """mount(2) with MS_PRIVATE and its forms."""
        kind = self.kind(place)
        if name == "MS_SLAVE":
            kind = slave_of(kind)
        elif name != "MS_SHARED":
            kind = Kind(name)
        elif kind.name != "MS_SHARED":
            kind = Kind(name, next(NUMBERS), alone=kind.name not in ("", "MS_SLAVE"))
        if all_below:
            self.kinds = {one: old for one, old in self.kinds.items() if not is_below(one, place)}
        self.kinds["" if place == "/" else place] = kind

    def change(self, point: str, line: int, make: Callable[[dict[str, Mount]], None]) -> None:
        """Something is mounted at a place or no longer, here and where that is seen too."""
        make(self.over)
        here = self.kind(point)
        for other in self.family:
            there = other.kind(point)
            if other is self or here.name not in ("", "MS_SHARED"):
                continue
            if there.name in ("MS_PRIVATE", "MS_UNBINDABLE"):
                continue
            if here.name and here.group == there.group:
                make(other.over)
            elif not here.alone:
                other.doubts[point] = line

    def entered(self, place: str) -> tuple[str, Mount | None]:
        """What is there: the mount that covers the place, if one does."""
        found = None
        for _ in range(len(self.over) + 1):
            mount = self.over.get(place)
            if mount is None:
                break
            found = mount
            if mount.source == place:
                break
            place = mount.source
        return place, found

    def above(self, place: str) -> str:
        """The folder that the place stands in, also from the root of a mount."""
        for point, mount in self.over.items():
            if mount.source == place != point:
                return parent(point)
        return parent(place)


def slave_of(kind: Kind) -> Kind:
    """What a mount is that only receives from then on."""
    return kind if kind.name in ("MS_PRIVATE", "MS_UNBINDABLE") else replace(kind, name="MS_SLAVE")


def is_below(place: str, folder: str) -> bool:
    """Whether it is that place, or one in a folder there."""
    return place == folder or place.startswith(folder.rstrip("/") + "/")


def parent(place: str) -> str:
    """The folder that a place stands in."""
    if re.fullmatch(r"@\d+:/|/", place):
        return place
    above = os.path.dirname(place)
    return above + "/" if above.endswith(":") else above


def joined(folder: str, name: str) -> str:
    """The place of a name in a folder."""
    return folder + name if folder.endswith("/") or not folder else f"{folder}/{name}"


def no_link(_: str) -> str | None:
    """Nobody follows symbolic links."""
    return None


@dataclass
class Where:
    """The root, the folder and the mounts of a task; the folder is None where nobody knows it."""

    mounts: Mounts = field(default_factory=Mounts)
    root: Located = ROOT
    folder: Located | None = BEGIN

    def copy(self) -> Where:
        """The same for a child, which shares the mounts."""
        return Where(self.mounts, self.root, self.folder)

    def locate(
        self, path: str, base: Located | None = None, link: Link = no_link
    ) -> Located | None:
        """Where a path leads; None where it begins in a folder that nobody knows."""
        number: int | None = self.mounts.number
        if path.startswith("/"):
            base = self.root
        elif base is None:
            base = self.folder
        else:
            number = base.within
        return None if base is None else self._walk(base, path, link, number)

    def within(self, path: str) -> Located:
        """Where a path leads that strace tells: from the root of the mount namespace."""
        outside = self.mounts.outside
        from_outside = outside and f"{path}/".startswith(f"{outside}/")
        return self._walk(ROOT if from_outside else self.mounts.root, path, no_link)

    def _walk(
        self, base: Located, path: str, link: Link, within: int | None = None
    ) -> Located:
        """Goes along the path, one name after another."""
        follows, over, doubts = link is not no_link, self.mounts.over, self.mounts.doubts
        place, mount, point = base.start(follows), base.mount, base.point
        doubt = 0 if base is self.root else base.doubt
        root = self.root.start(follows)
        names = path.split("/")[::-1]
        links = LINKS
        while names:
            name = names.pop()
            if name in ("", "."):
                continue
            if name == "..":
                if place != root:
                    place = self._above(place)
                continue
            covered = joined(place, name)
            target = link(covered) if follows and links and covered not in over else None
            if target is not None:
                links -= 1
                names += target.split("/")[::-1]
                place = root if target.startswith("/") else place
                continue
            doubt = doubts.get(covered, doubt)
            place = covered
            if covered in over:
                place, mount = self.mounts.entered(covered)
                point = covered
        return Located(place, mount, point, None, within, doubt)

    def _above(self, place: str) -> str:
        """The folder above, which for a folder without any name is one that nobody knows."""
        if place == "" or place.split("/")[-1] == "..":
            return joined(place, "..")
        return self.mounts.above(place)

    def pivot(self, new: Located, old: Located | None, tasks: list[Where]) -> None:
        """pivot_root(2): the new root is everybody's whose root the old one was."""
        before = self.mounts.root
        if old is not None and old.place != new.place:
            self.mounts.over[old.place] = Mount(before.place)
        self.mounts.root = new
        for where in tasks:
            if where.mounts is self.mounts:
                where.root = new if where.root.place == before.place else where.root
                at_root = where.folder is not None and where.folder.place == before.place
                where.folder = new if at_root else where.folder
