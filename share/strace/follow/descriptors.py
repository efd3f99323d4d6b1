"""The descriptors of a process, as far as the log tells what they are of."""

from __future__ import annotations

import re
from collections.abc import Callable

from ..log.lines import number
from .pids import Pids
from .places import Located, Mounts
from .user_namespaces import Space

# What a descriptor is of: a file; a pidfd's process; the namespace of a process; a mount that isn't
# attached; a kind of file system. Where nobody knows, there is none.
FILE, PIDFD, NAMESPACE, LOOSE, KIND = "file", "pidfd", "namespace", "mount", "kind"

What = Located | int | str | Space | Mounts | Pids

# Where a file lies is found out when it is asked for: most opens of a long log nobody asks about.
Later = Callable[[], Located | None]


class Descriptors:
    """Which descriptor is of what: its kind, and where it lies or whose it is."""

    def __init__(self) -> None:
        self._of: dict[int, tuple[str, What | Later]] = {}
        # How the path ends by which a descriptor was opened.
        self._ends: dict[int, str] = {}

    def copy(self) -> Descriptors:
        """The same for a child."""
        made = Descriptors()
        made._of, made._ends = dict(self._of), dict(self._ends)
        return made

    def opens(self, number_of: int | None, kind: str, what: What | Later, end: str = "") -> None:
        """A descriptor is new; of a path that is looked up later it is known how that ends."""
        if number_of is not None and number_of >= 0:
            self._of[number_of] = (kind, what)
            self._ends[number_of] = end or (
                what.place.rpartition("/")[2] if isinstance(what, Located) else ""
            )

    def end(self, text: str) -> str:
        """How the path ends that the descriptor of an argument is of, as far as that is known."""
        place = descriptor(text)
        return self._ends.get(place, "") if place in self._of else ""

    def closes(self, number_of: int | None) -> None:
        """A descriptor is closed, or is of something else than before."""
        if number_of is not None:
            self._of.pop(number_of, None)

    def duplicates(self, old: int | None, new: int | None) -> None:
        """A descriptor like another one."""
        if old is None or new is None or old not in self._of:
            self.closes(new)
        else:
            self._of[new], self._ends[new] = self._of[old], self._ends.get(old, "")

    def get(self, text: str, kind: str) -> What | None:
        """What the descriptor of an argument is of, where it is of this kind."""
        place = descriptor(text)
        found = self._of.get(place) if place is not None else None
        if place is None or found is None or found[0] != kind:
            return None
        what = found[1]
        if callable(what):
            lies = what()
            if lies is None:
                self.closes(place)
                return None
            self._of[place] = (kind, lies)
            return lies
        return what


def descriptor(text: str) -> int | None:
    """The number of a descriptor, without what -y writes behind it."""
    match = re.match(r"(\d{1,9})(?=$|<)", text)
    return int(match[1]) if match else number(text)


def told(text: str) -> tuple[str, bool] | None:
    """The path that -y writes behind a descriptor, and whether its file is deleted."""
    match = re.match(r"(?:AT_FDCWD|\d{1,9})<(/.*)>(\(deleted\))?$", text)
    return (match[1], match[2] is not None) if match else None
