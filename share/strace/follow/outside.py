"""Processes that aren't of the log, and that its tasks signal or look into.

Nothing in a log says what such a process is. Its `/proc/PID/status` does, as long as it runs: where
it began before the log was written it is the same process, since no other one gets its pid.
"""

from __future__ import annotations

import os
from dataclasses import dataclass

PROC = "/proc"


def words_of(text: str, name: str) -> list[str]:
    """The words behind a name of /proc/PID/status."""
    for line in text.split("\n"):
        if line.startswith(f"{name}:"):
            return line.split()[1:]
    return []


@dataclass(frozen=True)
class Outsider:
    """What is known of a process that isn't of the log."""

    pid: int
    status: str
    dumpable: bool

    @property
    def tracer(self) -> int:
        """The pid of who traces it, or 0."""
        found = words_of(self.status, "TracerPid")
        return int(found[0]) if found and found[0].isdigit() else 0


@dataclass(frozen=True)
class Outside:
    """A folder like /proc; of /proc itself what began until a time counts, in seconds."""

    folder: str = PROC
    until: float = 0.0

    def find(self, pid: int) -> Outsider | None:
        """What is known of a process, if anything is."""
        place = f"{self.folder}/{pid}"
        try:
            with open(f"{place}/status", encoding="latin-1") as file:
                text = file.read(1 << 16)
            if self.folder == PROC:
                return self._living(pid, text)
        except OSError:
            return None
        return Outsider(pid, text, words_of(text, "Dumpable") != ["0"])

    def _living(self, pid: int, text: str) -> Outsider | None:
        """A process that runs, where it is the log's and in the user namespace of this program."""
        if began(pid) > self.until:
            return None
        if not in_our_namespace(pid):
            return None
        # The files of a process that isn't dumpable are root's (proc(5)).
        owner, user = os.stat(f"{PROC}/{pid}").st_uid, words_of(text, "Uid")
        return Outsider(pid, text, len(user) > 1 and str(owner) == user[1])


def in_our_namespace(pid: int) -> bool:
    """Whether a process is in the user namespace of this program.

    Where that may not be asked it is taken for one that maps ids as ours does.
    """
    try:
        return os.readlink(f"{PROC}/{pid}/ns/user") == os.readlink(f"{PROC}/self/ns/user")
    except PermissionError:
        maps = []
        for name in (str(pid), "self"):
            with open(f"{PROC}/{name}/uid_map", encoding="latin-1") as file:
                maps.append(file.read())
        return maps[0] == maps[1]


def began(pid: int) -> float:
    """When a process began, in seconds since 1970."""
    with open(f"{PROC}/{pid}/stat", encoding="latin-1") as file:
        ticks = int(file.read().rpartition(")")[2].split()[19])
    with open(f"{PROC}/stat", encoding="latin-1") as file:
        booted = next(int(line.split()[1]) for line in file if line.startswith("btime "))
    return booted + ticks / os.sysconf("SC_CLK_TCK")
