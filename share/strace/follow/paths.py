"""The files that a call names, by paths and by descriptors."""

from __future__ import annotations

import os
import re
from collections.abc import Callable
from dataclasses import replace
from functools import lru_cache

from ..files.listing import CUT, SCRIPTS, Files, Found, Missing
from ..log import lines
from ..log.reader import Call
from ..script.calls import ADDRESSES, Unheld, is_address
from .descriptors import FILE, told
from .places import Link, Located, Where, no_link
from .tasks import Task, Tasks

NO_PATH = "its path can't be read: strace writes the whole with -s 4096"
NO_DESCRIPTOR = "what its descriptor is of isn't known: strace writes it with -y"

OWN_DESCRIPTOR = re.compile(r"/(?:proc/(?:self|thread-self|(?P<pid>\d+))|dev)/fd/(?P<fd>\d{1,9})$")

# What of /proc is another file for each process, or of one.
OF_ASKER = ("self", "thread-self", "net", "mounts")

PROCESS = re.compile(r"/proc/(?:self|thread-self|(?P<pid>\d+))(?:/(?P<what>exe|cwd|root)(?=/|$))?")


def no_folder(path: str, pid: int) -> str:
    """What is said of a relative path whose folder isn't known."""
    return (
        f"{path} is of the folder where pid {pid} is, which the log doesn't tell: record with -y, "
        "or name the folder where the log begins by --folder"
    )


def link_of(place: str) -> str | None:
    """To where a symbolic link of this machine's file system leads; None where it is none."""
    if place.startswith(("@", "/proc/", "memfd:")):
        return None
    try:
        return os.readlink(place.encode("latin-1")).decode("latin-1")
    except (OSError, ValueError):
        return None


class Paths:
    """Where the paths of calls lead."""

    def __init__(self, files: Files, known: bool, tasks: Tasks) -> None:
        self.files = files
        # Whether the folder where the log begins is known.
        self.known = known
        # Where in the log it is, and the lines at which symbolic links were others.
        self.line = 0
        self.relinked: dict[str, int] = {}
        # The paths of a log lead through the same few folders over and over.
        self.link: Link = lru_cache(maxsize=1024)(link_of)
        self.tasks = tasks
        # Whether a pid is that of a process that isn't of the log, and that runs still.
        self.runs_beside: Callable[[int], bool] = lambda _: False

    def base(self, task: Task, text: str) -> Located | None:
        """What a descriptor is of, a folder or a file; None for AT_FDCWD or where nobody knows."""
        shown = told(text)
        if text.startswith("AT_FDCWD"):
            if shown:
                task.where.folder = task.where.within(shown[0])
            return None
        known = task.descriptors.get(text, FILE)
        followed = known if isinstance(known, Located) else None
        if shown is None or shown[1] or shown[0] == "/" or shown[0].startswith("/memfd:"):
            return followed or (task.where.within("/") if shown == ("/", False) else None)
        seen = task.where.within(shown[0])
        # A process's own folder of /proc has a number that not every mount of /proc has for it.
        both_proc = followed and followed.place.startswith("/proc/@") and seen.place[:6] == "/proc/"
        return followed if followed and (both_proc or followed.place == seen.place) else seen

    def rooted(self, task: Task, call: Call) -> Task:
        """The task as openat2(2) sees its paths, where it is told to stay below a folder."""
        if call.name != "openat2" or "RESOLVE_IN_ROOT" not in call.args[-2]:
            return task
        root = self.base(task, call.args[0]) or task.where.folder
        if root is None:
            raise Unheld(NO_DESCRIPTOR)
        return replace(task, where=Where(task.where.mounts, root, root))

    def named(
        self, task: Task, call: Call, place: int, at: int | None
    ) -> tuple[str, Located | None]:
        """The path of an argument, and the folder of the descriptor before it, if there is one."""
        given = call.args[place] if place < len(call.args) else ""
        path = lines.string(given)
        if path is None:
            raise Unheld(ADDRESSES if is_address(given) else NO_PATH)
        if at is None:
            return path, None
        base = self.base(task, call.args[at])
        lost = base is None and not call.args[at].startswith("AT_FDCWD")
        if lost and not path.startswith("/"):
            raise Unheld(NO_DESCRIPTOR)
        if path == "" and base is None:
            base = task.where.folder
        return path, base

    def locate(self, task: Task, call: Call, place: int, at: int | None = None) -> Located:
        """The place of the file that a call names."""
        return self.both(task, *self.named(task, call, place, at))

    def both(self, task: Task, path: str, base: Located | None) -> Located:
        """Where a path leads, behind symbolic links too where this machine has them."""
        found = self.lead(task, path, base)
        if self.files.listed is not None:
            other = None if found.place in self.files.hard else self.files.same.get(found.place)
            return replace(found, real=self.files.one(other)) if other else found
        if found.real is not None:
            return found
        return replace(found, real=self.lead(task, path, base, follow=True).place)

    def link_here(self, place: str) -> str | None:
        """To where a symbolic link leads that this machine has, where it was there already."""
        if self.relinked.get(place, 0) > self.line:
            raise Unheld(f"line {self.relinked[place]} makes {place} another link than it was")
        return self.link(place)

    def is_link(self, found: Located) -> bool:
        """Whether a symbolic link lies there. In a list one is known by what it is of."""
        if self.files.listed is None:
            return self.link(found.place) is not None
        other = None if found.place in self.files.hard else self.files.same.get(found.place)
        return other is not None and os.path.basename(other) != os.path.basename(found.place)

    def lead(self, task: Task, path: str, base: Located | None, follow: bool = False) -> Located:
        """The place to which a path leads, behind symbolic links where they are to be followed."""
        if path == "" and base is not None:
            return base
        special = self.special(task, path)
        if special is not None:
            return special
        found = task.where.locate(path, base, self.link_here if follow else no_link)
        if found is None:
            raise Unheld(no_folder(path, task.pid))
        if not self.is_known(found):
            raise Unheld(no_folder(path, task.pid))
        if found.doubt:
            raise Unheld(
                f"line {found.doubt} mounts or unmounts what {path} leads through, in another "
                "mount namespace: whether it is seen here too the log doesn't tell "
                "(mount_namespaces(7))"
            )
        return found

    def is_known(self, found: Located) -> bool:
        """Whether it is a place, and not one of a folder that nobody knows."""
        is_whole = found.place.startswith(("/", "@", "memfd:"))
        return is_whole or self.known or self.files.lists(found.place)

    def owner(self, task: Task, pid: str | None) -> Task | None:
        """Whose folder of /proc it is: the task's own, or of the number that it has there."""
        found = task.where.locate("/proc")
        mount = found.mount if found else None
        return self.tasks.in_proc(pid, mount.pids if mount else None) if pid else task

    def special(self, task: Task, path: str) -> Located | None:
        """The place of a path that /proc or /dev/fd has of a process."""
        if match := OWN_DESCRIPTOR.match(path):
            owner = self.owner(task, match["pid"])
            found = owner.descriptors.get(match["fd"], FILE) if owner else None
            if isinstance(found, Located):
                return found
            raise Unheld(NO_DESCRIPTOR)
        match = PROCESS.match(path)
        if match is None or match["what"] is None:
            return None
        owner = self.owner(task, match["pid"])
        if owner is None:
            raise Unheld(f"{path} is of a process that the log doesn't have")
        known = {
            "exe": owner.process.program,
            "cwd": owner.where.folder,
            "root": owner.where.root,
        }[match["what"]]
        if known is None:
            raise Unheld(f"{path} isn't known from the log")
        rest = path[match.end() :].lstrip("/")
        return owner.where.locate(rest, known) if rest else known

    def is_here(self, task: Task, place: str) -> bool:
        """Whether a file of /proc is the same for this program as for a task of the log."""
        first = place.removeprefix("/proc/").partition("/")[0]
        if first == place or not place.startswith("/proc/"):
            return True
        if first.isdigit() and len(first) < 10:
            return task.process.pids.is_log and self.runs_beside(int(first))
        return first not in OF_ASKER and not first.startswith("@")

    def find(
        self, task: Task, path: str, base: Located | None, executes: bool = False
    ) -> Found:
        """A file with what is known of it."""
        found = self.both(task, path, base)
        if self.files.listed is None and not self.is_here(task, found.place):
            raise Missing(f"{found.place} is another file for this program than for the log's")
        other = found.within not in (None, task.where.mounts.number)
        file = self.files.found(found, executes and other)
        owner, group = (int(word) for word in file.file.words.split()[1:3])
        space = task.process.space
        mapped = space.inside(owner, False) and space.inside(group, True)
        return self.files.without_set_id(file) if executes and not mapped else file

    def programs(self, task: Task, call: Call, place: int, at: int | None) -> list[Found]:
        """The file to execute; behind a script file its interpreter, which runs in its place."""
        path, base = self.named(task, call, place, at)
        found: list[Found] = []
        for _ in range(SCRIPTS + 1):
            found.append(self.find(task, path, base, executes=True))
            interpreter = found[-1].file.interpreter
            if interpreter is None:
                return found
            if interpreter == CUT:
                raise Missing("its first line is shortened: strace writes the whole with -s 4096")
            path, base = interpreter, None
        raise Missing(f"{path} is one script file more than execve(2) follows")
