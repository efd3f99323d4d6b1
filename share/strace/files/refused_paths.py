"""Which directory of a path refuses a call, or which file, where no other line says the call.

A call on a path searches each directory of it, and whoever makes or removes an entry writes its
directory too (path_resolution(7)). By the ids of the task the first one is found that may refuse
so; whether it does the program says, by a line that asks.
"""

from __future__ import annotations

from ..follow.path_calls import OPENS, open_flags
from ..follow.paths import Paths
from ..follow.places import Located
from ..follow.tasks import Task
from ..log.reader import Call
from ..script.calls import Unheld
from ..script.script import Line, Script
from .listing import Found, Missing, folders_of

# Where the path of a call stands; behind a descriptor of a folder it is the next argument.
PLAIN = frozenset(
    "open creat access stat lstat stat64 lstat64 readlink chdir execve chmod chown lchown setxattr "
    "lsetxattr removexattr lremovexattr getxattr lgetxattr listxattr llistxattr truncate utime "
    "utimes statfs mkdir rmdir unlink mknod chroot rename link".split()
)
AT = frozenset(
    "openat openat2 faccessat faccessat2 newfstatat statx readlinkat execveat fchmodat fchmodat2 "
    "fchownat utimensat mkdirat unlinkat mknodat renameat renameat2 name_to_handle_at".split()
)
# A path that is made, behind another argument.
BEHIND = {"symlink": 1, "symlinkat": 2}

# What makes or removes an entry of a directory.
ENTRIES = frozenset(
    "mkdir mkdirat rmdir unlink unlinkat mknod mknodat rename renameat renameat2 symlink symlinkat "
    "link creat".split()
)
SEARCH, WRITE = 1, 2
OF_ITSELF = {"chdir": SEARCH, "truncate": WRITE}
LETTERS = ((4, "r"), (2, "w"), (1, "x"))


def path_of(call: Call) -> tuple[int, int | None] | None:
    """Where the path of a call stands, and the descriptor that it starts from."""
    if call.name in BEHIND:
        place = BEHIND[call.name]
        return place, place - 1 if call.name.endswith("at") else None
    if call.name in AT:
        return 1, 0
    return (0, None) if call.name in PLAIN else None


def changes_entry(call: Call) -> bool:
    """Whether a call makes or removes an entry of a directory; of opens one that may make it."""
    makes = call.name in OPENS and "O_CREAT" in open_flags(call)[1].split("|")
    return makes or call.name in ENTRIES


def mode_allows(task: Task, words: str, wanted: int) -> bool:
    """Whether owner, group and mode alone allow it (path_resolution(7), "Permissions")."""
    _, owner, group, mode, *_ = words.split()
    shift = 0
    if task.ids.users[3] == int(owner):
        shift = 6
    elif int(group) in (task.ids.groups[3], *task.ids.others):
        shift = 3
    return int(mode, 8) >> shift & wanted == wanted


class RefusedPaths:
    """Writes the line that asks about the directory."""

    def __init__(self, paths: Paths, script: Script) -> None:
        self._paths = paths
        self._script = script

    def lines(self, task: Task, call: Call) -> list[Line]:
        """A line that asks, where a directory is found that may refuse; else none."""
        where = path_of(call)
        if where is None:
            return []
        try:
            place = self._paths.locate(task, call, *where).place
            found = self._refusing(task, call, place)
        except (Unheld, Missing, IndexError):
            return []
        if found is None or not self._script.has_room_for(found[0]):
            return []
        # Imported here: it writes lines too, and imports what follows files.
        from .opens import facts_of

        file, wanted = found
        letters = "".join(letter for bit, letter in LETTERS if wanted & bit)
        name = self._script.file(call.first, file)
        facts = facts_of(task, file, file.file.words)
        return [Line(f"{task.name} check {name} {letters}", call, "eacces", facts)]

    def _refusing(self, task: Task, call: Call, place: str) -> tuple[Found, int] | None:
        """The first directory that its mode alone makes refuse, and what is asked of it."""
        folders = folders_of(place)
        asked = [(folder, SEARCH) for folder in folders]
        if call.name in OF_ITSELF:
            asked.append((place, OF_ITSELF[call.name]))
        if changes_entry(call) and folders:
            asked.append((folders[-1], WRITE | SEARCH))
        for folder, wanted in asked:
            file = self._paths.files.found(Located(folder))
            if not mode_allows(task, file.file.words, wanted):
                return file, wanted
        return None
