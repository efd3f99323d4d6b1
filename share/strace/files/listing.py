"""The files that a log executes or opens: owner, group, mode, nosuid and attribute.

A list of them is a text of lines, each `PATH KIND OWNER GROUP MODE`, then `nosuid` and `caps HEX`
where they hold, as in a script but for the path, then `noexec` where the mount has that, and
`#! INTERPRETER` of a script file. So the file is after the log; `before` in front of KIND says what
it is before. `PATH -> OTHER` says that both paths are of one file, as by a link. A path with a
space or with quotes stands in quotes, as in C. Lines that begin with `#` say nothing.
"""

from __future__ import annotations

import contextlib
import os
import re
import stat
from dataclasses import dataclass, field, replace

from ..follow.places import Located, Mount, is_below
from ..log import lines
from .history import History, state_of

# How many script files may stand one behind the other (execve(2), "Interpreter scripts").
SCRIPTS = 4

ATTRIBUTE = "security.capability"

# The interpreter of a script file whose first line strace has shortened.
CUT = "..."


class BadList(Exception):
    """The list of files isn't one."""


class Missing(Exception):
    """A file is needed that isn't known."""


@dataclass(frozen=True)
class File:
    """What a script's `file` line says of a file, and the interpreter that a script file names."""

    words: str
    interpreter: str | None = None
    noexec: bool = False
    # When this machine's file system last changed it, or its owner, mode or attribute; and which
    # file it is there: several paths may be of one.
    changed: float = 0.0
    inode: tuple[int, int] | None = None


@dataclass(frozen=True)
class Found:
    """A file, its path in the script, where it lies, and where the path leads that names it."""

    path: str
    file: File
    place: str
    named: str
    # How it was reached, and whether through a mount of another mount namespace.
    located: Located
    apart: bool = False


# An id has no leading zero, and is smaller than this (docs/FORMATS.md).
NO_ID = 4294967295
PARTS = re.compile(r'("(?:[^"\\]|\\.)*"|[^ "]+) +(.*)$')
ID = r"(0|[1-9][0-9]{0,9})"
LINE = re.compile(
    rf"(?:reg|dir) {ID} {ID} [0-7]{{4}}(?: nosuid)?(?: caps (?:0x)?(?:[0-9a-fA-F]{{2}}){{1,64}})?"
    r"(?P<noexec> noexec)?$"
)


def quoted(path: str) -> str:
    """A path as one word."""
    if re.fullmatch(r"[!-~]+", path) and not path.startswith(("#", '"')) and "\\" not in path:
        return path
    return '"' + re.sub(r"[^ !#-\[\]-~]", lambda match: f"\\x{ord(match[0]):02x}", path) + '"'


@dataclass
class Listing:
    """A list: the files after the log, those of which it says what they were before, and links."""

    files: dict[str, File] = field(default_factory=dict)
    before: dict[str, File] = field(default_factory=dict)
    same: dict[str, str] = field(default_factory=dict)


def read_list(text: str) -> Listing:
    """The files of a list, by their paths."""
    found = Listing()
    for count, line in enumerate(text.split("\n"), 1):
        if not line.strip() or line.startswith("#"):
            continue
        parts = PARTS.match(line.rstrip())
        if parts is None:
            raise BadList(f"line {count}: it has no path, or nothing behind it")
        path, words = path_of(parts[1]), " ".join(parts[2].split())
        link = re.fullmatch(r'-> ("(?:[^"\\]|\\.)*"|[^ "]+)', words)
        if link:
            found.same[path] = path_of(link[1])
            continue
        before = words.startswith("before ")
        file = file_of(words.removeprefix("before "), count)
        (found.before if before else found.files)[path] = file
    for path, file in found.before.items():
        found.files.setdefault(path, file)
    return found


def path_of(word: str) -> str:
    """A path of a list, perhaps in quotes."""
    return (lines.string(word) or "") if word[0] == '"' else word


def file_of(words: str, count: int) -> File:
    """A file of a list, by what stands behind its path."""
    words, _, interpreter = words.partition(" #! ")
    ids = LINE.match(words)
    if ids is None or any(int(owner) >= NO_ID for owner in ids.groups()[:2]):
        form = "KIND OWNER GROUP MODE [nosuid] [caps HEX] [noexec] [#! INTERPRETER]"
        raise BadList(f"line {count}: {words[:60]!r} isn't {form}")
    noexec = ids["noexec"] is not None
    words = words.removesuffix(" noexec") if noexec else words
    return File(words, interpreter or None, noexec)


def is_privileged(words: str) -> bool:
    """Whether a file has set-id bits or an attribute."""
    return bool(int(words.split()[3], 8) & 0o6000) or " caps " in words


def listing(files: dict[str, File], same: dict[str, str] | None = None) -> str:
    """A list of files, and of paths that are others of theirs."""
    found = [f"{quoted(path)} -> {quoted(other)}\n" for path, other in (same or {}).items()]
    for path, file in files.items():
        noexec = " noexec" if file.noexec else ""
        interpreter = f" #! {file.interpreter}" if file.interpreter else ""
        found.append(f"{quoted(path)} {file.words}{noexec}{interpreter}\n")
    return "".join(found)


class Files:
    """What is known of files: a list, or the file system as it is now."""

    def __init__(
        self, listing: Listing | None, histories: dict[str, History] | None = None
    ) -> None:
        self.listed = listing.files if listing else None
        self.seen: dict[str, File] = {}
        # The first path of each file that has several; those that link(2) made; and what is known
        # as the first path, where that is another file's since.
        self.same: dict[str, str] = {}
        self.hard: set[str] = set()
        self._renewed: dict[str, str] = {}
        # The others of each first path, the folders of all of them, and how their paths end.
        self._others: dict[str, set[str]] = {}
        self._folders: set[str] = set()
        self._ends: set[str] = set()
        self.before = listing.before if listing else {}
        self._histories = histories or {}
        self._inodes: dict[tuple[int, int], str] = {}
        self._made: dict[str, File] = {}
        for other, first in listing.same.items() if listing else ():
            self._name(other, first)
        self._last = {path.rpartition("/")[2] for path in self.listed or ()} | self._ends

    def one(self, place: str) -> str:
        """The place by which a file is known that has several."""
        if place in self._renewed:
            return self._renewed[place]
        for _ in range(len(self.same)):
            if place not in self.same:
                break
            place = self.same[place]
        return place

    def _name(self, other: str, first: str) -> None:
        """A path is one more of a file."""
        self.same[other] = first
        self._others.setdefault(first, set()).add(other)
        self._folders.update(folders_of(other))
        self._ends.add(other.rpartition("/")[2])

    def _unname(self, other: str) -> None:
        """A path is none of the file any more."""
        first = self.same.pop(other, None)
        if first is not None:
            self._others[first].discard(other)

    def is_other(self, last: str) -> bool:
        """Whether a path that ends so may be another one of a file."""
        return last in self._ends

    def links(self, old: str, new: str) -> None:
        """Two places are of one file from now on."""
        first = self.one(old)
        self._renewed.pop(new, None)
        self._unname(new)
        if first != new:
            self._name(new, first)
            self.hard.add(new)

    def unlinks(self, place: str, line: int) -> bool:
        """Another file is at this place from now on, or none; whether the old has other names."""
        first = self.one(place)
        others = self._others.get(first, set()) - {place}
        self._unname(place)
        if place in self._folders:
            for other in [other for other in self.same if is_below(other, place)]:
                self._unname(other)
        if first == place and others:
            self._renewed[place] = f"{place} since line {line}"
        return bool(others) or first != place

    def lists(self, path: str) -> bool:
        """Whether the list names the file."""
        return self.listed is not None and (path in self.listed or self.one(path) in self.listed)

    def has_name(self, last: str) -> bool:
        """Whether the list names a file whose path ends so."""
        return last in self._last

    def make(self, place: str, words: str) -> None:
        """A file that the log itself makes, as memfd_create(2) does."""
        self._made[place] = File(words)

    def begins(self, place: str, text: str) -> None:
        """What a script file that the log makes begins with, as strace writes it."""
        if place in self._made:
            whole = lines.string(text) or lines.string(text.removesuffix("...")) or ""
            first = whole[2:].split("\n")[0].split()
            interpreter = first[0] if first else None
            if text.endswith("...") and "\n" not in whole:
                interpreter = CUT
            self._made[place] = File(self._made[place].words, interpreter)

    def found(self, named: Located, apart: bool = False) -> Found:
        """The file that lies there; `apart` where the mount is of another mount namespace.

        There set-id bits and attribute have no effect, as where it has nosuid (`mnt_may_suid`,
        fs/namespace.c).
        """
        mount, place = named.mount or Mount(""), named.real or named.place
        if mount.mapped:
            raise Missing(
                f"{named.place} is of another owner through the mount that line {mount.mapped} "
                "changes (mount_setattr(2), MOUNT_ATTR_IDMAP)"
            )
        file = self._before(named.place, place)
        noexec = file.noexec if mount.noexec is None else mount.noexec
        words = file.words
        apart = apart and (is_privileged(words) or self.one(place) in self._histories)
        if (mount.nosuid or apart) and " nosuid" not in words:
            words = " ".join([*words.split()[:4], "nosuid", *words.split()[4:]])
        elif mount.nosuid is False and not apart:
            words = words.replace(" nosuid", "")
        # One file of a script is one file, whichever of its names is used, where it changes.
        name = self.one(place) if self.one(place) in self._histories else named.place
        if words != file.words:
            kind = "nosuid" if " nosuid" in words else "suid"
            name += " of another mount namespace" if apart else f" through a {kind} mount"
        file = File(words, file.interpreter, noexec)
        return Found(name, file, place, named.place, named, apart)

    def without_set_id(self, found: Found) -> Found:
        """The same file for a namespace that its owner or group isn't mapped in: there its set-id
        bits have no effect (user_namespaces(7)). Where it changes it is one file for all."""
        kind, owner, group, mode, *others = found.file.words.split()
        if not int(mode, 8) & 0o6000 or self.one(found.place) in self._histories:
            return found
        words = " ".join([kind, owner, group, f"{int(mode, 8) & 0o1777:04o}", *others])
        path = f"{found.path} of an owner who isn't mapped"
        return replace(found, path=path, file=replace(found.file, words=words))

    def changed_after(self, time: float) -> list[str]:
        """The files that this machine has changed since then."""
        return [place for place, file in self.seen.items() if file.changed > time]

    def folder(self, place: str) -> str | None:
        """The words of a folder, where it is known."""
        if self.listed is not None:
            return self.listed[place].words if place in self.listed else None
        try:
            return on_disk(place).words
        except Missing:
            return None

    def _before(self, place: str, real: str) -> File:
        """What is known of the file that lies there as it was before the log changed it."""
        file = self._get(place, real)
        one = self.one(real)
        if one in self.before or place in self.before:
            return self.before.get(one) or self.before[place]
        history = self._histories.get(one)
        if history is None or not history.changes:
            return file
        return replace(file, words=history.before(state_of(file.words)).words)

    def _get(self, place: str, real: str) -> File:
        """What is known of the file that lies there."""
        if place in self._made:
            return self._made[place]
        if self.listed is not None:
            if place not in self.listed and self.one(place) not in self.listed:
                raise Missing(f"{place} isn't in the list of files")
            self.seen[place] = self.listed.get(place) or self.listed[self.one(place)]
        elif place not in self.seen:
            if match := re.match(r"@(\d+):", real):
                raise Missing(
                    f"it lies on what line {match[1]} mounts or enters, which isn't followed: list "
                    f"it as {place} (--files)"
                )
            self.seen[place] = on_disk(real)
            self._joins(real, self.seen[place].inode)
        return self.seen[place]

    def _joins(self, real: str, inode: tuple[int, int] | None) -> None:
        """A file of several places that was used at another one is that one."""
        if inode is not None and self._inodes.setdefault(inode, real) != real:
            if real not in self.same:
                self._name(real, self._inodes[inode])


def folders_of(path: str) -> list[str]:
    """The folders above a path."""
    parts = path.split("/")
    return ["/".join(parts[:count]) or "/" for count in range(1, len(parts))]


def on_disk(path: str) -> File:
    """The file as the file system has it."""
    try:
        name = path.encode("latin-1")
        status = os.stat(name)
        interpreter = interpreter_of(name) if stat.S_ISREG(status.st_mode) else None
        flags = os.statvfs(name).f_flag
        noexec = bool(flags & os.ST_NOEXEC)
        inode = (status.st_dev, status.st_ino) if status.st_nlink > 1 else None
        words = words_of(name, status, flags)
        return File(words, interpreter, noexec, status.st_ctime, inode)
    except (OSError, ValueError) as fault:
        reason = fault.strerror if isinstance(fault, OSError) else str(fault)
        raise Missing(f"{path} can't be asked for its owner and mode: {reason}") from None


def words_of(name: bytes, status: os.stat_result, flags: int) -> str:
    """The words of a `file` line behind its name."""
    kind = "dir" if stat.S_ISDIR(status.st_mode) else "reg"
    words = [kind, str(status.st_uid), str(status.st_gid), f"{status.st_mode & 0o7777:04o}"]
    if flags & os.ST_NOSUID:
        words.append("nosuid")
    with contextlib.suppress(OSError):
        attribute = os.getxattr(name, ATTRIBUTE).hex()
        words += ["caps", attribute] if attribute else []
    return " ".join(words)


def interpreter_of(name: bytes) -> str | None:
    """The interpreter that a script file names in its first line (execve(2))."""
    with open(name, "rb") as file:
        first = file.read(256)
    if not first.startswith(b"#!"):
        return None
    words = first[2:].split(b"\n")[0].split()
    return words[0].decode("latin-1") if words else None


class Names:
    """The names that a script gives to files."""

    def __init__(self) -> None:
        self.of_path: dict[str, str] = {}
        self._taken: set[str] = set()

    def name(self, path: str) -> str:
        """The name of the file, by its last component, and apart from all others."""
        if path not in self.of_path:
            base = re.sub(r"[^A-Za-z0-9_.-]", "_", os.path.basename(path)) or "f"
            base = (base if base[0].isalpha() else "f" + base)[:28]
            name, count = base, 1
            while name in self._taken:
                count += 1
                name = f"{base[: 31 - len(str(count))]}-{count}"
            self._taken.add(name)
            self.of_path[path] = name
        return self.of_path[path]
