"""Calls that change a file, or put another one in its place."""

from __future__ import annotations

from contextlib import suppress
from dataclasses import dataclass, field, replace

from ..follow.path_calls import OPENS, open_flags
from ..follow.paths import Paths, link_of
from ..follow.places import Located, is_below, joined
from ..follow.tasks import Task
from ..log.lines import number
from ..log.reader import Call
from ..script.calls import Unheld
from .history import ASKED, SET_ID_BITS, History, state_of
from .listing import Found, folders_of

# Where the path of each call stands, and the descriptor of its folder; a path alone; a descriptor.
NAMED: dict[str, list[tuple[int, int | None]]] = {
    "fchmodat": [(1, 0)],
    "fchmodat2": [(1, 0)],
    "fchownat": [(1, 0)],
    "setxattrat": [(1, 0)],
    "removexattrat": [(1, 0)],
    "unlinkat": [(1, 0)],
    "rename": [(0, None), (1, None)],
    "renameat": [(1, 0), (3, 2)],
    "renameat2": [(1, 0), (3, 2)],
}
NAMED |= dict.fromkeys(
    "chmod chown lchown chown32 lchown32 setxattr lsetxattr removexattr lremovexattr unlink rmdir "
    "truncate truncate64".split(),
    [(0, None)],
)
OPENED = ("fchmod", "fchown", "fchown32", "fsetxattr", "fremovexattr")

NAMED |= {"link": [(0, None), (1, None)], "linkat": [(1, 0), (3, 2)]}
LINKED = ("link", "linkat")
MOVED = ("unlink", "unlinkat", "rename", "renameat", "renameat2", "rmdir")

# What writes a file takes its attribute away, and its set-id bits without CAP_FSETID (chmod(2),
# write(2)): so it matters to who executes it, and to nobody else.
WRITTEN = (*OPENS, "truncate", "truncate64")
WRITES = ("O_WRONLY", "O_RDWR", "O_TRUNC")

CALLS = (*NAMED, *OPENED)


def places_of(paths: Paths, task: Task, call: Call) -> set[str]:
    """The places of the files that a call changes, as far as they are known."""
    if "xattr" in call.name and not any("security." in arg for arg in call.args):
        return set()
    found: set[str] = set()
    with suppress(Unheld, IndexError):
        if call.name in OPENED:
            of = paths.base(task, call.args[0])
            found |= names_of(of) if of else set()
        elif call.name in OPENS:
            place, _ = open_flags(call)
            found |= names_of(paths.locate(task, call, place, place - 1 if place else None))
        elif call.name in MOVED:
            for where in NAMED[call.name]:
                found |= entries_of(paths, task, *paths.named(task, call, *where))
        else:
            found |= names_of(paths.locate(task, call, *NAMED[call.name][0]))
    return found


def names_of(found: Located) -> set[str]:
    """Its place by the path that names it, and that behind symbolic links."""
    return {found.place, found.real or found.place}


def entries_of(paths: Paths, task: Task, path: str, base: Located | None) -> set[str]:
    """The places of a name in a folder. A link that is removed or renamed isn't followed."""
    folder, _, last = path.rstrip("/").rpartition("/")
    where = folder or ("/" if path.startswith("/") else ".")
    return {joined(place, last) for place in names_of(paths.both(task, where, base))}


def writes(call: Call) -> bool:
    """Whether a file is opened for writing."""
    _, flags = open_flags(call)
    return call.name == "creat" or any(word in WRITES for word in flags.split("|"))


def makes(call: Call) -> bool:
    """Whether an open makes the file, and would have failed if it had been there."""
    _, flags = open_flags(call)
    return {"O_CREAT", "O_EXCL"} <= set(flags.split("|"))


@dataclass
class Known:
    """What earlier runs over a log have found out, since it matters to lines that stand before."""

    # The line of the last change of each file that no line of a script says.
    stops: dict[str, int] = field(default_factory=dict)
    # The changes that lines of a script say, by the place of the file, and those places under which
    # each such file is declared, with whether that is through another mount namespace.
    histories: dict[str, History] = field(default_factory=dict)
    names: dict[str, dict[str, tuple[Located, bool]]] = field(default_factory=dict)
    executed: set[str] = field(default_factory=set)
    # The line at which a symbolic link was last made or removed, as the machine has it now.
    links: dict[str, int] = field(default_factory=dict)
    # Whether all was gone through that may tell what a file was: then what lacks ends a script.
    sure: bool = False


class Changes:
    """Which files were used, and which of them change in the log.

    A script declares a file as it was before the log, and has a line for each change of its owner,
    mode or attribute. That another file comes to its place, or that it is written, no line says:
    what used it before ends the script.
    """

    def __init__(self, paths: Paths, known: Known) -> None:
        self._paths = paths
        self._known = known
        self._gone: dict[str, int] = {}
        # The files that were used, and whether they were executed.
        self._used: dict[str, bool] = {}
        self._executes = bool(known.executed)
        # How the paths of files end that change, and the folders of all that were changed so far.
        self._ends = {place.rpartition("/")[2].partition(" since ")[0] for place in known.histories}
        self._folders: set[str] = set()
        names, executed = dict(known.names), set(known.executed)
        links = dict(known.links)
        self.next = Known(dict(known.stops), {}, names, executed, links, known.sure)
        paths.relinked = known.links

    def settled(self) -> bool:
        """Whether this run has found nothing that an earlier one hadn't."""
        files = self._paths.files
        self.next.histories = {
            place: history
            for place, history in self.next.histories.items()
            if history.lines and (place in self.next.names or files.lists(place))
        }
        if not (self.next.histories or self.next.stops or self.next.links):
            # Nothing that was used changes.
            return True
        if self.next != self._known:
            return False
        was_sure, self.next.sure = self.next.sure, True
        return was_sure or not self.next.histories

    def uses(self, found: Found, line: int, executes: bool) -> None:
        """A file is executed or asked about here."""
        for place in (found.place, found.named):
            change = self._known.stops.get(place, 0)
            if change > line:
                raise Unheld(
                    f"line {change} changes {place}, or puts another file there, and no line of a "
                    "script says so"
                )
            if place in self._gone:
                raise Unheld(
                    f"{place} is another file since line {self._gone[place]}, and a script has one "
                    "file of a name"
                )
            self._used[place] = self._used.get(place, False) or executes
            self._executes = self._executes or executes
        one = self._paths.files.one(found.place)
        # Mount namespaces have other numbers in another run.
        located = replace(found.located, within=None)
        names = self.next.names.get(one, {}) | {found.path: (located, found.apart)}
        self.next.names[one] = names
        if executes:
            self.next.executed.add(one)
        self._is_known(found, line, executes)

    def _is_known(self, found: Found, line: int, executes: bool) -> None:
        """Nobody guesses what a file was before it was changed."""
        files = self._paths.files
        one = files.one(found.place)
        history = self._known.histories.get(one)
        listed = one in files.before or found.named in files.before
        if history is None or listed or not self._known.sure:
            return
        for part, first in history.unknown().items():
            if line < first and (executes or part in ASKED):
                raise Unheld(
                    f"line {first} changes {found.named}, and of what it was before that nobody "
                    f"tells the {part}: record stat(2) and getxattr(2) with -v, or list the file "
                    "as it was, with `before` (--files)"
                )

    def now(self, found: Found) -> str:
        """The words of a file as it is here."""
        history = self.next.histories.get(self._paths.files.one(found.place))
        if history is None or not history.changes:
            return found.file.words
        return history.state(state_of(found.file.words)).words

    def names_of(self, located: Located) -> list[Found]:
        """The files of a script that are this one."""
        files = self._paths.files
        one = files.one(located.real or located.place)
        names = self._known.names.get(one) or {"": (located, False)}
        found = [files.found(*how) for how in names.values()]
        return list({one.path: one for one in found}.values())

    def history(self, located: Located) -> History:
        """What this run has found of a file so far."""
        one = self._paths.files.one(located.real or located.place)
        if one not in self.next.histories:
            self._folders.update(folders_of(one))
        return self.next.histories.setdefault(one, History())

    def is_said(self, located: Located, line: int) -> bool:
        """Whether a script has a line for the call of this line of the log, by an earlier run."""
        one = self._paths.files.one(located.real or located.place)
        known = self._known.histories.get(one)
        return known is not None and line in known.lines

    def has_changed(self, located: Located) -> bool | None:
        """Whether the file has changed before; None where it never does."""
        one = self._paths.files.one(located.real or located.place)
        if one not in self._known.histories:
            return None
        return one in self.next.histories and bool(self.next.histories[one].changes)

    def any_change(self) -> bool:
        """Whether a file that is used changes in the log."""
        return bool(self._known.histories)

    def may_tell(self, last: str) -> bool:
        """Whether a file of this name may change in the log."""
        return last in self._ends or (self.any_change() and self._paths.files.is_other(last))

    def opens(self, task: Task, call: Call) -> None:
        """A file is opened, also for writing; or it is made."""
        if makes(call):
            self._made(task, call)
        elif (self._executes or self.next.histories) and writes(call):
            self.changes(task, call)

    def _made(self, task: Task, call: Call) -> None:
        """A file that wasn't there is made: it has no attribute, and is its maker's."""
        with suppress(Unheld, IndexError):
            place, _ = open_flags(call)
            located = self._paths.locate(task, call, place, place - 1 if place else None)
            one = self._paths.files.one(located.real or located.place)
            history = History(since=call.first)
            history.tells(caps=None, owner=task.ids.users[3])
            mode = number(call.args[-1])
            if mode is not None and not mode & SET_ID_BITS:
                history.tells(set_id=0)
            self._folders.update(folders_of(one))
            self.next.histories[one] = history

    def elsewhere(self, task: Task, call: Call) -> None:
        """The same by a process of which nothing else is known."""
        if call.name in OPENS:
            self.opens(task, call)
        elif call.name in LINKED:
            self.links(task, call)
        else:
            self.changes(task, call)

    def lost(self, end: str, line: int) -> None:
        """Some file is changed whose path ends so: it may be one that was used."""
        for place in self._used:
            if place.rpartition("/")[2] == end:
                self.next.stops[place] = max(line, self.next.stops.get(place, 0))

    def links(self, task: Task, call: Call) -> None:
        """link(2): a file has one name more."""
        with suppress(Unheld, IndexError):
            old, new = (self._paths.locate(task, call, *where) for where in NAMED[call.name])
            self._paths.files.links(old.real or old.place, new.place)

    def changes(self, task: Task, call: Call) -> None:
        """A file is changed, removed or renamed, or a folder above it."""
        moved, written = call.name in MOVED, call.name in WRITTEN
        for changed in places_of(self._paths, task, call):
            # The file at the end of a link stays as it is where the link goes.
            places = [changed] if changed in self._used else []
            if moved:
                places = [place for place in self._used if is_below(place, changed)]
            elif written:
                places = [place for place in places if self._used[place]]
            for place in places:
                if moved:
                    self._gone[place] = call.first
                if not moved or self._paths.files.listed is None:
                    self.next.stops[place] = max(call.first, self.next.stops.get(place, 0))
            self._forget(changed, call)
            if moved and self._paths.files.listed is None and link_of(changed) is not None:
                self.next.links[changed] = call.first

    def _forget(self, changed: str, call: Call) -> None:
        """What was changed before isn't what a script declares, which is what comes after."""
        moved, written = call.name in MOVED, call.name in WRITTEN
        histories, one = self.next.histories, self._paths.files.one(changed)
        if moved:
            stays = self._paths.files.unlinks(changed, call.first)
            gone = [changed] if changed in histories and not stays else []
            if changed in self._folders:
                gone += [place for place in histories if is_below(place, changed)]
        else:
            gone = [one] if one in histories and (not written or one in self.next.executed) else []
        for place in gone:
            histories[place] = History(since=call.first)
