"""Opens of files that the list of files names, and questions about them."""

from __future__ import annotations

from ..follow import user_namespaces
from ..follow.descriptors import told as told_path
from ..follow.path_calls import argument, open_flags
from ..follow.paths import Paths
from ..follow.places import Located
from ..follow.tasks import Task
from ..follow.user_namespaces import led
from ..log import lines
from ..log.reader import Call
from ..script.calls import Said, Unheld, answer
from ..script.not_converted import NotConverted
from ..script.refused import is_refused
from ..script.script import Facts, Line, Script
from . import changes, file_calls
from .changes import Changes
from .file_calls import attribute_of, stat_of
from .history import SET_ID_BITS, Change
from .listing import Found, Missing

ACCESSES = ("access", "faccessat", "faccessat2")

# The descriptor under which a file is opened. It is closed at once, since no call of a log asks who
# opened it.
DESCRIPTOR = "f1"

WANTED_BITS = {"R_OK": 4, "W_OK": 2, "X_OK": 1, "F_OK": 0}

OPENED_FOR = {"O_RDONLY": "r", "O_WRONLY": "w", "O_RDWR": "rw"}


def want_of(text: str) -> str | None:
    """What access(2) asks, in the order of a script."""
    value = lines.bits(text, WANTED_BITS)
    if not value or value > 7:
        return None
    return "".join(letter for letter, bit in (("r", 4), ("w", 2), ("x", 1)) if value & bit)


def accessed(call: Call) -> tuple[int, str, str | None]:
    """Where the path of access(2) stands, the form of the question, and what is asked."""
    place = 0 if call.name == "access" else 1
    form = "check" if "AT_EACCESS" in call.args[-1] else "access"
    return place, form, want_of(argument(call, place + 1))


def opened(call: Call) -> tuple[int, str, str | None]:
    """The same of open(2)."""
    place, flags = open_flags(call)
    modes = [OPENED_FOR[word] for word in flags.split("|") if word in OPENED_FOR]
    want = "w" if call.name == "creat" else modes[0] if modes else None
    return place, "open", None if "O_PATH" in flags else want


def facts_of(task: Task, found: Found, now: str) -> Facts:
    """What is known of a file besides; `now` is what it is here."""
    words, space = now.split(), task.process.space
    unmapped = not (space.inside(int(words[1]), False) and space.inside(int(words[2]), True))
    filtered = task.process.filtered
    inside = space.parent is not None
    return Facts(found.place, found.file.noexec, filtered, unmapped, words=now, inside=inside)


class FileLines:
    """Writes the lines of such calls, and of those that change a file or tell what it is."""

    def __init__(
        self, paths: Paths, script: Script, changes: Changes, not_converted: NotConverted
    ) -> None:
        self._paths = paths
        self._script = script
        self._changes = changes
        self._not_converted = not_converted
        # Changes of files by descriptors of which nothing tells what they are of.
        self.unnamed: list[Call] = []

    def file(self, task: Task, call: Call, place: int) -> Found | None:
        """A file that the list of files names, or that was executed before."""
        if is_refused(call) and self._paths.files.listed is None:
            return self.refused_file(task, call, place)
        try:
            path, base = self._paths.named(task, call, place, place - 1 if place else None)
            task = self._paths.rooted(task, call)
            # Most paths of a long log are of other files: their last names say so.
            last = path.rpartition("/")[2]
            plain = path and not path.startswith(("/proc/", "/dev/"))
            if plain and not (self._paths.files.has_name(last) or self._script.has_name(last)):
                return None
            where = self._paths.lead(task, path, base).place
            if not (self._paths.files.lists(where) or self._script.declares(where)):
                return None
            found = self._paths.find(task, path, base)
        except (Unheld, Missing):
            return None
        self._changes.uses(found, call.first, False)
        return found

    def refused_file(self, task: Task, call: Call, place: int) -> Found | None:
        """Any file that the kernel refused, as this machine has it; none where that isn't known.

        No script ends for the want of such a file.
        """
        try:
            path, base = self._paths.named(task, call, place, place - 1 if place else None)
            found = self._paths.find(self._paths.rooted(task, call), path, base)
            if not self._script.has_room_for(found):
                return None
            self._changes.uses(found, call.first, False)
        except (Unheld, Missing):
            return None
        return found

    def lines(self, task: Task, call: Call) -> list[Line] | None:
        """The lines of an open or of a question, where the list names the file."""
        place, form, want = accessed(call) if call.name in ACCESSES else opened(call)
        said = answer(call.result)
        if said is None or want is None:
            return None
        if form == "open" and said == "ok" and changes.makes(call):
            # Who makes a file may write it, whatever its mode is (open(2), O_CREAT).
            return None
        found = self.file(task, call, place)
        if found is None:
            return None
        name = self._script.file(call.first, found)
        facts = facts_of(task, found, self._changes.now(found))
        if form == "open":
            opens = Line(f"{task.name} open {name} {want} {DESCRIPTOR}", call, said, facts)
            return [opens, Line(f"{task.name} close {DESCRIPTOR}")]
        return [Line(f"{task.name} {form} {name} {want}", call, said, facts)]

    def _located(self, task: Task, call: Call) -> Located | None:
        """Where the file of a call lies that changes it or tells what it is."""
        if call.name in file_calls.BY_DESCRIPTOR:
            return self._paths.base(task, argument(call, 0))
        place = 1 if call.name in file_calls.AT_FOLDER else 0
        path, base = self._paths.named(task, call, place, place - 1 if place else None)
        found = self._paths.both(task, path, base)
        return None if file_calls.of_link(call) and self._paths.is_link(found) else found

    def access(self, task: Task, call: Call) -> None:
        """access(2), of a file that the list names or that was executed."""
        found = self.lines(task, call)
        self._script.add(call.first, *(found or ()))
        if not found:
            self._not_converted.call(call)

    def change(self, task: Task, call: Call) -> None:
        """chmod(2) and what else changes a file, or puts another one in its place."""
        if not call.context and (self.refused_change(task, call) or self.changed(task, call)):
            return
        if not call.context:
            self._not_converted.call(call)
        if call.result.value == 0 and self._is_unnamed(task, call):
            self.unnamed.append(call)
        if call.result.value == 0 and call.name in changes.LINKED:
            self._changes.links(task, call)
        elif call.result.value == 0:
            self._changes.changes(task, call)

    def _is_unnamed(self, task: Task, call: Call) -> bool:
        """Whether a call changes a file by a descriptor of which neither the log nor -y tells."""
        of = argument(call, 0)
        by_descriptor = call.name in changes.OPENED and "<" not in of
        names_other = "xattr" in call.name and not any("security." in it for it in call.args)
        return by_descriptor and not names_other and self._paths.base(task, of) is None

    def tell(self, task: Task, call: Call) -> None:
        """stat(2) and its forms, of a file that has changed in the log."""
        found = [] if call.context else self.tells(task, call)
        self._script.add(call.first, *found)
        if not found and not call.context:
            self._not_converted.call(call)

    def changed(self, task: Task, call: Call) -> bool:
        """Writes the lines of a call that changes a file, where that is said; and whether it is."""
        form, said = file_calls.changing(call), answer(call.result)
        if form is None or said not in ("ok", "eperm", "einval"):
            return False
        name, words = form
        try:
            located = self._located(task, call)
            outside = led(Said(f"{name} {' '.join(words)}", said), task.process.space)
            if located is None or outside is None:
                # A symbolic link is no file that anybody executes.
                return located is None and file_calls.of_link(call)
            is_said = self._changes.is_said(located, call.first)
            files = self._changes.names_of(located) if is_said else []
        except (Unheld, Missing, IndexError):
            if said == "ok":
                self._changes.lost(self._end(task, call), call.first)
            return False
        words = tuple(outside.words.split()[1:])
        lines = [self._of_file(task, call, found, name, words, said) for found in files]
        self._script.add(call.first, *lines)
        history = self._changes.history(located)
        history.lines.add(call.first)
        if said == "ok":
            history.changes.append(Change(call.first, name, words, task.ids.users[3]))
        if not is_said:
            self._not_converted.call(call)
        return True

    def refused_change(self, task: Task, call: Call) -> bool:
        """Writes the line of a change that was refused, of any file that this machine has."""
        form, said = file_calls.changing(call), answer(call.result)
        if form is None or said != "eperm" or self._paths.files.listed is not None:
            return False
        try:
            located = self._located(task, call)
            outside = led(Said(f"{form[0]} {' '.join(form[1])}", said), task.process.space)
            if located is None or outside is None:
                return False
            found = self._paths.files.found(located)
            if not self._script.has_room_for(found):
                return False
            self._changes.uses(found, call.first, False)
        except (Unheld, Missing, IndexError):
            return False
        words = tuple(outside.words.split()[1:])
        self._script.add(call.first, self._of_file(task, call, found, form[0], words, said))
        return True

    def _of_file(
        self, task: Task, call: Call, found: Found, form: str, words: tuple[str, ...], said: str
    ) -> Line:
        """A line of a call on a file."""
        name = self._script.file(call.first, found)
        text = " ".join([task.name, form, name, *words])
        return Line(text, call, said, facts_of(task, found, self._changes.now(found)))

    def tells(self, task: Task, call: Call) -> list[Line]:
        """The lines of a call that tells what a file is, where the file has changed before."""
        if not self._changes.any_change():
            return []
        told = stat_of(call)
        attribute = attribute_of(call) if call.name in file_calls.GET else None
        if (told is None and attribute is None) or not self._may_tell(task, call):
            return []
        try:
            located = self._located(task, call)
            changed = self._changes.has_changed(located) if located else None
            if located is None or changed is None:
                return []
            files = self._changes.names_of(located) if changed else []
        except (Unheld, Missing, IndexError):
            return []
        space = task.process.space
        ids = [str(told[name]) if told and name in told else "*" for name in ("uid", "gid")]
        owner, group = (
            user_namespaces.told(word, space, place == 1) for place, word in enumerate(ids)
        )
        self._note(located, told, owner, group, attribute)
        mode = f"{told['mode']:04o}" if told else "*"
        flag = "*" if attribute is None else str(int(attribute[0]))
        said = f"ok {owner} {group} {mode} {flag}"
        return [self._of_file(task, call, found, "stat", (), said) for found in files]

    def _may_tell(self, task: Task, call: Call) -> bool:
        """Whether it may be of a file that changes: most stats of a long log are of others."""
        return self._changes.may_tell(self._end(task, call))

    def _end(self, task: Task, call: Call) -> str:
        """How the path of the file ends, as far as that is known."""
        path: str | None = ""
        if call.name not in file_calls.BY_DESCRIPTOR:
            path = lines.string(argument(call, 1 if call.name in file_calls.AT_FOLDER else 0))
        shown = told_path(argument(call, 0)) if path == "" else None
        if path == "":
            path = shown[0] if shown else task.descriptors.end(argument(call, 0))
        return (path or "").rpartition("/")[2]

    def _note(
        self,
        located: Located,
        told: dict[str, int] | None,
        owner: str,
        group: str,
        attribute: tuple[bool, str | None] | None,
    ) -> None:
        """What is told of a file may be what it was before the log's changes."""
        history = self._changes.history(located)
        if told is not None:
            mode = told["mode"]
            history.tells(bits=mode & ~SET_ID_BITS, set_id=mode & SET_ID_BITS)
        if owner != "*":
            history.tells(owner=int(owner))
        if group != "*":
            history.tells(group=int(group))
        if attribute is not None and (attribute[1] or not attribute[0]):
            history.tells(caps=attribute[1])
