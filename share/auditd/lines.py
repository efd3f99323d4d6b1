"""The lines of a recorded call, and what its records say of the answers."""

from __future__ import annotations

from strace.script.calls import Said

from .calls import capset, id_call, prctl, refusal, setgroups
from .files import SET_IDS, changed_of, declared, program_of
from .owners import Owners
from .records import Event, Four, Path
from .script import Check, Kind
from .tasks import FILE_IDS, ID_CALLS, Process, Task, word

SIGCONT = 18
PTRACES = frozenset({16, 16902})
NO_NEW_PRIVS = 38
CHANGES_FILES = frozenset(
    {"chmod", "fchmod", "fchmodat", "fchmodat2", "chown", "fchown", "lchown", "fchownat"}
)


class Lines(Owners):
    """Writes the lines of calls."""

    def check(self, place: int, event: Event, expected: str, kind: Kind, task: Task, begin: int,
              other: Process | None = None) -> None:  # fmt: skip
        """An answer that the log tells."""
        known, space = task.process.known, task.process.space
        guess = space if space is not None and not space.sure else None
        self.script.checks.append(
            Check(place, event, expected, kind, task, known.sets and known.executed,
                  known.executed, begin, other, guess)  # fmt: skip
        )

    def sets_are(self, event: Event, task: Task, sets: Four, kind: Kind, begin: int) -> None:
        """The sets of a record."""
        place = self.script.add(f"{task.name} caps")
        expected = (
            f"ok {sets.permitted:x} {sets.inheritable:x} {sets.effective:x} * {sets.ambient:x}"
        )
        self.check(place, event, expected, kind, task, begin)

    def say(self, event: Event, task: Task, said: Said | None, begin: int,
            other: Process | None = None) -> None:  # fmt: skip
        """A line of the task, with its answer; or the call is passed over."""
        if said is None:
            self.counts["calls that failed for another reason, or whose words aren't known"] += 1
            return
        place = self.script.add(f"{task.name} {said.words}")
        self.check(place, event, said.answer, Kind.CALL, task, begin, other)

    def call(self, event: Event, task: Task, begin: int) -> None:
        """The line of the call itself."""
        name, several = event.name, len(task.process.threads) > 1
        space = task.process.space
        if name in ID_CALLS or name == "setgroups":
            said = id_call(event, space) if name in ID_CALLS else setgroups(event)
            if said and several:
                said = Said(f"raw {said.words}", said.answer)
            if name == "setgroups" and event.done:
                task.process.known.groups = event.args[0] == 0
                self.counts["group lists that the log doesn't have"] += event.args[0] != 0
            self.say(event, task, said, begin)
        elif name in FILE_IDS:
            self.say(event, task, id_call(event, space), begin)
        elif name == "capset":
            self.say(event, task, capset(event), begin)
        elif name == "prctl":
            self.say(event, task, prctl(event), begin)
            task.no_new_privs |= event.done and event.args[0] == NO_NEW_PRIVS
        elif event.executes:
            self.execute(event, task, begin)
        elif name in ("kill", "tkill", "ptrace"):
            self.look(event, task, begin)
        elif name in CHANGES_FILES:
            self.change(event, task, begin)

    def execute(self, event: Event, task: Task, begin: int) -> None:
        """execve(2): the file is declared as its record shows it. It was executable: maybe by a
        group that the log doesn't have."""
        path, said = program_of(event), refusal(event)
        if path is None or said not in ("ok", "eperm"):
            self.counts["calls of execve that failed, or have no file"] += 1
            return
        if event.gained and task.process.known.sets:
            self.sets_are(event, task, event.gained.before, Kind.BEFORE, begin)
        more = 0o001 if said == "ok" and not task.process.known.groups else 0
        name = self.script.file(declared(path, more, without_effect(path, event, task)))
        self.say(event, task, Said(f"exec {name}", said), begin)
        if event.done:
            self.script.living -= len(task.process.threads) - 1
            task.process.threads = [task]
            task.process.crowd = 0

    def look(self, event: Event, task: Task, begin: int) -> None:
        """kill(2) of one task, and ptrace(2) that attaches to one."""
        said = refusal(event)
        is_trace = event.name == "ptrace"
        wanted = event.args[0] in PTRACES if is_trace else event.args[1] != SIGCONT
        if said not in ("ok", "eperm") or len(event.objects) != 1 or not wanted:
            self.counts["signals of which nothing is compared"] += 1
            return
        other = self.known(event.objects[0])
        if other is None or other.space is not task.process.space or not other.threads:
            self.counts["signals to tasks of which nothing is known"] += 1
            return
        what = "ptrace real" if is_trace else "signal"
        self.say(event, task, Said(f"{what} {other.threads[0].name}", said), begin, other)

    def change(self, event: Event, task: Task, begin: int) -> None:
        """chmod(2) and chown(2): the file is declared as it was before."""
        path, said = changed_of(event), refusal(event)
        if path is None or said not in ("ok", "eperm") or task.process.space is not None:
            # In a user namespace capabilities don't count for each file.
            self.counts["changes of files of which nothing is compared"] += 1
            return
        at = 2 if event.name.endswith(("at", "at2")) else 1
        name = self.script.file(declared(path), f" @{event.serial}")
        if "mod" in event.name:
            words = f"chmod {name} {event.args[at] & 0o7777:04o}"
        else:
            owner, group = (word(arg, event.short) for arg in event.args[at : at + 2])
            words = f"chown {name} {owner} {group}"
        self.say(event, task, Said(words, said), begin)


def without_effect(path: Path, event: Event, task: Task) -> int:
    """The set-id bits that don't count in the task's user namespace, where the file's owner or
    group has no number (user_namespaces(7)). Where its maps are a guess the record tells it."""
    space = task.process.space
    if space is None or space.has_file(path.owner, path.group):
        return 0
    if not space.sure and path.owner == event.ids[1] != task.ids[1]:
        return 0
    return SET_IDS
