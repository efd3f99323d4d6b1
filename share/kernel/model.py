"""What a kernel must answer to a script, by the manual or by Linux, as the driver would write it.

`expected` runs a script by the rules of cred.py and files.py: without rows it is what the manual
says, and with rows.EXPECTED what Linux does. A row is named where it made a difference to a line.
"""

from __future__ import annotations

from collections.abc import Callable
from dataclasses import dataclass, field
from typing import TypeVar

from . import cred as change
from . import files
from limits import HOLDS, TASKS

from .cred import Cred, Refused
from .lines import id_of
from .rows import CAPABILITY, DENIED_GROUPS, EXPECTED, MANUAL
from .rules import chain
from .script import CHANGES, ID_CALLS, QUERIES, Line, Script, capability
from .setup import Place, id_map

KILL = 5
Words = tuple[str, ...]
Rows = frozenset[str]
Made = TypeVar("Made")


@dataclass
class Task:
    """A task, or a label that holds: its credential and its process."""

    cred: Cred
    process: str
    waits: int = 0


@dataclass
class Cast:
    """A call that not every thread of its process has made yet."""

    caller: str
    process: str
    words: Words


@dataclass
class Model:
    """Goes through the lines of a script."""

    script: Script
    place: Place
    on: Rows
    tasks: dict[str, Task] = field(default_factory=dict)
    casts: dict[int, Cast] = field(default_factory=dict)
    opened: dict[tuple[str, str], bool] = field(default_factory=dict)
    named: set[str] = field(default_factory=set)

    def mapped(self, space: int) -> Callable[[int], bool]:
        """Which ids a namespace has."""
        root = self.script.spaces[space].root
        extents = id_map(self.place, chain(self.script, space))
        if sum(count for _, _, count in extents) >= 0xFFFFFFFF:
            return lambda number: True
        inner = [(first, first + count) for first, _, count in extents]

        def has(number: int) -> bool:
            number = root if number == 0 else 0 if number == root else number
            return any(first <= number < end for first, end in inner)

        return has

    def rule(self, make: Callable[[Rows], Made]) -> Made:
        """What a rule makes by the rows that hold. Where it is another thing without one of them,
        that row is named.
        """
        found = outcome(make, self.on)
        if self.on and shown(found) != shown(outcome(make, MANUAL)):
            for row in self.on:
                if shown(found) != shown(outcome(make, self.on - {row})):
                    self.named.add(row)
        if isinstance(found, Refused):
            raise found
        return found

    def step(self, task: Task, words: Words) -> None:
        """A task's own step of a call that sets ids."""
        ids = [id_of(word) for word in words[1:]]
        if words[0] == "setgroups":
            task.cred = self.rule(lambda on: change.set_groups(task.cred, ids, on))
        else:
            task.cred = self.rule(lambda on: change.set_ids(task.cred, words[0], ids, on))

    def busy(self, process: str, caller: str | None = None) -> str | None:
        """The answer where a call is open in this process: for its caller, or for everybody."""
        for line, cast in self.casts.items():
            if cast.process == process and caller in (None, cast.caller):
                return f"busy {line}"
        return None

    def left(self, line: int) -> int:
        """How many still have to follow."""
        return sum(task.waits == line for task in self.tasks.values())

    def begin(self, line: int, name: str, words: Words, with_all: bool) -> str:
        """A call that sets ids."""
        task = self.tasks[name]
        if busy := self.busy(task.process):
            return busy
        try:
            self.step(task, words)
        except Refused as why:
            return str(why)
        for other in self.tasks.values():
            if other.process == task.process and other is not task:
                other.waits = line
        answers = [f"ok {self.left(line)}"]
        if self.left(line):
            self.casts[line] = Cast(name, task.process, words)
        while with_all and line in self.casts:
            answers.append(self.follow(line))
        return " / ".join(answers)

    def follow(self, line: int) -> str:
        """The step of the waiting thread of the least number."""
        if line not in self.casts:
            return "no broadcast"
        number, name = min((int(it[1:]), it) for it, its in self.tasks.items() if its.waits == line)
        cast, task = self.casts[line], self.tasks[name]
        task.waits = 0
        try:
            self.step(task, cast.words)
        except Refused as why:
            del self.casts[line]
            for other in [it for it, its in self.tasks.items() if its.process == cast.process]:
                del self.tasks[other]
            return f"{number} {why}"
        if not self.left(line):
            del self.casts[line]
        return f"{number} ok {self.left(line)}"

    def changes(self, name: str, words: Words) -> str:
        """A change of the task's own credential."""
        task, (form, *rest) = self.tasks[name], words
        if busy := self.busy(task.process, name):
            return busy
        cred = task.cred
        if form in ("setfsuid", "setfsgid"):
            user, new = form == "setfsuid", id_of(rest[0])
            task.cred, old = self.rule(lambda on: change.set_fs(cred, user, new, on))
            return f"ok was {old}"
        if form == "exec":
            return self.executes(name, task, rest[0])
        if form == "capset":
            task.cred = change.capset(cred, *(int(word, 16) for word in rest))
            return "ok"
        if form == "ambclear":
            task.cred = change.ambient(cred, form, 0)
            return "ok"
        number = capability(rest[0])
        make: dict[str, Callable[[Rows], Cred]] = {
            "capdrop": lambda on: change.drop(cred, number),
            "ambraise": lambda on: change.ambient(cred, form, number),
            "amblower": lambda on: change.ambient(cred, form, number),
            "securebits": lambda on: change.securebits(cred, number, on),
            "keepcaps": lambda on: change.keep_caps(cred, number),
            "nonewprivs": lambda on: change.no_new_privs(cred, number),
        }
        task.cred = self.rule(make[form])
        return "ok"

    def executes(self, name: str, task: Task, file: str) -> str:
        """execve(2): the other threads end, and with them the call that they follow."""
        old, roots = task.cred, chain(self.script, task.cred.space)
        new = self.rule(lambda on: files.execute(old, self.script.files[file], roots, on))
        others = [
            it for it, its in self.tasks.items() if its.process == task.process and it != name
        ]
        for other in others:
            del self.tasks[other]
        for line in [it for it, its in self.casts.items() if its.process == task.process]:
            del self.casts[line]
        task.cred = new
        task.waits = 0
        before = f"{old.permitted:x} {old.bounding:x} {int(old.no_new_privs)} {old.bits & 1}"
        return f"ok {len(others)} {before} {new.permitted:x} {new.users[0]} {new.users[1]}"

    def asks(self, task: Task, words: Words) -> str:
        """A question about a credential."""
        cred, form = task.cred, words[0]
        if form == "check":
            file = self.script.files[words[1]]
            return str(self.rule(lambda on: files.check(cred, file, words[2], on)))
        if form == "ids":
            return "ok " + " ".join(map(str, (*cred.users, *cred.group_ids)))
        if form == "groups":
            return " ".join(["ok", *map(str, cred.groups)])
        if form == "bits":
            return f"ok {cred.bits} {int(cred.no_new_privs)}"
        sets = cred.permitted, cred.inheritable, cred.effective, cred.bounding, cred.ambient
        if form == "caps":
            return "ok " + " ".join(f"{it:x}" for it in sets)
        number = capability(words[1])
        place = {"capable": 2, "bset": 3, "ambis": 4}[form]
        return f"ok {sets[place] >> number & 1}" if number <= 40 else "einval"

    def access(self, name: str, words: Words) -> str:
        """access(2)."""
        task, file = self.tasks[name], self.script.files[words[1]]
        if busy := self.busy(task.process, name):
            return busy
        cred = files.by_real_ids(task.cred)
        return str(self.rule(lambda on: files.check(cred, file, words[2], on)))

    def opens(self, name: str, words: Words) -> str:
        """open(2), and close(2)."""
        process = self.tasks[name].process
        if words[0] == "close":
            return "ok" if self.opened.pop((process, words[1]), None) else "ebadf"
        if (process, words[3]) in self.opened:
            return "exists"
        answer = self.asks(self.tasks[name], ("check", *words[1:3]))
        if answer == "ok":
            self.opened[process, words[3]] = True
        return answer

    def may_kill(self, sender: Cred, target: Cred, on: Rows) -> bool:
        """Whether CAP_KILL counts: by our rule it does everywhere; on Linux where it is had in the
        target's namespace, which those above it have it in too, and the user who made that.
        """
        if not on:
            return sender.has(KILL)
        space = target.space
        spaces = self.script.spaces
        while space != sender.space:
            above = spaces[space].parent
            if above < 0:
                return False
            if above == sender.space and sender.users[1] == spaces[above].root:
                return True
            space = above
        return sender.has(KILL)

    def signals(self, name: str, other: str) -> str:
        """A signal, by kill(2)."""
        if other not in self.tasks:
            return "no other"
        task, target = self.tasks[name], self.tasks[other]
        mine, its = task.cred.users, target.cred.users
        if task.process == target.process or {mine[0], mine[1]} & {its[0], its[2]}:
            return "ok"
        one, two = task.cred, target.cred
        may = self.rule(lambda on: self.may_kill(one, two, on & {CAPABILITY}))
        return "ok" if may else "eperm"

    def starts(self, name: str, form: str, child: str, process: str) -> str:
        """A thread, a child, or a label that holds."""
        task = self.tasks[name]
        is_label = child[0] == "h"
        if not is_label and (busy := self.busy(task.process, name)):
            return busy
        if child in self.tasks:
            return "exists"
        if form == "fork" and not is_label:
            if any(it.process == process for it in self.tasks.values()):
                return "exists process"
        if sum(it[0] == child[0] for it in self.tasks) >= (HOLDS if is_label else TASKS):
            return "too many"
        new = Task(task.cred, task.process if form == "spawn" else process)
        new.waits = task.waits if form == "spawn" else 0
        self.tasks[child] = new
        return "ok"

    def exits(self, name: str) -> str:
        """The end of a task, or of a label's hold."""
        task = self.tasks[name]
        if name[0] == "t" and (busy := self.busy(task.process, name)):
            return busy
        del self.tasks[name]
        if task.waits and not self.left(task.waits):
            self.casts.pop(task.waits, None)
        return "ok"

    def init(self, words: Words) -> str:
        """A first task."""
        name, space = words[1], int(words[5][1:])
        if name in self.tasks:
            return "exists"
        if len(self.tasks) >= TASKS:
            return "too many"
        root = self.script.spaces[space].root
        cred = Cred(int(words[3]), int(words[4]), space, root, self.mapped(space))
        self.tasks[name] = Task(cred, words[2])
        return "ok"

    def of_task(self, line: int, name: str, words: Words) -> str:
        """A line that begins with a task that lives."""
        form = words[0]
        if form in ID_CALLS:
            return self.begin(line, name, words, True)
        if form in CHANGES:
            return self.changes(name, words)
        if form in QUERIES:
            return self.asks(self.tasks[name], words)
        if form == "access":
            return self.access(name, words)
        if form in ("open", "close"):
            return self.opens(name, words)
        if form == "signal":
            return self.signals(name, words[1])
        if form == "exit":
            return self.exits(name)
        return self.starts(name, form, words[1], words[2] if form == "fork" else "")

    def answer(self, line: Line) -> str:
        """What a line is answered."""
        words = line.words
        if words[0] == "init":
            return self.init(words)
        if words[0] == "act":
            return self.follow(int(words[1]))
        name = words[0] if words[0][0] == "t" and words[0][1:].isdigit() else words[1]
        if words[0] in ("take", "takereal"):
            name = words[2]
        if name not in self.tasks:
            return "no task"
        try:
            if words[0] == "begin":
                return self.begin(line.number, name, words[2:], False)
            if words[0] in ("take", "takereal"):
                return self.starts(name, "fork", words[1], words[1])
            if words[0] == "drop":
                return self.exits(name)
            if words[0] == "ask":
                return self.asks(self.tasks[name], words[2:])
            return self.of_task(line.number, name, words[1:])
        except Refused as why:
            return str(why)


def outcome(make: Callable[[Rows], Made], on: Rows) -> Made | Refused:
    """What a rule makes, or how it refuses."""
    try:
        return make(on)
    except Refused as why:
        return why


def shown(found: object) -> object:
    """What can be seen of an outcome."""
    if isinstance(found, Refused):
        return str(found)
    parts = found if isinstance(found, tuple) else (found,)
    return [
        [getattr(it, name) for name in Cred.__slots__[:-1]] if isinstance(it, Cred) else it
        for it in parts
    ]


def expected(script: Script, place: Place, on: Rows = EXPECTED) -> tuple[dict[int, str], set[str]]:
    """What each line must be answered, and the rows that made a difference."""
    model = Model(script, place, on | {DENIED_GROUPS} if on and place.denied else on)
    answers = {line.number: model.answer(line) for line in script.lines}
    return answers, model.named
