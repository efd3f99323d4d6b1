"""The lines of a script that the calls on credentials are."""

from __future__ import annotations

from dataclasses import replace

from ..follow.all_threads import AllThreads, Joined
from ..follow.path_calls import argument
from ..follow.tasks import Process, Task, Tasks
from ..follow.user_namespaces import led
from ..log.lines import fields, pid
from ..log.reader import EXECUTIONS, UNKNOWN, Call
from .calls import ID_CALLS, OWN_CALLS, Said, Unheld, capget, capset
from .not_converted import NotConverted
from .script import NO_FACTS, Facts, Line, Script

NO_MAP = (
    "the log has no write into the uid_map of its user namespace: record with "
    "-e trace=...,openat,write"
)

# The calls behind which --ask asks for the sets, where they are no questions themselves.
CHANGING = frozenset([*ID_CALLS, *EXECUTIONS, "setfsuid", "capset", "prctl"])
QUESTIONS = ("bset", "ambis", "bits", "check")


class CredentialLines:
    """Says what tasks do to their credentials, or counts what is passed over."""

    def __init__(self, asking: bool) -> None:
        self.script = Script()
        self.tasks = Tasks()
        self.not_converted = NotConverted()
        self.asking = asking
        # Where in the log it is, and what comes there.
        self.at = 0
        self.together = AllThreads([], ())
        # The calls that another thread's line says, and that thread's call, each by its pid and its
        # line of the log.
        self.joint: dict[tuple[int, int], tuple[int, int]] = {}
        # Calls of all threads of a process, by the place of the log where their lines stand.
        self.due: dict[int, list[Joined]] = {}

    def say(
        self,
        task: Task,
        call: Call,
        said: Said | None,
        facts: Facts = NO_FACTS,
        raw: bool = False,
    ) -> None:
        """The task says this in the script, or the call is passed over.

        An id call is every thread's of the process, unless it is a raw one.
        """
        said = said and self.by_map(task, call, said)
        if said is None:
            self.not_converted.call(call)
            return
        words = said.words.split()
        if said.answer.startswith("ok"):
            all_threads = words[0] in ID_CALLS and not raw
            acting = task.ids.acting()
            for one in task.process.threads if all_threads else [task]:
                one.ids.after(words, one.process.space.root())
            if words[0] == "dumpable" or task.ids.acting() != acting:
                task.process.dumpable = words == ["dumpable", "1"]
        space = task.process.space
        denied = space.parent is not None and (space.gids is None or space.denied)
        if task.process.filtered or denied:
            facts = replace(facts, filtered=task.process.filtered, denied=denied)
        text = f"{task.name} {'raw ' if raw else ''}{said.words}"
        line = Line(text, call, said.answer, facts)
        changed = call.name in CHANGING and words[0] not in QUESTIONS
        asked = self.asking and changed and said.answer.startswith("ok")
        self.script.add(call.first, line, *([Line(f"{task.name} caps")] if asked else []))

    def by_map(self, task: Task, call: Call, said: Said) -> Said | None:
        """The same by the ids of the initial namespace."""
        space = task.process.space
        found = led(said, space)
        sets = call.name in ID_CALLS and call.result.error is None
        if found is None and sets:
            raise Unheld(NO_MAP)
        return found

    def stays_undumpable(self, task: Task, call: Call) -> None:
        """A first task of a namespace is dumpable in a script, and this one isn't."""
        if not task.process.dumpable:
            self.script.add(call.first, Line(f"{task.name} dumpable 0"))

    def own_call(self, task: Task, call: Call) -> None:
        """A call that changes or asks the credential of the thread that makes it."""
        if argument(call, 0) == "PR_SET_SECCOMP" and call.result.error is None:
            task.process.filtered = call.first
        facts = NO_FACTS
        if argument(call, 0) == "PR_GET_DUMPABLE":
            # It asks about the whole process, of which another thread may change meanwhile.
            facts = replace(facts, meanwhile=self.together.meanwhile(task.process, call))
        self.say(task, call, OWN_CALLS[call.name](call.args, call.result), facts)

    def set_call(self, task: Task, call: Call) -> None:
        """capset(2) or capget(2), where it is of the task itself."""
        named = fields(argument(call, 0)).get("pid", "")
        known = task.pid != UNKNOWN
        nobody = pid(named) == 0
        mine = nobody or not known or self.tasks.find(named, task) is task
        if call.name == "capget":
            said = capget(call.args, call.result)
        else:
            said = capset(call.args, call.result, 0 if nobody else task.number)
        self.say(task, call, said if mine else None)

    def with_race(self, facts: Facts, task: Task, other: Process, call: Call) -> Facts:
        """The same with where another process changes while the call asks about it."""
        line = 0 if other is task.process else self.together.meanwhile(other, call)
        return replace(facts, meanwhile=line)

    def id_call(self, task: Task, call: Call) -> None:
        """A call that is one line where every thread of the process makes it, else the thread's."""
        process = task.process
        if task.number in process.joining:
            process.joining.discard(task.number)
            return
        said = ID_CALLS[call.name](call.args, call.result)
        if said is None or len(process.threads) == 1:
            self.say(task, call, said)
            return
        joined = self.together.joined(process, task, self.at)
        if joined is None:
            self.say(task, call, said, raw=True)
            return
        process.joining = {made.thread.number for made in joined.made} - {task.number}
        said_by = self.together.call(joined.last().place)
        others = [self.together.call(made.place) for made in joined.made]
        self.joint |= {
            (one.pid, one.first): (said_by.pid, said_by.first)
            for one in others if one is not said_by
        }  # fmt: skip
        self.due.setdefault(joined.stands, []).append(joined)

    def due_lines(self) -> None:
        """The lines of calls of all threads that stand here."""
        for joined in self.due.pop(self.at, ()):
            made = joined.last()
            call = self.together.call(made.place)
            for thread in joined.leaving:
                if self.tasks.lives(thread):
                    self.tasks.end(thread)
                    self.script.add(call.first, Line(f"{thread.name} exit"))
            self.say(made.thread, call, ID_CALLS[call.name](call.args, call.result))
