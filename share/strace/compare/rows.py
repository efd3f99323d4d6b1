"""Which row of docs/LINUX.md explains a difference between the kernel and a report.

A row is named by its key. Some rows explain an answer by itself; others an answer
that comes later, since the kernel had left another credential: such a row is kept for the task, and
for its children, with what it may have changed. A row is told where its condition holds by what the
program says of the task; where that couldn't be asked it is told as what may be.
"""

from __future__ import annotations

import re
from dataclasses import dataclass, field, replace

from limits import LAST_BITS
from linux.rows import (
    CAPABILITY, CONTINUE, CREATOR, DENIED_GROUPS, DIRECTORIES, EXECVE_FLAG, FILESYSTEM_IDS, LOOKS,
    NO_NEW_PRIVS_FILE, NO_NEW_PRIVS_IDS, NOT_MODE, OUTER, PLAIN_FILE, SECUREBITS, SET_ID, TRACED,
    UNMAPPED, UNMAPPED_FILE, row,
)  # fmt: skip

from ..follow.path_calls import OPENS
from ..follow.user_namespaces import GID_WORDS, UID_WORDS
from ..script.calls import ID_CALLS
from ..script.script import Line
from . import file_rows
from .linux_results import differ, gains_nothing, is_reset, keeps_ambient, keeps_filesystem_id
from .linux_results import loses_ambient, stays_dumpable
from .possible_rows import CAPS, CHANGED, DUMPABLE, FILE, FILE_IDS, GROUP_IDS, IDS, USERS
from .possible_rows import Known, PossibleRow, reason
from .probe import Probe, Values
from .refusals import by_capability, has_kill, wanted

ALL = (
    FILESYSTEM_IDS, SECUREBITS, UNMAPPED, DENIED_GROUPS, DIRECTORIES, NOT_MODE, CAPABILITY,
    CONTINUE, NO_NEW_PRIVS_FILE, NO_NEW_PRIVS_IDS, UNMAPPED_FILE, SET_ID, PLAIN_FILE, TRACED,
    CREATOR, OUTER, LOOKS, EXECVE_FLAG, *file_rows.ALL,
)  # fmt: skip

# The securebits that decide something (capabilities(7)).
LOW_BITS = 0xFF

# What the log explains itself.
LOG = "the log:"


# The answers that rules give. Another one, as that a task isn't there, no row explains.
RULED = ("ok", "eperm", "einval", "eacces")


@dataclass(frozen=True)
class Own:
    """What explains an answer by itself: a row, with what holds here, or a text of the log."""

    row: str = ""
    sure: bool = True
    why: str = ""
    text: str = ""


@dataclass
class Explainer:
    """Goes through a script's lines in their order, and explains differences."""

    probe: Probe
    tracer: bool | None = None
    files: dict[str, str] = field(default_factory=dict)
    tasks: dict[str, Known] = field(default_factory=dict)
    # The first task of each task's process: an id call of libc is every thread's of it.
    firsts: dict[str, str] = field(default_factory=dict)
    # By which rows a file may be another one than the program says.
    changed: dict[str, list[PossibleRow]] = field(default_factory=dict)
    # Tasks that end in the program by a row, and their children, which aren't there.
    ended: dict[str, PossibleRow] = field(default_factory=dict)
    _told: set[str] = field(default_factory=set)

    def text(self, key: str, sure: bool = True, since: str = "", why: str = "") -> str:
        """What is told of a row: both its cells, where it comes from, and what holds here."""
        if key.startswith(LOG):
            return "\n    ".join([key, *([f"since {since}"] if since else [])])
        ours, linux = row(key)
        lines = [f"docs/LINUX.md{'' if sure else ', it may be'}: {ours}"]
        lines += [f"Linux: {linux}"] if linux and key not in self._told else []
        self._told.add(key)
        lines += [f"since {since}"] if since else []
        lines += [f"here: {why}"] if why else []
        return "\n    ".join(lines)

    def known(self, task: str) -> Known:
        """What is known of a task."""
        return self.tasks.setdefault(task, Known())

    def threads(self, line: Line) -> list[str]:
        """The tasks whose credentials a line changes: an id call that isn't raw is all threads'."""
        task = line.words[0]
        if line.words[1] not in ID_CALLS or line.text.split()[1] == "raw":
            return [task]
        return self.process(task)

    def process(self, task: str) -> list[str]:
        """The threads of a task's process."""
        first = self.firsts.get(task, task)
        return [task, *(one for one, its in self.firsts.items() if its == first and one != task)]

    def changes(self, line: Line, *kept: PossibleRow) -> None:
        """These rows may explain what comes of the tasks whose credentials a line changes."""
        for task in self.threads(line):
            self.known(task).keep(*kept)

    def makes(self, number: int, line: Line, kept: PossibleRow) -> None:
        """The kernel makes a call by a row that the program refuses: what it leaves is another."""
        form = line.words[1]
        only = USERS if form in UID_WORDS else GROUP_IDS if form in GID_WORDS else None
        parts = [replace(kept, part=part, more=None, bits=None, ids=only)
                 for part in CHANGED.get(form, ())]  # fmt: skip
        if form == "securebits":
            # The bits above the eighth decide nothing here.
            before = self.probe.before(number)
            bits = int(line.words[2]) ^ before.securebits if before else LOW_BITS
            parts = [replace(one, bits=bits & LOW_BITS) for one in parts]
        self.changes(line, *parts)
        if form in file_rows.FORMS:
            name = line.words[2]
            self.changed[name] = [replace(kept, part=FILE), *self.changed.get(name, [])]

    def goes_on_as(self, before: str, after: str) -> None:
        """A task is in another namespace from here on, under another name, or a child of it is.

        Its sets and bits are new there, and its ids are those that the kernel has.
        """
        self.tasks[after] = Known(flag=self.known(before).flag)
        self.firsts[after] = after

    def see(self, number: int, line: Line, report: str) -> None:
        """Keeps what a line means for later ones."""
        words = line.words
        if words[0] == "file":
            self.files[words[1]] = line.text
            return
        if len(words) < 2 or not re.fullmatch(r"t[0-9]+", words[0]):
            return
        known = self.known(words[0])
        succeeds = line.answer is None or line.answer.startswith("ok")
        if words[1] in ("spawn", "fork"):
            self.tasks[words[2]] = known.copy()
            if words[0] in self.ended:
                self.ended[words[2]] = self.ended[words[0]]
            first = self.firsts.setdefault(words[0], words[0])
            self.firsts[words[2]] = first if words[1] == "spawn" else words[2]
        elif words[1] == "exit":
            self.firsts.pop(words[0], None)
        elif not succeeds:
            return
        elif words[1] in ("setresuid", "setresgid") and words[3] == "-1":
            if keeps_filesystem_id(words, self.probe.before(number)):
                self.changes(line, PossibleRow(FILESYSTEM_IDS, FILE_IDS, number, line.text))
            self.leads_on(line, report)
        elif words[1] in UID_WORDS | GID_WORDS | {"securebits"}:
            self.leads_on(line, report)
        elif words[1] == "dumpable":
            for one in self.process(words[0]):
                self.known(one).flag = None
                self.known(one).sets_dumpable()
        elif words[1] == "exec":
            self.executes(number, line)
        elif words[1] in file_rows.FORMS:
            rows_of = [PossibleRow(one, FILE, number, line.text) for one in file_rows.kept(line)]
            self.changed[words[2]] = rows_of + self.changed.get(words[2], [])

    def executes(self, number: int, line: Line) -> None:
        """An execve that is made here and in Linux, on a file and a credential that may differ."""
        known = self.known(line.words[0])
        known.flag = self.flag(number, line)
        changed = self.changed.get(line.words[2], [])
        known.keep(*(replace(one, part=part) for one in changed for part in (IDS, CAPS)))
        known.leads_on("exec")
        executed = self.executed(number, line, self.file(line))
        known.keep(*executed)
        known.sets_dumpable(*executed, *known.of_ids())

    def leads_on(self, line: Line, report: str) -> None:
        """A call that is made here and in Linux leaves what it decided by, where that differs."""
        for task in self.threads(line) if report.startswith("ok") else ():
            self.known(task).leads_on(line.words[1])
            self.known(task).settles(line.words)

    def file(self, line: Line) -> str:
        """The file of a line, as a line that declares it."""
        name, now = line.words[2], line.facts.words
        return f"file {name} {now}" if now else self.files.get(name, "")

    def flag(self, number: int, line: Line) -> PossibleRow | None:
        """Whether an execve may have left the process as one that isn't dumpable."""
        before, words = self.probe.before(number), self.file(line).split()
        if before is not None and len(words) > 5 and stays_dumpable(before, words):
            return None
        return PossibleRow(EXECVE_FLAG, FILE, number, line.text, sure=before is not None)

    def executed(self, number: int, line: Line, file: str) -> list[PossibleRow]:
        """What an execve may have made of the credential otherwise."""
        before = self.probe.before(number)
        sure = before is not None and self.tracer is not None
        kept = PossibleRow("", "", number, line.text)
        if " nosuid" in file:
            return []
        found = self.under_no_new_privs(before, file, kept)
        if before is None or not before.no_new_privs:
            found += self.in_force(before, line, file, kept)
        return [replace(one, sure=sure or one.row == UNMAPPED_FILE) for one in found]

    def under_no_new_privs(
        self, before: Values | None, file: str, kept: PossibleRow
    ) -> list[PossibleRow]:
        """What it may have made otherwise of a task that may gain nothing."""
        if before is not None and not before.no_new_privs:
            return []
        found = []
        if " caps " in file:
            found += gains_nothing(before, replace(kept, row=NO_NEW_PRIVS_FILE))
        if before is None or differ(before) or " caps " in file:
            found += [replace(kept, row=NO_NEW_PRIVS_IDS, part=part) for part in (IDS, FILE_IDS)]
            found += gains_nothing(before, replace(kept, row=NO_NEW_PRIVS_IDS))
        return found

    def in_force(
        self, before: Values | None, line: Line, file: str, kept: PossibleRow
    ) -> list[PossibleRow]:
        """What it may have made otherwise by set-id bits and an attribute that are in force."""
        words = file.split()
        mode = int(words[5], 8) if len(words) > 5 else 0
        # The set-group-ID bit has effect with the group's execute bit alone.
        of_user, of_group = mode & 0o4000, mode & 0o2010 == 0o2010
        set_id, counts = of_user or of_group, of_user or of_group or " caps " in file
        only = None if of_user and of_group else USERS if of_user else GROUP_IDS
        ambient = before.sets[4] if before else None
        found = []
        if set_id and line.facts.unmapped:
            found += [replace(kept, row=UNMAPPED_FILE, part=IDS, ids=only)]
            found += [replace(kept, row=UNMAPPED_FILE, part=FILE_IDS, ids=only)]
            found += [replace(kept, row=UNMAPPED_FILE, part=CAPS)]
        if set_id and (before is None or keeps_ambient(before, words)):
            found += [replace(kept, row=SET_ID, part=CAPS, more=True, bits=ambient)]
        # Over a user namespace that its own user made a user's strace has every capability.
        if counts and not self.tracer and not line.facts.inside:
            reset = before is None or is_reset(before)
            kept = replace(kept, ids=None if reset else only)
            parts = (IDS, FILE_IDS) if reset or set_id else ()
            found += [replace(kept, row=TRACED, part=part) for part in parts]
            found += gains_nothing(before, replace(kept, row=TRACED))
        if not counts and (before is None or loses_ambient(before)):
            found += [replace(kept, row=PLAIN_FILE, part=CAPS, more=False, bits=ambient)]
        return found

    def explain(self, number: int, line: Line, report: str) -> str | None:
        """The reason why the kernel's answer is another one than the report's."""
        words = line.words
        kernel, told = (line.answer or "").split()[0], report.split()[0]
        if told == "no":
            return self.since(self.ended.get(words[0]) or self.ended.get(words[-1]))
        # Then the thread that makes the call first may, and another one may not.
        aborted, told = told == "aborted", "ok" if told == "aborted" else told
        if told not in RULED:
            return None
        own = self.own(number, line, kernel, told)
        kept = self.kept(line, report)
        if own is not None and (own.sure or kept is None):
            if own.row and kernel == "ok":
                self.makes(number, line, PossibleRow(own.row, "", number, line.text))
            return own.text or self.text(own.row, own.sure, why=own.why)
        if kept is None and words[1] == "ptrace":
            return self.looked(line, kernel)
        if kept is not None and aborted:
            self.ended |= dict.fromkeys(self.process(words[0]), kept)
        if kept is not None and kernel == "ok" and told != "ok":
            self.makes(number, line, kept)
        return self.since(kept)

    def since(self, kept: PossibleRow | None) -> str | None:
        """What is told of a row that comes from an earlier line."""
        if kept is None:
            return None
        return self.text(kept.row, kept.sure, f"line {kept.number}: {kept.text}")

    def kept(self, line: Line, report: str) -> PossibleRow | None:
        """The row of an earlier line by which the task, or the file, is another one in Linux."""
        words = line.words
        if words[1] in ("dumped", "ptrace") and (flag := self.flagged(line)):
            return flag
        found = reason(self.known(words[0]).kept, words, line.answer or "", report)
        if found is None and words[1] in file_rows.OF_FILES:
            return next(iter(self.changed.get(words[2], [])), None)
        if found is None and words[1] == "ptrace":
            target = self.known(words[3]).kept
            return next((one for one in target if one.part in (DUMPABLE, IDS, CAPS)), None)
        return found

    def flagged(self, line: Line) -> PossibleRow | None:
        """The execve since which a process isn't dumpable in Linux, where the line shows that."""
        words, answer = line.words, line.answer
        if words[1] == "dumped":
            return self.known(words[0]).flag if answer == "ok 0" else None
        return self.known(words[3]).flag if answer == "eperm" else None

    def looked(self, line: Line, kernel: str) -> str | None:
        """Why one task may look into another, or may not."""
        facts = line.facts
        if kernel == "ok":
            opens = line.call is not None and line.call.name in OPENS
            key = CREATOR if facts.maker else LOOKS if opens else None
            return self.text(key, sure=facts.maker) if key else None
        return self.text(OUTER if facts.outside else LOOKS, sure=facts.outside)

    def own(self, number: int, line: Line, kernel: str, told: str) -> Own | None:
        """What explains an answer by itself: a row, or the log."""
        words, facts = line.words, line.facts
        form, pair = words[1], (kernel, told)
        if pair == ("eperm", "ok") and facts.filtered:
            where = f"{LOG} line {facts.filtered} of it installs a seccomp filter"
            return Own(where, text=f"{where}, which can refuse so (seccomp(2))")
        if form == "ptrace" and pair == ("eperm", "ok") and facts.traced:
            text = f"{LOG} {facts.traced}, and a task has one tracer (ptrace(2), EPERM)"
            return Own(text=text)
        if facts.meanwhile:
            whom = f"the process of {words[0]}" if form == "dumped" else words[-1]
            text = f"{LOG} line {facts.meanwhile} changes {whom} while this call is under way"
            return Own(text=text)
        if form == "securebits" and int(words[2]) > LAST_BITS:
            return Own(SECUREBITS)
        if form == "setgroups" and pair == ("eperm", "ok"):
            # A log that was recorded inside a user namespace doesn't tell what that denies.
            return Own(DENIED_GROUPS, sure=facts.denied)
        if form in ID_CALLS and pair == ("einval", "ok"):
            return Own(UNMAPPED)
        if form == "signal":
            return self.signal(number, line, pair)
        if form == "exec" and kernel in ("eperm", "einval") and told == "ok":
            before = self.probe.before(number)
            holds = (before is None or before.no_new_privs) and " caps " in self.file(line)
            return Own(NO_NEW_PRIVS_FILE, before is not None) if holds else None
        if form in file_rows.FORMS:
            key = file_rows.refused(line, pair)
            return Own(key) if key else None
        if form in ("exec", "open", "check", "access"):
            return self.refused(number, line, pair)
        return None

    def signal(self, number: int, line: Line, pair: tuple[str, str]) -> Own | None:
        """Why a signal is allowed or refused otherwise."""
        facts = line.facts
        if pair == ("ok", "eperm"):
            continues = line.call is not None and "SIGCONT" in line.call.args and not facts.apart
            key = CONTINUE if continues else CAPABILITY if facts.maker else None
        else:
            outside = facts.outside and has_kill(self.probe.before(number))
            key = CAPABILITY if pair == ("eperm", "ok") and outside else None
        return Own(key) if key else None

    def refused(self, number: int, line: Line, pair: tuple[str, str]) -> Own | None:
        """Why the kernel refuses a file that the program allows."""
        if pair == ("eperm", "ok") and not line.words[1] == "exec":
            return Own(NOT_MODE)
        if pair != ("eacces", "ok"):
            return None
        if line.facts.noexec and wanted(line) & 1:
            place = line.facts.place
            return Own(text=f"{LOG} the mount of {place} has noexec, which refuses so (execve(2))")
        before = self.probe.before(number)
        if by_capability(before, line):
            return Own(CAPABILITY, why="the file's owner or group isn't mapped in the namespace")
        searched = before.searched if before else {}
        closed = [place for place, may in searched.items() if not may]
        if closed:
            return Own(DIRECTORIES, why=f"{closed[0]} may not be searched")
        if searched and len(searched) == line.facts.place.count("/"):
            return Own(NOT_MODE, why="every directory of the path may be searched")
        return Own(DIRECTORIES, sure=False)
