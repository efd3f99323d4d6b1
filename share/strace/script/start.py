"""The lines that lead a first task from root to what /proc/PID/status says."""

from __future__ import annotations

import re
from dataclasses import dataclass, field

from capabilities import ALL_CAPABILITIES, CAPABILITIES

from ..follow.ids import Ids
from .calls import GROUPS

# setuid(2) and its forms leave the sets as they are while this flag is set (capabilities(7)).
NO_SETUID_FIXUP = 4


class BadStart(Exception):
    """The text isn't that of /proc/PID/status."""


@dataclass
class Start:
    """The lines of the script, and what they can't bring about."""

    lines: list[str] = field(default_factory=list)
    notes: list[str] = field(default_factory=list)
    # The ids of each thread of the first process, and their pids where they are known.
    ids: list[Ids] = field(default_factory=lambda: [Ids()])
    threads: list[int] = field(default_factory=list)
    task: str = "t1"
    # Whether strace has CAP_SYS_PTRACE, where it began with the same credential.
    traces: bool = True

    def call(self, words: str) -> None:
        """One call more of the task."""
        self.lines.append(f"{self.task} {words}")

    def in_the_middle(self) -> list[str]:
        """The lines where a log begins with a task that runs already.

        What leads it to its ids isn't the log's, and doesn't make it less dumpable.
        """
        led = any(" setres" in line for line in self.lines)
        return [*self.lines, *(["t1 dumpable 1"] if led else [])]

    def inits(self) -> list[str]:
        """The lines that create the first tasks, all of one process."""
        count = max(1, len(self.threads))
        return [f"init t{number} p1 0 0 n0" for number in range(1, count + 1)]


def fields_of(text: str) -> dict[str, list[str]]:
    """The words behind each name."""
    found = {}
    for line in text.split("\n"):
        name, colon, words = line.partition(":")
        if colon:
            found[name] = words.split()
    return found


def numbers(fields: dict[str, list[str]], name: str, count: int | None, base: int) -> list[int]:
    """The numbers of a field, which has so many."""
    words = fields.get(name)
    if words is None or count not in (None, len(words)):
        raise BadStart(f"it has no line {name}: as /proc/PID/status has it")
    pattern = r"[0-9]{1,10}" if base == 10 else r"[0-9a-fA-F]{1,16}"
    if not all(re.fullmatch(pattern, word) for word in words):
        raise BadStart(f"its line {name}: has other words than numbers")
    values = [int(word, base) for word in words]
    if base == 10 and any(value >= (1 << 32) - 1 for value in values):
        raise BadStart(f"its line {name}: has a number that is no id")
    return values


@dataclass(frozen=True)
class Status:
    """What a text of /proc/PID/status says of a task."""

    users: list[int]
    groups: list[int]
    others: list[int]
    permitted: int
    inheritable: int
    effective: int
    bounding: int
    ambient: int
    no_new_privs: bool
    securebits: int | None
    pid: int | None
    process: int | None

    def users_change(self) -> bool:
        """Whether it is no task of root's alone."""
        return self.users != [0] * 4

    def ids(self) -> Ids:
        """The ids, as calls change them."""
        sets = self.permitted, self.inheritable, self.effective, self.bounding, self.ambient
        ids = Ids(self.users[:], self.groups[:], self.others[:], self.no_new_privs)
        return ids.with_sets(*sets, self.securebits or 0)

    def set_ids(self) -> tuple[list[int], list[int], list[int]]:
        """The ids that libc sets in all threads of a process alike."""
        return self.users[:3], self.groups[:3], sorted(self.others)


def status_of(text: str) -> Status:
    """The text of /proc/PID/status, or a part of it that has all of the credential."""
    fields = fields_of(text)
    permitted, inheritable, effective, bounding, ambient = (
        numbers(fields, name, 1, 16)[0] & ALL_CAPABILITIES
        for name in ("CapPrm", "CapInh", "CapEff", "CapBnd", "CapAmb")
    )
    bits = numbers(fields, "Securebits", 1, 10)[0] if "Securebits" in fields else None
    pid, process = (
        numbers(fields, name, 1, 10)[0] if name in fields else None for name in ("Pid", "Tgid")
    )
    return Status(
        numbers(fields, "Uid", 4, 10),
        numbers(fields, "Gid", 4, 10),
        numbers(fields, "Groups", None, 10),
        permitted,
        inheritable,
        effective,
        bounding,
        ambient,
        bool(numbers(fields, "NoNewPrivs", 1, 10)[0]),
        bits,
        pid,
        process,
    )


def start_of(text: str) -> Start:
    """The lines that begin a script, for the text of /proc/PID/status."""
    status = status_of(text)
    start = start_of_all([status])
    start.threads = [] if status.pid is None else [status.pid]
    return start


def start_of_threads(texts: dict[int, str]) -> Start:
    """The same for all threads of a process, by their thread ids."""
    found = {}
    for pid, text in texts.items():
        try:
            found[pid] = status_of(text)
        except BadStart as fault:
            raise BadStart(f"{pid}: {fault}") from None
    if not found:
        raise BadStart("it has no folder of a thread with a file status, as /proc/PID/task has")
    process = next((one.process for one in found.values() if one.process in found), min(found))
    pids = [process, *sorted(pid for pid in found if pid != process)]
    statuses = [found[pid] for pid in pids if pid is not None]
    start = start_of_all(statuses)
    start.threads = [pid for pid in pids if pid is not None]
    return start


def start_of_all(statuses: list[Status], first_number: int = 1) -> Start:
    """The lines that lead the threads of a process from root to what they are.

    While a task is still root it takes all that it will have; NO_SETUID_FIXUP keeps its sets over
    the change of ids; what it shall not have it gives up last. Where the threads have other ids
    than one another each sets its own.
    """
    start, first = Start(), statuses[0]
    for number, status in enumerate(statuses, first_number):
        start.task = f"t{number}"
        first_part(start, status)
    start.task = f"t{first_number}"
    if all(status.set_ids() == first.set_ids() for status in statuses):
        set_ids(start, first, "")
    else:
        for number, status in enumerate(statuses, first_number):
            start.task = f"t{number}"
            set_ids(start, status, "raw ")
    for number, status in enumerate(statuses, first_number):
        start.task = f"t{number}"
        last_part(start, status)
    start.traces = bool(first.effective >> CAPABILITIES.index("SYS_PTRACE") & 1)
    start.ids = [status.ids() for status in statuses]
    if any(status.securebits is None for status in statuses):
        start.notes.append(
            "/proc/PID/status doesn't tell securebits: they begin as 0 (or add `Securebits: N`)"
        )
    return start


def first_part(start: Start, status: Status) -> None:
    """What a task has to do while it has all capabilities and is root."""
    if status.inheritable:
        start.call(f"capset {ALL_CAPABILITIES:x} {status.inheritable:x} {ALL_CAPABILITIES:x}")
    for place, name in enumerate(CAPABILITIES):
        if not status.bounding >> place & 1:
            start.call(f"capdrop CAP_{name}")
    if status.users_change():
        start.call(f"securebits {NO_SETUID_FIXUP}")


def set_ids(start: Start, status: Status, raw: str) -> None:
    """The ids, and the supplementary groups as far as a script holds them."""
    if len(status.others) > GROUPS:
        start.notes.append(
            f"the task has {len(status.others)} groups, of which a script holds the first {GROUPS}"
        )
    if status.others:
        start.call(f"{raw}setgroups " + " ".join(map(str, status.others[:GROUPS])))
    if status.groups != [0] * 4:
        start.call(raw + "setresgid {} {} {}".format(*status.groups))
    if status.users_change():
        start.call(raw + "setresuid {} {} {}".format(*status.users))


def last_part(start: Start, status: Status) -> None:
    """What a task gives up last, and what only a task alone has."""
    if status.groups[3] != status.groups[1]:
        start.call(f"setfsgid {status.groups[3]}")
    if status.users[3] != status.users[1]:
        start.call(f"setfsuid {status.users[3]}")
    for place, name in enumerate(CAPABILITIES):
        if status.ambient >> place & 1:
            start.call(f"ambraise CAP_{name}")
    if status.users_change() or status.securebits:
        start.call(f"securebits {status.securebits or 0}")
    permitted, effective = status.permitted, status.effective
    if (permitted, effective) != (ALL_CAPABILITIES, ALL_CAPABILITIES):
        start.call(f"capset {permitted:x} {status.inheritable:x} {effective:x}")
    if status.no_new_privs:
        start.call("nonewprivs 1")
