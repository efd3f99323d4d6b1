"""Looks into other tasks: which calls ask, and of whom.

See ptrace(2), "Ptrace access mode checking".
"""

from __future__ import annotations

import re

from capabilities import CAPABILITIES

from ..log.reader import Call
from ..script.script import Facts
from .path_calls import OPENS, argument
from .paths import Paths
from .places import joined
from .tasks import Process, Task

# What asks by the real ids, and is refused by EPERM. What comes after the check may fail by EFAULT.
MEMORY = ("process_vm_readv", "process_vm_writev")
CALLS = ("ptrace", "kcmp", *MEMORY)
ATTACHES = ("PTRACE_ATTACH", "PTRACE_SEIZE")
# What asks by the filesystem ids, and is refused by EACCES (proc(5)).
LINKS = ("readlink", "readlinkat")
OF_PROCESS = r'"/proc/(\d+)(?:/task/(\d+))?/'
LINK = re.compile(OF_PROCESS + r'(?:exe|cwd|root|fd/\d+|ns/\w+)"')
FILE = re.compile(OF_PROCESS + r'(?:mem|environ|auxv|maps|smaps|smaps_rollup|numa_maps|pagemap)"')


# A path that leads through such a link, or to a namespace, which is one too.
THROUGH = re.compile(r"/proc/(\d+)(?:/task/(\d+))?/(?:(?:exe|cwd|root|fd/\d+)(?:/|$)|ns/\w+$)")
TRACES = 1 << CAPABILITIES.index("SYS_PTRACE")


def through(paths: Paths, task: Task, call: Call) -> str:
    """The pid of the process whose folder of /proc has a link that the path of a call goes through;
    nothing where it goes through none."""
    # Imported here: what follows files is imported by it.
    from ..files.refused_paths import path_of

    where = path_of(call)
    if where is None:
        return ""
    path, base = paths.named(task, call, *where)
    whole = path if base is None or path.startswith("/") else joined(base.place, path)
    found = THROUGH.match(whole)
    return (found[2] or found[1]) if found else ""


def may_look(task: Task, other: Task) -> bool:
    """Whether a task may look into another one, by its filesystem ids or by its capability."""
    users, groups = set(other.ids.users[:3]), set(other.ids.groups[:3])
    same = (users, groups) == ({task.ids.users[3]}, {task.ids.groups[3]})
    counts = other.process.space.is_within(task.process.space)
    return (same and other.process.dumpable) or (counts and bool(task.ids.effective & TRACES))


def answered(call: Call, refused: str) -> str | None:
    """What the kernel answered to the question; None where it can't be seen."""
    error = call.result.error
    if error is None:
        return "ok" if call.result.value is not None and call.result.value >= 0 else None
    if error == "EFAULT" and call.name in MEMORY:
        return "ok"
    return "eperm" if error == refused else None


def look(call: Call) -> tuple[str, list[str], str] | None:
    """The mode, the pids of the tasks that are looked into, and the answer."""
    if call.name in LINKS or call.name in OPENS:
        form = LINK if call.name in LINKS else FILE
        found = next(filter(None, map(form.fullmatch, call.args)), None)
        mode, targets = "fs", [found[2] or found[1]] if found else []
    elif call.name == "ptrace":
        mode, targets = "real", [argument(call, 1)] if argument(call, 0) in ATTACHES else []
    elif call.name in CALLS:
        count = 2 if call.name == "kcmp" else 1
        mode, targets = "real", [argument(call, place) for place in range(count)]
    else:
        return None
    said = answered(call, "EACCES" if mode == "fs" else "EPERM")
    return None if said is None or not targets else (mode, targets, said)


def facts(task: Task, other: Process) -> Facts:
    """What is known of the user namespaces of who looks and of the process that is looked into."""
    space = task.process.space
    return Facts(
        outside=not (other.dumpable or other.executed.is_within(space)),
        maker=other.space.is_made_by(task.ids.users[1], space),
    )
