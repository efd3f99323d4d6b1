"""Every signal between processes with the user ids 0, 1 and 2, and between threads of one process.
"""
from collections.abc import Iterator
from itertools import combinations_with_replacement, product

from processes import ALL, IDS, NO_SETUID_FIXUP, Process, processes
from reports import LINES, Script
from suite import Case

CAP_KILL = 5
ROOT, SENDER = 1, 2
# The first of the targets in the sender's process, and the first tasks of two groups of processes.
THREADS, ONES, OTHERS = 3, 10, 50


def allowed(sender: Process, target: Process) -> bool:
    """kill(2): "For a process to have permission to send a signal, it must either be privileged
    (under Linux: have the CAP_KILL capability in the user namespace of the target process), or the
    real or effective user ID of the sending process must equal the real or saved set-user-ID of
    the target process."
    """
    of_sender, of_target = {sender.real, sender.effective}, {target.real, target.saved}
    return sender.privileged or bool(of_sender & of_target)


def begun() -> Script:
    """A script with root's task, whose children have the same sets with any ids."""
    script = Script()
    script.init(ROOT, 1, 0, 0)
    script.changes(ROOT, f"securebits {NO_SETUID_FIXUP}")
    return script


def effective_of(process: Process) -> int:
    """All capabilities, or all but CAP_KILL."""
    return ALL if process.privileged else ALL & ~(1 << CAP_KILL)


def make(script: Script, process: Process, task: int) -> None:
    """Makes a child of root's, of a process with the number of the task, this process."""
    script.fork(ROOT, task, task)
    script.ids(task, f"setresuid {process.real} {process.effective} {process.saved}")
    script.changes(task, f"setfsuid {process.fs}", answer=f"ok was {process.effective}")
    script.changes(task, f"capset {ALL:x} 0 {effective_of(process):x}")


def groups() -> list[list[Process]]:
    """The processes in six groups, by the filesystem id and by CAP_KILL."""
    its = [*processes()]
    return [
        [it for it in its if (it.fs, it.privileged) == key] for key in product(IDS, (False, True))
    ]


def among(script: Script, ones: list[Process], others: list[Process]) -> None:
    """Each of the ones signals each of the others, and the other way round where they differ."""
    tasks = [*enumerate(ones, ONES)], [*enumerate(others, OTHERS)]
    for task, process in [*tasks[0], *tasks[1]]:
        make(script, process, task)
    for senders, targets in [tasks] if ones == others else [tasks, tasks[::-1]]:
        for (task, sender), (other, target) in product(senders, targets):
            script.signals(task, other, "ok" if allowed(sender, target) else "eperm")
    for task, _ in [*tasks[0], *tasks[1]]:
        script.exit(task)


def between_processes() -> Iterator[Case]:
    """Each process signals each, of another task's process."""
    script, calls, part = begun(), 0, 1
    for ones, others in combinations_with_replacement(groups(), 2):
        if len(script.lines) > LINES - 2_000:
            yield script.case(f"between processes, part {part}", calls)
            script, calls, part = begun(), 0, part + 1
        among(script, ones, others)
        calls += len(ones) * len(others) * (1 if ones == others else 2)
    yield script.case(f"between processes, part {part}", calls)


def threaded() -> Script:
    """A script with each process held under a label, and the threads of one process."""
    script = begun()
    for label, process in enumerate(processes(), 1):
        make(script, process, SENDER)
        script.takes(label, SENDER)
        script.exit(SENDER)
    script.fork(ROOT, SENDER, 2)
    for task, (_, privileged) in enumerate(product(IDS, (False, True)), THREADS):
        script.spawn(SENDER, task)
        process = Process(0, 0, 0, 0, privileged)
        script.changes(task, f"capset {ALL:x} 0 {effective_of(process):x}")
    return script


def to_threads(script: Script, ids: tuple[int, ...]) -> None:
    """The process has these ids. Its sender acts as each process in turn, and signals its other
    threads, each with another filesystem id or other sets: within one process all is allowed
    (kernel/signal.c).
    """
    script.ids(SENDER, f"setresuid {' '.join(map(str, ids))}")
    targets = [*enumerate(product(IDS, (False, True)), THREADS)]
    for task, (fs, _) in targets:
        script.changes(task, f"setfsuid {fs}", answer=f"ok was {ids[1]}")
    for label, _ in enumerate(processes(), 1):
        script.overrides(SENDER, label)
        for task, _ in targets:
            script.signals(SENDER, task, "ok")
        script.reverts(SENDER)


def between_threads() -> Iterator[Case]:
    """Each process signals each, in one process: it is lent the sender's credential."""
    rounds = [*product(IDS, repeat=3)]
    for some in (rounds[:14], rounds[14:]):
        script = threaded()
        for ids in some:
            to_threads(script, ids)
        yield script.case(f"between threads from {some[0]}", len(some) * 6 * 162)


def cases() -> Iterator[Case]:
    """Both tables."""
    yield from between_processes()
    yield from between_threads()
