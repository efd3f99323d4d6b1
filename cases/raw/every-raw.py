"""Each call that sets ids by one thread alone, beside another thread that stays as it is.

setresuid(2), "C library/kernel differences": "At the kernel level, user IDs and group IDs are a
per-thread attribute. However, POSIX requires that all threads in a process share the same
credentials." What the call makes of its thread is what the call's own page says.
"""
from collections.abc import Iterator
from itertools import islice, product
from pathlib import Path

from processes import ALL, CHILD, GROUPS, NONE, ROOT, TASK, USERS, Refused, Setting
from processes import Kind, Page, Process, Sets, begun, held, make, processes, sets_after
from reports import LINES, Script
from suite import Case, module_of

HERE = Path(__file__).resolve().parent
SETTING = Setting()
# The ids of a process, and those that a call gives.
IDS, GIVEN = (0, 1), (NONE, 0, 1, 2)
MOST = 1024


def page_of(name: str) -> Page:
    """What the page of a call says, as its own cases have it."""
    file = HERE.parent / name / "every-call.py"
    page: Page = module_of(name, file).page
    return page


def calls(kind: Kind) -> Iterator[tuple[Page, str, tuple[int, ...]]]:
    """The calls of a kind, each with its page and all its arguments."""
    letter = "u" if kind.user else "g"
    for name, width in (("setuid", 1), ("seteuid", 1), ("setreuid", 2), ("setresuid", 3)):
        page = page_of(name)
        for given in product(GIVEN, repeat=width):
            yield page, name.replace("uid", f"{letter}id"), given


def shows(script: Script, task: int, kind: Kind, process: Process, sets: Sets) -> None:
    """Asks a thread for its ids and its sets."""
    script.asks(task, "ids", kind.told(process, 0))
    script.asks(task, "caps", sets.told())


def tries(
    script: Script, process: Process, kind: Kind, page: Page, name: str, given: tuple[int, ...]
) -> None:
    """A thread makes the call alone, and its fellow is asked too."""
    script.spawn(TASK, CHILD)
    sets = held(process, kind)
    call = " ".join(map(str, (name, *given)))
    try:
        new = page(process, *given)
    except Refused as why:
        new, after = process, sets
        script.raw(CHILD, call, str(why))
    else:
        after = sets_after(process, new, sets, SETTING) if kind.user else sets
        script.raw(CHILD, call)
    shows(script, CHILD, kind, new, after)
    shows(script, TASK, kind, process, sets)
    script.exit(CHILD)


def of_ids(kind: Kind) -> Iterator[Case]:
    """Every call of every process."""
    asked = [*calls(kind)]
    # A process takes nine lines to make and to end, and each of its calls seven.
    room = LINES // (7 * len(asked) + 10)
    left = processes(IDS)
    while some := list(islice(left, room)):
        script = begun(SETTING.namespace)
        for process in some:
            make(script, process, kind, SETTING)
            for page, name, given in asked:
                tries(script, process, kind, page, name, given)
            script.exit(TASK)
        told = f"{kind.set_all} and its kin from {some[0].ids()}"
        told += ", privileged" if some[0].privileged else ", unprivileged"
        yield script.case(told, len(some) * len(asked))


def of_groups() -> Case:
    """setgroups(2): "EPERM The calling process has insufficient privilege (the caller does not have
    the CAP_SETGID capability in the user namespace in which it resides)", "EINVAL size is greater
    than NGROUPS_MAX"; docs/RULES.md has 1,024 of them.
    """
    script = Script()
    script.init(ROOT, 1, 0, 0)
    script.spawn(ROOT, TASK)
    for count in (0, 1, 3, MOST, MOST + 1):
        told = " ".join(str(it) for it in range(count, 0, -1))
        call = f"setgroups {told}".rstrip()
        script.raw(TASK, call, None if count <= MOST else "einval")
        kept = min(count, MOST)
        groups = " ".join(str(it) for it in range(1, kept + 1))
        script.asks(TASK, "groups", f"ok {groups}".rstrip())
        script.asks(ROOT, "groups", "ok")
    script.changes(TASK, f"capset {ALL:x} 0 {ALL & ~(1 << GROUPS.capability):x}")
    for groups in ("", " 5", " " + " ".join(map(str, range(MOST + 1)))):
        script.raw(TASK, f"setgroups{groups}", "eperm")
    return script.case("setgroups", 8)


def cases() -> Iterator[Case]:
    yield from of_ids(USERS)
    yield from of_ids(GROUPS)
    yield of_groups()
