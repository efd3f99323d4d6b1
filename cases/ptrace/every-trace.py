"""Every question of a table whether one task may look into another, in both access modes.

The real, effective, saved and filesystem ids of those that ask are four users and four groups, so
that it shows by which of them a question is decided. Those that are asked about have all ids of one
mode, or all but one of six, or the effective ids. Both are in the initial user namespace, in a
container's, in one below that, or in another container's.
"""
from collections.abc import Iterator
from dataclasses import dataclass
from itertools import product

from reports import Script
from suite import Case

CAP_KILL, CAP_SYS_PTRACE = 1 << 5, 1 << 19
# linux/securebits.h: the sets stay where ids change.
NO_SETUID_FIXUP = 4
# Of a namespace its parent, if it has one, and its root id, which is the root task's user and
# group.
PARENTS = {0: None, 1: 0, 2: 1, 3: 0}
ROOTS = {0: 0, 1: 100_000, 2: 200_000, 3: 300_000}
# The real, effective, saved and filesystem ids of those that ask.
USERS, GROUPS = (10, 20, 30, 40), (11, 21, 31, 41)
OTHER = 99
# The real, effective and saved id.
Ids = tuple[int, ...]
MODES = "fs", "real"
# The tasks: root's of each namespace, those that ask, and those that are asked about.
FIRST_ROOT, FIRST_ASKER, FIRST_TARGET = 1, 10, 50
TARGETS_AT_ONCE = 14


@dataclass(frozen=True)
class Asker:
    """A task that asks, by its namespace and its two sets."""

    namespace: int
    permitted: int
    effective: int


@dataclass(frozen=True)
class Target:
    """A task that is asked about: its real, effective and saved ids, what it is permitted, and
    whether its process is dumpable.
    """

    namespace: int
    users: Ids
    groups: Ids
    permitted: int
    dumpable: bool


def in_or_below(namespace: int | None, other: int) -> bool:
    """user_namespaces(7), "Capabilities": "If a process has a capability in a user namespace, then
    it has that capability in all child (and further removed descendant) namespaces as well."
    """
    while namespace is not None and namespace != other:
        namespace = PARENTS[namespace]
    return namespace == other


def allowed(asker: Asker, target: Target, mode: str) -> bool:
    """ptrace(2), "Ptrace access mode checking", of two tasks of different processes."""
    # "If the access mode specifies PTRACE_MODE_FSCREDS, then, for the check in the next step,
    # employ the caller's filesystem UID and GID."
    # "Otherwise, the access mode specifies PTRACE_MODE_REALCREDS, so use the caller's real UID and
    # GID for the checks in the next step."
    user, group = (USERS[3], GROUPS[3]) if mode == "fs" else (USERS[0], GROUPS[0])
    # "The caller has the CAP_SYS_PTRACE capability in the user namespace of the target."
    capable = bool(asker.effective & CAP_SYS_PTRACE) and in_or_below(
        target.namespace, asker.namespace
    )
    # "Deny access if neither of the following is true: The real, effective, and saved-set user IDs
    # of the target match the caller's user ID, and the real, effective, and saved-set group IDs of
    # the target match the caller's group ID."
    if not capable and not (set(target.users) == {user} and set(target.groups) == {group}):
        return False
    # "Deny access if the target process "dumpable" attribute has a value other than 1 [..], and the
    # caller does not have the CAP_SYS_PTRACE capability in the user namespace of the target
    # process."
    if not target.dumpable and not capable:
        return False
    # "If the access mode includes PTRACE_MODE_FSCREDS, then use the caller's effective capability
    # set in the following check; otherwise (the access mode specifies PTRACE_MODE_REALCREDS, so)
    # use the caller's permitted capability set."
    own = asker.effective if mode == "fs" else asker.permitted
    # "Deny access if neither of the following is true: The caller and the target process are in the
    # same user namespace, and the caller's capabilities are a superset of the target process's
    # permitted capabilities."
    same = asker.namespace == target.namespace
    if not (same and own & target.permitted == target.permitted) and not capable:
        return False
    # "If access has not been denied by any of the preceding steps, then access is allowed."
    return True


def askers() -> Iterator[Asker]:
    """In each namespace: with both capabilities in both sets, permitted alone, or not at all."""
    for namespace, trace, kill in product(PARENTS, range(3), range(3)):
        sets = [0, 0]
        for capability, places in ((CAP_SYS_PTRACE, trace), (CAP_KILL, kill)):
            for place in range(places):
                sets[place] |= capability
        yield Asker(namespace, *sets)


def ids() -> Iterator[tuple[Ids, Ids]]:
    """The ids of those that are asked about, users and groups."""
    for at in (3, 0):
        yield (USERS[at],) * 3, (GROUPS[at],) * 3
        for place in range(3):
            others = [USERS[at]] * 3
            others[place] = OTHER
            yield tuple(others), (GROUPS[at],) * 3
        for place in range(3):
            others = [GROUPS[at]] * 3
            others[place] = OTHER
            yield (USERS[at],) * 3, tuple(others)
    # "Most APIs that check the caller's UID and GID use the effective IDs."
    yield (USERS[1],) * 3, (GROUPS[1],) * 3


def targets() -> Iterator[Target]:
    """In each namespace: with any of these ids, with or without a capability, dumpable or not."""
    for namespace, (users, groups), permitted, dumpable in product(
        PARENTS, ids(), (0, CAP_KILL), (False, True)
    ):
        yield Target(namespace, users, groups, permitted, dumpable)


def begun() -> Script:
    """A script with root's tasks, and a child of them for each of those that ask."""
    script = Script()
    script.declares(*(f"ns {it} {ROOTS[it]} {PARENTS[it]}" for it in PARENTS if it))
    for namespace, root in ROOTS.items():
        script.init(FIRST_ROOT + namespace, 1 + namespace, root, root, namespace)
    for namespace in ROOTS:
        script.changes(FIRST_ROOT + namespace, f"securebits {NO_SETUID_FIXUP}")
    for task, asker in enumerate(askers(), FIRST_ASKER):
        child(script, task, asker.namespace, USERS[:3], GROUPS[:3])
        script.changes(task, f"setfsgid {GROUPS[3]}", answer=f"ok was {GROUPS[1]}")
        script.changes(task, f"setfsuid {USERS[3]}", answer=f"ok was {USERS[1]}")
        script.changes(task, f"capset {asker.permitted:x} 0 {asker.effective:x}")
    return script


def child(script: Script, task: int, namespace: int, users: Ids, groups: Ids) -> None:
    """A process of root's there with these ids, and with all capabilities."""
    script.fork(FIRST_ROOT + namespace, task, task)
    script.ids(task, f"setresgid {' '.join(map(str, groups))}")
    script.ids(task, f"setresuid {' '.join(map(str, users))}")


def asked_about(script: Script, task: int, target: Target) -> None:
    """All of those that ask do so in both modes."""
    child(script, task, target.namespace, target.users, target.groups)
    script.changes(task, f"capset {target.permitted:x} 0 {target.permitted:x}")
    script.dumpable(task, int(target.dumpable))
    for (asking, asker), mode in product(enumerate(askers(), FIRST_ASKER), MODES):
        answer = "ok" if allowed(asker, target, mode) else "eperm"
        script.traces(asking, task, mode, answer)
    script.exit(task)


def cases() -> Iterator[Case]:
    """A script for those that are asked about in each namespace."""
    for namespace in PARENTS:
        script, calls = begun(), 0
        for number, target in enumerate(it for it in targets() if it.namespace == namespace):
            asked_about(script, FIRST_TARGET + number % TARGETS_AT_ONCE, target)
            calls += len(MODES) * len([*askers()])
        yield script.case(f"of tasks in n{namespace}", calls)
