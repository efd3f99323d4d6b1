"""Every access(2) of a table of processes: by the real and the effective user id, and by what is
permitted and what is effective of CAP_DAC_OVERRIDE and CAP_DAC_READ_SEARCH, with NO_SETUID_FIXUP
and without it; in the initial user namespace and in a container's.
"""
from collections.abc import Iterator
from dataclasses import dataclass
from itertools import product

import checks
from checks import ASKED, CAP_DAC_OVERRIDE, CAP_DAC_READ_SEARCH, File
from processes import CONTAINER, INITIAL, NO_SETUID_FIXUP, Namespace, Setting
from reports import Script
from suite import Case

ROOT, TASK = 1, 2
# The group ids of the processes; a user and a group that no process is of.
REAL_GROUP, EFFECTIVE_GROUP, NOBODY = 10, 20, 77
# The ways to have a capability: permitted, and effective.
WAYS = (False, False), (True, False), (True, True)


@dataclass(frozen=True)
class Process:
    """A process that calls access(2)."""

    real: int
    effective: int
    override: tuple[bool, bool]
    read_search: tuple[bool, bool]

    def sets(self) -> list[int]:
        """Its permitted and its effective set."""
        ways = zip(self.override, self.read_search)
        return [a << CAP_DAC_OVERRIDE | b << CAP_DAC_READ_SEARCH for a, b in ways]


def asker(process: Process, setting: Setting) -> checks.Process:
    """The process whose right is asked about."""
    # "For the root user, the check uses the set of permitted capabilities rather than the set of
    # effective capabilities; and for non-root users, the check uses an empty set of capabilities."
    # Root is the root of the process's user namespace, and with NO_SETUID_FIXUP the effective set
    # is left as it is (fs/open.c).
    permitted, effective = zip(process.override, process.read_search)
    if setting.securebits & NO_SETUID_FIXUP:
        used = effective
    elif process.real == setting.namespace.root:
        used = permitted
    else:
        used = False, False
    # "The check is done using the calling process's real UID and GID, rather than the effective
    # IDs".
    return checks.Process(process.real, REAL_GROUP, REAL_GROUP, *used)


def files(namespace: Namespace) -> Iterator[File]:
    """Files of nobody's, of root's, of another user's and of the processes' real group."""
    root, other, _ = namespace.ids
    kinds = (("reg", 0), ("reg", 0o100), ("dir", 0))
    yield from (File(*it, NOBODY, NOBODY) for it in kinds)
    yield from (File("reg", 0o600, it, NOBODY) for it in (root, other))
    yield File("reg", 0o040, NOBODY, REAL_GROUP)


def make(script: Script, process: Process, setting: Setting) -> None:
    """Makes a child of root's this process."""
    script.fork(ROOT, TASK, 2)
    script.ids(TASK, f"setresgid {REAL_GROUP} {EFFECTIVE_GROUP} {EFFECTIVE_GROUP}")
    script.ids(TASK, f"setresuid {process.real} {process.effective} {process.effective}")
    script.changes(TASK, f"securebits {setting.securebits}")
    permitted, effective = process.sets()
    script.changes(TASK, f"capset {permitted:x} 0 {effective:x}")


def table(setting: Setting) -> Case:
    """Every process asks for all of every file."""
    namespace, script = setting.namespace, Script()
    its = [*files(namespace)]
    script.declares(*namespace.declared(), *(it.declared() for it in its))
    script.init(ROOT, 1, namespace.root, 0, namespace.number)
    script.changes(ROOT, f"securebits {NO_SETUID_FIXUP}")
    calls = 0
    for who in product(namespace.ids, namespace.ids, WAYS, WAYS):
        process = Process(*who)
        make(script, process, setting)
        for file, letters in product(its, ASKED):
            answer = checks.told(asker(process, setting), file, letters)
            script.access(TASK, file.name(), letters, answer)
            calls += 1
        script.exit(TASK)
    return script.case(f"in n{namespace.number}, with securebits {setting.securebits}", calls)


def cases() -> Iterator[Case]:
    """The table in each setting."""
    for it in product((INITIAL, CONTAINER), (0, NO_SETUID_FIXUP)):
        yield table(Setting(*it))
