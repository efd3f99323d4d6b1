"""What a log may lack that was recorded with -e trace: calls of a family of which it has others."""

from __future__ import annotations

from collections.abc import Set
from dataclasses import dataclass

# Calls that every program makes; a log without them was recorded with -e trace.
EVERYWHERE = frozenset(("mmap", "brk", "close", "read"))

# Of these a program makes some as it begins, and nobody names them: a log that begins with an
# execve and has none was recorded with -e trace, though it may have others.
AT_BEGIN = frozenset(
    "brk mprotect munmap madvise prlimit64 arch_prctl set_tid_address set_robust_list rseq "
    "sigaltstack sched_getaffinity rt_sigaction rt_sigprocmask".split()
)

# Calls after which paths and ids lead elsewhere.
LEADING = ("chroot", "pivot_root", "mount", "unshare", "setns")


@dataclass(frozen=True)
class Family:
    """Calls that do alike, what that is, and what isn't seen where one wasn't named."""

    calls: tuple[str, ...]
    do: str
    unseen: str
    # Where one of these is there the whole family was named, by a class of strace's.
    whole: frozenset[str] = frozenset()


FAMILIES = (
    Family((*LEADING, "chdir", "fchdir"), "lead paths elsewhere", "another folder or namespace"),
    Family(
        tuple(
            "setuid setgid setreuid setregid setresuid setresgid setgroups setfsuid setfsgid "
            "capset prctl".split()
        ),
        "change a credential",
        "such a change",
        frozenset("getuid geteuid getgid getegid getresuid getresgid getgroups capget".split()),
    ),
    Family(
        tuple(
            "chmod fchmod fchmodat chown fchown lchown fchownat setxattr lsetxattr fsetxattr "
            "removexattr lremovexattr fremovexattr link linkat rename renameat renameat2 unlink "
            "unlinkat".split()
        ),
        "change a file",
        "such a change",
    ),
    Family(
        ("execve", "execveat", "clone", "clone3", "fork", "vfork"),
        "execute a program or make a task",
        "such a call",
        frozenset(("exit_group", "exit", "wait4")),
    ),
    Family(("kill", "tkill", "tgkill"), "signal a task", "a signal"),
    Family(
        ("openat", "dup", "dup2", "dup3", "fcntl", "memfd_create"),
        "make a descriptor",
        "what a descriptor is of",
    ),
)


def lacking(names: Set[str], executes: bool = False) -> list[str]:
    """What is said of a log that has calls of these names, and perhaps one that began a program."""
    if names & (AT_BEGIN if executes else EVERYWHERE):
        return []
    found = []
    if not names & set(LEADING):
        found.append(
            "the log has only what -e trace named, and no call of chroot, pivot_root, mount, "
            "unshare or setns: where these weren't named another root or namespace isn't seen"
        )
    for family in FAMILIES:
        seen = [name for name in family.calls if name in names]
        lacks = [name for name in family.calls if name not in names]
        if seen and lacks and not names & family.whole:
            found.append(
                f"the log has only what -e trace named: of the calls that {family.do} "
                f"{', '.join(seen)}, and none of {', '.join(lacks)}: where these weren't named "
                f"{family.unseen} isn't seen"
            )
    return found
