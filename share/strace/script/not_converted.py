"""What a log has and a script hasn't: which calls were passed over, and how often."""

from __future__ import annotations

from collections import Counter

from ..log import lines
from ..log.reader import Call

# Calls that bear on credentials, and of which the program has no line.
BEARING = frozenset(
    "seccomp keyctl add_key request_key ptrace process_vm_readv process_vm_writev pidfd_getfd "
    "pidfd_send_signal rt_sigqueueinfo rt_tgsigqueueinfo kill tkill tgkill capset mount umount2 "
    "pivot_root move_mount mount_setattr open_tree setns unshare chmod fchmod fchmodat fchmodat2 "
    "chown lchown fchown fchownat setxattr lsetxattr fsetxattr removexattr lremovexattr "
    "fremovexattr setxattrat umask bpf io_uring_setup landlock_restrict_self setuid setgid "
    "setreuid setregid setresuid setresgid setgroups setfsuid setfsgid".split()
)

# The same of prctl(2), by its operation.
BEARING_OPERATIONS = frozenset({"PR_SET_DUMPABLE", "PR_SET_SECCOMP", "PR_SET_PTRACER"})

OTHERS = 6


class NotConverted:
    """Counts what is passed over."""

    def __init__(self) -> None:
        self.others: Counter[str] = Counter()
        self.bearing: Counter[str] = Counter()

    def call(self, call: Call) -> None:
        """A call that no line says."""
        if call.name == "prctl":
            operation = call.args[0] if call.args else ""
            bears = operation in BEARING_OPERATIONS and call.result.error is None
            (self.bearing if bears else self.others)[f"prctl {operation}"] += 1
        elif call.name in ("kill", "tkill", "tgkill"):
            target = lines.number(call.args[0]) if call.args else None
            many = target is not None and target <= 0
            self.bearing[f"{call.name} {target}" if many else f"{call.name} of another"] += 1
        elif call.result.error is None and call.name in BEARING:
            self.bearing[call.name] += 1
        else:
            self.others[call.name] += 1

    def names(self, counts: Counter[str]) -> None:
        """Calls by their names alone, as they are read in a long log."""
        for name, count in counts.items():
            bears = name in BEARING or name.endswith("injected by strace")
            (self.bearing if bears else self.others)[name] += count

    def told(self) -> list[str]:
        """What was passed over, the most frequent first."""
        found = []
        if self.bearing:
            listed = ", ".join(f"{name} {count}" for name, count in ordered(self.bearing))
            found.append(f"passed over, though they bear on credentials: {listed}")
        count = sum(self.others.values())
        if not count:
            return [*found, "passed over: no other calls"]
        most = ordered(self.others)
        listed = ", ".join(f"{name} {times}" for name, times in most[:OTHERS])
        more = f", and {len(most) - OTHERS} more names" if len(most) > OTHERS else ""
        return [*found, f"passed over: {count} other calls ({listed}{more})"]


def ordered(counts: Counter[str]) -> list[tuple[str, int]]:
    """The names with their counts, the most frequent first."""
    return sorted(counts.items(), key=lambda pair: (-pair[1], pair[0]))
