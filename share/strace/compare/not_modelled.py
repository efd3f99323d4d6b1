"""What a refused call asked for, where the program has no rule for it."""

from __future__ import annotations

import re
from dataclasses import dataclass
from pathlib import Path

from ..follow import ptrace
from ..log.reader import Call
from ..script.refused import Refused


@dataclass(frozen=True)
class Asked:
    """A kind of call that may be refused: its names, its arguments, and what it asks for."""

    names: frozenset[str]
    arguments: re.Pattern[str]
    says: str
    # The capability that it asks for, if it is one, and the manual page that says so.
    capability: str = ""
    source: str = "capabilities(7)"
    # The error by which it is refused, where another one says something else.
    error: str = ""


def asked(
    names: str, says: str, capability: str = "", source: str = "", arguments: str = "",
    error: str = "",
) -> Asked:  # fmt: skip
    """A kind of call, as the lists below have it."""
    pattern = re.compile(arguments)
    return Asked(
        frozenset(names.split()), pattern, says, capability, source or "capabilities(7)", error
    )


PING_RANGE = Path("/proc/sys/net/ipv4/ping_group_range")

# The first that fits counts.
KINDS = (
    asked("socket", "a raw or a packet socket", "NET_RAW", arguments=r"SOCK_RAW|AF_PACKET"),
    asked(
        "socket", "a socket for ICMP echo is for the groups of net.ipv4.ping_group_range",
        source="icmp(7)", arguments=r"SOCK_DGRAM.*IPPROTO_ICMP",
    ),
    asked(
        "bind", "a port below 1024", "NET_BIND_SERVICE", "ip(7), ERRORS",
        r"sin6?_port=htons\((?:\d{1,3}|10[01]\d|102[0-3])\)",
    ),
    asked("chroot", "chroot(2)", "SYS_CHROOT"),
    asked(
        "unshare clone clone3",
        "a user namespace asks for no capability: a limit of the system refuses it, as "
        "user.max_user_namespaces, or a security module", source="user_namespaces(7)",
        arguments=r"CLONE_NEWUSER",
    ),
    asked("unshare clone clone3", "a namespace", "SYS_ADMIN", arguments=r"CLONE_NEW"),
    asked("setns", "to enter a namespace", "SYS_ADMIN"),
    asked(
        "mount umount umount2 pivot_root move_mount open_tree fsopen fsmount fsconfig fspick "
        "mount_setattr swapon swapoff sethostname setdomainname quotactl fanotify_init", "it",
        "SYS_ADMIN",
    ),
    asked("mknod mknodat", "a device file", "MKNOD", arguments=r"S_IF(?:CHR|BLK)"),
    asked("reboot kexec_load kexec_file_load", "it", "SYS_BOOT"),
    asked("init_module finit_module delete_module", "a kernel module", "SYS_MODULE"),
    asked(
        "setpriority nice sched_setscheduler sched_setparam sched_setattr sched_setaffinity "
        "ioprio_set migrate_pages move_pages mbind", "it", "SYS_NICE",
    ),
    asked("acct", "it", "SYS_PACCT"),
    asked("iopl ioperm", "it", "SYS_RAWIO"),
    asked("prlimit64", "where its ids aren't the same, a limit of another process",
          "SYS_RESOURCE", "prlimit(2), ERRORS", r"^[1-9]"),
    asked("setrlimit prlimit64", "to raise a hard limit", "SYS_RESOURCE", "getrlimit(2), ERRORS"),
    asked("settimeofday stime adjtimex clock_settime clock_adjtime", "it", "SYS_TIME"),
    asked("vhangup", "it", "SYS_TTY_CONFIG"),
    asked("syslog", "it", "SYSLOG"),
    asked("mlock mlock2 mlockall", "to lock memory", "IPC_LOCK"),
    asked("semget semop semctl msgget msgsnd msgrcv msgctl shmget shmat shmctl",
          "an object of another user", "IPC_OWNER"),
    asked("bpf", "it", "BPF"),
    asked("perf_event_open", "it", "PERFMON"),
    asked(
        "setsockopt", "this option", "NET_ADMIN",
        arguments=r"SO_MARK|SO_PRIORITY|SO_DEBUG|SO_(?:RCV|SND)BUFFORCE",
    ),
    asked("ioctl", "to change an interface", "NET_ADMIN", arguments=r"SIOC[SAD]"),
    asked("ioctl", "these flags of a file", "LINUX_IMMUTABLE", arguments=r"FS_IOC_SETFLAGS"),
    asked("open_by_handle_at", "it", "DAC_READ_SEARCH"),
    asked("fcntl", "a lease on a file of another user", "LEASE", arguments=r"F_SETLEASE"),
    asked("timer_create timerfd_create", "an alarm", "WAKE_ALARM", arguments=r"_ALARM"),
    asked("ptrace", "strace traces this task already, and a task has one tracer",
          source="ptrace(2), ERRORS", arguments=r"PTRACE_TRACEME"),
    asked("seccomp prctl", "a filter without no_new_privs", "SYS_ADMIN", "seccomp(2), ERRORS",
          r"SECCOMP"),
    asked("prctl", "it", "SYS_RESOURCE", arguments=r"PR_SET_MM"),
    asked("setxattr lsetxattr fsetxattr", "an attribute of this name", "SYS_ADMIN", "xattr(7)",
          r'"(?:trusted|security)\.'),
    asked(
        "link linkat", "under fs.protected_hardlinks who makes a hard link owns the file, or may "
        "read and write it, or has CAP_FOWNER; a directory has none", source="proc(5)",
        error="EPERM",
    ),
    asked(
        "unlink unlinkat rmdir rename renameat renameat2", "in a directory with the sticky bit who "
        "removes an entry owns it or the directory, or has CAP_FOWNER; what is immutable stays",
        source="unlink(2), ERRORS", error="EPERM",
    ),
    asked(
        "mkdir mkdirat symlink symlinkat mknod mknodat",
        "the file system there makes no such entry", source="mkdir(2), ERRORS", error="EPERM",
    ),
    asked("utime utimes utimensat futimesat", "who sets the times of a file owns it, or has "
          "CAP_FOWNER", source="utimensat(2), ERRORS", error="EPERM"),
    asked("open openat openat2", "O_NOATIME is for the owner of the file, and for CAP_FOWNER",
          source="open(2), ERRORS", arguments="O_NOATIME", error="EPERM"),
    asked("pidfd_getfd process_madvise", "it looks into the process that its descriptor is of",
          source="ptrace(2)"),
    asked(
        "mkdir mkdirat rmdir unlink unlinkat rename renameat renameat2 link linkat symlink "
        "symlinkat mknod mknodat",
        "a directory of the path has to be written and searched, and no rule is on its entries",
        source="path_resolution(7)",
    ),
    asked("setsid setpgid", "it depends on process groups, and on no credential",
          source="setpgid(2)"),
    asked("keyctl add_key request_key", "keys have permissions of their own",
          source="keyrings(7)"),
    asked("connect sendto sendmsg sendmmsg bind",
          "a socket file, a firewall or a broadcast address refuses so",
          source="unix(7), ip(7)"),
    asked("mmap mprotect mremap",
          "the descriptor isn't open for this, its mount has noexec, or memory is sealed",
          source="mmap(2), ERRORS"),
    asked("write", "to lower this number", "SYS_RESOURCE", "proc(5)", r"/oom_(?:score_)?adj"),
    asked("write", "only some tasks may write the ids that a namespace maps",
          source="user_namespaces(7)", arguments=r"[ug]id_map|/setgroups"),
)  # fmt: skip

# Calls on a path, of which the file or a folder refuses.
OF_FILES = frozenset(
    "open openat openat2 creat access faccessat faccessat2 stat lstat newfstatat statx readlink "
    "readlinkat chdir fchdir execve execveat chmod fchmod fchmodat fchmodat2 chown lchown fchown "
    "fchownat setxattr lsetxattr fsetxattr removexattr lremovexattr fremovexattr getxattr "
    "lgetxattr fgetxattr listxattr llistxattr truncate ftruncate utime utimes utimensat futimesat "
    "statfs inotify_add_watch getdents getdents64 name_to_handle_at".split()
)
SIGNALS = frozenset("kill tkill tgkill pidfd_send_signal rt_sigqueueinfo rt_tgsigqueueinfo".split())


def kind_of(call: Call) -> Asked | None:
    """What a call is of the list above."""
    text = ", ".join(call.args)
    return next(
        (it for it in KINDS if fits(it, call) and it.arguments.search(text)), None
    )


def fits(kind: Asked, call: Call) -> bool:
    """Whether a call has a name of a kind, and its error."""
    return call.name in kind.names and kind.error in ("", call.result.error)


def target_of(call: Call) -> str:
    """Whom a call is about, where that is another task."""
    if call.name in SIGNALS and call.args:
        return call.args[1 if call.name in ("tgkill", "rt_tgsigqueueinfo") else 0]
    looked = ptrace.look(call)
    if looked is not None:
        return looked[1][0]
    if call.name == "ptrace" and len(call.args) > 1 and call.args[1] not in ("0", "NULL"):
        return call.args[1]
    found = next(filter(None, (re.match(r'"/proc/(\d+)/', arg) for arg in call.args)), None)
    return found[1] if found else ""


def reason(refused: Refused, has: bool | None) -> str:
    """Why a call was refused, as far as that can be told; `has` is whether its capability is
    effective in the task there, None where nobody knows."""
    asked_for = [] if refused.why else sentence(refused, refused.call, has)
    return "not modelled: " + "; ".join([*beside(refused), *asked_for])


def sentence(refused: Refused, call: Call, has: bool | None) -> list[str]:
    """What it asked for."""
    kind, target = kind_of(call), target_of(call)
    if kind is not None:
        return [of_kind(refused, kind, has)]
    if call.name in SIGNALS:
        return [f"its target {target} isn't a task of the log (kill(2), ERRORS)"]
    if target and target.isdigit():
        return [f"its target, pid {target}, isn't a task of the log, or isn't known (ptrace(2))"]
    if call.name in OF_FILES:
        return [
            "what its path leads to isn't known here: the file, or a directory above it, refuses "
            "(path_resolution(7); --files lists it)"
        ]
    return [f"no rule is about {call.name}(2); see its ERRORS"]


def of_kind(refused: Refused, kind: Asked, has: bool | None) -> str:
    """What a call of a kind asked for, and whether the task has it."""
    if not kind.capability:
        return f"{kind.says}{ping_range(kind)} ({kind.source})"
    what = f"{refused.call.name}(2)" if kind.says in ("it", "chroot(2)") else kind.says
    text = f"{what} asks for CAP_{kind.capability} ({kind.source})"
    if has is None:
        return text
    if not has:
        return f"{text}, which isn't effective in {refused.task} there"
    where = " in its own user namespace, and another one may be asked for" if refused.inside else (
        ", so something else refuses it")  # fmt: skip
    return f"{text}, which is effective in {refused.task} there{where}"


def ping_range(kind: Asked) -> str:
    """The groups that may ping on this machine."""
    if "ping_group_range" not in kind.says:
        return ""
    try:
        first, last = PING_RANGE.read_text(encoding="ascii").split()
    except (OSError, ValueError):
        return ""
    if int(first) > int(last):
        return ", which has none on this machine"
    return f", which are {first} to {last} on this machine"


def beside(refused: Refused) -> list[str]:
    """What else the log says of it."""
    found = [refused.why] if refused.why else []
    if refused.filtered:
        found.append(
            f"line {refused.filtered} of the log installs a seccomp filter, which can refuse so "
            "(seccomp(2))"
        )
    return found
