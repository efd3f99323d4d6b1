"""The calls by their numbers (syscalls(2)), for the architectures of a log."""

from __future__ import annotations

import subprocess
from dataclasses import dataclass

# linux/audit.h, AUDIT_ARCH_*, and what ausyscall(8) calls the architecture.
ARCHITECTURES = {
    "c000003e": "x86_64",
    "40000003": "i386",
    "c00000b7": "aarch64",
    "40000028": "arm",
}

# Each number with its call, as far as a script has a line for it or a process begins or ends by it.
OURS = {
    "x86_64": """56 clone 57 fork 58 vfork 59 execve 60 exit 62 kill 90 chmod 91 fchmod 92 chown
        93 fchown 94 lchown 101 ptrace 105 setuid 106 setgid 113 setreuid 114 setregid 116 setgroups
        117 setresuid 119 setresgid 122 setfsuid 123 setfsgid 126 capset 157 prctl 161 chroot
        188 setxattr 189 lsetxattr 190 fsetxattr 197 removexattr 198 lremovexattr 199 fremovexattr
        200 tkill 231 exit_group 234 tgkill 260 fchownat 268 fchmodat 272 unshare 308 setns
        317 seccomp 322 execveat 424 pidfd_send_signal 435 clone3 452 fchmodat2""",
    "i386": """1 exit 2 fork 11 execve 15 chmod 16 lchown 23 setuid 26 ptrace 37 kill 46 setgid
        61 chroot 70 setreuid 71 setregid 81 setgroups 94 fchmod 95 fchown 120 clone 138 setfsuid
        139 setfsgid 164 setresuid 170 setresgid 172 prctl 182 chown 185 capset 190 vfork
        198 lchown32 203 setreuid32 204 setregid32 206 setgroups32 207 fchown32 208 setresuid32
        210 setresgid32 212 chown32 213 setuid32 214 setgid32 215 setfsuid32 216 setfsgid32
        226 setxattr 227 lsetxattr 228 fsetxattr 235 removexattr 236 lremovexattr 237 fremovexattr
        238 tkill 252 exit_group 270 tgkill 298 fchownat 306 fchmodat 310 unshare 346 setns
        354 seccomp 358 execveat 424 pidfd_send_signal 435 clone3 452 fchmodat2""",
    "aarch64": """5 setxattr 6 lsetxattr 7 fsetxattr 14 removexattr 15 lremovexattr 16 fremovexattr
        51 chroot 52 fchmod 53 fchmodat 54 fchownat 55 fchown 91 capset 93 exit 94 exit_group
        97 unshare 117 ptrace 129 kill 130 tkill 131 tgkill 143 setregid 144 setgid 145 setreuid
        146 setuid 147 setresuid 149 setresgid 151 setfsuid 152 setfsgid 159 setgroups 167 prctl
        220 clone 221 execve 268 setns 277 seccomp 281 execveat 424 pidfd_send_signal 435 clone3
        452 fchmodat2""",
    "arm": """1 exit 2 fork 11 execve 15 chmod 16 lchown 23 setuid 26 ptrace 37 kill 46 setgid
        61 chroot 70 setreuid 71 setregid 81 setgroups 94 fchmod 95 fchown 120 clone 138 setfsuid
        139 setfsgid 164 setresuid 170 setresgid 172 prctl 182 chown 185 capset 190 vfork
        198 lchown32 203 setreuid32 204 setregid32 206 setgroups32 207 fchown32 208 setresuid32
        210 setresgid32 212 chown32 213 setuid32 214 setgid32 215 setfsuid32 216 setfsgid32
        226 setxattr 227 lsetxattr 228 fsetxattr 235 removexattr 236 lremovexattr 237 fremovexattr
        238 tkill 248 exit_group 268 tgkill 325 fchownat 333 fchmodat 337 unshare 375 setns
        383 seccomp 387 execveat 424 pidfd_send_signal 435 clone3 452 fchmodat2""",
}

# The calls of 32-bit architectures that take ids of 16 bits, and have a second form without that.
WITH_SHORT_IDS = frozenset(
    "setuid setgid setreuid setregid setresuid setresgid setfsuid setfsgid setgroups chown fchown "
    "lchown".split()
)
LONG_FORM = "32"


@dataclass(frozen=True)
class Number:
    """A call: its name, and whether its ids have 16 bits."""

    name: str
    short: bool = False


def table(text: str) -> dict[int, str]:
    """Numbers and names, as they alternate in a text."""
    words = text.split()
    return {int(number): name for number, name in zip(words[::2], words[1::2], strict=True)}


def installed(name: str) -> dict[int, str]:
    """The table of the audit package, where that is installed."""
    try:
        done = subprocess.run(["ausyscall", name, "--dump"], capture_output=True, check=False)
    except OSError:
        return {}
    found = {}
    for line in done.stdout.decode("latin-1").splitlines():
        number, tab, call = line.partition("\t")
        if tab and number.isdigit():
            found[int(number)] = call
    return found if done.returncode == 0 else {}


def numbers_of(architecture: str) -> dict[int, Number]:
    """The calls of an architecture: by the audit package, else by our own table."""
    name = ARCHITECTURES.get(architecture)
    if name is None:
        return {}
    ours = table(OURS[name])
    wanted = set(ours.values())
    theirs = {place: call for place, call in installed(name).items() if call in wanted}
    narrow = name in ("i386", "arm")
    found = {}
    for place, call in (ours | theirs).items():
        plain = call.removesuffix(LONG_FORM) if narrow else call
        found[place] = Number(plain, narrow and call == plain and call in WITH_SHORT_IDS)
    return found
