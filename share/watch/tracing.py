"""How strace is run: with which words, and what it then leaves of a program's privileges."""

from __future__ import annotations

import os
import shutil
import signal
import subprocess
from dataclasses import dataclass
from pathlib import Path

from capabilities import CAPABILITIES
from strace.script.start import status_of
from tool.inputs import Fault

# Calls of which there are many, and which neither bear on credentials nor are refused for want of a
# permission. Of all others the log has what it needs, and each refusal.
LEFT_OUT = (
    "read pread64 readv preadv close lseek brk munmap madvise futex poll ppoll select pselect6 "
    "epoll_wait epoll_pwait epoll_ctl clock_gettime clock_nanosleep nanosleep gettimeofday time "
    "sched_yield getpid gettid getrandom rt_sigaction rt_sigprocmask rt_sigreturn "
    "restart_syscall pwrite64 writev recvfrom getdents64 uname set_robust_list rseq "
    "set_tid_address arch_prctl"
).split()

# What a log is written with besides: paths of descriptors, whole structures, but not of what is
# executed, and long strings.
FORM = ["-f", "-q", "-y", "-s", "4096", "-e", "abbrev=execve,execveat"]

TRACES = 1 << CAPABILITIES.index("SYS_PTRACE")


def trace_filter() -> list[str]:
    """The words for strace that say what it writes, and how."""
    # A call that this machine's kernel hasn't is no error with a question mark.
    return [*FORM, "-e", "trace=!" + ",".join(f"?{name}" for name in LEFT_OUT)]


@dataclass(frozen=True)
class Ended:
    """How strace ended: its status, which is the command's, as a shell tells it."""

    status: int


def strace_words(log: Path, command: list[str], pid: int | None) -> list[str]:
    """The command line of strace."""
    found = shutil.which("strace")
    if found is None:
        raise Fault("strace isn't installed (apt install strace)")
    words = [found, *trace_filter(), "-o", str(log)]
    return [*words, "-p", str(pid)] if pid is not None else [*words, "--", *command]


def run(log: Path, command: list[str], pid: int | None) -> Ended:
    """Runs strace until the command ends, or until it is interrupted."""
    words = strace_words(log, command, pid)
    # An interrupt of the terminal is the command's: strace and we go on until it has ended.
    before = {signal.SIGINT: signal.signal(signal.SIGINT, signal.SIG_IGN)}
    try:
        # The command takes an interrupt as it would without us.
        process = subprocess.Popen(words, preexec_fn=restores_interrupt)
        # Whoever ends us, as timeout(1) does, ends strace: it lets go of a process, or ends what it
        # has run. What there is of the log is told.
        for ends in (signal.SIGTERM, signal.SIGHUP):
            before[ends] = signal.signal(ends, lambda _, __: process.terminate())
        status = process.wait()
    except OSError as fault:
        raise Fault(f"strace can't be run: {fault.strerror}") from None
    finally:
        for number, handler in before.items():
            signal.signal(number, handler)
    return Ended(status if status >= 0 else 128 - status)


def restores_interrupt() -> None:
    """In the child: an interrupt ends it as it would anything."""
    signal.signal(signal.SIGINT, signal.SIG_DFL)


def is_executable(command: str) -> bool:
    """Whether a command is there."""
    return shutil.which(command) is not None or os.path.exists(command)


def without_privilege(status: str) -> str | None:
    """What strace changes of a program where it has no CAP_SYS_PTRACE."""
    if status_of(status).effective & TRACES:
        return None
    return (
        "strace runs without CAP_SYS_PTRACE: set-user-ID bits, set-group-ID bits and file "
        "capabilities of what it traces have no effect, which they have where nobody traces it "
        "(execve(2))"
    )
