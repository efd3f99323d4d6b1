"""Changes of stored logs by which each reason of a finding holds, and by which it just doesn't."""

from __future__ import annotations

from dataclasses import dataclass

from auditd.findings import Class, Reason


@dataclass(frozen=True)
class Change:
    """What is done to a line of an event: words become others, or as a record of another kind it
    isn't read."""

    # A pattern of the line, and which of those that have it.
    line: str
    which: int
    old: str = ""
    new: str = ""


@dataclass(frozen=True)
class Case:
    """A changed log, and what must be found first at the event that was changed; where its record
    is lost, what must be found first of all."""

    name: str
    log: str
    change: Change
    found: Class | None
    reason: Reason | None = None
    start: bool = False


# A record that is lost.
LOST = ("type=SYSCALL", "type=LOST")


def setuid(number: str) -> str:
    """A line of setuid(2) with this argument."""
    return rf"syscall=105 success=yes exit=0 a0={number} "


ALICE = "uid=3001 gid=3001 euid=3001 suid=3001 fsuid=3001 "
ROOT = ALICE.replace("3001", "0")
BOB = "uid=1001 gid=1001 euid=1001"
# What a file with cap_net_raw=ep gives, and a capset that takes it up.
NET_RAW = "0000000000002000"
GIVEN = f"type=BPRM_FCAPS .* pp={NET_RAW}"
TAKEN = f"type=CAPSET .* cap_pp={NET_RAW}"
BEGUN = "type=CAPSET .* cap_pp=0000000000000480"
THERE = "syscall=59 .*there/id"
ID = 'exe="/usr/bin/id"'

CASES = [
    Case(
        "a refusal that the rules don't have", "su",
        Change("syscall=116 ", 0, "yes exit=0", "no exit=-1"),
        Class.EXPLAINED, Reason.REFUSED,
    ),
    Case(
        "a call that they refuse", "set-user-id",
        Change("syscall=106 success=no", 0, "no exit=-1", "yes exit=0"),
        Class.UNEXPLAINED, Reason.GAINS,
    ),
    Case(
        "a set-user-ID file where the bits have no effect", "nosuid", Change(THERE, 0),
        Class.EXPLAINED, Reason.NO_SET_IDS,
    ),
    Case(
        "but for the saved id", "nosuid",
        Change(THERE, 0, "suid=3001 fsuid", "suid=0 fsuid"),
        Class.MISSING, Reason.LACKS,
    ),
    Case(
        "and the group", "nosuid", Change(THERE, 0, "egid=3001", "egid=0"),
        Class.MISSING, Reason.LACKS,
    ),
    Case(
        "a shell that is suddenly root", "su", Change('comm="script"', 0, ALICE, ROOT),
        Class.UNEXPLAINED, Reason.GAINS,
    ),
    Case(
        "less than a file gives", "ping", Change(GIVEN, 0, f" pp={NET_RAW}", " pp=0"),
        Class.EXPLAINED, Reason.LESS,
    ),
    Case(
        "more than it gives", "ping",
        Change(GIVEN, 0, f" pp={NET_RAW}", " pp=0000000000003000"),
        Class.UNEXPLAINED, Reason.GAINS,
    ),
    Case(
        "a lost setuid", "su", Change(setuid("bb9"), 0, *LOST),
        Class.MISSING, Reason.LACKS,
    ),
    Case(
        "of a task that may not", "sudo",
        Change(r"exe=\"/usr/bin/id\"", 0, BOB, BOB.replace("euid=1001", "euid=0")),
        Class.UNEXPLAINED, Reason.GAINS,
    ),
    Case(
        "a lost KEEP_CAPS", "capsh", Change("syscall=157 .* a0=8 a1=1 ", 0, *LOST),
        Class.MISSING, Reason.LACKS_SETS,
    ),
    Case(
        "a set that it doesn't give", "ping", Change(TAKEN, 0, f"cap_pp={NET_RAW}", "cap_pp=3000"),
        Class.UNEXPLAINED, Reason.GAINS,
    ),
    Case(
        "a lost execve", "su", Change(f"syscall=59 .*{ID}", 0, *LOST),
        Class.MISSING, Reason.LACKS_EXECVE,
    ),
    Case(
        "the same program below another root", "su",
        Change(f"syscall=231 .*{ID}", 0, '"/usr/bin/id"', '"/id"'),
        None,
    ),
    Case(
        "sets of a process first seen", "begun", Change(BEGUN, 2),
        Class.DOUBTFUL, Reason.GUESS,
    ),
    Case(
        "that are known", "begun",
        Change(BEGUN, 2, "cap_pp=0000000000000480", "cap_pp=c80"),
        Class.UNEXPLAINED, Reason.GAINS, start=True,
    ),
    Case(
        "a process first seen, which may have threads", "begun",
        Change("syscall=58 ", 1, "uid=3001 ", "uid=0 "),
        Class.DOUBTFUL, Reason.THREADS,
    ),
    Case(
        "whose threads are known, and that may", "begun",
        Change("syscall=58 ", 1, "uid=3001 ", "uid=0 "),
        Class.MISSING, Reason.LACKS, start=True,
    ),
    Case(
        "ids in a user namespace whose maps aren't known", "begun-mapped",
        Change("syscall=59 .* uid=100007 ", 0, " uid=100007 ", " uid=65000 "),
        Class.DOUBTFUL, Reason.MAPS,
    ),
    Case(
        "whose maps are known", "begun-mapped",
        Change("syscall=59 .* uid=100007 ", 0, " uid=100007 ", " uid=65000 "),
        Class.MISSING, Reason.LACKS, start=True,
    ),
]  # fmt: skip
