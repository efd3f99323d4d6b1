"""What each event makes of the flag of a process, from 0 and from 1.

prctl(2), PR_SET_DUMPABLE: "Normally, the "dumpable" attribute is set to 1. However, it is reset to
the current value contained in the file /proc/sys/fs/suid_dumpable (which by default has the value
0), in the following circumstances". What sets it to 1 again is in docs/RULES.md, "Dumpable
processes".
"""
from collections.abc import Iterator
from itertools import product

import suite

CAP_NET_RAW = 13
SETPCAP, SETFCAP = 8, 31
# A plain program, and programs that change ids or add to the permitted set.
PLAIN = "file plain reg 0 0 0755"


def attribute(permitted: int = 0, inheritable: int = 0, effective: bool = False) -> str:
    """The bytes of an attribute of version 2 (linux/capability.h)."""
    words = [2 << 24 | effective]
    for half in (0, 32):
        words += [it >> half & 0xFFFFFFFF for it in (permitted, inheritable)]
    return b"".join(it.to_bytes(4, "little") for it in words).hex()


RAW = 1 << CAP_NET_RAW
FILES = (
    PLAIN,
    "file setuser reg 500 0 4755",
    "file setgroup reg 0 50 2755",
    "file setown reg 1000 1000 6755",
    "file setroot reg 0 0 4755",
    f"file gives reg 0 0 0755 caps {attribute(permitted=RAW)}",
    f"file inherits reg 0 0 0755 caps {attribute(inheritable=RAW)}",
    f"file empty reg 0 0 0755 caps {attribute()}",
)
ROOT = "init t1 p1 0 0 n0"
USER = "init t1 p1 1000 1000 n0"
# The five sets' full value, as a script has it.
ALL = f"{(1 << 41) - 1:x}"

STAYS, CLEARS, SETS = "stays", "clears", "sets"


def after(before: int, effect: str) -> int:
    """The flag after an event."""
    return {STAYS: before, CLEARS: 0, SETS: 1}[effect]


# A name, the lines before, the lines of the event, and what they make of the flag of t1's process.
#
# "The process's effective user or group ID is changed." "The process's filesystem user or group ID
# is changed (see credentials(7))."
CALLS = (
    ("an effective user", [ROOT], ["t1 setresuid -1 5 -1"], CLEARS),
    ("an effective user alone", [USER, "t1 setresuid -1 -1 1000"], ["t1 seteuid 1000"], STAYS),
    ("a real user alone", [ROOT], ["t1 setresuid 5 -1 -1"], STAYS),
    ("a saved user alone", [ROOT], ["t1 setresuid -1 -1 5"], STAYS),
    ("all users", [ROOT], ["t1 setuid 5"], CLEARS),
    ("users exchanged", [ROOT, "t1 setresuid 5 0 5"], ["t1 setreuid 0 5"], CLEARS),
    ("the same users", [ROOT], ["t1 setresuid 0 0 0"], STAYS),
    ("no users", [ROOT], ["t1 setresuid -1 -1 -1"], STAYS),
    ("users that may not be", [USER], ["t1 setresuid 5 5 5"], STAYS),
    ("an effective group", [ROOT], ["t1 setresgid -1 5 -1"], CLEARS),
    ("a real group alone", [ROOT], ["t1 setresgid 5 -1 -1"], STAYS),
    ("a saved group alone", [ROOT], ["t1 setresgid -1 -1 5"], STAYS),
    ("all groups", [ROOT], ["t1 setgid 5"], CLEARS),
    ("an effective group by its own call", [ROOT], ["t1 setegid 5"], CLEARS),
    ("supplementary groups", [ROOT], ["t1 setgroups 5 6"], STAYS),
    ("a filesystem user", [ROOT], ["t1 setfsuid 5"], CLEARS),
    ("the same filesystem user", [ROOT], ["t1 setfsuid 0"], STAYS),
    ("a filesystem user that may not be", [USER], ["t1 setfsuid 5"], STAYS),
    ("a filesystem user that an effective one undoes", [ROOT, "t1 setfsuid 5"],
     ["t1 setresuid 0 0 0"], CLEARS),
    ("a filesystem group", [ROOT], ["t1 setfsgid 5"], CLEARS),
    ("the same filesystem group", [ROOT], ["t1 setfsgid 0"], STAYS),
    ("sets", [ROOT], ["t1 capset 0 0 0"], STAYS),
    ("a bounding set", [ROOT], ["t1 capdrop CAP_NET_RAW"], STAYS),
    ("a securebit", [ROOT], ["t1 keepcaps 1"], STAYS),
    ("no_new_privs", [ROOT], ["t1 nonewprivs 1"], STAYS),
    ("access", [PLAIN, ROOT], ["t1 access plain x"], STAYS),
    ("an override", [ROOT, "t1 fork t2 p2", "t2 setuid 5", "take h1 t2"], ["override t1 h1"],
     STAYS),
    ("a revert", [ROOT, "t1 fork t2 p2", "t2 setuid 5", "take h1 t2", "override t1 h1"],
     ["revert t1"], STAYS),
)
# "The process executes (execve(2)) a set-user-ID or set-group-ID program, resulting in a change of
# either the effective user ID or the effective group ID." "The process executes (execve(2)) a
# program that has file capabilities (see capabilities(7)), but only if the permitted capabilities
# gained exceed those already permitted for the process."
EXECS = (
    ("a plain program", [USER], ["t1 exec plain"], SETS),
    ("a plain program of root's", [ROOT], ["t1 exec plain"], SETS),
    ("another user's program", [USER], ["t1 exec setuser"], CLEARS),
    ("another group's program", [USER], ["t1 exec setgroup"], CLEARS),
    ("a program of the same user and group", [USER], ["t1 exec setown"], SETS),
    ("another user's program under no_new_privs", [USER, "t1 nonewprivs 1"], ["t1 exec setuser"],
     SETS),
    ("a program that the effective user undoes", [ROOT, "t1 setfsuid 5"], ["t1 exec plain"],
     CLEARS),
    ("a program with a capability", [USER], ["t1 exec gives"], CLEARS),
    ("a program with a capability that is there", [ROOT, "t1 keepcaps 1", "t1 setuid 1000"],
     ["t1 exec gives"], SETS),
    ("a program with an inherited capability",
     [ROOT, f"t1 capset {ALL} {RAW:x} {ALL}", "t1 setuid 1000"], ["t1 exec inherits"], CLEARS),
    ("a program with an empty attribute", [USER], ["t1 exec empty"], SETS),
    ("what root gains", [ROOT, "t1 capset 0 0 0"], ["t1 exec plain"], CLEARS),
    ("root's program", [USER], ["t1 exec setroot"], CLEARS),
    ("a program that isn't there to execute", ["file data reg 0 0 0644", USER], ["t1 exec data"],
     STAYS),
    ("a program by a label", [USER, "take h1 t1", "prepare h2 t1 h1"],
     ["change h2 exec plain", "commit h2"], SETS),
    ("a label that is only changed", [USER, "take h1 t1", "prepare h2 t1 h1"],
     ["change h2 exec plain"], STAYS),
    ("a label that is given up", [USER, "take h1 t1", "prepare h2 t1 h1", "change h2 exec plain"],
     ["abort h2"], STAYS),
)
# A thread's step in a broadcast changes the flag of the process by its own ids.
THREADS = (
    ("a thread", [ROOT], ["t1 spawn t2"], STAYS),
    ("one thread more of the process", [ROOT], ["init t2 p1 1000 1000 n0"], STAYS),
    ("another process", [ROOT], ["init t2 p2 1000 1000 n0"], STAYS),
    ("a thread that ends", [ROOT, "t1 spawn t2"], ["t2 exit"], STAYS),
    ("another process that ends", [ROOT, "t1 fork t2 p2"], ["t2 exit"], STAYS),
    ("a thread's filesystem user", [ROOT, "t1 spawn t2"], ["t2 setfsuid 5"], CLEARS),
    ("another process's user", [ROOT, "t1 fork t2 p2"], ["t2 setuid 5"], STAYS),
    ("a call that changes another thread alone", [ROOT, "t1 spawn t2", "t2 setfsuid 5"],
     ["t1 setresuid 0 0 0"], CLEARS),
    ("a call that changes no thread", [ROOT, "t1 spawn t2"], ["t1 setresuid 0 0 0"], STAYS),
    ("a call of the caller's step alone", [ROOT, "t1 spawn t2"], ["begin t1 setuid 5"], CLEARS),
    ("a thread's user by a call of its own", [ROOT, "t1 spawn t2"], ["t2 raw setuid 5"], CLEARS),
    ("a thread's group by a call of its own", [ROOT, "t1 spawn t2"], ["t2 raw setegid 5"], CLEARS),
    ("the same user of a thread by a call of its own", [ROOT, "t1 spawn t2"],
     ["t2 raw setresuid 0 0 0"], STAYS),
    ("a real user of a thread by a call of its own", [ROOT, "t1 spawn t2"],
     ["t2 raw setresuid 5 -1 -1"], STAYS),
    ("a thread's groups by a call of its own", [ROOT, "t1 spawn t2"], ["t2 raw setgroups 5"],
     STAYS),
    ("a call of a thread's own that may not be", [USER, "t1 spawn t2"], ["t2 raw setuid 5"], STAYS),
    ("another process's call of its own", [ROOT, "t1 fork t2 p2"], ["t2 raw setuid 5"], STAYS),
    ("a call of one thread, and then every thread's",
     [ROOT, "t1 spawn t2", "t2 raw setresuid 5 0 0"], ["t1 setresuid 0 0 0"], STAYS),
    ("another thread's execve", [PLAIN, ROOT, "t1 spawn t2", "t1 spawn t3"],
     ["t1 exec plain"], SETS),
)


def setup_first(lines: list[str]) -> tuple[list[str], list[str], list[str]]:
    """The lines that declare, and then the others."""
    declares = [it for it in lines if it.startswith("file ")]
    inits = [it for it in lines if it.startswith("init ")]
    return declares, inits, [it for it in lines if it not in declares and it not in inits]


def of_event(
    name: str, before: list[str], event: list[str], effect: str, flag: int
) -> suite.Case | None:
    """The flag is this, the event is made, and the process is asked for its flag."""
    declares, inits, others = setup_first([*before, *(it for it in event if it[:5] == "init ")])
    declares = [*dict.fromkeys([*FILES, *declares])]
    if any(it.startswith("init ") for it in event):
        # A first task is a declaration: it comes before any call, so the flag is 1 then.
        if not flag:
            return None
        lines = [*declares, *inits]
    else:
        lines = [*declares, *inits, *others, f"t1 dumpable {flag}", "t1 dumped", *event]
    lines.append("t1 dumped")
    told = f"{len(lines)} dumped t1 -> ok {after(flag, effect)}"
    return entries(f"{name}, from {flag}", lines, told)


def entries(name: str, lines: list[str], *expected: str) -> suite.Case:
    """A script of which some entries are told."""
    return suite.Case(
        name, ("run",), "\n".join([*lines, ""]).encode(),
        entries=tuple(it.encode() for it in expected),
    )


def of_children(flag: int) -> suite.Case:
    """A child has the flag of its parent's process, and from then on its own."""
    lines = [ROOT, f"t1 dumpable {flag}", "t1 fork t2 p2", "t2 dumped", f"t2 dumpable {1 - flag}",
             "t1 dumped", "t2 dumped"]
    return entries(f"a child, from {flag}", lines, f"4 dumped t2 -> ok {flag}",
                   f"6 dumped t1 -> ok {flag}", f"7 dumped t2 -> ok {1 - flag}")


def of_ends(flag: int) -> suite.Case:
    """A process that ended is gone, and another of its number is dumpable as its parent's is."""
    lines = [ROOT, "t1 fork t2 p2", f"t2 dumpable {flag}", "t2 exit", "t2 dumped",
             "t1 fork t3 p2", "t3 dumped"]
    return entries(f"an end, from {flag}", lines, "5 dumped t2 -> no task t2",
                   "7 dumped t3 -> ok 1")


def cases() -> Iterator[suite.Case]:
    """Each event, from both flags."""
    for row, flag in product([*CALLS, *EXECS, *THREADS], (0, 1)):
        case = of_event(*row, flag)
        if case:
            yield case
    for flag in (0, 1):
        yield of_children(flag)
        yield of_ends(flag)
