"""Each refusal of an event, in the middle of a script: all that comes behind it is answered as if
it had not been there. So it is in a lane, too.

docs/FORMATS.md, "The report": "A refusal changes nothing, with three exceptions. Before `table
full` the sweep was made that looked for a slot, and it stands. `stale` gives up the label and its
slot. `aborted` ends the process". So a script with the refused line must be reported as the one in
whose place a comment stands, but for the entries of that line; in the first two exceptions as the
one where a `sweep` or an `abort` stands in its place.
"""
from collections.abc import Iterator

from refused_lines import INIT, SETUP_ENDS, asking, cases_of, own
from suite import Case

# Of a process of root's two threads, p1, the first has begun a call that the second has yet to
# make. The user 1000 acts with an override. There are an open file, three holds, and labels that
# are prepared: changed, not yet changed, for access(2), and for a task that has ended.
BEFORE = (
    ("file a reg 0 0 0600", ()),
    ("file b reg 0 0 0755 caps 0100", ()),
    own(INIT, "ok c0 s0"),
    own("init t2 p2 1000 1000 n0", "ok c1 s1"),
    own("init t5 p5 2000 2000 n0", "ok c2 s2"),
    SETUP_ENDS,
    ("t1 spawn t3", ("spawn t1 t3 -> ok c0 s0",)),
    ("t5 fork t4 p4", ("fork t5 t4 p4 -> ok c2 s2",)),
    own("take h1 t1", "ok c0 s0"),
    own("take h2 t2", "ok c1 s1"),
    own("take h10 t4", "ok c2 s2"),
    asking("t1 open a r f1", "ok c0 s0", "open {0} a r f1 -> ok"),
    own("prepare h3 t2 h2", "ok s3"),
    own("change h3 setfsuid 1000", "ok was 1000"),
    own("prepare h5 t1 h1", "ok s4"),
    own("change h5 keepcaps 1", "ok"),
    own("prepare h6 t2 h2", "ok s5"),
    own("prepare h7 t2 h2", "ok s6"),
    own("change h7 access", "ok"),
    own("prepare h8 t4 h10", "ok s7"),
    own("change h8 keepcaps 1", "ok"),
    ("t4 exit", ("exit t4 -> ok",)),
    own("override t2 h2", "ok c1 s1"),
    own("begin t1 setresuid 0 0 0", "ok c3 s8 left 1"),
)
CALL = len(BEFORE)

# What stands then is asked, used and given up: each label, the override, the call, the file.
AFTER = (
    asking("t3 ids", "ok c0 s0", "ask {0} ids -> ok 0 0 0 0 0 0 0 0"),
    own("take h4 t3", "ok c0 s0"),
    own("ask h1 bits", "ok 0 0"),
    own("ask h2 ids", "ok 1000 1000 1000 1000 1000 1000 1000 1000"),
    own("begin t3 setuid 0", f"busy {CALL}"),
    own("commit h3", "overridden 1"),
    own("revert t2", "ok"),
    own("revert t2", "not overridden"),
    own("commit h3", "ok c4 s3"),
    own("override t2 h7", "ok c5 s6"),
    own("take h11 t2", "ok c5 s6"),
    own(f"act {CALL}", "ok t3 c6 s9 left 0"),
    own(f"act {CALL}", f"no broadcast {CALL}"),
    own("commit h5", "stale c0 c3"),
    own("commit h8", "no task t4"),
    own("abort h8", "ok"),
    own("takefile h12 f1", "ok c0 s0"),
    ("t1 close f1", ("close f1 -> ok",)),
    own("change h6 keepcaps 1", "ok"),
    own("drop h1", "ok"),
    own("sweep", "ok"),
    own("begin t5 setresuid 2000 2000 2000", "ok c7 s4 left 0"),
    own("begin t1 setresuid 0 0 0", "ok c8 s7 left 1"),
    own(f"act {CALL + 24}", "ok t3 c9 s10 left 0"),
    ("t1 spawn t9", ("spawn t1 t9 -> ok c8 s7",)),
    ("t1 fork t8 p9", ("fork t1 t8 p9 -> ok c8 s7",)),
    own("abort h6", "ok"),
    own("prepare h9 t1 h12", "ok s5"),
    ("t9 exit", ("exit t9 -> ok",)),
    asking("t3 stat a", "ok c9 s10", "stat {0} a -> ok 0 0 0600 0"),
    asking("t3 stat b", "ok c9 s10", "stat {0} b -> ok 0 0 0755 1"),
    ("t3 dumped", ("dumped t3 -> ok 1",)),
)

# Each row of docs/FORMATS.md, "Where each answer is decided", with the refusals that this script
# can ask about, in their order.
REFUSED = (
    own("take h9 t9", "no task t9"),
    own("take h1 t1", "exists h1"),
    own("take h3 t1", "exists h3"),
    own("takereal h9 t9", "no task t9"),
    own("takereal h1 t1", "exists h1"),
    own("takefile h9 f9", "ebadf"),
    own("takefile h1 f1", "exists h1"),
    own("drop h9", "no hold h9"),
    own("drop h3", "no hold h3"),
    own("ask h9 ids", "no hold h9"),
    own("ask h3 ids", "no hold h3"),
    own("ask h1 capable 41", "einval"),
    own("ask h1 bset 41", "einval"),
    own("ask h1 ambis 41", "einval"),
    own("ask h2 check a r", "eacces"),
    own("prepare h9 t9 h1", "no task t9"),
    own("prepare h9 t1 h1", f"busy {CALL}"),
    own("prepare h9 t2 h9", "no hold h9"),
    own("prepare h1 t2 h2", "exists h1"),
    own("prepare h3 t2 h2", "exists h3"),
    own("change h9 ambclear", "no prepared h9"),
    own("change h1 ambclear", "no prepared h1"),
    own("change h3 capset 2000 0 0", "eperm"),
    own("change h3 capdrop 13", "eperm"),
    own("change h5 capdrop 41", "einval"),
    own("change h3 ambraise 41", "einval"),
    own("change h3 ambraise 13", "eperm"),
    own("change h3 amblower 41", "einval"),
    own("change h3 securebits 1", "eperm"),
    own("change h3 keepcaps 2", "einval"),
    own("change h3 nonewprivs 0", "einval"),
    own("change h3 exec a", "eacces"),
    own("change h3 exec b", "einval"),
    own("commit h9", "no prepared h9"),
    own("commit h1", "no prepared h1"),
    own("commit h6", "no prepared h6"),
    own("commit h7", "no prepared h7"),
    own("commit h8", "no task t4"),
    own("commit h5", f"busy {CALL}"),
    own("commit h3", "overridden 1"),
    own("abort h9", "no prepared h9"),
    own("abort h1", "no prepared h1"),
    own("override t9 h1", "no task t9"),
    own("override t1 h9", "no hold h9"),
    own("override t2 h3", "no hold h3"),
    own("override t2 h6", "no hold h6"),
    own("override t1 h7", "no hold h7"),
    own("revert t9", "no task t9"),
    own("revert t1", "not overridden"),
    own("begin t9 setuid 0", "no task t9"),
    own("begin t1 setuid 0", f"busy {CALL}"),
    own("begin t3 setuid 0", f"busy {CALL}"),
    own("begin t2 setuid 1000", "overridden 1"),
    own("begin t5 setuid 0", "eperm"),
    own("begin t5 setuid -1", "einval"),
    own("begin t5 setgroups", "eperm"),
    ("t9 raw setuid 0", ("raw t9 setuid 0 -> no task t9",)),
    ("t1 raw setuid 0", (f"raw t1 setuid 0 -> busy {CALL}",)),
    ("t3 raw setuid -1", (f"raw t3 setuid -1 -> busy {CALL}",)),
    ("t2 raw setuid 1000", ("raw t2 setuid 1000 -> overridden 1",)),
    ("t5 raw setuid 0", ("raw t5 setuid 0 -> eperm",)),
    ("t5 raw setuid -1", ("raw t5 setuid -1 -> einval",)),
    ("t5 raw setgroups", ("raw t5 setgroups -> eperm",)),
    own("act 1", "no broadcast 1"),
    ("t9 spawn t8", ("spawn t9 t8 -> no task t9",)),
    ("t1 spawn t8", (f"spawn t1 t8 -> busy {CALL}",)),
    ("t3 spawn t2", ("spawn t3 t2 -> exists t2",)),
    ("t2 spawn t8", ("spawn t2 t8 -> overridden 1",)),
    ("t9 fork t8 p8", ("fork t9 t8 p8 -> no task t9",)),
    ("t1 fork t8 p8", (f"fork t1 t8 p8 -> busy {CALL}",)),
    ("t3 fork t2 p8", ("fork t3 t2 p8 -> exists t2",)),
    ("t3 fork t8 p1", ("fork t3 t8 p1 -> exists p1",)),
    ("t2 fork t8 p8", ("fork t2 t8 p8 -> overridden 1",)),
    ("t9 exit", ("exit t9 -> no task t9",)),
    ("t1 exit", (f"exit t1 -> busy {CALL}",)),
    ("t2 exit", ("exit t2 -> overridden 1",)),
    asking("t1 open a r f1", "ok c3 s8", "open {0} a r f1 -> exists f1"),
    asking("t5 open a r f2", "ok c2 s2", "open {0} a r f2 -> eacces"),
    ("t1 close f9", ("close f9 -> ebadf",)),
    ("t9 signal t1", ("take {0} t9 -> no task t9",)),
    asking("t1 signal t9", "ok c3 s8", "takereal {1} t9 -> no task t9"),
    asking("t5 signal t1", "ok c2 s2", "takereal {1} t1 -> ok c3 s8",
           "signal t5 {0} t1 {1} -> eperm", "drop {1} -> ok"),
    ("t9 dumpable 0", ("dumpable t9 0 -> no task t9",)),
    ("t1 dumpable 2", ("dumpable t1 2 -> einval",)),
    ("t9 dumped", ("dumped t9 -> no task t9",)),
    asking("t1 ptrace fs t9", "ok c3 s8", "takereal {1} t9 -> no task t9"),
    asking("t5 ptrace real t1", "ok c2 s2", "takereal {1} t1 -> ok c3 s8",
           "ptrace real t5 {0} t1 {1} -> eperm", "drop {1} -> ok"),
    ("t9 stat a", ("take {0} t9 -> no task t9",)),
    asking("t5 chown a 2000 -1", "ok c2 s2", "chown {0} a 2000 -1 -> eperm"),
    asking("t5 chmod a 0666", "ok c2 s2", "chmod {0} a 0666 -> eperm"),
    asking("t5 setattr a 0100", "ok c2 s2", "setattr {0} a 0100 -> eperm"),
    asking("t5 clearattr b", "ok c2 s2", "clearattr {0} b -> eperm"),
    asking("t1 setattr a 0100", "ok c3 s8", "setattr {0} a 0100 -> einval"),
)


def at_first() -> Iterator[Case]:
    """A first task under a number that is taken."""
    other = "init t2 p2 1000 1000 n0"
    behind = (own(other, "ok c1 s1"), asking("t2 bits", "ok c1 s1", "ask {0} bits -> ok 0 0"))
    yield from cases_of(
        "a first task", [own(INIT, "ok c0 s0")], behind, [own("init t1 p2 5 5 n0", "exists t1")]
    )


def of_holds() -> Iterator[Case]:
    """512 holds: the next label holds nothing, and neither does a question."""
    before = [("file a reg 0 0 0600", ()), own(INIT, "ok c0 s0"), SETUP_ENDS]
    before.append(asking("t1 open a r f1", "ok c0 s0", "open {0} a r f1 -> ok"))
    before += [own(f"take h{label} t1", "ok c0 s0") for label in range(1, 513)]
    after = (
        own("drop h7", "ok"),
        own("take h600 t1", "ok c0 s0"),
        own("drop h513", "no hold h513"),
    )
    refused = (
        own("take h513 t1", "too many holds"),
        own("takereal h513 t1", "too many holds"),
        own("takefile h513 f1", "too many holds"),
        ("t1 ids", ("take {0} t1 -> too many holds",)),
    )
    yield from cases_of("holds", before, after, refused)


def of_prepared() -> Iterator[Case]:
    """64 labels are prepared: the next keeps no slot."""
    before = [own(INIT, "ok c0 s0"), SETUP_ENDS, own("take h1 t1", "ok c0 s0")]
    before += [own(f"prepare h{label} t1 h1", f"ok s{label - 1}") for label in range(2, 66)]
    after = (
        own("abort h5", "ok"),
        own("prepare h70 t1 h1", "ok s4"),
        own("begin t1 setuid 0", "ok c1 s65 left 0"),
    )
    refused = [own("prepare h66 t1 h1", "too many prepared")]
    yield from cases_of("prepared labels", before, after, refused)


def of_tasks() -> Iterator[Case]:
    """64 tasks live: there is no other."""
    inits = [f"init t{task} p{task} 0 0 n0" for task in range(1, 65)]
    before = [own(line, f"ok c{number} s{number}") for number, line in enumerate(inits)]
    before.append(SETUP_ENDS)
    one_more = own("init t65 p65 0 0 n0", "too many tasks")
    after = (
        ("t2 exit", ("exit t2 -> ok",)),
        ("t1 fork t65 p65", ("fork t1 t65 p65 -> ok c0 s0",)),
        own("begin t1 setuid 0", "ok c64 s64 left 0"),
    )
    refused = (
        one_more,
        ("t1 spawn t65", ("spawn t1 t65 -> too many tasks",)),
        ("t1 fork t65 p65", ("fork t1 t65 p65 -> too many tasks",)),
    )
    yield from cases_of("tasks", before, after, refused)


def of_files() -> Iterator[Case]:
    """256 files are open: there is no other."""
    before = [("file a reg 0 0 0600", ()), own(INIT, "ok c0 s0"), SETUP_ENDS]
    opened = ((f"t1 open a r f{fd}", f"open {{0}} a r f{fd} -> ok") for fd in range(1, 257))
    before += [asking(line, "ok c0 s0", entry) for line, entry in opened]
    after = (
        ("t1 close f9", ("close f9 -> ok",)),
        asking("t1 open a r f300", "ok c0 s0", "open {0} a r f300 -> ok"),
        own("takefile h1 f257", "ebadf"),
    )
    refused = [asking("t1 open a r f257", "ok c0 s0", "open {0} a r f257 -> too many files")]
    yield from cases_of("files", before, after, refused)


def of_overrides() -> Iterator[Case]:
    """Eight overrides: there is no ninth, neither of a hold nor of what is prepared for
    access(2)."""
    before = [
        own(INIT, "ok c0 s0"),
        SETUP_ENDS,
        own("take h1 t1", "ok c0 s0"),
        own("prepare h2 t1 h1", "ok s1"),
        own("change h2 access", "ok"),
        *[own("override t1 h1", "ok c0 s0")] * 8,
    ]
    after = (
        own("revert t1", "ok"),
        own("override t1 h2", "ok c1 s1"),
        *[own("revert t1", "ok")] * 8,
        own("revert t1", "not overridden"),
    )
    refused = (own("override t1 h1", "too deep"), own("override t1 h2", "too deep"))
    yield from cases_of("overrides", before, after, refused)


def of_execve() -> Iterator[Case]:
    """A program that isn't given all that its file permits. What a label has prepared before stays,
    and is committed; what it has not prepared yet is not there.

    capabilities(7), "Safety checking for capability-dumb binaries": "If the process did not obtain
    the full set of file permitted capabilities, then execve(2) fails with the error EPERM".
    """
    # cap_net_raw=ep, which the bounding set lacks. The first credential is deferred.
    before = (
        ("file a reg 0 0 0755 caps 0100000200200000000000000000000000000000", ()),
        own(INIT, "ok c0 s0"),
        SETUP_ENDS,
        own("take h1 t1", "ok c0 s0"),
        own("prepare h2 t1 h1", "ok s1"),
        own("change h2 capdrop 13", "ok"),
        own("commit h2", "ok c1 s1"),
        own("drop h1", "ok"),
        own("take h3 t1", "ok c1 s1"),
        own("prepare h4 t1 h3", "ok s2"),
        own("change h4 keepcaps 1", "ok"),
        own("prepare h5 t1 h3", "ok s3"),
    )
    after = (
        own("ask h3 bits", "ok 0 0"),
        own("commit h5", "no prepared h5"),
        own("change h5 setfsuid 7", "ok was 0"),
        own("prepare h6 t1 h3", "ok s4"),
        own("commit h4", "ok c2 s2"),
        asking("t1 bits", "ok c2 s2", "ask {0} bits -> ok 16 0"),
        own("commit h5", "stale c1 c2"),
        own("drop h3", "ok"),
        own("sweep", "ok"),
        own("begin t1 setuid 0", "ok c3 s0 left 0"),
    )
    in_a_call = ("prepare {1} t1 {0} -> ok s4", "change {1} exec a -> eperm", "abort {1} -> ok")
    refused = [own(f"change {label} exec a", "eperm") for label in ("h4", "h5")]
    refused.append(asking("t1 exec a", "ok c1 s1", *in_a_call))
    yield from cases_of("an execve", before, after, refused)


def of_calls() -> Iterator[Case]:
    """Calls of ids whose arguments are invalid: neither of the process's threads gets anything.

    setgroups(2): "EINVAL size is greater than NGROUPS_MAX"; docs/RULES.md: "more than 1,024 groups
    are EINVAL", "`-1` is EINVAL for setuid and seteuid, tested before EPERM", and it is so for the
    calls of group ids.
    """
    # The first credential is deferred.
    before = (
        own(INIT, "ok c0 s0"),
        SETUP_ENDS,
        ("t1 spawn t2", ("spawn t1 t2 -> ok c0 s0",)),
        own("begin t1 setresgid 0 0 0", "ok c1 s1 left 1"),
        own("act 4", "ok t2 c2 s2 left 0"),
    )
    # The lines of the two calls that are made.
    sets, leaves = len(before) + 3, len(before) + 7
    after = (
        asking("t2 groups", "ok c2 s2", "ask {0} groups -> ok"),
        own("begin t1 setgroups 3 1 2", "ok c3 s3 left 1"),
        own(f"act {sets}", "ok t2 c4 s4 left 0"),
        asking("t2 groups", "ok c4 s4", "ask {0} groups -> ok 1 2 3"),
        own("sweep", "ok"),
        own("begin t2 setresuid 5 5 5", "ok c5 s0 left 1"),
        own(f"act {leaves}", "ok t1 c6 s1 left 0"),
    )
    many = "setgroups " + " ".join(str(it) for it in range(1, 1026))
    calls = (many, "setuid -1", "seteuid -1", "setgid -1", "setegid -1")
    refused = [own(f"begin t1 {call}", "einval") for call in calls]
    refused.append((f"t2 {many}", (f"begin t2 {many} -> einval",)))
    yield from cases_of("a call of ids", before, after, refused)


def of_slots() -> Iterator[Case]:
    """256 slots are live, of which a sweep frees none: `table full` has made it."""
    before = [own(INIT, "ok c0 s0"), SETUP_ENDS]
    for number in range(255):
        before.append(own(f"take h{number + 1} t1", f"ok c{number} s{number}"))
        before.append(own("begin t1 setuid 0", f"ok c{number + 1} s{number + 1} left 0"))
    after = (
        own("take h256 t1", "ok c255 s255"),
        own("drop h5", "ok"),
        own("begin t1 setuid 0", "ok c256 s4 left 0"),
    )
    refused = (
        own("sweep", "ok"),
        own("begin t1 setuid 0", "table full"),
        own("prepare h300 t1 h1", "table full"),
        ("t1 raw setuid 0", ("raw t1 setuid 0 -> table full",)),
    )
    yield from cases_of("slots", before, after, refused)


def too_late() -> Iterator[Case]:
    """A commit comes too late: what was prepared is given up, as by `abort`, and its slot is taken
    next."""
    before = (
        own(INIT, "ok c0 s0"),
        SETUP_ENDS,
        own("take h1 t1", "ok c0 s0"),
        own("prepare h2 t1 h1", "ok s1"),
        own("change h2 keepcaps 1", "ok"),
        own("begin t1 setuid 0", "ok c1 s2 left 0"),
    )
    after = (own("commit h2", "no prepared h2"), own("begin t1 setuid 0", "ok c2 s1 left 0"))
    late = [own("abort h2", "ok"), own("commit h2", "stale c0 c1")]
    # Without either of them the label would stay.
    yield from list(cases_of("too late", before, after, late))[2:]


def cases() -> Iterator[Case]:
    """All of them."""
    yield from cases_of("a call is open", BEFORE, AFTER, REFUSED)
    yield from at_first()
    yield from (*of_holds(), *of_prepared(), *of_tasks(), *of_files(), *of_overrides())
    yield from (*of_execve(), *of_calls())
    yield from (*of_slots(), *too_late())
