"""Reports in which one answer is another, or an entry is missing: the first wrong one is named.

docs/AUDIT.md: "an entry left out, put in, or moved up: the first line that is not what stands there
in the script's own report"; "the last entries cut off: one more than the entries that are left".
"""
from collections.abc import Iterator

from suite import Case

# A root task that becomes another user.
USER = """\
init t1 p1 0 0 n0
t1 setresuid 1000 1000 1000
t1 caps
t1 ids
"""
USER_REPORT = (
    "1 init t1 p1 0 0 n0 -> ok c0 s0",
    "2 begin t1 setresuid 1000 1000 1000 -> ok c1 s1 left 0",
    "3 take h100030 t1 -> ok c1 s1",
    "3 ask h100030 caps -> ok 0 0 0 1ffffffffff 0",
    "3 drop h100030 -> ok",
    "4 take h100040 t1 -> ok c1 s1",
    "4 ask h100040 ids -> ok 1000 1000 1000 1000 0 0 0 0",
    "4 drop h100040 -> ok",
)

# A call that every thread makes, and a thread that is created while two still wait for their step.
SPAWNED = """\
init t1 p1 0 0 n0
t1 spawn t2
t1 spawn t3
begin t1 setresuid 5 5 5
t2 spawn t4
act 4
act 4
act 4
t4 ids
"""
SPAWNED_REPORT = (
    "1 init t1 p1 0 0 n0 -> ok c0 s0",
    "2 spawn t1 t2 -> ok c0 s0",
    "3 spawn t1 t3 -> ok c0 s0",
    "4 begin t1 setresuid 5 5 5 -> ok c1 s1 left 2",
    "5 spawn t2 t4 -> ok c0 s0",
    "6 act 4 -> ok t2 c2 s2 left 2",
    "7 act 4 -> ok t3 c3 s3 left 1",
    "8 act 4 -> ok t4 c4 s4 left 0",
    "9 take h100090 t4 -> ok c4 s4",
    "9 ask h100090 ids -> ok 5 5 5 5 0 0 0 0",
    "9 drop h100090 -> ok",
)

# A prepared credential whose task got another one meanwhile.
STALE = """\
init t1 p1 0 0 n0
take h1 t1
prepare h2 t1 h1
change h2 keepcaps 1
t1 setresuid 0 0 0
commit h2
commit h2
"""
STALE_REPORT = (
    "1 init t1 p1 0 0 n0 -> ok c0 s0",
    "2 take h1 t1 -> ok c0 s0",
    "3 prepare h2 t1 h1 -> ok s1",
    "4 change h2 keepcaps 1 -> ok",
    "5 begin t1 setresuid 0 0 0 -> ok c1 s2 left 0",
    "6 commit h2 -> stale c0 c1",
    "7 commit h2 -> no prepared h2",
)


def audited(name: str, script: str, report: tuple[str, ...], wrong: int | None = None) -> Case:
    """The audit of a report that goes wrong at this entry, or nowhere."""
    given = "".join(f"{line}\n" for line in (script.rstrip("\n"), "report", *report))
    written = "legal\n" if wrong is None else f"not legal {wrong}\n"
    return Case(name, ("audit",), given.encode(), written.encode())


def with_entry(report: tuple[str, ...], number: int, entry: str) -> tuple[str, ...]:
    """The report with another entry of this number."""
    return (*report[: number - 1], entry, *report[number:])


def without(report: tuple[str, ...], number: int) -> tuple[str, ...]:
    """The report without the entry of this number."""
    return (*report[: number - 1], *report[number:])


def of_a_user() -> Iterator[Case]:
    """Of a task that leaves root."""
    keeps = with_entry(USER_REPORT, 4, "3 ask h100030 caps -> ok 1 0 0 1ffffffffff 0")
    yield audited("a user", USER, USER_REPORT)
    yield audited("it would keep a capability", USER, keeps, 4)
    yield audited("the last entry is missing", USER, without(USER_REPORT, 8), 8)
    yield audited("one in the middle is missing", USER, without(USER_REPORT, 4), 4)


def of_threads() -> Iterator[Case]:
    """Of a thread that is created while its creator waits."""
    alone = ("6 act 4 -> ok t2 c2 s2 left 1", "7 act 4 -> ok t3 c3 s3 left 0")
    would_not_wait = (*SPAWNED_REPORT[:5], *alone, "8 act 4 -> no broadcast 4")
    other_order = (*SPAWNED_REPORT[:5], "6 act 4 -> ok t3 c2 s2 left 2")
    yield audited("threads", SPAWNED, SPAWNED_REPORT)
    yield audited("the new one would not wait", SPAWNED, would_not_wait, 6)
    yield audited("they would follow in another order", SPAWNED, other_order, 6)


def of_commits() -> Iterator[Case]:
    """Of a commit that comes too late."""
    kept_slot = "5 begin t1 setresuid 0 0 0 -> ok c1 s1 left 0"
    committed = "6 commit h2 -> ok c2 s1"
    yield audited("a commit", STALE, STALE_REPORT)
    yield audited("it would lose its slot", STALE, with_entry(STALE_REPORT, 5, kept_slot), 5)
    yield audited("it would be in time", STALE, with_entry(STALE_REPORT, 6, committed), 6)


def cases() -> Iterator[Case]:
    """All of them."""
    yield from of_a_user()
    yield from of_threads()
    yield from of_commits()
