"""Reports of scripts with lanes: which turns of the lanes make a report, and which make none.

docs/LANES.md: "the setup's lines first, each lane's lines in their order, each once and whole, and
every answer the one that the rules give in the state which the entries before it lead to".
"""
from collections.abc import Iterator

from suite import Case

# A task of root and one of a user, each of which is asked in a lane of its own.
ASKED = """\
init t1 p1 0 0 n0
init t2 p2 1000 1000 n0
lane 1
t1 ids
lane 2
t2 ids
"""
SETUP = (
    "1 init t1 p1 0 0 n0 -> ok c0 s0",
    "2 init t2 p2 1000 1000 n0 -> ok c1 s1",
)
ONE = (
    "4 take h100040 t1 -> ok c0 s0",
    "4 ask h100040 ids -> ok 0 0 0 0 0 0 0 0",
    "4 drop h100040 -> ok",
)
TWO = (
    "6 take h100060 t2 -> ok c1 s1",
    "6 ask h100060 ids -> ok 1000 1000 1000 1000 1000 1000 1000 1000",
    "6 drop h100060 -> ok",
)

# A task that becomes another user in one lane, and whose credential is taken in the other.
TAKEN = """\
init t1 p1 0 0 n0
lane 1
t1 setresuid 1000 1000 1000
lane 2
take h1 t1
"""
INIT = "1 init t1 p1 0 0 n0 -> ok c0 s0"
LEAVES = "3 begin t1 setresuid 1000 1000 1000 -> ok c1 s1 left 0"

# A lane of two lines.
TWO_LINES = """\
init t1 p1 0 0 n0
lane 1
take h1 t1
take h2 t1
"""

# Two lanes that make events, one of them with an empty line between, and a third one that has no
# line beside the one that opens it.
APART = """\
init t1 p1 0 0 n0
init t2 p2 0 0 n0
lane 1

take h1 t1
lane 2
take h2 t2
drop h2
lane 3
"""


def audited(name: str, script: str, report: tuple[str, ...], wrong: int | None = None) -> Case:
    """The audit of a report that goes wrong at this entry, or nowhere."""
    given = "".join(f"{line}\n" for line in (script.rstrip("\n"), "report", *report))
    written = "legal\n" if wrong is None else f"not legal {wrong}\n"
    return Case(name, ("audit",), given.encode(), written.encode())


def legal() -> Iterator[Case]:
    """The turns that make a report."""
    in_turns = [entry for pair in zip(ONE, TWO) for entry in pair]
    yield audited("lane 1, then lane 2", ASKED, (*SETUP, *ONE, *TWO))
    yield audited("lane 2, then lane 1", ASKED, (*SETUP, *TWO, *ONE))
    yield audited("in turns", ASKED, (*SETUP, *in_turns))
    yield audited("lane 1's line within lane 2's", ASKED, (*SETUP, TWO[0], *ONE, *TWO[1:]))
    yield audited("it leaves, then is taken", TAKEN, (INIT, LEAVES, "5 take h1 t1 -> ok c1 s1"))
    yield audited("it is taken, then leaves", TAKEN, (INIT, "5 take h1 t1 -> ok c0 s0", LEAVES))
    lines = ("3 take h1 t1 -> ok c0 s0", "4 take h2 t1 -> ok c0 s0")
    yield audited("the lines of one lane", TWO_LINES, (INIT, *lines))


def wrong() -> Iterator[Case]:
    """The turns that make none."""
    early = (SETUP[0], ONE[0], SETUP[1], *ONE[1:], *TWO)
    yield audited("before the setup has ended", ASKED, early, 2)
    yield audited("before it has begun", ASKED, ("4 take h100040 t1 -> no task t1",), 1)
    asked_first = (*SETUP, TWO[0], "4 ask h100040 ids -> no hold h100040", ONE[0], ONE[2], *TWO[1:])
    yield audited("two events of a line change places", ASKED, asked_first, 4)
    yield audited("the last entry is missing", ASKED, (*SETUP, *ONE, *TWO[:2]), 8)
    yield audited("the last entry of lane 1 is missing", ASKED, (*SETUP, *ONE[:2], *TWO), 8)
    yield audited("the setup alone", ASKED, SETUP, 3)
    before = "5 take h1 t1 -> ok c0 s0"
    yield audited("the answer of the other order", TAKEN, (INIT, LEAVES, before), 3)
    lines = ("4 take h2 t1 -> ok c0 s0", "3 take h1 t1 -> ok c0 s0")
    yield audited("the lines of a lane change places", TWO_LINES, (INIT, *lines), 2)


def apart() -> Iterator[Case]:
    """A lane waits for the setup, whose second line is left after the first. Then the later lane
    may go first, and all through its lines, and each lane ends for itself."""
    setup = (INIT, "2 init t2 p2 0 0 n0 -> ok c1 s1")
    second = ("7 take h2 t2 -> ok c1 s1", "8 drop h2 -> ok")
    first = "5 take h1 t1 -> ok c0 s0"
    yield audited("lane 2 all through", APART, (*setup, *second, first))
    yield audited("lane 1 within lane 2", APART, (*setup, second[0], first, second[1]))
    yield audited("lane 1 before the setup", APART, (first, *setup, *second), 1)
    yield audited("lane 2 in the setup", APART, (INIT, second[0], setup[1]), 2)
    yield audited("lane 2 ends before lane 1", APART, (*setup, *second), 5)


def cases() -> Iterator[Case]:
    """All of them."""
    yield from legal()
    yield from wrong()
    yield from apart()
