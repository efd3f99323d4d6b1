"""The 256 slots of sealed credentials.

docs/RULES.md: "A new credential takes the least slot that isn't live; if all are live, the sweep is
made and the least is looked for again; if there is still none, the table is full."
"""
from collections.abc import Iterator, Sequence

import suite

INIT = "init t1 p1 0 0 n0"
CALL = "t1 setresuid 0 0 0"
CALLED = "begin t1 setresuid 0 0 0"
# A line and its event, if it makes one.
Line = tuple[str, str | None]


def numbered(lines: Sequence[Line]) -> tuple[str, str]:
    """A script of pairs of a line and its event, or none, and the report that it must get."""
    script = "".join(f"{line}\n" for line, _ in lines)
    entries = (f"{number} {event}\n" for number, (_, event) in enumerate(lines, 1) if event)
    return script, "".join(entries)


def held(count: int) -> Iterator[Line]:
    """A root task, and so many times a hold on its credential and a call that gives it the next
    one."""
    yield INIT, f"{INIT} -> ok c0 s0"
    for number in range(1, count + 1):
        take = f"take h{number} t1"
        yield take, f"{take} -> ok c{number - 1} s{number - 1}"
        yield CALL, f"{CALLED} -> ok c{number} s{number} left 0"


def full() -> suite.Case:
    """Each of 256 credentials is held, so each slot is in use, and a sweep frees none. Once h5 is
    given up, the sweep that the next call makes frees the slot of the fifth credential."""
    lines = [
        *held(255),
        ("take h256 t1", "take h256 t1 -> ok c255 s255"),
        (CALL, f"{CALLED} -> table full"),
        ("drop h5", "drop h5 -> ok"),
        (CALL, f"{CALLED} -> ok c256 s4 left 0"),
    ]
    return suite.script("all held", *numbered(lines), calls=len(lines))


def taken_again() -> suite.Case:
    """No credential is held. c0 to c255 take all slots in order, so c256 needs a sweep, which frees
    all but that of c255: c256 takes s0, and c257 s1."""
    lines = [(INIT, f"{INIT} -> ok c0 s0")]
    for number in range(1, 258):
        slot = number if number < 256 else number - 256
        lines.append((CALL, f"{CALLED} -> ok c{number} s{slot} left 0"))
    return suite.script("none held", *numbered(lines), calls=len(lines))


def thread_without() -> suite.Case:
    """Holds keep 254 slots and two threads share the credential of the next. The caller's new one
    takes the last slot, so the other thread finds none, and the process ends."""
    script, report = numbered([*held(254), ("t1 spawn t2", "spawn t1 t2 -> ok c254 s254")])
    script += f"{CALL}\nt2 exit\n"
    report += (
        f"511 {CALLED} -> ok c255 s255 left 1\n"
        "511 act 511 -> aborted t2 full\n"
        "512 exit t2 -> no task t2\n"
    )
    return suite.script("a thread without one", script, report, calls=512)


def cases() -> Iterator[suite.Case]:
    """All of them."""
    yield from (full(), taken_again(), thread_without())
