"""A raw call where no slot is free.

docs/RULES.md: "A new credential takes the least slot that isn't live; if all are live, the sweep is
made and the least is looked for again; if there is still none, the table is full."
"""
from collections.abc import Iterator

import suite

SLOTS = 256


def filled() -> Iterator[tuple[str, str]]:
    """A root task, and a hold on each credential that a call gives it: 256 of them."""
    yield "init t1 p1 0 0 n0", "init t1 p1 0 0 n0 -> ok c0 s0"
    for number in range(1, SLOTS):
        take = f"take h{number} t1"
        yield take, f"{take} -> ok c{number - 1} s{number - 1}"
        yield "t1 raw setgid 0", f"raw t1 setgid 0 -> ok c{number} s{number}"
    last = SLOTS - 1
    yield f"take h{SLOTS} t1", f"take h{SLOTS} t1 -> ok c{last} s{last}"


def cases() -> Iterator[suite.Case]:
    """Once h5 is given up, the sweep that the next call makes frees the slot of the fifth one."""
    lines = [
        *filled(),
        ("t1 raw setresuid 5 5 5", "raw t1 setresuid 5 5 5 -> table full"),
        # A refusal of the call itself is told before a slot is looked for.
        ("t1 raw setuid -1", "raw t1 setuid -1 -> einval"),
        ("drop h5", "drop h5 -> ok"),
        ("t1 raw setresuid 5 5 5", "raw t1 setresuid 5 5 5 -> ok c256 s4"),
        ("t1 raw setresuid 5 5 5", "raw t1 setresuid 5 5 5 -> table full"),
    ]
    script = "".join(f"{line}\n" for line, _ in lines)
    report = "".join(f"{number} {entry}\n" for number, (_, entry) in enumerate(lines, 1))
    yield suite.script("all held", script, report, calls=len(lines))
