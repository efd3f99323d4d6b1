"""A change whose commit comes too late: eight times over another lane changes the task's
credential.
"""
from collections.abc import Iterator

import suite
from reports import Script, Slots

TRIES = 8
# The lines of the change, and of the first call of the other lane.
CHANGE, FIRST = 4, 6
TASK, OTHER = 1, 2
CALL = "setuid 0"


def script() -> Script:
    """The script, and its report as `run` makes it: the change is in time."""
    made = Script()
    made.init(TASK, 1, 0, 0)
    made.spawn(TASK, OTHER)
    made.declares("lane 1")
    made.changes(TASK, "keepcaps 1")
    made.declares("lane 2")
    for _ in range(TRIES):
        made.ids(OTHER, CALL)
    return made


def late_entries() -> Iterator[str]:
    """The entries where each call of the other lane comes between a try's change and its commit."""
    slots = Slots()
    held, prepared = (f"h{100_000 + 10 * CHANGE + it}" for it in (0, 1))
    base = slots.seal(slots.keep())

    def sealed() -> tuple[int, str]:
        number = slots.seal(slots.keep())
        return number, f"ok c{number} s{slots.place[number]}"

    yield f"1 init t{TASK} p1 0 0 n0 -> ok c0 s0"
    yield f"2 spawn t{TASK} t{OTHER} -> ok c0 s0"
    for line in range(FIRST, FIRST + TRIES):
        yield f"{CHANGE} take {held} t{TASK} -> ok c{base} s{slots.place[base]}"
        kept = slots.keep()
        yield f"{CHANGE} prepare {prepared} t{TASK} {held} -> ok s{kept}"
        yield f"{CHANGE} change {prepared} keepcaps 1 -> ok"
        yield f"{line} begin t{OTHER} {CALL} -> {sealed()[1]} left 1"
        now, answer = sealed()
        yield f"{line} act {line} -> {answer.replace('ok', f'ok t{TASK}')} left 0"
        # "stale cN cN, the base and the task's current credential"; the slot is free at once.
        yield f"{CHANGE} commit {prepared} -> stale c{base} c{now}"
        slots.abort(kept)
        base = now
        yield f"{CHANGE} drop {held} -> ok"


def ended(lines: list[str]) -> str:
    """The lines as a text."""
    return "".join(f"{it}\n" for it in lines)


def cases() -> Iterator[suite.Case]:
    """The report of `run`, that where every try is late, and the latter with one try more."""
    made, late = script(), [*late_entries()]
    text, in_time, too_late = (ended(it) for it in (made.lines, made.entries, late))
    yield suite.script("eight", text, in_time, reports=(too_late.encode(),))
    now = late[-3].partition(f"ok t{TASK} ")[2].partition(" left")[0]
    ninth = f"{CHANGE} take h{100_000 + 10 * CHANGE} t{TASK} -> ok {now}\n"
    given = text + "report\n" + too_late + ninth
    yield suite.Case("a ninth", ("audit",), given.encode(), f"not legal {len(late) + 1}\n".encode())
