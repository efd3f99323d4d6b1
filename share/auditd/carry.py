"""What goes from one script to the next: the program is asked what each thread has."""

from __future__ import annotations

from dataclasses import dataclass
from itertools import islice

from .build import Builder
from .living import Carried
from .records import Eight
from .tasks import Clone, Held, Kept, Process


@dataclass(frozen=True)
class Asked:
    """Where the lines stand that ask what a thread has."""

    process: Process
    ids: Eight
    number: int
    place: int


# So many clones of a process are kept whose children make no call, and so many processes that have
# ended, for late records of them.
MOST_CLONES = 64
MOST_ENDED = 4096
QUESTIONS = ("caps", "groups", "bits", "dumped")


def ask_all(builder: Builder) -> list[Asked]:
    """Asks at the end of a script what each thread that lives has."""
    found = []
    for process in builder.living.values():
        for task in process.threads:
            place = len(builder.script.body)
            found.append(Asked(process, task.ids, task.number, place))
            for question in QUESTIONS:
                builder.script.add(f"{task.name} {question}")
    return found


def carried(builder: Builder, answers: dict[int, str], asked: list[Asked], last: int) -> Carried:
    """The processes that live, with what the program says of them."""
    threads: dict[Process, list[tuple[Held, int]]] = {}
    dumpable: dict[Process, bool] = {}
    lead = builder.script.lead() + 1
    for one in asked:
        caps, groups, bits, dumped = (
            answers.get(lead + one.place + at, "").split()[1:] for at in range(len(QUESTIONS))
        )
        held = held_of(one.ids, caps, groups, bits)
        threads.setdefault(one.process, []).append((held, one.number))
        dumpable[one.process] = dumped == ["1"]
    found = dict(builder.carried)
    for process, ones in threads.items():
        found[process.pid] = Kept(
            tuple(held for held, _ in ones), tuple(number for _, number in ones),
            dumpable[process], process.program, process.parent, process.known, process.space,
            process.untold, clones_of(process), process.crowd, process.killed,
        )  # fmt: skip
    done = {(pid, place) for pid, place in builder.done if place > last}
    ended = builder.ended
    latest = dict(islice(ended.items(), max(0, len(ended) - MOST_ENDED), None))
    return Carried(found, done, latest)


def clones_of(process: Process) -> tuple[Clone, ...]:
    """The clones whose children make no call yet, the latest ones."""
    return tuple(
        Clone(one.event, one.same and not process.changed_since(one.event.place))
        for one in process.clones[-MOST_CLONES:]
    )


def held_of(ids: Eight, caps: list[str], groups: list[str], bits: list[str]) -> Held:
    """What a thread has, by the answers of `caps`, `groups` and `bits`."""
    permitted, inheritable, effective, bounding, ambient = (int(word, 16) for word in caps)
    return Held(ids, permitted, inheritable, effective, bounding, ambient,
                tuple(map(int, groups)), int(bits[0]), bits[1] == "1")  # fmt: skip
