"""Mistakes that are planted in the search and in the bounds: the walks must find each.

They are made in place, for the time of a check. So it shows that the walks would find such a
mistake, and which scripts the check must keep for it.
"""

from __future__ import annotations

from collections.abc import Callable, Iterator
from concurrent.futures import ProcessPoolExecutor
from contextlib import contextmanager
from dataclasses import dataclass

from .. import growth, moves, order
from ..declared import Executable
from ..faults import Limit
from ..moves import Calls
from ..state import Ids, State
from . import filewalks, walks
from .compared import closed
from .scripts import Case, of_reach, starts

MOST, FILEWALKS = 3000, 60
# Those with many states come last.
LARGE = ("cap-setgid", "cap-setuid", "bounding-not-cut")


@dataclass(frozen=True)
class Plant:
    """A mistake: in what, under which name, and what stands there instead."""

    name: str
    module: object
    attribute: str
    value: object
    in_bounds: bool = False


def no_call(*_: object) -> Iterator[Calls]:
    """No call at all."""
    yield from ()


def no_setresuid(suffix: str, now: Ids, ids: list[int]) -> Iterator[Calls]:
    """setuid(2) and seteuid(2) alone."""
    for id in ids:
        yield (f"set{suffix} {id}",)
        yield (f"sete{suffix} {id}",)


def no_fresh(now: Ids, named: frozenset[int]) -> list[int]:
    """The named ids and those of the task."""
    return sorted({*named, *now.three()})


def small_capset(state: State) -> list[str]:
    """A capset without what CAP_SETPCAP would make inheritable."""
    return [f"capset {state.perm:x} {state.inh | state.bound & state.perm:x} {state.perm:x}"]


def raises_without(gone: Callable[[State], list[str]]) -> tuple[Callable[[State], list[str]], ...]:
    """What only gives, but for one kind."""
    return tuple(kind for kind in moves.RAISES if kind is not gone)


def without(kinds: tuple[object, ...], gone: object) -> tuple[object, ...]:
    """All kinds of growth but one."""
    return tuple(kind for kind in kinds if kind is not gone)


def in_search() -> list[Plant]:
    """Those in the calls that are tried, and in the order of states."""
    small = tuple(small_capset if it is moves.capset else it for it in moves.RAISES)
    return [
        Plant("no setfsuid", moves, "set_fs", no_call),
        Plant("no setresuid", moves, "set_three", no_setresuid),
        Plant("no fresh id", moves, "ids_in_play", no_fresh),
        Plant("no capset", moves, "RAISES", raises_without(moves.capset)),
        Plant("nothing inheritable by CAP_SETPCAP", moves, "RAISES", small),
        Plant("no ambraise", moves, "RAISES", raises_without(moves.ambient)),
        Plant("no securebits", moves, "RAISES", raises_without(moves.securebits)),
        Plant("no KEEP_CAPS", moves, "RAISES", raises_without(moves.keep_caps)),
        Plant("groups left out", Executable, "asks_who", property(lambda file: False)),
        Plant("securebits not compared", order, "bits_at_least", lambda large, small: True),
    ]


def in_bounds() -> list[Plant]:
    """Those in what adds to bounds."""
    kinds = {
        "a set-user-ID file of one's own": ("CHANGES", growth.by_own_files),
        "CAP_SETFCAP": ("CHANGES", growth.by_setfcap), "capset": ("CALLS", growth.by_capset),
        "owners": ("CHANGES", growth.by_owners), "root's execve": ("EXECVES", growth.by_root),
        "CAP_SETUID": ("CALLS", growth.by_setuid), "CAP_SETGID": ("CALLS", growth.by_setgid),
        "NOROOT unset by CAP_SETPCAP": ("CALLS", growth.by_setpcap),
        "set-id files": ("EXECVES", growth.by_set_id_files),
        "attributes": ("EXECVES", growth.by_attributes),
    }  # fmt: skip
    return [
        Plant(f"bounds without {name}", growth, where, without(getattr(growth, where), gone), True)
        for name, (where, gone) in kinds.items()
    ]


@contextmanager
def made(plant: Plant) -> Iterator[None]:
    """The mistake, for a time."""
    before = plant.module.__dict__[plant.attribute]
    setattr(plant.module, plant.attribute, plant.value)
    try:
        yield
    finally:
        setattr(plant.module, plant.attribute, before)


def search_of(case: Case, plant: Plant) -> bool:
    """Whether a mistake is found in a script."""
    with made(plant):
        start = next(starts(case))
        try:
            search = closed(start, MOST)
        except Limit:
            return False
        if plant.in_bounds:
            return bool(filewalks.walk(search, case.name, FILEWALKS).outside)
        return bool(walks.walk(search, case.name).outside)


def found_in(place: int, everywhere: bool) -> list[str]:
    """The scripts in which the mistake at a place of the list is found, or the first of them."""
    plant, found = [*in_search(), *in_bounds()][place], []
    for case in sorted(of_reach(), key=lambda case: case.name in LARGE):
        if search_of(case, plant):
            found.append(case.name)
            if not everywhere:
                break
    return found


def find(everywhere: bool, jobs_at_once: int | None) -> int:
    """Plants each, and tells in which scripts it is found; the status is 1 where one isn't."""
    plants = [*in_search(), *in_bounds()]
    status = 0
    with ProcessPoolExecutor(jobs_at_once) as pool:
        jobs = [pool.submit(found_in, place, everywhere) for place in range(len(plants))]
        for plant, job in zip(plants, jobs, strict=True):
            found = job.result()
            status |= not found
            where = " ".join(found) or "nowhere"
            print(f"{plant.name}: found in {where}", flush=True)
    return int(status)
