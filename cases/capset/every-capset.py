"""Every capset(2) of one capability: by a process that has it in each of sixteen ways, with
CAP_SETPCAP effective or not, to each way to have it permitted, inheritable and effective.
"""
from collections.abc import Iterator
from itertools import product

from processes import ALL, NET_RAW, RAW, Refused, Way, ways
from reports import Script
from suite import Case

# The bits of CAP_SETPCAP, which each process has permitted, and effective where that is asked.
SETPCAP = 0x100
ROOT, TASK, CHILD = 1, 2, 3
# Whether it is to be permitted, inheritable and effective.
New = tuple[bool, bool, bool]


def page(old: Way, new: New, able: bool) -> bool:
    """Whether it is ambient after, where capset is not refused: capabilities(7), "Programmatically
    adjusting capability sets".
    """
    permitted, inheritable, _, bounding, ambient = old
    new_permitted, new_inheritable, new_effective = new
    # "If the caller does not have the CAP_SETPCAP capability, the new inheritable set must be a
    # subset of the combination of the existing inheritable and permitted sets."
    if not able and new_inheritable > (inheritable or permitted):
        raise Refused("eperm")
    # "The new inheritable set must be a subset of the combination of the existing inheritable set
    # and the capability bounding set."
    if new_inheritable > (inheritable or bounding):
        raise Refused("eperm")
    # "The new permitted set must be a subset of the existing permitted set."
    if new_permitted > permitted:
        raise Refused("eperm")
    # "The new effective set must be a subset of the new permitted set."
    if new_effective > new_permitted:
        raise Refused("eperm")
    # "Ambient capabilities are automatically lowered if either of the corresponding permitted or
    # inheritable capabilities is lowered."
    return ambient and new_permitted and new_inheritable


def call(sets: tuple[bool, ...], able: bool) -> str:
    """The call that has CAP_NET_RAW in these of the permitted, inheritable and effective sets."""
    permitted, inheritable, effective = (RAW * it for it in sets)
    return f"capset {permitted | SETPCAP:x} {inheritable:x} {effective | SETPCAP * able:x}"


def told(sets: tuple[bool, ...], able: bool) -> str:
    """The five sets, as a report has them."""
    permitted, inheritable, effective, bounding, ambient = (RAW * it for it in sets)
    own = f"{permitted | SETPCAP:x} {inheritable:x} {effective | SETPCAP * able:x}"
    return f"ok {own} {ALL & ~RAW | bounding:x} {ambient:x}"


def make(script: Script, way: Way, able: bool) -> None:
    """Makes a child of root that has CAP_NET_RAW so."""
    permitted, inheritable, effective, bounding, ambient = way
    script.fork(ROOT, TASK, 2)
    script.changes(TASK, f"capset {ALL:x} {RAW * inheritable:x} {ALL:x}")
    if ambient:
        script.changes(TASK, f"ambraise {NET_RAW}")
    if not bounding:
        script.changes(TASK, f"capdrop {NET_RAW}")
    script.changes(TASK, call((permitted, inheritable, effective), able))


def tries(script: Script, way: Way, new: New, able: bool) -> None:
    """A child of that one makes the call, and is asked for its sets."""
    script.fork(TASK, CHILD, 3)
    try:
        after = *new, way[3], page(way, new, able)
    except Refused as why:
        script.changes(CHILD, call(new, able), str(why))
        after = way
    else:
        script.changes(CHILD, call(new, able))
    script.asks(CHILD, "caps", told(after, able))
    script.exit(CHILD)


def cases() -> Iterator[Case]:
    """One script for all."""
    script = Script()
    script.init(ROOT, 1, 0, 0)
    for way, able in product(ways(), (False, True)):
        make(script, way, able)
        for new in product((False, True), (False, True), (False, True)):
            tries(script, way, new, able)
        script.exit(TASK)
    yield script.case("of each", 16 * 2 * 8)
