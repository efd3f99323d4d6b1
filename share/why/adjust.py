"""Calls on sets, securebits and no_new_privs: why one is refused, and what it changed."""

from __future__ import annotations

from collections.abc import Callable, Sequence

from . import sources
from .ids import same
from .names import (
    ALL_FLAGS, AMBIENT, BOUNDING, EFFECTIVE, INHERITABLE, KEEP_CAPS_LOCKED, LAST, LOCKS,
    NO_AMBIENT_RAISE, NUMBERS, PERMITTED, cap_name, cap_number, flags, named,
)  # fmt: skip
from .reason import BITS, CAPS, Fault, Reason

SETPCAP = NUMBERS["CAP_SETPCAP"]
# What each call is decided on.
NEEDS = {
    "capset": (CAPS,), "capdrop": (CAPS,), "ambraise": (CAPS, BITS), "amblower": (), "ambclear": (),
    "securebits": (CAPS, BITS), "keepcaps": (BITS,), "nonewprivs": (),
}  # fmt: skip


def refusal(words: list[str], told: str, caps: Sequence[int], bits: Sequence[int]) -> Reason:
    """Why such a call is refused. What the rule doesn't ask for, `caps` or `bits`, is
    empty."""
    found = REFUSALS[words[0]](words, told, caps, bits)
    if found is None:
        raise Fault(f"{' '.join(words)} was answered {told}, and no condition for it holds")
    return found


def capset(words: list[str], told: str, caps: Sequence[int], bits: Sequence[int]) -> Reason | None:
    """The four conditions of capset(2), in the manual's order."""
    permitted, inheritable, effective = (int(word, 16) for word in words[1:4])
    has = caps[EFFECTIVE] >> SETPCAP & 1
    old_permitted, old_inheritable, bounding = (
        caps[PERMITTED], caps[INHERITABLE], caps[BOUNDING]
    )  # fmt: skip
    more = inheritable & ~(old_inheritable | old_permitted)
    if told != "eperm":
        return None
    if more and not has:
        return Reason(
            f"EPERM: {named(more)} would be inheritable, and is neither in the old inheritable "
            f"set, {named(old_inheritable)}, nor permitted, {named(old_permitted)}; CAP_SETPCAP is "
            "not effective", sources.CAPSETS[0],
        )  # fmt: skip
    more = inheritable & ~(old_inheritable | bounding)
    if more:
        return Reason(
            f"EPERM: {named(more)} would be inheritable, and is neither in the old inheritable "
            f"set, {named(old_inheritable)}, nor in the bounding set, {named(bounding)}",
            sources.CAPSETS[1],
        )  # fmt: skip
    more = permitted & ~old_permitted
    if more:
        return Reason(
            f"EPERM: {named(more)} would be permitted, and is not in the old permitted set, "
            f"{named(old_permitted)}", sources.CAPSETS[2],
        )  # fmt: skip
    more = effective & ~permitted
    if more:
        return Reason(
            f"EPERM: {named(more)} would be effective, and is not in the new permitted set, "
            f"{named(permitted)}", sources.CAPSETS[3],
        )  # fmt: skip
    return None


def above(word: str) -> bool:
    """Whether there is no capability of this number."""
    return cap_number(word) > LAST


def no_capability(word: str, source: str) -> Reason:
    """There is none of this number."""
    return Reason(f"EINVAL: {word} is no capability: the last one is {LAST}", source)


def capdrop(words: list[str], told: str, caps: Sequence[int], bits: Sequence[int]) -> Reason | None:
    """CAP_SETPCAP is asked first, then the number."""
    if not caps[EFFECTIVE] >> SETPCAP & 1:
        found = Reason("EPERM: CAP_SETPCAP is not effective", sources.BOUND_DROP)
        return found if told == "eperm" else None
    if told == "einval" and above(words[1]):
        return no_capability(words[1], sources.BOUND_DROP)
    return None


def ambraise(
    words: list[str], told: str, caps: Sequence[int], bits: Sequence[int]
) -> Reason | None:
    """The number is asked first; then permitted and inheritable, and the flag."""
    if above(words[1]):
        return no_capability(words[1], sources.RAISE) if told == "einval" else None
    number = cap_number(words[1])
    name = cap_name(number)
    lacks = [
        f"{name} is not in the {what} set, {named(caps[place])}"
        for place, what in ((PERMITTED, "permitted"), (INHERITABLE, "inheritable"))
        if not caps[place] >> number & 1
    ]
    if bits[0] & NO_AMBIENT_RAISE:
        lacks.append(f"{flags(NO_AMBIENT_RAISE)} is set")
    if told != "eperm" or not lacks:
        return None
    return Reason("EPERM: " + "; ".join(lacks), sources.RAISE)


def amblower(
    words: list[str], told: str, caps: Sequence[int], bits: Sequence[int]
) -> Reason | None:
    """Only the number may be wrong."""
    if told == "einval" and above(words[1]):
        return no_capability(words[1], sources.LOWER)
    return None


def securebits(
    words: list[str], told: str, caps: Sequence[int], bits: Sequence[int]
) -> Reason | None:
    """CAP_SETPCAP, the locks, and flags that there are not."""
    new, old = int(words[1]), bits[0]
    locked = (old & LOCKS) >> 1
    lacks = []
    if new & ~ALL_FLAGS:
        lacks.append(f"{flags(new & ~ALL_FLAGS)} is no flag that there is")
    if old & LOCKS & ~new:
        lacks.append(f"{flags(old & LOCKS & ~new)} is set, and a lock is never cleared")
    if (old ^ new) & locked:
        lacks.append(f"{flags((old ^ new) & locked)} would change, and is locked")
    if not caps[EFFECTIVE] >> SETPCAP & 1:
        lacks.append("CAP_SETPCAP is not effective")
    if told != "eperm" or not lacks:
        return None
    return Reason("EPERM: " + "; ".join(lacks), sources.SET_BITS)


def keepcaps(
    words: list[str], told: str, caps: Sequence[int], bits: Sequence[int]
) -> Reason | None:
    """The number is asked first; then the lock."""
    if int(words[1]) > 1:
        found = Reason(f"EINVAL: {words[1]} is neither 0 nor 1", sources.KEEP)
        return found if told == "einval" else None
    if told == "eperm" and bits[0] & KEEP_CAPS_LOCKED:
        return Reason(f"EPERM: {flags(KEEP_CAPS_LOCKED)} is set", sources.KEEP)
    return None


def nonewprivs(
    words: list[str], told: str, caps: Sequence[int], bits: Sequence[int]
) -> Reason | None:
    """It is set by 1 alone."""
    if told == "einval" and words[1] != "1":
        return Reason(f"EINVAL: {words[1]} is not 1, and the flag is never unset",
                      sources.NO_NEW_PRIVS)  # fmt: skip
    return None


REFUSALS: dict[str, Callable[..., Reason | None]] = {
    "capset": capset, "capdrop": capdrop, "ambraise": ambraise, "amblower": amblower,
    "securebits": securebits, "keepcaps": keepcaps, "nonewprivs": nonewprivs,
}  # fmt: skip


def changes(words: list[str], before: Sequence[int], after: Sequence[int]) -> list[Reason]:
    """What the sets became by such a call, compared with what they were."""
    call, sets = words[0], list(before)
    told: list[Reason] = []
    if call == "capset":
        told += set_sets(words, sets)
    elif call == "capdrop":
        sets[BOUNDING] &= ~(1 << cap_number(words[1]))
        told.append(one(words, "bounding lost {}: the call drops it", sources.BOUND_DROP))
    elif call == "ambraise":
        sets[AMBIENT] |= 1 << cap_number(words[1])
        text = "ambient gained {}: it is permitted and inheritable"
        told.append(one(words, text, sources.RAISE))
    elif call == "amblower":
        sets[AMBIENT] &= ~(1 << cap_number(words[1]))
        told.append(one(words, "ambient lost {}: the call lowers it", sources.LOWER))
    elif call == "ambclear":
        sets[AMBIENT] = 0
        told.append(Reason("ambient emptied: the call clears it", sources.CLEAR))
    same(sets, after, f"the rule of {call} gives others")
    return told if sets != list(before) else []


def one(words: list[str], text: str, source: str) -> Reason:
    """A sentence on the capability that the call names."""
    return Reason(text.format(cap_name(cap_number(words[1]))), source)


def set_sets(words: list[str], sets: list[int]) -> list[Reason]:
    """The sets as capset(2) leaves them, in place; and how that came."""
    new = [int(word, 16) for word in words[1:4]]
    told = []
    parts = [
        f"{name} became {named(value)}"
        for name, place, value in zip(
            ("permitted", "inheritable", "effective"), (PERMITTED, INHERITABLE, EFFECTIVE), new,
            strict=True,
        )
        if sets[place] != value
    ]  # fmt: skip
    if parts:
        text = ", ".join(parts) + ", as the call says"
        told.append(Reason(text, sources.ADJUSTING, (PERMITTED, INHERITABLE, EFFECTIVE)))
    sets[PERMITTED], sets[INHERITABLE], sets[EFFECTIVE] = new
    lost = sets[AMBIENT] & ~(new[0] & new[1])
    if lost:
        sets[AMBIENT] &= ~lost
        text = f"ambient lost {named(lost)}: it is no longer both permitted and inheritable"
        told.append(Reason(text, sources.THREAD_SETS, (AMBIENT,)))
    return told
