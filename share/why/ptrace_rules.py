"""Looks into another task, and dumpable processes: which test decides, and since when."""

from __future__ import annotations

from collections.abc import Callable, Iterator, Sequence
from dataclasses import dataclass

from . import sources
from .names import EFFECTIVE, PERMITTED, listed, named
from .reason import Fault, Reason

SYS_PTRACE = 19
Ids = Sequence[int]
Sets = Sequence[int]


@dataclass(frozen=True)
class Flag:
    """What an event may have made of whether a process is dumpable, and what was before it.

    `kind` is `first`, `set`, `ids` or `execve`; `value` what the event says of itself, and the two
    credentials those of its task before it and behind it.
    """

    kind: str
    line: int
    before_it: Flag | None = None
    value: bool = True
    old: int | None = None
    new: int | None = None

    def chain(self) -> Iterator[Flag]:
        """This one, and those before it as far as they may decide."""
        link: Flag | None = self
        while link is not None:
            yield link
            link = link.before_it if link.kind == "ids" else None

    def credentials(self) -> Iterator[int]:
        """The credentials whose ids decide."""
        for link in self.chain():
            yield from (it for it in (link.old, link.new) if it is not None)


def differs(old: Ids, new: Ids) -> bool:
    """Whether an effective or a filesystem id of the user or of the group is another one."""
    return any(old[place] != new[place] for place in (1, 3, 5, 7))


def found(flag: Flag, ids: Callable[[int], Ids]) -> tuple[bool, Flag]:
    """Whether the process is dumpable, and what made it so."""
    for link in flag.chain():
        old, new = link.old, link.new
        other = old is not None and new is not None and differs(ids(old), ids(new))
        if link.kind == "execve":
            return link.value and not other, link
        if link.kind != "ids":
            return link.value, link
        if other:
            return False, link
    raise Fault("nothing began the process")


def since(flag: Flag, dumpable: bool, text: str) -> str:
    """What is told of it."""
    word = "dumpable" if dumpable else "not dumpable"
    why = {
        "first": "a process begins so", "set": "it was asked for",
        "ids": "an effective or a filesystem id became another one",
        "execve": "an execve that changes no such id and adds no capability makes it so"
        if dumpable else "the execve changed such an id, or added a capability",
    }  # fmt: skip
    return f"{word} since line {flag.line} (`{text}`): {why[flag.kind]}"


def of_ids(mode: str, ids: Ids, other: Ids) -> str | None:
    """Why the first test fails, or nothing."""
    place = 3 if mode == "fs" else 0
    for whose, first in (("user", 0), ("group", 4)):
        asks, has = ids[first + place], other[first : first + 3]
        if set(has) != {asks}:
            kind = "filesystem" if mode == "fs" else "real"
            return (
                f"the target's real, effective and saved {whose} ids, {listed(has)}, are not all "
                f"the {kind} {whose} id of the task that asks, {asks}"
            )
    return None


def of_sets(mode: str, caps: Sets, other: Sets, one_space: bool) -> str | None:
    """Why the third test fails, or nothing."""
    if not one_space:
        return "the two are in different user namespaces"
    which = EFFECTIVE if mode == "fs" else PERMITTED
    more = other[PERMITTED] & ~caps[which]
    if not more:
        return None
    kind = "effective" if mode == "fs" else "permitted"
    return f"{named(more)} is permitted to the target, and not {kind} in the task that asks"


def refused(mode: str, own: tuple[Ids, Sets], other: tuple[Ids, Sets], reach: bool,
            one_space: bool, dumpable: tuple[bool, str]) -> Reason:  # fmt: skip
    """Why a look is refused: the first test that fails."""
    effective = bool(own[1][EFFECTIVE] >> SYS_PTRACE & 1)
    if effective and reach:
        raise Fault("the look was refused, and CAP_SYS_PTRACE passes all tests")
    source = sources.TRACE
    why = of_ids(mode, own[0], other[0])
    if why is None and not dumpable[0]:
        why = f"the target's process is {dumpable[1]}"
        source = f"{sources.TRACE}; {sources.DUMPABLE}"
    why = why or of_sets(mode, own[1], other[1], one_space)
    if why is None:
        raise Fault("the look was refused, and all three tests are passed")
    lacks = (
        "CAP_SYS_PTRACE, which is effective, counts in its own user namespace and those below, and "
        "the target is in neither" if effective else "CAP_SYS_PTRACE is not effective"
    )  # fmt: skip
    return Reason(f"EPERM: {why}; and {lacks}", source)


def allowed(mode: str, own: tuple[Ids, Sets], other: tuple[Ids, Sets], reach: bool,
            one_space: bool, dumpable: tuple[bool, str]) -> Reason:  # fmt: skip
    """Why a look is allowed."""
    if own[1][EFFECTIVE] >> SYS_PTRACE & 1 and reach:
        where = "in the target's user namespace" if one_space else "above the target's namespace"
        return Reason(f"allowed: CAP_SYS_PTRACE is effective, {where}", sources.TRACE)
    fails = of_ids(mode, own[0], other[0]) or of_sets(mode, own[1], other[1], one_space)
    if fails or not dumpable[0]:
        raise Fault(f"the look was allowed, but {fails or dumpable[1]}")
    kind = "filesystem" if mode == "fs" else "real"
    which = "effective" if mode == "fs" else "permitted"
    text = (
        f"allowed: all ids of the target are the {kind} ones of the task that asks, its process is "
        f"{dumpable[1]}, and nothing is permitted to it that isn't {which} in the task that asks"
    )
    return Reason(text, sources.TRACE)
