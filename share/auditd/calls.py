"""Which line of a script a recorded call is, and what the log says of its result."""

from __future__ import annotations

import errno
from functools import lru_cache

from strace.script.calls import OPERATIONS, Said
from strace.log.lines import Result

from .records import Event
from .spaces import Space
from .tasks import FILE_IDS, ID_CALLS, word

# linux/prctl.h: the options on credentials.
OPTIONS = {
    4: "PR_SET_DUMPABLE", 8: "PR_SET_KEEPCAPS", 24: "PR_CAPBSET_DROP", 28: "PR_SET_SECUREBITS",
    38: "PR_SET_NO_NEW_PRIVS", 47: "PR_CAP_AMBIENT",
}  # fmt: skip
REFUSALS = {-errno.EPERM: "eperm", -errno.EINVAL: "einval", -errno.EACCES: "eacces"}
AMBIENT = {1: "IS_SET", 2: "RAISE", 3: "LOWER", 4: "CLEAR_ALL"}


def result_of(done: bool, result: int) -> Result:
    """What a call returned."""
    if done:
        return Result(result, None)
    return Result(-1, errno.errorcode.get(-result, str(result)))


def refusal(event: Event) -> str | None:
    """`ok`, or the error in the words of a report; None where it isn't one of credentials."""
    if event.done:
        return "ok"
    return REFUSALS.get(event.result)


def id_call(event: Event, space: Space | None) -> Said | None:
    """setuid(2) and its kin. In a user namespace the ids are led to the initial one."""
    words = [word(arg, event.short) for arg in event.args[: ID_CALLS.get(event.name, 1)]]
    if space is not None:
        words = led(event, words, space)
        if not words:
            return None
    if event.name in FILE_IDS:
        was = "*" if space is not None else str(event.result)
        return Said(f"{event.name} {words[0]}", f"ok was {was}")
    said = refusal(event)
    return Said(f"{event.name} {' '.join(words)}", said) if said else None


def led(event: Event, words: list[str], space: Space) -> list[str]:
    """The ids of a call as the initial namespace has them; nothing where one isn't known."""
    groups = event.name.endswith("gid")
    at = 4 if groups else 0
    # Which of the eight ids each word becomes.
    left = [at + 3] if event.name in FILE_IDS else [at, at + 1, at + 2]
    left = [at + 1] if event.name in ("setuid", "setgid") else left
    found = []
    for named, place in zip(words, left, strict=False):
        known = (space.groups if groups else space.users).outside(int(named))
        if named == "-1":
            found.append(named)
        elif event.done:
            found.append(str(space.learn(int(named), event.ids[place], groups)))
        elif known is not None:
            found.append(str(known))
        else:
            return []
    return found


def setgroups(event: Event) -> Said | None:
    """setgroups(2), whose list no record has: here it is empty, unless it is known."""
    said = refusal(event)
    return Said("setgroups", said) if said else None


def capset(event: Event) -> Said | None:
    """capset(2), by its own record, which one that was refused lacks."""
    sets, said = event.capset, refusal(event)
    if sets is None or said is None:
        return None
    words = f"capset {sets.permitted:x} {sets.inheritable:x} {sets.effective:x}"
    return Said(words, said)


def prctl(event: Event) -> Said | None:
    """prctl(2), where its option is one on credentials."""
    return operation(event.args, event.done, event.result)


@lru_cache(maxsize=4096)
def operation(args: tuple[int, ...], done: bool, result: int) -> Said | None:
    """A line of prctl(2), by what it is given and what it returned."""
    option = OPTIONS.get(args[0] & 0xFFFFFFFF)
    if option is None:
        return None
    words = [str(arg) for arg in args[1:]]
    if option == "PR_CAP_AMBIENT":
        what = AMBIENT.get(args[1])
        if what is None:
            return None
        words[0] = f"PR_CAP_AMBIENT_{what}"
    return OPERATIONS[option]((option, *words), result_of(done, result))
