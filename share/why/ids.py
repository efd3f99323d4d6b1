"""Calls that set ids: why one is refused, and what becomes of the sets where user ids change."""

from __future__ import annotations

from collections.abc import Sequence

from limits import GROUPS

from . import sources
from .names import (
    AMBIENT, BOUNDING, EFFECTIVE, INHERITABLE, KEEP_CAPS, NO_SETUID_FIXUP, NUMBERS, PERMITTED,
    SETS, listed, named,
)  # fmt: skip
from .reason import Fault, Reason

KEPT = -1
SETUID, SETGID = NUMBERS["CAP_SETUID"], NUMBERS["CAP_SETGID"]
ON_FILES = sum(
    1 << NUMBERS[f"CAP_{name}"]
    for name in "CHOWN DAC_OVERRIDE DAC_READ_SEARCH FOWNER FSETID LINUX_IMMUTABLE MAC_OVERRIDE "
    "MKNOD".split()
)
USER_CALLS = ("setuid", "seteuid", "setreuid", "setresuid")


def of_users(call: str) -> bool:
    """Whether a call sets user ids."""
    return call in USER_CALLS


def needed(call: str) -> int:
    """The capability that a call asks for."""
    return SETUID if of_users(call) or call == "setfsuid" else SETGID


def places(call: str) -> list[tuple[int, ...]]:
    """For each argument, which of the old real, effective and saved id it may be unprivileged."""
    kind = call.replace("uid", "").replace("gid", "")
    allowed: dict[str, list[tuple[int, ...]]] = {
        "set": [(0, 2)], "sete": [(0, 1, 2)], "setre": [(0, 1), (0, 1, 2)],
        "setres": [(0, 1, 2)] * 3,
    }  # fmt: skip
    return allowed[kind]


IS_NONE = {
    (0, 2): "is neither the real nor the saved {} id, {}",
    (0, 1): "is neither the real nor the effective {} id, {}",
    (0, 1, 2): "is none of the real, effective and saved {} ids, {}",
}


def refusal(
    call: str, words: list[str], told: str, ids: Sequence[int], caps: Sequence[int]
) -> Reason:
    """Why a call that sets ids is refused."""
    capability = needed(call)
    has = caps[EFFECTIVE] >> capability & 1
    name = "CAP_SETUID" if capability == SETUID else "CAP_SETGID"
    if call == "setgroups":
        return refused_groups(words, told, has)
    args = [int(word) for word in words]
    who = "user" if of_users(call) else "group"
    if told == "einval":
        if call not in ("setuid", "seteuid", "setgid", "setegid") or args != [KEPT]:
            raise Fault(f"no sentence for einval of {call} {words}")
        return Reason(f"EINVAL: -1 is no {who} id, and {call}() keeps none", sources.errors(call))
    old = ids[:3] if who == "user" else ids[4:7]
    for arg, allowed in zip(args, places(call), strict=True):
        values = [old[place] for place in allowed]
        if arg == KEPT or arg in values:
            continue
        if has or told != "eperm":
            break
        among = IS_NONE[allowed].format(who, listed(values))
        return Reason(f"EPERM: {arg} {among}, and {name} is not effective", sources.errors(call))
    raise Fault(f"{call} {words} was answered {told}, but {name} is effective or each id allowed")


def refused_groups(words: list[str], told: str, has: int) -> Reason:
    """Why setgroups(2) is refused."""
    if told == "eperm" and not has:
        return Reason("EPERM: CAP_SETGID is not effective", sources.errors("setgroups"))
    if told == "einval" and has and len(words) > GROUPS:
        text = f"EINVAL: {len(words)} groups are more than {GROUPS}"
        return Reason(text, sources.errors("setgroups"))
    raise Fault(f"setgroups of {len(words)} groups was answered {told}, and CAP_SETGID: {has}")


def allowed(call: str, words: list[str], ids: Sequence[int], caps: Sequence[int]) -> Reason:
    """Why a call that sets ids is not refused."""
    name = "CAP_SETUID" if needed(call) == SETUID else "CAP_SETGID"
    if caps[EFFECTIVE] >> needed(call) & 1:
        return Reason(f"allowed: {name} is effective", sources.text(call))
    if call == "setgroups":
        raise Fault("setgroups was allowed, but CAP_SETGID is not effective")
    old = ids[:3] if of_users(call) else ids[4:7]
    for word, among in zip(words, places(call), strict=True):
        if int(word) != KEPT and int(word) not in [old[place] for place in among]:
            raise Fault(f"{call} {words} was allowed, but {word} is none of {old}")
    who = "user" if of_users(call) else "group"
    given = [word for word in words if int(word) != KEPT]
    text = f"{listed(given)} {'is' if len(given) == 1 else 'are'} among" if given else (
        "no id is given, beside")  # fmt: skip
    text = f"allowed without {name}: {text} the old {who} ids {listed(list(old))}"
    return Reason(text, sources.text(call))


def changes(
    call: str,
    old: Sequence[int],
    new: Sequence[int],
    before: Sequence[int],
    after: Sequence[int],
    bits: int,
    root: int,
) -> list[Reason]:
    """What the sets became where a call set ids, compared with what they were."""
    if not of_users(call):
        same(before, after, "a call that sets group ids changes no set")
        return []
    if bits & NO_SETUID_FIXUP:
        same(before, after, "SECBIT_NO_SETUID_FIXUP is set")
        return []
    sets, told = list(before), []
    left = root in old and root not in new
    if left:
        told += leaves_root(sets, old, new, bits, root)
    if old[1] == root != new[1] and sets[EFFECTIVE]:
        sets[EFFECTIVE] = 0
        text = f"effective emptied: the effective user id went from root's ({root}) to {new[1]}"
        told.append(Reason(text, sources.EFFECTIVE_LEFT, (EFFECTIVE,)))
    if old[1] != root == new[1] and sets[EFFECTIVE] != sets[PERMITTED]:
        sets[EFFECTIVE] = sets[PERMITTED]
        text = (
            f"effective became permitted, {named(sets[PERMITTED])}: the effective user id went "
            f"from {old[1]} to root's ({root})"
        )
        told.append(Reason(text, sources.EFFECTIVE_ROOT, (EFFECTIVE,)))
    same(sets, after, "the rules on user ids give others")
    return told


def leaves_root(
    sets: list[int], old: Sequence[int], new: Sequence[int], bits: int, root: int
) -> list[Reason]:
    """Root's ids are gone: the first rule. The sets are changed in place."""
    keeps = bits & KEEP_CAPS
    emptied = [AMBIENT] if keeps else [PERMITTED, EFFECTIVE, AMBIENT]
    lost = [SETS[place] for place in emptied if sets[place]]
    for place in emptied:
        sets[place] = 0
    among = (
        f"one of the old real, effective and saved user ids {listed(list(old))} was root's "
        f"({root}) and none of the new {listed(list(new))} is"
    )
    told = []
    if lost:
        keep = "KEEP_CAPS, which is set, keeps no ambient set" if keeps else "KEEP_CAPS unset"
        text = f"{listed(lost)} emptied: {among}; {keep}"
        told.append(Reason(text, sources.FROM_ROOT, tuple(emptied)))
    if keeps and sets[PERMITTED]:
        text = f"permitted stays {named(sets[PERMITTED])}, though {among}: KEEP_CAPS is set"
        told.append(Reason(text, sources.SECUREBITS))
    return told


def filesystem(
    call: str,
    word: str,
    ids: Sequence[int],
    new: Sequence[int],
    before: Sequence[int],
    after: Sequence[int],
    bits: int,
    root: int,
) -> list[Reason]:
    """What setfsuid and setfsgid made of the filesystem id and of the effective set."""
    user = call == "setfsuid"
    who, place = ("user", 3) if user else ("group", 7)
    name = "CAP_SETUID" if user else "CAP_SETGID"
    has = before[EFFECTIVE] >> needed(call) & 1
    four = ids[:4] if user else ids[4:]
    arg = int(word)
    if not has and arg not in four or arg == KEPT:
        if new[place] != ids[place]:
            raise Fault(f"{call} {word} should change nothing")
        same(before, after, "the filesystem id stays")
        why = "-1 is no id" if arg == KEPT else (
            f"{arg} is none of the {who} ids {listed(list(four))}, and {name} is not effective"
        )  # fmt: skip
        text = f"the filesystem {who} id stays {ids[place]}: {why}"
        return [Reason(text, sources.text(call))]
    if new[place] != arg:
        raise Fault(f"{call} {word} left the id {new[place]}")
    if not user or bits & NO_SETUID_FIXUP:
        same(before, after, "no set follows the filesystem id")
        return []
    return eight(ids[3], new[3], before, after, root)


def eight(
    old: int, new: int, before: Sequence[int], after: Sequence[int], root: int
) -> list[Reason]:
    """The eight capabilities on files follow the filesystem user id."""
    sets, told = list(before), []
    if old == root != new:
        sets[EFFECTIVE] &= ~ON_FILES
        text = f"effective lost {named(before[EFFECTIVE] & ON_FILES)}"
        text += f": the filesystem user id went from root's ({root}) to {new}"
    elif old != root == new:
        sets[EFFECTIVE] |= sets[PERMITTED] & ON_FILES
        text = f"effective gained {named(sets[EFFECTIVE] & ~before[EFFECTIVE])}"
        text += f", permitted: the filesystem user id went from {old} to root's ({root})"
    same(sets, after, "the rule on the filesystem user id gives others")
    if sets[EFFECTIVE] != before[EFFECTIVE]:
        told.append(Reason(text, sources.FILESYSTEM, (EFFECTIVE,)))
    return told


def same(sets: Sequence[int], after: Sequence[int], why: str) -> None:
    """The sets are what they should be; else it is a fault."""
    for place in (PERMITTED, INHERITABLE, EFFECTIVE, BOUNDING, AMBIENT):
        if sets[place] != after[place]:
            raise Fault(
                f"the {SETS[place]} set became {named(after[place])}, and should be "
                f"{named(sets[place])}: {why}"
            )
