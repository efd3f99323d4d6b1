"""Wrong kernels: each breaks one sentence of a manual page, and `cases/check --kernel` must see it.

A wrong kernel answers by the rules of cred.py and files.py with one of them changed, as a plausible
bug would change it. `--wrong` checks each against the cases, until one finds it.
"""

from __future__ import annotations

from collections.abc import Callable
from dataclasses import replace
from typing import Any

from . import cred, files
from .cred import Cred, Refused
from .model import Model, expected
from .rules import ALL
from .script import NONE, File, Script
from .setup import Place

# A rule, whatever it takes: wrong ones are made of rules of many forms.
Rule = Callable[..., Any]
Make = Callable[[Rule], Rule]
# Each wrong kernel: what it does, and the function that it has otherwise: a module or a class, a
# name, and what makes it of the right one.
WRONG: dict[str, tuple[object, str, Make]] = {}


def wrong(what: str, place: object, name: str) -> Callable[[Make], Make]:
    """Adds a wrong kernel."""

    def add(make: Make) -> Make:
        WRONG[what] = place, name, make
        return make

    return add


def after(change: Rule) -> Make:
    """A wrong kernel that changes what the right one makes of a credential."""
    return lambda right: lambda old, *rest: change(old, right(old, *rest).copy(), *rest)


def at_change(what: str, name: str, change: Rule, place: object = cred) -> None:
    """Adds one that changes what a rule makes."""
    wrong(what, place, name)(after(change))


def with_bits(bits: int) -> Make:
    """A wrong kernel that doesn't see these securebits in a rule."""

    def make(right: Rule) -> Rule:
        def rule(old: Cred, *rest: object) -> object:
            blind = old.copy()
            blind.bits &= ~bits
            made = right(blind, *rest)
            new = made if isinstance(made, Cred) else blind
            new.bits |= old.bits & bits
            if made is None:
                for it in ("permitted", "effective", "ambient"):
                    setattr(old, it, getattr(blind, it))
            return made

        return rule

    return make


def with_file(**fields: Any) -> Make:
    """A wrong kernel that sees a file otherwise at execve."""
    return lambda right: lambda old, file, *rest: right(old, replace(file, **fields), *rest)


def fields(new: Cred, **its: object) -> Cred:
    """A credential with these fields."""
    for name, value in its.items():
        setattr(new, name, value)
    return new


# The calls that set ids: as gVisor's setreuid(2) was, and others of the kind.
@wrong("setreuid doesn't set the saved id", cred, "chosen")
def _(right: Rule) -> Rule:
    return lambda name, ids, *rest: (
        [*right(name, ids, *rest)[:2], ids[2]] if name == "setre" else right(name, ids, *rest)
    )


@wrong("setreuid always sets the saved id", cred, "chosen")
def _(right: Rule) -> Rule:
    def rule(name: str, ids: list[int], *rest: Any) -> list[int]:
        found: list[int] = right(name, ids, *rest)
        return [found[0], found[1], found[1]] if name == "setre" else found

    return rule


@wrong("setresuid sets the saved id where it is to be kept", cred, "chosen")
def _(right: Rule) -> Rule:
    def rule(name: str, ids: list[int], new: list[int], *rest: Any) -> list[int]:
        found: list[int] = right(name, ids, new, *rest)
        return [*found[:2], found[1]] if name == "setres" and new[2] == NONE else found

    return rule


@wrong("setuid of a privileged process sets the effective id alone", cred, "chosen")
def _(right: Rule) -> Rule:
    return lambda name, ids, new, privileged: right(
        name, ids, new, privileged and (name != "set" or new[0] not in (ids[0], ids[2]))
    )


@wrong("seteuid sets the saved id", cred, "chosen")
def _(right: Rule) -> Rule:
    def rule(name: str, *rest: Any) -> list[int]:
        found: list[int] = right(name, *rest)
        return [found[0], found[1], found[1]] if name == "sete" else found

    return rule


@wrong("-1 is EPERM for setuid, not EINVAL", cred, "chosen")
def _(right: Rule) -> Rule:
    def rule(name: str, ids: list[int], new: list[int], privileged: bool) -> Any:
        if name == "set" and new[0] == NONE and not privileged:
            raise Refused("eperm")
        return right(name, ids, new, privileged)

    return rule


at_change(
    "setgid leaves the filesystem group", "set_ids",
    lambda old, new, call, *_: fields(
        new, group_ids=[*new.group_ids[:3], old.group_ids[3]] if call == "setgid" else new.group_ids
    ),
)  # fmt: skip
at_change(
    "setgroups adds to the groups", "set_groups",
    lambda old, new, *_: fields(new, groups=sorted({*old.groups, *new.groups})),
)  # fmt: skip


# The sets after a change of ids.
@wrong("the ambient set survives leaving root", cred, "fixed")
def _(right: Rule) -> Rule:
    def rule(it: Cred, old: list[int]) -> None:
        kept = it.ambient
        right(it, old)
        it.ambient = kept & it.permitted

    return rule


@wrong("leaving root for a while keeps the effective set", cred, "fixed")
def _(right: Rule) -> Rule:
    def rule(it: Cred, old: list[int]) -> None:
        kept = it.effective
        right(it, old)
        if it.root in it.users[:3] and it.users[1] != it.root:
            it.effective = kept

    return rule


@wrong("coming back to root doesn't make the permitted set effective", cred, "fixed")
def _(right: Rule) -> Rule:
    def rule(it: Cred, old: list[int]) -> None:
        kept = it.effective
        right(it, old)
        it.effective = kept if it.users[1] == it.root != old[1] else it.effective

    return rule


wrong("KEEP_CAPS is not looked at", cred, "fixed")(with_bits(cred.KEEP_CAPS))
wrong("NO_SETUID_FIXUP is not looked at", cred, "fixed")(with_bits(cred.NO_FIXUP))


@wrong("setfsuid takes no capability on files", cred, "set_fs")
def _(right: Rule) -> Rule:
    def rule(old: Cred, *rest: Any) -> Any:
        new, was = right(old, *rest)
        return (fields(new.copy(), effective=old.effective), was)

    return rule


# Sets and securebits.
@wrong("capset makes inheritable what left the bounding set", cred, "capset")
def _(right: Rule) -> Rule:
    def rule(old: Cred, *rest: Any) -> Any:
        new = right(fields(old.copy(), bounding=ALL), *rest)
        return fields(new, bounding=old.bounding)

    return rule


at_change("capset leaves the ambient set", "capset", lambda old, new, *_: fields(
    new, ambient=old.ambient
))  # fmt: skip
at_change("a drop from the bounding set reaches the inheritable set", "drop", lambda old, new, *_: (
    fields(new, inheritable=old.inheritable & new.bounding)
))  # fmt: skip


@wrong("a drop from the bounding set needs no CAP_SETPCAP", cred, "drop")
def _(right: Rule) -> Rule:
    def rule(old: Cred, number: int) -> Any:
        new = right(fields(old.copy(), effective=ALL), number)
        return fields(new, effective=old.effective)

    return rule


wrong("NO_CAP_AMBIENT_RAISE is not looked at", cred, "ambient")(with_bits(cred.NO_RAISE))
wrong("the lock of KEEP_CAPS is not looked at", cred, "keep_caps")(with_bits(cred.KEEP_CAPS << 1))


@wrong("a locked securebit may change", cred, "securebits")
def _(right: Rule) -> Rule:
    return lambda old, new, on: fields(
        right(fields(old.copy(), bits=old.bits & ~cred.LOCKS), new, on), bits=new
    )


# execve(2).
at_change("execve keeps KEEP_CAPS", "execute", lambda old, new, *_: fields(
    new, bits=old.bits
), files)  # fmt: skip
at_change("the ambient set survives a set-user-ID execve", "execute", lambda old, new, *_: fields(
    new, ambient=old.ambient, permitted=new.permitted | old.ambient
), files)  # fmt: skip
at_change("execve leaves the saved user", "execute", lambda old, new, *_: fields(
    new, users=[*new.users[:2], old.users[2], new.users[3]]
), files)  # fmt: skip
at_change("execve empties the inheritable set", "execute", lambda old, new, *_: fields(
    new, inheritable=0
), files)  # fmt: skip
at_change("no_new_privs ends at execve", "execute", lambda old, new, *_: fields(
    new, no_new_privs=False
), files)  # fmt: skip
wrong("nosuid is not looked at", files, "execute")(with_file(nosuid=False))


@wrong("the set-group-ID bit counts without the group's execute bit", files, "by_set_id")
def _(right: Rule) -> Rule:
    return lambda old, file, on: right(old, replace(file, mode=file.mode | 0o10), on)


@wrong("no_new_privs leaves set-id bits in force", files, "by_set_id")
def _(right: Rule) -> Rule:
    return lambda old, file, on: right(fields(old.copy(), no_new_privs=False), file, on)


@wrong("the bounding set doesn't limit what a file permits", files, "permitted_by")
def _(right: Rule) -> Rule:
    return lambda old, *rest: right(fields(old.copy(), bounding=ALL), *rest)


@wrong("an attribute of one namespace counts in all", files, "attribute_of")
def _(right: Rule) -> Rule:
    return lambda old, file, roots, on: right(old, file, [*roots, 100_000, 200_000], on)


@wrong("a capability-dumb file is executed with less than it permits", files, "execute")
def _(right: Rule) -> Rule:
    def rule(old: Cred, file: File, roots: list[int], on: frozenset[str]) -> Any:
        try:
            return right(old, file, roots, on)
        except Refused as why:
            if str(why) != "eperm":
                raise
            return right(old, replace(file, attribute=None), roots, on)

    return rule


wrong("NOROOT is not looked at", files, "is_root")(
    lambda right: lambda old, *rest: right(fields(old.copy(), bits=old.bits & ~1), *rest)
)


@wrong("a set-user-ID-root file with an attribute gives all capabilities", files, "is_root")
def _(right: Rule) -> Rule:
    return lambda old, user, attribute: right(old, user, None)


# Checks and signals.
@wrong("access(2) decides by the effective ids", files, "by_real_ids")
def _(right: Rule) -> Rule:
    return lambda old: fields(
        right(old),
        users=[*old.users[:3], old.users[1]],
        group_ids=[*old.group_ids[:3], old.group_ids[1]],
    )


@wrong("access(2) by root looks at the effective set", files, "by_real_ids")
def _(right: Rule) -> Rule:
    return lambda old: fields(right(old), effective=right(old).effective & old.effective)


@wrong("supplementary groups don't count in a check", files, "may")
def _(right: Rule) -> Rule:
    return lambda old, *rest: right(fields(old.copy(), groups=[]), *rest)


@wrong("the owner's class doesn't decide alone", files, "may")
def _(right: Rule) -> Rule:
    return lambda old, file, want, on: (
        right(old, file, want, on)
        or right(fields(old.copy(), users=[*old.users[:3], NONE]), file, want, on)
    )


@wrong("CAP_DAC_OVERRIDE executes without an execute bit", files, "may")
def _(right: Rule) -> Rule:
    return lambda old, file, want, on: right(old, file, want, on) or old.has(1)


@wrong("CAP_KILL is not looked at", Model, "may_kill")
def _(right: Rule) -> Rule:
    return lambda self, *rest: False


@wrong("a signal is allowed by the target's effective id", Model, "signals")
def _(right: Rule) -> Rule:
    def rule(self: Model, name: str, other: str) -> Any:
        mine, its = (self.tasks[it].cred.users if it in self.tasks else [] for it in (name, other))
        return "ok" if its and its[1] in mine[:2] else right(self, name, other)

    return rule


# Threads.
@wrong("an id call of one thread is every thread's credential", Model, "follow")
def _(right: Rule) -> Rule:
    def rule(self: Model, line: int) -> Any:
        cast = self.casts.get(line)
        answer = right(self, line)
        if cast is not None and cast.caller in self.tasks:
            for it in self.tasks.values():
                if it.process == cast.process:
                    it.cred = self.tasks[cast.caller].cred
        return answer

    return rule


class WrongKernel:
    """Answers as one of these would."""

    def __init__(self, what: str, place: Place) -> None:
        self.what = what
        self.place = place
        self.kernel = f"a kernel where {what}"
        owner, name, make = WRONG[what]
        self.owner, self.name = owner, name
        self.right = getattr(owner, name)
        self.made = make(self.right)

    def answers(self, script: Script) -> dict[int, str]:
        """What it answers."""
        setattr(self.owner, self.name, self.made)
        try:
            return expected(script, self.place)[0]
        finally:
            setattr(self.owner, self.name, self.right)
