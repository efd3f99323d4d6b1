"""The calls that have to be tried in a state: no other one leads further.

- setresuid(2) stands for all calls that set user ids: what setuid(2), seteuid(2) and setreuid(2)
  make of a credential it makes too, and it is allowed where they are. setuid and seteuid are tried
  since a witness reads better with them. So for groups.
- Of the ids that nothing names one is enough: one of the task's own, or else a fresh one.
- Calls on sets and securebits are tried at their largest, and those that give less not at all: what
  they lead to is below the state already. Ids and groups are tried in every combination.
"""

from __future__ import annotations

import itertools
from collections.abc import Iterable, Iterator

from why.names import KEEP_CAPS, LAST

from .faults import Limit
from .order import PERMISSIVE, Scope
from .state import Ids, State

# Where a system's files name more groups than this, their combinations aren't tried.
MOST_GROUPS = 10
# A call, or several, one behind another: what is tried in one state.
Calls = tuple[str, ...]


def fresh(taken: Iterable[int]) -> int:
    """An id that nothing names."""
    known = set(taken)
    return next(number for number in itertools.count(60001) if number not in known)


def ids_in_play(now: Ids, named: frozenset[int]) -> list[int]:
    """The ids that are tried: those that are named, and one that isn't."""
    own = [id for id in now.three() if id not in named]
    other = own[0] if own else fresh([*named, now.fs])
    return [*sorted(named), other]


def set_three(suffix: str, now: Ids, ids: list[int]) -> Iterator[Calls]:
    """The calls that set the three ids, those of one word first."""
    for id in ids:
        yield (f"set{suffix} {id}",)
        yield (f"sete{suffix} {id}",)
    for three in itertools.product(ids, repeat=3):
        if three != now.three() or now.fs != now.effective:
            yield (f"setres{suffix} " + " ".join(map(str, three)),)


def set_fs(suffix: str, ids: list[int]) -> Iterator[Calls]:
    """The calls that set the filesystem id."""
    for id in ids:
        yield (f"setfs{suffix} {id}",)


def users(state: State, scope: Scope) -> Iterator[Calls]:
    """The calls that set user ids."""
    ids = ids_in_play(state.users, scope.users)
    yield from set_three("uid", state.users, ids)
    yield from set_fs("uid", ids)


def groups(state: State, scope: Scope) -> Iterator[Calls]:
    """The calls that set group ids and groups."""
    if not scope.by_groups:
        return
    if len(scope.groups) > MOST_GROUPS:
        raise Limit(f"{len(scope.groups)} groups decide who may execute the files")
    ids = ids_in_play(state.groups, scope.groups)
    yield from set_three("gid", state.groups, ids)
    yield from set_fs("gid", ids)
    for count in range(len(scope.groups) + 1):
        for some in itertools.combinations(sorted(scope.groups), count):
            yield (" ".join(["setgroups", *map(str, some)]),)


def no_new_privs(state: State, scope: Scope) -> Iterator[Calls]:
    """no_new_privs, where it may help."""
    if scope.nnp_may_help and not state.nnp:
        yield ("nonewprivs 1",)


MOVES = (users, groups, no_new_privs)


def moves(state: State, scope: Scope, files: Iterable[str]) -> Iterator[Calls]:
    """What is tried in a state, but for what only gives."""
    for kind in MOVES:
        yield from kind(state, scope)
    for name in files:
        yield (f"exec {name}",)


# ---- what only gives: one try, of all these calls one behind another

def capset(state: State) -> list[str]:
    """All that is permitted becomes effective, and as much as may be inheritable. The larger size,
    behind the smaller one, is refused without CAP_SETPCAP."""
    sizes = (state.inh | state.bound & state.perm, state.inh | state.bound)
    return [f"capset {state.perm:x} {inh:x} {state.perm:x}" for inh in dict.fromkeys(sizes)]


def best(bits: int) -> int:
    """The securebits that permit most of what may be set: nothing is locked that wasn't."""
    for place, value in PERMISSIVE.items():
        if not bits >> place + 1 & 1:
            bits = bits & ~(1 << place) | value << place
    return bits


def securebits(state: State) -> list[str]:
    """Each flag that isn't locked at its permissive value."""
    bits = best(state.bits)
    return [f"securebits {bits}"] if bits != state.bits else []


def keep_caps(state: State) -> list[str]:
    """KEEP_CAPS, which needs no capability."""
    return [] if state.bits & KEEP_CAPS else ["keepcaps 1"]


def ambient(state: State) -> list[str]:
    """All becomes ambient that is permitted and may be inheritable by then."""
    may = state.perm & (state.inh | state.bound) & ~state.amb
    return [f"ambraise {number}" for number in range(LAST + 1) if may >> number & 1]


RAISES = (capset, securebits, keep_caps, ambient)


def raised(state: State) -> Iterator[Calls]:
    """The calls that only give, as one try."""
    found = tuple(call for kind in RAISES for call in kind(state))
    if found:
        yield found
