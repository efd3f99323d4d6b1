"""Tasks whose pid only their own lines tell, as in a PID namespace.

There clone(2) returns the pid of the namespace, and strace writes that of its own before each line.
The tasks that nobody made are told apart by their order: pids are given in that of the creations,
in each namespace. So are those of creations whose end the log hasn't.
"""

from __future__ import annotations

from dataclasses import replace

from .lines import Result
from .reader import CREATIONS, UNTOLD, Call, Item


def matched(items: list[Item], first: int) -> list[Item]:
    """The same with the pids of the log as what the creations returned."""
    seen: dict[int, int] = {}
    for item in items:
        line = item.first if isinstance(item, Call) else item.last
        seen.setdefault(item.pid, line)
    made = [item for item in items if isinstance(item, Call) and is_creation(item)]
    known = {call.result.value for call in made}
    strangers = sorted(pid for pid in seen if pid not in known and pid != first)
    last = max((seen[pid] for pid in strangers), default=0)
    inner = [call for call in made if call.result.value not in seen]
    inner = [call for call in inner if not is_untold(call) or call.first < last]
    pairs = paired(items, inner, strangers, seen)
    found = [pairs.get(id(item), item) if isinstance(item, Call) else item for item in items]
    return [item for item in found if not isinstance(item, Call) or not is_untold(item)]


def is_untold(call: Call) -> bool:
    """Whether it made a task of which its own end doesn't tell the pid."""
    return (call.result.value or 0) >= UNTOLD


def is_creation(call: Call) -> bool:
    """Whether the call made a task."""
    return call.name in CREATIONS and call.result.error is None and (call.result.value or 0) > 0


def paired(
    items: list[Item], inner: list[Call], strangers: list[int], seen: dict[int, int]
) -> dict[int, Call]:
    """Each such creation with the pid of the task that it made, where that is certain."""
    if len(inner) != len(strangers):
        return {}
    groups = under_way(sorted(inner, key=lambda call: call.first))
    order = [call for group in groups for call in group]
    found = dict(zip(strangers, order, strict=True))
    if any(call.first > seen[pid] for pid, call in found.items()):
        return {}
    # Of creations that are under way at the same time their numbers tell which one came first,
    # where they are of one PID namespace.
    creators = Creators(items, found)
    if any(len({creators.space(call.pid) for call in group}) > 1 for group in groups):
        return {}
    if any(len(group) > 1 and any(map(is_untold, group)) for group in groups):
        return {}
    return {
        id(call): replace(
            call,
            result=Result(pid, None),
            inner=None if is_untold(call) else call.result.value,
        )
        for pid, call in found.items()
    }


def under_way(calls: list[Call]) -> list[list[Call]]:
    """The calls in groups of those that are under way at the same time, each by its result."""
    groups: list[list[Call]] = []
    last = 0
    for call in calls:
        if groups and call.first < last:
            groups[-1].append(call)
        else:
            groups.append([call])
        last = max(last, call.last)
    return [sorted(group, key=lambda call: call.result.value or 0) for group in groups]


class Creators:
    """Who made whom, by what the log tells and by what is supposed."""

    def __init__(self, items: list[Item], supposed: dict[int, Call]) -> None:
        calls = [item for item in items if isinstance(item, Call)]
        made = [call for call in calls if is_creation(call)]
        self._made = {call.result.value or 0: call for call in made} | supposed
        self._enters: dict[int, list[int]] = {}
        for call in calls:
            if call.name == "setns" or (call.name == "unshare" and makes_space(call)):
                self._enters.setdefault(call.pid, []).append(call.first)

    def space(self, pid: int) -> tuple[str, int]:
        """What made the PID namespace of a task: a task of its own there, or a line of the log."""
        passed: set[int] = set()
        while pid in self._made and pid not in passed:
            passed.add(pid)
            call = self._made[pid]
            if makes_space(call):
                return "pid", pid
            lines = [line for line in self._enters.get(call.pid, ()) if line < call.first]
            if lines and not any("CLONE_THREAD" in arg for arg in call.args):
                return "line", lines[-1]
            pid = call.pid
        return "pid", pid


def makes_space(call: Call) -> bool:
    """Whether the call makes a PID namespace."""
    return any("CLONE_NEWPID" in arg for arg in call.args)
