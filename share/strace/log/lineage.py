"""One process and its children out of a log of many."""

from __future__ import annotations

import re
from dataclasses import replace

from ..files import changes
from ..follow import path_calls
from .reader import CREATIONS, Call, Item, Renamed

# Calls that say where paths lead and what descriptors are of, for the children too.
CONTEXT = frozenset(
    "chdir fchdir chroot pivot_root mount umount umount2 open_tree fsmount move_mount "
    "mount_setattr open openat openat2 creat dup dup2 dup3 fcntl memfd_create pidfd_open "
    "unshare setns execve execveat".split()
) | {*path_calls.GIVEN, *changes.CALLS}


class NoProcess(Exception):
    """The log has no process of this pid."""


def creations(items: list[Item]) -> dict[int, Call]:
    """The first call that made each pid."""
    made: dict[int, Call] = {}
    for item in items:
        if isinstance(item, Call) and item.name in CREATIONS and (item.result.value or 0) > 0:
            made.setdefault(item.result.value or 0, item)
    return made


def is_thread(call: Call) -> bool:
    """Whether the call made a thread of the same process."""
    return any("CLONE_THREAD" in arg for arg in call.args)


def process_of(pid: int, made: dict[int, Call]) -> int:
    """The pid of the process that a thread is of."""
    seen = {pid}
    while pid in made and is_thread(made[pid]) and made[pid].pid not in seen:
        pid = made[pid].pid
        seen.add(pid)
    return pid


def ancestors(pid: int, made: dict[int, Call]) -> dict[int, Call]:
    """The processes that the process descends from, each with the call that made the next one."""
    found: dict[int, Call] = {}
    while pid in made and process_of(made[pid].pid, made) not in found:
        call = made[pid]
        pid = process_of(call.pid, made)
        found[pid] = call
    return found


def creates(item: Item) -> int | None:
    """The pid of the task that an item makes, if it makes one."""
    if isinstance(item, Call) and item.name in CREATIONS and (item.result.value or 0) > 0:
        return item.result.value
    return None


def enters(call: Call) -> bool:
    """Whether the call makes or enters a user namespace."""
    named = call.name in CREATIONS or call.name in ("unshare", "setns")
    return named and call.result.error is None and any("CLONE_NEWUSER" in arg for arg in call.args)


MOUNTING = ("mount", "umount", "umount2", "move_mount")


def mounts_apart(item: Item) -> bool:
    """Whether the item mounts something, and isn't only about who sees it."""
    if not isinstance(item, Call) or item.name not in MOUNTING or item.result.error:
        return False
    seen_by = any(re.match("MS_.*(PRIV|SLAV|SHAR)", argument) for argument in item.args)
    return item.name != "mount" or not seen_by


def changes_file(item: Item) -> bool:
    """Whether the item changes a file, which may be one that the process executed."""
    if not isinstance(item, Call) or item.result.error:
        return False
    return item.name in changes.CALLS or (item.name in path_calls.OPENS and changes.writes(item))


def before(item: Item, call: Call, pid: int, alone: bool) -> Item | None:
    """What an ancestor's item means for the process: what leads to it, or its place alone."""
    if not isinstance(item, Call):
        return None if alone else item
    if alone and enters(item) and (item is call or creates(item) is None):
        raise NoProcess(
            f"pid {pid} is in a user namespace that line {item.first} makes or enters: without "
            "--start what leads to it comes first"
        )
    if alone:
        told = item.name in CONTEXT or item is call
        return replace(item, pid=pid, context=True) if told else None
    return item if item is call or creates(item) is None or is_thread(item) else None


def family(items: list[Item], pid: int, alone: bool) -> tuple[int, list[Item]]:
    """The pid of the first task, and what the log tells of the process and its children.

    Where nothing is known of how the process begins (`alone` is false), the calls of its ancestors
    come before, up to those that made it: so its credential at the beginning is the one they left.
    """
    made = creations(items)
    if not any(item.pid == pid for item in items) or process_of(pid, made) != pid:
        raise NoProcess(f"pid {pid} is no process of this log")
    above = ancestors(pid, made)
    kept: list[Item] = []
    inside = set() if above else {pid}
    done: set[int] = set()
    for item in items:
        if isinstance(item, Renamed) and item.old in inside:
            inside.add(item.pid)
        process = process_of(item.pid, made)
        if item.pid in inside:
            kept.append(item)
            inside.add(creates(item) or pid)
        elif process in above and process not in done:
            meant = before(item, above[process], pid, alone)
            kept += [meant] if meant else []
            if item is above[process]:
                done.add(process)
                inside |= {pid} if creates(item) == pid else set()
        elif changes_file(item) and isinstance(item, Call):
            kept.append(replace(item, context=True))
        elif mounts_apart(item):
            raise NoProcess(
                f"line {item.last}: pid {item.pid} mounts what pid {pid} may see, and --task keeps "
                "neither: convert the whole log"
            )
    return (pid if alone or not above else list(above)[-1]), kept
