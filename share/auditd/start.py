"""What /proc said of the processes of a host where its log begins."""

from __future__ import annotations

import os
import re

from strace.script.start import BadStart, Status, status_of
from tool.inputs import Fault

from .living import MOST_THREADS
from .records import Eight
from .spaces import Ids, Map, Space
from .tasks import Held, Kept, Known

PARENT = re.compile(r"^PPid:\s+(\d{1,9})$", re.MULTILINE)


def eight(status: Status) -> Eight:
    """The ids of a status."""
    one, two, three, four = status.users
    five, six, seven, eighth = status.groups
    return one, two, three, four, five, six, seven, eighth


def held_of(status: Status) -> Held:
    """What a thread has."""
    return Held(
        eight(status), status.permitted, status.inheritable, status.effective, status.bounding,
        status.ambient, tuple(sorted(status.others)), status.securebits or 0, status.no_new_privs,
    )  # fmt: skip


def text_of(path: str) -> str:
    """The text of a small file."""
    try:
        with open(path, "rb") as file:
            return file.read(1 << 20).decode("latin-1")
    except OSError as fault:
        raise Fault(f"{path}: {fault.strerror}") from None


# The maps of the initial user namespace.
INITIAL = [(0, 0, 4294967295)]


def map_in(path: str) -> Map | None:
    """A map of /proc; None where it isn't there."""
    if not os.path.exists(path):
        return None
    rows = [line.split() for line in text_of(path).splitlines()]
    if not all(len(row) == 3 and all(word.isdigit() for word in row) for row in rows):
        raise Fault(f"{path}: it is no map of a user namespace")
    return [(int(inside), int(outside), int(count)) for inside, outside, count in rows]


def space_in(place: str, known: dict[str, Space]) -> Space | None:
    """The user namespace of a process: those with one link, or with the same maps, are one."""
    users, groups = map_in(f"{place}/uid_map"), map_in(f"{place}/gid_map")
    if users is None or groups is None or users == groups == INITIAL:
        return None
    link = link_of(f"{place}/ns/user") or f"{users} {groups}"
    found = known.get(link)
    if found is None:
        found = known[link] = Space(users=Ids(users), groups=Ids(groups))
    return found


def numbers_in(folder: str) -> list[int]:
    """The pids that a folder has folders of."""
    try:
        return sorted(int(name) for name in os.listdir(folder) if re.fullmatch(r"\d{1,9}", name))
    except OSError as fault:
        raise Fault(f"{folder}: {fault.strerror}") from None


def process_in(folder: str, pid: int, spaces: dict[str, Space]) -> Kept | None:
    """A process, by its folder; None where that has no status, as of one that ended meanwhile."""
    place = f"{folder}/{pid}"
    tasks = f"{place}/task"
    threads = {}
    if os.path.isdir(tasks):
        threads = {number: f"{tasks}/{number}/status" for number in numbers_in(tasks)}
        threads = {number: path for number, path in threads.items() if os.path.exists(path)}
    if not threads and os.path.exists(f"{place}/status"):
        threads = {pid: f"{place}/status"}
    texts = {number: text_of(path) for number, path in threads.items()}
    held = {}
    for number, text in texts.items():
        try:
            held[number] = held_of(status_of(text))
        except BadStart as fault:
            raise Fault(f"{threads[number]}: {fault}") from None
    if not held:
        return None
    every = sorted(held, key=lambda number: (number != pid, number))
    numbers = distinct(every, held)
    parent = PARENT.search(texts[numbers[0]])
    program = link_of(f"{place}/exe")
    return Kept(
        tuple(held[number] for number in numbers), tuple(numbers), None, program,
        int(parent[1]) if parent else 0, Known(True, len(numbers) == len(every), True),
        crowd=len(every) - len(numbers), space=space_in(place, spaces),
    )  # fmt: skip


def distinct(numbers: list[int], held: dict[int, Held]) -> list[int]:
    """The threads of a process, or where it has many those that have something else each."""
    if len(numbers) <= MOST_THREADS:
        return numbers
    found: dict[Held, int] = {}
    for number in numbers:
        found.setdefault(held[number], number)
    return list(found.values())[:MOST_THREADS]


def link_of(path: str) -> str:
    """Where a link of /proc leads, or what a file in its place says; nothing without either."""
    try:
        return os.readlink(path)
    except OSError:
        return text_of(path).strip() if os.path.isfile(path) else ""


def started(folder: str | None) -> dict[int, Kept]:
    """The processes that a folder tells of."""
    if folder is None:
        return {}
    spaces: dict[str, Space] = {}
    found = {pid: process_in(folder, pid, spaces) for pid in numbers_in(folder)}
    known = {pid: kept for pid, kept in found.items() if kept is not None}
    if not known:
        raise Fault(f"{folder}: it has no folder PID with a file status, as /proc has")
    return known
