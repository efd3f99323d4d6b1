"""An execve by the manual and by Linux: what each leaves, and the rows by which they differ.

It is for the tools that tell of an execve which no kernel has made: what is known of it is the
credential before it and the file. An id that the user namespace doesn't map is told by a function.
"""

from __future__ import annotations

from collections.abc import Callable, Sequence
from dataclasses import dataclass

from . import rows
from .cred import Cred, Refused
from .files import execute
from .rows import EXPECTED, MANUAL, row
from .script import File

# The rows that an execve may be decided by, in the order in which they are told.
OF_EXECVE = (
    rows.NO_NEW_PRIVS_FILE, rows.NO_NEW_PRIVS_IDS, rows.SET_ID, rows.PLAIN_FILE, rows.UNMAPPED_FILE,
    rows.CAPABILITY, rows.LONG_ATTRIBUTE,
)  # fmt: skip
# What is told of a row that decides. Another row is told by its own two cells.
SENTENCES = {
    rows.NO_NEW_PRIVS_FILE: "under no_new_privs Linux reads the file's attribute: it gives what it "
    "gives of the old permitted set, and empties the ambient set",
    rows.SET_ID: "a set-id bit that brings no new user id and no new group leaves the ambient set "
    "on Linux",
}


@dataclass(frozen=True)
class Before:
    """The credential that an execve begins with: real, effective, saved and filesystem ids, five
    sets (permitted, inheritable, effective, bounding, ambient), and the two flags."""

    users: tuple[int, ...]
    group_ids: tuple[int, ...]
    groups: tuple[int, ...]
    sets: tuple[int, ...]
    securebits: int
    no_new_privs: bool


@dataclass(frozen=True)
class Outcome:
    """What an execve leaves; or how it is refused, and then what it left before."""

    users: tuple[int, ...]
    group_ids: tuple[int, ...]
    sets: tuple[int, ...]
    error: str = ""


@dataclass(frozen=True)
class Compared:
    """An execve by the manual's rules and by Linux's, and the rows by which they differ."""

    manual: Outcome
    linux: Outcome
    rows: tuple[str, ...]


def sentence(key: str) -> str:
    """What a row says, in a sentence."""
    if key in SENTENCES:
        return SENTENCES[key]
    ours, linux = row(key)
    return f"{ours}; on Linux {linux}" if linux else ours


def cred_of(before: Before, root: int, mapped: Callable[[int], bool]) -> Cred:
    """The credential, as the rules take one."""
    cred = Cred(before.users[0], before.group_ids[0], 0, root, mapped)
    cred.users, cred.group_ids = list(before.users), list(before.group_ids)
    cred.groups = list(before.groups)
    cred.permitted, cred.inheritable, cred.effective, cred.bounding, cred.ambient = before.sets
    cred.bits, cred.no_new_privs = before.securebits, before.no_new_privs
    return cred


def outcome(cred: Cred, file: File, roots: list[int], on: frozenset[str]) -> Outcome:
    """The execve by the rules with these rows."""
    try:
        made, error = execute(cred, file, roots, on), ""
    except Refused as why:
        made, error = cred, str(why)
    sets = made.permitted, made.inheritable, made.effective, made.bounding, made.ambient
    return Outcome(tuple(made.users), tuple(made.group_ids), sets, error)


def compared(
    before: Before, file: File, roots: Sequence[int], mapped: Callable[[int], bool] | None = None
) -> Compared:
    """An execve of a file, by the manual and by Linux. `roots` are the root ids of the namespace
    and of those above it. A row is named where Linux without it would do otherwise."""
    chain = list(roots)
    cred = cred_of(before, chain[0], mapped or (lambda _: True))
    manual = outcome(cred, file, chain, MANUAL)
    linux = outcome(cred, file, chain, EXPECTED)
    if manual == linux:
        return Compared(manual, linux, ())
    deciding = (it for it in OF_EXECVE if outcome(cred, file, chain, EXPECTED - {it}) != linux)
    return Compared(manual, linux, tuple(deciding))
