"""Every setfsuid(2) and setfsgid(2) of a process with three ids, one of them root's."""
from collections.abc import Iterator
from dataclasses import replace

from processes import GROUPS, NONE, USERS, Process, table, tries_fs
from suite import Case


def page(process: Process, fsuid: int) -> tuple[Process, int]:
    """The process after setfsuid(2), and what the call returns."""
    # "setfsuid() will succeed only if the caller is the superuser or if fsuid matches either the
    # caller's real user ID, effective user ID, saved set-user-ID, or current filesystem user ID."
    ids = process.real, process.effective, process.saved, process.fs
    # "On both success and failure, this call returns the previous filesystem user ID of the
    # caller"; "setfsuid(-1) (which will always fail)".
    if fsuid != NONE and (process.privileged or fsuid in ids):
        return replace(process, fs=fsuid), process.fs
    return process, process.fs


def cases() -> Iterator[Case]:
    """setfsgid(2) has the same sentences, with "group" for "user"."""
    yield from table("setfsuid", 1, USERS, page, tries_fs)
    yield from table("setfsgid", 1, GROUPS, page, tries_fs)
