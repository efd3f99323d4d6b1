"""Every seteuid(2) and setegid(2) of a process with three ids, one of them root's."""
from collections.abc import Iterator
from dataclasses import replace

from processes import GROUPS, NONE, USERS, Process, Refused, followed, table
from suite import Case


def page(process: Process, euid: int) -> Process:
    """The process after seteuid(2)."""
    # "EINVAL: The target user or group ID is not valid in this user namespace."
    if euid == NONE:
        raise Refused("einval")
    # "Unprivileged processes may only set the effective user ID to the real user ID, the effective
    # user ID or the saved set-user-ID."
    if not process.privileged and euid not in (process.real, process.effective, process.saved):
        raise Refused("eperm")
    # "seteuid() sets the effective user ID of the calling process."
    return followed(replace(process, effective=euid))


def cases() -> Iterator[Case]:
    """ "Precisely the same holds for setegid() with "group" instead of "user"." """
    yield from table("seteuid", 1, USERS, page)
    yield from table("setegid", 1, GROUPS, page)
