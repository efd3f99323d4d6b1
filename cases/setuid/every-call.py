"""Every setuid(2) and setgid(2) of a process with three ids, one of them root's."""
from collections.abc import Iterator
from dataclasses import replace

from processes import GROUPS, NONE, USERS, Process, Refused, followed, table
from suite import Case


def page(process: Process, uid: int) -> Process:
    """The process after setuid(2)."""
    # "EINVAL: The user ID specified in uid is not valid in this user namespace."
    if uid == NONE:
        raise Refused("einval")
    # "EPERM: The user is not privileged (Linux: does not have the CAP_SETUID capability in its user
    # namespace) and uid does not match the real UID or saved set-user-ID of the calling process."
    if not process.privileged and uid not in (process.real, process.saved):
        raise Refused("eperm")
    # "If the calling process is privileged (more precisely: if the process has the CAP_SETUID
    # capability in its user namespace), the real UID and saved set-user-ID are also set."
    if process.privileged:
        process = replace(process, real=uid, saved=uid)
    # "setuid() sets the effective user ID of the calling process."
    return followed(replace(process, effective=uid))


def cases() -> Iterator[Case]:
    """setgid(2) has the same sentences, with "group" for "user" and CAP_SETGID for CAP_SETUID."""
    yield from table("setuid", 1, USERS, page)
    yield from table("setgid", 1, GROUPS, page)
