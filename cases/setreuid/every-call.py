"""Every setreuid(2) and setregid(2) of a process with three ids, one of them root's."""
from collections.abc import Iterator
from dataclasses import replace

from processes import GROUPS, NONE, USERS, Process, Refused, followed, table
from suite import Case


def page(old: Process, ruid: int, euid: int) -> Process:
    """The process after setreuid(2)."""
    # "Supplying a value of -1 for either the real or effective user ID forces the system to leave
    # that ID unchanged."
    new = old
    if euid != NONE:
        # "Unprivileged processes may only set the effective user ID to the real user ID, the
        # effective user ID, or the saved set-user-ID."
        if not old.privileged and euid not in (old.real, old.effective, old.saved):
            raise Refused("eperm")
        new = replace(new, effective=euid)
    if ruid != NONE:
        # "Unprivileged users may only set the real user ID to the real user ID or the effective
        # user ID."
        if not old.privileged and ruid not in (old.real, old.effective):
            raise Refused("eperm")
        new = replace(new, real=ruid)
    # "If the real user ID is set (i.e., ruid is not -1) or the effective user ID is set to a value
    # not equal to the previous real user ID, the saved set-user-ID will be set to the new effective
    # user ID."
    if ruid != NONE or euid not in (NONE, old.real):
        new = replace(new, saved=new.effective)
    return followed(new)


def cases() -> Iterator[Case]:
    """ "Completely analogously, setregid() [..], and all of the above holds with "group" instead of
    "user"."
    """
    yield from table("setreuid", 2, USERS, page)
    yield from table("setregid", 2, GROUPS, page)
