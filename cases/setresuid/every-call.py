"""Every setresuid(2) and setresgid(2) of a process with three ids, one of them root's."""
from collections.abc import Iterator
from dataclasses import replace

from processes import GROUPS, NONE, USERS, Process, Refused, followed, table
from suite import Case


def page(old: Process, ruid: int, euid: int, suid: int) -> Process:
    """The process after setresuid(2)."""
    # "An unprivileged process may change its real UID, effective UID, and saved set-user-ID, each
    # to one of: the current real UID, the current effective UID, or the current saved
    # set-user-ID."
    may = NONE, old.real, old.effective, old.saved
    if not old.privileged and not {ruid, euid, suid} <= {*may}:
        raise Refused("eperm")
    # "If one of the arguments equals -1, the corresponding value is not changed."
    given = {"real": ruid, "effective": euid, "saved": suid}
    new = replace(old, **{name: it for name, it in given.items() if it != NONE})
    # "Regardless of what changes are made to the real UID, effective UID, and saved set-user-ID,
    # the filesystem UID is always set to the same value as the (possibly new) effective UID."
    return followed(new)


def cases() -> Iterator[Case]:
    """ "Completely analogously, setresgid() sets the real GID, effective GID, and saved
    set-group-ID [..] with the same restrictions for unprivileged processes."
    """
    yield from table("setresuid", 3, USERS, page)
    yield from table("setresgid", 3, GROUPS, page)
