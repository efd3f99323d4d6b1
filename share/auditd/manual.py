"""The place in the manual that decides what is compared."""

from __future__ import annotations

from .records import Event
from .script import Kind

CHANGES_OF_USERS = 'capabilities(7), "Effect of user ID changes on capabilities"'
EXECVE = 'capabilities(7), "Transformation of capabilities during execve()"'
ADJUSTS = 'capabilities(7), "Programmatically adjusting capability sets"'
PRCTL = {
    4: "prctl(2), PR_SET_DUMPABLE",
    8: "prctl(2), PR_SET_KEEPCAPS",
    24: "prctl(2), PR_CAPBSET_DROP",
    28: "prctl(2), PR_SET_SECUREBITS",
    38: "prctl(2), PR_SET_NO_NEW_PRIVS",
    47: "prctl(2), PR_CAP_AMBIENT",
}
OTHERS = {
    "kill": "kill(2), EPERM",
    "tkill": "kill(2), EPERM",
    "ptrace": 'ptrace(2), "Ptrace access mode checking"',
    "capset": f"capset(2); {ADJUSTS}",
}
UNCHANGED = 'credentials(7), "User and group identifiers": no other call changes them'


def place_of(event: Event, kind: Kind) -> str:
    """Where the manual says what the rules answer."""
    name = event.name
    if kind is Kind.PROGRAM:
        return "execve(2)"
    if event.executes:
        return "execve(2), DESCRIPTION" if kind is Kind.IDS else f"execve(2); {EXECVE}"
    if name.startswith("set") and name.endswith(("id", "groups")):
        page = f"{name}(2)"
        return f"{page}; {CHANGES_OF_USERS}" if kind is Kind.SETS else page
    if name == "prctl":
        return PRCTL.get(event.args[0], "prctl(2)")
    if name in OTHERS:
        return OTHERS[name]
    if kind is Kind.CALL and name[-3:] in ("own", "mod", "nat", "dat"):
        return f"{name}(2), EPERM"
    return UNCHANGED
