"""Sets, flags and ids in words, and the manual's names of the calls."""

from __future__ import annotations

from collections.abc import Sequence
from functools import lru_cache

from capabilities import CAPABILITIES as CAPS
from capabilities import SECUREBITS
from limits import LAST_BITS

NUMBERS = {f"CAP_{name}": number for number, name in enumerate(CAPS)}
ALL = (1 << len(CAPS)) - 1
LAST = len(CAPS) - 1

FLAGS = SECUREBITS[: LAST_BITS.bit_length()]
NOROOT, NO_SETUID_FIXUP, KEEP_CAPS, KEEP_CAPS_LOCKED, NO_AMBIENT_RAISE = 1, 4, 16, 32, 64
LOCKS = 0xAA
ALL_FLAGS = LAST_BITS

# The sets and the ids, in the order in which `caps` and `ids` tell them.
SETS = ("permitted", "inheritable", "effective", "bounding", "ambient")
PERMITTED, INHERITABLE, EFFECTIVE, BOUNDING, AMBIENT = range(5)
KINDS = ("real", "effective", "saved", "filesystem")

ERRORS = {"eperm": "EPERM", "einval": "EINVAL", "eacces": "EACCES", "ebadf": "EBADF"}

# What each call of a task and each event is by the manual's name.
CALLS = {
    "setfsuid": "setfsuid(2)", "setfsgid": "setfsgid(2)", "capset": "capset(2)",
    "capdrop": "prctl(2), PR_CAPBSET_DROP", "ambraise": "prctl(2), PR_CAP_AMBIENT_RAISE",
    "amblower": "prctl(2), PR_CAP_AMBIENT_LOWER", "ambclear": "prctl(2), PR_CAP_AMBIENT_CLEAR_ALL",
    "securebits": "prctl(2), PR_SET_SECUREBITS", "keepcaps": "prctl(2), PR_SET_KEEPCAPS",
    "nonewprivs": "prctl(2), PR_SET_NO_NEW_PRIVS", "exec": "execve(2)", "open": "open(2)",
    "close": "close(2)", "access": "access(2)", "signal": "kill(2)", "fork": "fork(2)",
    "ptrace": "a ptrace access check", "dumpable": "prctl(2), PR_SET_DUMPABLE",
    "dumped": "prctl(2), PR_GET_DUMPABLE",
    "chown": "chown(2)", "chmod": "chmod(2)", "setattr": "setxattr(2)",
    "clearattr": "removexattr(2)", "stat": "stat(2)", "capsetraw": "capset(2)",
    "spawn": "clone(2), CLONE_THREAD", "exit": "_exit(2)", "init": "a first task",
    "ids": "getresuid(2), getresgid(2)", "caps": "capget(2)", "groups": "getgroups(2)",
    "bits": "prctl(2), PR_GET_SECUREBITS", "capable": "capget(2)",
    "bset": "prctl(2), PR_CAPBSET_READ", "ambis": "prctl(2), PR_CAP_AMBIENT_IS_SET",
    "check": "a permission check", "fcap": "f_cred, the opener's credential",
    "take": "get_cred()", "takereal": "get_cred()", "takefile": "get_cred()",
    "drop": "put_cred()", "prepare": "prepare_creds()", "commit": "commit_creds()",
    "abort": "abort_creds()", "override": "override_creds()", "revert": "revert_creds()",
    "sweep": "the end of RCU's grace period", "act": "another thread's step in a call",
}  # fmt: skip
ID_CALLS = (
    "setuid", "seteuid", "setreuid", "setresuid",
    "setgid", "setegid", "setregid", "setresgid", "setgroups",
)  # fmt: skip
CALLS |= {call: f"{call}(2)" for call in ID_CALLS}


def cap_name(number: int) -> str:
    """The name of a capability; a number above the last has none."""
    return f"CAP_{CAPS[number]}" if number <= LAST else str(number)


def cap_number(word: str) -> int:
    """The number of a capability that is named, or is one already."""
    return NUMBERS[word] if word in NUMBERS else int(word)


@lru_cache(None)
def named(caps: int) -> str:
    """A set as names: `none`, `all`, or `all-` and what it lacks where that is less."""
    has = [f"CAP_{name}" for number, name in enumerate(CAPS) if caps >> number & 1]
    if not has:
        return "none"
    if len(has) == len(CAPS):
        return "all"
    if 2 * len(has) <= len(CAPS):
        return ",".join(has)
    lacks = [f"CAP_{name}" for number, name in enumerate(CAPS) if not caps >> number & 1]
    return "all-" + ",".join(lacks)


def flags(bits: int) -> str:
    """Securebits as names."""
    found = [f"SECBIT_{name}" for place, name in enumerate(FLAGS) if bits >> place & 1]
    found += [f"bit {place}" for place in range(8, 32) if bits >> place & 1]
    return ",".join(found) or "none"


def listed(words: Sequence[str] | Sequence[int], last: str = "and") -> str:
    """Words one after another: `1, 2 and 3`."""
    texts = [str(word) for word in words]
    return f" {last} ".join(filter(None, [", ".join(texts[:-1]), texts[-1]])) if texts else ""


def counted(number: int, thing: str) -> str:
    """So many of a thing: `1 hold`, `2 holds`."""
    return f"{number} {thing}" + ("" if number == 1 else "s")
