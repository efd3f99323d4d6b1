"""Which lines of a script the calls on credentials are, and what a report should answer them.

Each function here gets the arguments of a call and its result. It returns what the task says in the
script, and the kernel's result in the words of a report; or None where the call says nothing about
credentials, as where it failed for another reason.
"""

from __future__ import annotations

import re
from collections.abc import Callable
from dataclasses import dataclass

import limits
from capabilities import ALL_CAPABILITIES, CAPABILITIES, SECUREBIT_VALUES
from linux import rows

from ..log import lines
from ..log.lines import Result


class Unheld(Exception):
    """A call that no line of a script can say, and that can't be passed over."""


CAP_BITS = {f"1<<CAP_{name}": 1 << place for place, name in enumerate(CAPABILITIES)}

# The versions of a record of capset(2), and of how many groups of three words each one has.
VERSION = "_LINUX_CAPABILITY_VERSION_"
VERSIONS = {"1": (0x19980330, 1), "2": (0x20071026, 2), "3": (0x20080522, 2)}
LOWER = (1 << 32) - 1

# The limit of groups (docs/FORMATS.md).
GROUPS = limits.GROUPS


@dataclass(frozen=True)
class Said:
    """What a task says in the script, and the answer that the kernel's result is.

    In the answer `*` stands for any word, `&MASK=VALUE` for a number with these bits, and
    `MASK&=VALUE` for a set that is this one as far as the mask goes, both hexadecimal.
    """

    words: str
    answer: str


Args = tuple[str, ...]
Reading = Callable[[Args, Result], Said | None]


def answer(result: Result) -> str | None:
    """`ok`, or the error in the words of a report; None where it isn't one of credentials."""
    if result.error is None:
        return "ok" if result.value is not None and result.value >= 0 else None
    return result.error.lower() if result.error in ("EPERM", "EINVAL", "EACCES") else None


NUMBERS = "its constants are numbers: record without -X raw or -X verbose"
ADDRESSES = (
    "its arguments are addresses: record without -e verbose=none and -e raw, and as root, since a "
    "user's strace can't read the memory of a task that isn't dumpable"
)


def is_address(text: str) -> bool:
    """Whether strace wrote where an argument lies, and not what it is."""
    return re.fullmatch(r"0x[0-9a-f]+", text) is not None


def told(words: str, result: Result) -> Said | None:
    """A call that succeeds or not, and says no more."""
    said = answer(result)
    return None if said is None else Said(words, said)


def identity(text: str) -> str | None:
    """An id as an argument: -1 keeps the old one."""
    value = lines.number(text)
    if value is None or not -1 <= value < 1 << 32:
        return None
    return "-1" if value in (-1, (1 << 32) - 1) else str(value)


def ids_call(name: str, count: int) -> Reading:
    """setuid(2) and its forms: so many ids."""

    def read(args: Args, result: Result) -> Said | None:
        words = [identity(arg) for arg in args]
        if len(words) != count or None in words:
            return None
        return told(f"{name} {' '.join(word for word in words if word)}", result)

    return read


def file_id(name: str) -> Reading:
    """setfsuid(2), setfsgid(2): the result is the id before."""

    def read(args: Args, result: Result) -> Said | None:
        word = identity(args[0]) if args else None
        if word is None or result.value is None:
            return None
        return Said(f"{name} {word}", f"ok was {result.value}")

    return read


def setgroups(args: Args, result: Result) -> Said | None:
    """setgroups(2)."""
    if len(args) != 2 or answer(result) is None:
        return None
    listed = [] if args[1] == "NULL" and args[0] == "0" else lines.items(args[1])
    if listed is None:
        if result.error is not None:
            return None
        if is_address(args[1]):
            raise Unheld(ADDRESSES)
        raise Unheld("the list of groups is shortened: strace writes all of it with -v")
    if len(listed) > GROUPS and result.error is None:
        raise Unheld(
            f"{len(listed)} groups (docs/LINUX.md: {rows.row(rows.GROUPS)[0]})"
        )
    words = [identity(word) for word in listed]
    if None in words or "-1" in words:
        return None
    return told(" ".join(["setgroups", *(word for word in words if word)]), result)


def capability_set(text: str, groups: int) -> int | None:
    """The set of a record, with all bits that are seen.

    Each bit of the lower word has a name. What strace writes as a number is of the upper one.
    """
    if not text:
        return None
    words = [word.partition(" ")[0] for word in text.split("|")]
    plain = [word for word in words if word not in CAP_BITS]
    named = lines.bits("|".join(set(words) - set(plain)) or "0", CAP_BITS)
    others = lines.bits("|".join(plain) or "0", {})
    if named is None or others is None or others > LOWER:
        return None
    return named | others << 32 * (groups - 1)


def sets(args: Args, result: Result) -> list[int] | None:
    """The effective, the permitted and the inheritable set that capset(2) or capget(2) names."""
    version = lines.fields(args[0]).get("version", "") if len(args) == 2 else ""
    if not version.startswith(VERSION):
        if result.error is None and len(args) == 2 and is_address(args[0]):
            raise Unheld(ADDRESSES)
        if result.error is None and version[:1].isdigit() and "???" not in version:
            raise Unheld(NUMBERS)
        return None
    _, groups = VERSIONS.get(version.removeprefix(VERSION), (0, 2))
    named = lines.fields(args[1])
    found = [
        capability_set(named.get(name, ""), groups)
        for name in ("effective", "permitted", "inheritable")
    ]
    return None if None in found else [value or 0 for value in found]


def record(version: str, target: int, found: list[int]) -> str:
    """The record of capset(2) with these sets, in hexadecimal digits (capset(2))."""
    number, groups = VERSIONS[version]
    words = [number, target]
    for group in range(groups):
        words += [value >> 32 * group & LOWER for value in found]
    return b"".join(word.to_bytes(4, "little") for word in words).hex()


def capset(args: Args, result: Result, target: int = 0) -> Said | None:
    """capset(2), of the task itself: the record that the kernel was handed."""
    found = sets(args, result)
    version = lines.fields(args[0]).get("version", "").removeprefix(VERSION) if args else ""
    if found is None or version not in VERSIONS:
        return None
    return told(f"capsetraw {record(version, target, found)}", result)


def capget(args: Args, result: Result) -> Said | None:
    """capget(2): a question about the sets."""
    found = sets(args, result)
    if found is None or result.value != 0:
        return None
    # Version 1 has the lower 32 bits alone.
    mask = "ffffffff&=" if "VERSION_1" in args[0] else ""
    effective, permitted, inheritable = (f"{mask}{value & ALL_CAPABILITIES:x}" for value in found)
    return Said("caps", f"ok {permitted} {inheritable} {effective} * *")


def one_id(place: int) -> Reading:
    """getuid(2) and its forms: a question about one of the eight ids."""

    def read(args: Args, result: Result) -> Said | None:
        return None if result.value is None else Said("ids", ids_answer({place: result.value}))

    return read


def three_ids(first: int) -> Reading:
    """getresuid(2), getresgid(2): real, effective and saved id."""

    def read(args: Args, result: Result) -> Said | None:
        values = [lines.number(arg.strip("[]")) for arg in args]
        if result.value == 0 and any(map(is_address, args)):
            raise Unheld(ADDRESSES)
        if result.value != 0 or len(values) != 3 or None in values:
            return None
        known = {first + place: value or 0 for place, value in enumerate(values)}
        return Said("ids", ids_answer(known))

    return read


def ids_answer(known: dict[int, int]) -> str:
    """The answer of `ids` of which these are known."""
    return " ".join(["ok", *(str(known.get(place, "*")) for place in range(8))])


def getgroups(args: Args, result: Result) -> Said | None:
    """getgroups(2): the groups, or only how many."""
    if len(args) != 2 or result.value is None or result.value < 0 or result.value > GROUPS:
        return None
    listed = lines.items(args[1])
    if args[0] == "0" or listed is None:
        return Said("groups", " ".join(["ok", *["*"] * result.value]))
    values = sorted(lines.number(word) or 0 for word in listed)
    return Said("groups", " ".join(["ok", *map(str, values)]))


def capability(text: str) -> str | None:
    """The word for a capability: its name, or its number where it has none."""
    if text.removeprefix("CAP_") in CAPABILITIES:
        return text
    value = lines.number(text)
    return str(value) if value is not None and 0 <= value < 1 << 32 else None


def ambient(args: Args, result: Result) -> Said | None:
    """prctl(2), PR_CAP_AMBIENT: raise, lower, clear all, ask."""
    what = args[1].removeprefix("PR_CAP_AMBIENT_") if len(args) > 1 else ""
    # A further argument is EINVAL, whatever the task is.
    if any(lines.number(arg) != 0 for arg in args[2 if what == "CLEAR_ALL" else 3 :]):
        return None
    if what == "CLEAR_ALL":
        return told("ambclear", result)
    word = capability(args[2]) if len(args) > 2 else None
    if word is None:
        return None
    if what == "IS_SET":
        return asked(f"ambis {word}", result)
    forms = {"RAISE": "ambraise", "LOWER": "amblower"}
    return told(f"{forms[what]} {word}", result) if what in forms else None


def asked(words: str, result: Result) -> Said | None:
    """A question whose result is 0, 1 or an error."""
    if result.error is None:
        return None if result.value is None else Said(words, f"ok {result.value}")
    return told(words, result)


def switch(form: str) -> Reading:
    """prctl(2), PR_SET_KEEPCAPS and PR_SET_NO_NEW_PRIVS: a number, and zeros."""

    def read(args: Args, result: Result) -> Said | None:
        value = lines.number(args[1]) if len(args) > 1 else None
        if value is None or not 0 <= value < 1 << 32:
            return None
        if form == "nonewprivs" and any(lines.number(arg) != 0 for arg in args[2:]):
            return None
        return told(f"{form} {value}", result)

    return read


def securebits(args: Args, result: Result) -> Said | None:
    """prctl(2), PR_SET_SECUREBITS."""
    value = lines.bits(args[1], SECUREBIT_VALUES) if len(args) > 1 else None
    return told(f"securebits {value}", result) if value is not None and value < 1 << 32 else None


def bounding(form: str) -> Reading:
    """prctl(2), PR_CAPBSET_DROP and PR_CAPBSET_READ."""

    def read(args: Args, result: Result) -> Said | None:
        word = capability(args[1]) if len(args) > 1 else None
        if word is None:
            return None
        return asked(f"bset {word}", result) if form == "bset" else told(f"capdrop {word}", result)

    return read


# linux/sched/coredump.h, as strace writes them.
DUMPABLE = {"SUID_DUMP_DISABLE": 0, "SUID_DUMP_USER": 1, "SUID_DUMP_ROOT": 2}


def dumpable(args: Args, result: Result) -> Said | None:
    """prctl(2), PR_SET_DUMPABLE."""
    word = args[1] if len(args) > 1 else ""
    value = DUMPABLE.get(word, lines.number(word))
    if value is None or not 0 <= value < 1 << 32:
        return None
    return told(f"dumpable {value}", result)


def dumped(_args: Args, result: Result) -> Said | None:
    """prctl(2), PR_GET_DUMPABLE."""
    return Said("dumped", f"ok {result.value}") if result.value in (0, 1) else None


def bits_are(pattern: str) -> Reading:
    """prctl(2), PR_GET_SECUREBITS and its forms: a question about securebits and no_new_privs."""

    def read(args: Args, result: Result) -> Said | None:
        if result.value is None or result.error:
            return None
        flag = f"&16={16 * result.value}"
        return Said("bits", pattern.format(value=result.value, flag=flag))

    return read


OPERATIONS: dict[str, Reading] = {
    "PR_SET_KEEPCAPS": switch("keepcaps"),
    "PR_SET_NO_NEW_PRIVS": switch("nonewprivs"),
    "PR_SET_SECUREBITS": securebits,
    "PR_CAPBSET_DROP": bounding("capdrop"),
    "PR_CAPBSET_READ": bounding("bset"),
    "PR_CAP_AMBIENT": ambient,
    "PR_SET_DUMPABLE": dumpable,
    "PR_GET_DUMPABLE": dumped,
    "PR_GET_KEEPCAPS": bits_are("ok {flag} *"),
    "PR_GET_SECUREBITS": bits_are("ok {value} *"),
    "PR_GET_NO_NEW_PRIVS": bits_are("ok * {value}"),
}


def prctl(args: Args, result: Result) -> Said | None:
    """prctl(2), where its operation is one on credentials."""
    operation = args[0] if args else ""
    if operation[:1].isdigit() and "???" not in operation and result.error is None:
        raise Unheld(NUMBERS)
    read = OPERATIONS.get(operation)
    return read(args, result) if read else None


# The calls that libc has every thread of a process make (nptl(7)).
ID_CALLS: dict[str, Reading] = {
    "setuid": ids_call("setuid", 1),
    "setgid": ids_call("setgid", 1),
    "setreuid": ids_call("setreuid", 2),
    "setregid": ids_call("setregid", 2),
    "setresuid": ids_call("setresuid", 3),
    "setresgid": ids_call("setresgid", 3),
    "setgroups": setgroups,
}

OWN_CALLS: dict[str, Reading] = {
    "setfsuid": file_id("setfsuid"),
    "setfsgid": file_id("setfsgid"),
    "prctl": prctl,
    "getuid": one_id(0),
    "geteuid": one_id(1),
    "getgid": one_id(4),
    "getegid": one_id(5),
    "getresuid": three_ids(0),
    "getresgid": three_ids(4),
    "getgroups": getgroups,
}

# The same calls of 32-bit x86.
ID_CALLS |= {name + "32": read for name, read in ID_CALLS.items()}
OWN_CALLS |= {name + "32": read for name, read in OWN_CALLS.items() if name != "prctl"}

SET_CALLS = ("capset", "capget")
