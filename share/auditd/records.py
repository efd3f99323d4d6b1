"""A line of an audit log, and the event that its records make (auditd(8), ausearch(8))."""

from __future__ import annotations

import re
from dataclasses import dataclass
from functools import lru_cache

# The eight ids of a record: real, effective, saved and filesystem id, first users, then groups.
Eight = tuple[int, int, int, int, int, int, int, int]

HEAD = re.compile(r"(?:node=(\S+) )?type=([A-Z_0-9]+) msg=audit\((\d+\.\d+):(\d+)\): ?")
# Records that no comparison needs: they are told by their beginning alone.
UNUSED = ("type=PROCTITLE ", "type=CWD ", "type=EXECVE ")
# A record of a call as the kernel writes it (kernel/auditsc.c, audit_log_exit).
CALL = re.compile(
    r"arch=([0-9a-f]+) syscall=(\d+) (?:per=\S+ )?(?:success=(yes|no) exit=(-?\d+) )?"
    r"a0=([0-9a-f]+) a1=([0-9a-f]+) a2=([0-9a-f]+) a3=([0-9a-f]+) items=\d+ ppid=(\d+) pid=(\d+) "
    r"auid=\S+ (uid=\d+ gid=\d+ euid=\d+ suid=\d+ fsuid=\d+ egid=\d+ sgid=\d+ fsgid=\d+) "
    r'tty=\S+ ses=\S+ comm=(?:"[^"]*"|\S+) exe=("[^"]*"|\S+)'
)
FIELD = re.compile(r'([\w-]+)=("[^"]*"|[^\s"]+)')
CAPSET = re.compile(r"pid=\d+ cap_pi=([0-9a-f]+) cap_pp=([0-9a-f]+) cap_pe=([0-9a-f]+) "
                    r"cap_pa=([0-9a-f]+)")  # fmt: skip
# What auditd adds for readers, where log_format is ENRICHED, stands behind this byte.
ENRICHED = "\x1d"
# The numbers of this kernel's capabilities: what is above has no meaning.
ALL = (1 << 41) - 1


@dataclass(frozen=True, slots=True)
class Four:
    """The sets of a record, which has no bounding set."""

    permitted: int
    inheritable: int
    effective: int
    ambient: int


@dataclass(frozen=True, slots=True)
class Gained:
    """A BPRM_FCAPS record: the sets before an execve, and after it."""

    before: Four
    after: Four


@dataclass(frozen=True, slots=True)
class Path:
    """A PATH record: a file as it was before the call."""

    item: int
    name: str
    mode: int
    owner: int
    group: int
    attribute: str
    kind: str


@dataclass(slots=True)
class Event:
    """A recorded call: who made it, the ids after it, and the records that belong to it."""

    time: str
    serial: int
    name: str = ""
    text: str = ""
    architecture: str = ""
    number: int = -1
    short: bool = False
    args: tuple[int, int, int, int] = (0, 0, 0, 0)
    done: bool = True
    result: int = 0
    pid: int = 0
    parent: int = 0
    ids: Eight = (0, 0, 0, 0, 0, 0, 0, 0)
    program: str = ""
    capset: Four | None = None
    gained: Gained | None = None
    objects: tuple[int, ...] = ()
    # The texts of PATH records, which are read where they are asked for.
    paths: tuple[str, ...] = ()
    # Whether it is an execve.
    executes: bool = False
    # Its place among all events, in the order in which they happened.
    place: int = -1
    # Whether auditing begins anew with it: what happened before isn't in the log.
    anew: bool = False
    last: int = 0

    @property
    def stamp(self) -> str:
        """How ausearch(8) names it."""
        return f"audit({self.time}:{self.serial})"


@lru_cache(maxsize=4096)
def unquoted(word: str) -> str:
    """A string of a record: between quotes, or in hexadecimal digits where it has odd bytes."""
    if word.startswith('"'):
        return word.strip('"')
    try:
        return bytes.fromhex(word).decode("latin-1")
    except ValueError:
        return word


def fields(text: str) -> dict[str, str]:
    """The fields of a record, but what auditd adds."""
    return dict(FIELD.findall(text.partition(ENRICHED)[0]))


class Damaged(Exception):
    """A record that lacks what it must have."""


def read_call(event: Event, text: str, start: int) -> None:
    """A SYSCALL record."""
    found = CALL.match(text, start)
    if found is None:
        read_other_call(event, text, start)
        return
    (architecture, number, done, result, a0, a1, a2, a3, parent, pid, ids, program) = found.groups()
    event.architecture, event.number = architecture, int(number)
    event.args = int(a0, 16), int(a1, 16), int(a2, 16), int(a3, 16)
    event.done = done != "no"
    event.result = int(result or 0)
    event.parent, event.pid = int(parent), int(pid)
    event.ids = ids_in(ids)
    event.program = unquoted(program)
    event.text = text


@lru_cache(maxsize=4096)
def ids_in(text: str) -> Eight:
    """The eight ids of a record, in whose text the groups stand between the users."""
    uid, gid, euid, suid, fsuid, egid, sgid, fsgid = (
        int(word.partition("=")[2]) for word in text.split()
    )
    return uid, euid, suid, fsuid, gid, egid, sgid, fsgid


IDS = ("uid", "euid", "suid", "fsuid", "gid", "egid", "sgid", "fsgid")


def read_other_call(event: Event, text: str, start: int) -> None:
    """The same, where its fields stand in another order, or some are missing that aren't needed."""
    said = fields(text[start:])
    try:
        event.architecture, event.number = said["arch"], int(said["syscall"])
        a0, a1, a2, a3 = (int(said.get(f"a{place}", "0"), 16) for place in range(4))
        event.args = a0, a1, a2, a3
        event.done = said.get("success") != "no"
        event.result = int(said.get("exit", "0"))
        event.parent, event.pid = int(said["ppid"]), int(said["pid"])
        one, two, three, four, five, six, seven, eight = (int(said[name]) for name in IDS)
        event.ids = one, two, three, four, five, six, seven, eight
    except (KeyError, ValueError) as fault:
        raise Damaged(f"it lacks {fault}" if isinstance(fault, KeyError) else str(fault)) from None
    event.program = unquoted(said.get("exe", '"?"'))
    event.text = text


def read_capset(text: str, start: int) -> Four | None:
    """A CAPSET record: the sets that a capset(2) left."""
    found = CAPSET.match(text, start)
    if found is None:
        return None
    inheritable, permitted, effective, ambient = (int(word, 16) & ALL for word in found.groups())
    return Four(permitted, inheritable, effective, ambient)


def read_gained(text: str, start: int) -> Gained | None:
    """A BPRM_FCAPS record."""
    said = fields(text[start:])
    try:
        before, after = (
            Four(*(int(said[head + name], 16) & ALL for name in ("pp", "pi", "pe", "pa")))
            for head in ("old_", "")
        )
    except (KeyError, ValueError):
        return None
    return Gained(before, after)


def read_object(text: str, start: int) -> int | None:
    """An OBJ_PID record: the task that a call is about."""
    word = fields(text[start:]).get("opid", "")
    return int(word) if re.fullmatch(r"\d{1,9}", word) else None


@lru_cache(maxsize=4096)
def read_path(text: str) -> Path | None:
    """A PATH record; None where it says nothing of a file."""
    said = fields(text)
    try:
        mode = int(said["mode"], 8)
        owner, group = int(said["ouid"]), int(said["ogid"])
        item = int(said.get("item", "0"))
        attribute = attribute_of(said)
    except (KeyError, ValueError):
        return None
    name = unquoted(said.get("name", ""))
    return Path(item, name, mode, owner, group, attribute, said.get("nametype", ""))


def attribute_of(said: dict[str, str]) -> str:
    """The bytes of a file's capability attribute (linux/capability.h, vfs_ns_cap_data)."""
    version = int(said.get("cap_fver", "0"), 16) & 0xFF
    if version not in (1, 2, 3):
        return ""
    permitted, inheritable = int(said["cap_fp"], 16), int(said["cap_fi"], 16)
    words = [version << 24 | int(said["cap_fe"] != "0"), permitted & 0xFFFFFFFF]
    words.append(inheritable & 0xFFFFFFFF)
    words += [permitted >> 32, inheritable >> 32] if version > 1 else []
    words += [int(said.get("cap_frootid", "0"))] if version == 3 else []
    return b"".join((word & 0xFFFFFFFF).to_bytes(4, "little") for word in words).hex()
