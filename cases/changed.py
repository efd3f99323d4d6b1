"""Calls that change a file, by the sentences of chown(2), chmod(2) and capabilities(7): who may,
and what becomes of the file.

A generator says which processes call, and with what. Here is what each call answers, and how the
file stands then.
"""
from dataclasses import dataclass, replace

from processes import ALL, NO_SETUID_FIXUP
from reports import Script

CAP_CHOWN, CAP_FOWNER, CAP_FSETID, CAP_SETFCAP = 0, 3, 4, 31
S_ISUID, S_ISGID, S_IXGRP, S_IXOTH, EXECUTE = 0o4000, 0o2000, 0o0010, 0o0001, 0o0111
# cap_net_raw=ep, as setcap(8) writes it.
NET_RAW = "0100000200200000000000000000000000000000"
# What that gives to whoever executes the file: the permitted set, and whether it is effective.
GIVES = 1 << 13, True
# An id that a call doesn't change.
KEEP = -1
# The user and the group of the process that executes a file: no file has them.
STRANGER = 90


@dataclass(frozen=True)
class Process:
    """A process that calls: its filesystem ids, a supplementary group, and what is effective."""

    fsuid: int
    fsgid: int
    supplementary: int
    capabilities: frozenset[int] = frozenset()

    def has(self, capability: int) -> bool:
        return capability in self.capabilities

    def is_in(self, group: int) -> bool:
        """A member of the group."""
        return group in (self.fsgid, self.supplementary)

    def effective(self) -> int:
        return sum(1 << it for it in self.capabilities)


@dataclass(frozen=True)
class File:
    """A file as it stands."""

    kind: str
    owner: int
    group: int
    mode: int
    attribute: bool

    def declared(self, name: str) -> str:
        """The line that declares it."""
        caps = f" caps {NET_RAW}" if self.attribute else ""
        return f"file {name} {self.kind} {self.owner} {self.group} {self.mode:04o}{caps}"

    def told(self) -> str:
        """What `stat` answers."""
        return f"ok {self.owner} {self.group} {self.mode:04o} {self.attribute:d}"


def chown(process: Process, file: File, owner: int, group: int) -> tuple[str, File]:
    """chown(2): the answer, and the file then."""
    # "If the owner or group is specified as -1, then that ID is not changed."
    owners, groups = owner in (KEEP, file.owner), group in (KEEP, file.group)
    # "Only a privileged process (Linux: one with the CAP_CHOWN capability) may change the owner of
    # a file. The owner of a file may change the group of the file to any group of which that owner
    # is a member. A privileged process (Linux: with CAP_CHOWN) may change the group arbitrarily."
    own = process.fsuid == file.owner and owners and (groups or process.is_in(group))
    given = owner != KEEP or group != KEEP
    if given and not own and not process.has(CAP_CHOWN):
        return "eperm", file
    then = replace(
        file,
        owner=file.owner if owner == KEEP else owner,
        group=file.group if group == KEEP else group,
    )
    # "When the owner or group of an executable file is changed by an unprivileged user, the S_ISUID
    # and S_ISGID mode bits are cleared. .. since Linux 2.2.13, root is treated like other users."
    if not given or file.kind != "reg" or not file.mode & EXECUTE:
        return "ok", then
    # "In case of a non-group-executable file (i.e., one for which the S_IXGRP bit is not set) the
    # S_ISGID bit indicates mandatory locking, and is not cleared by a chown()."
    cleared = S_ISUID | (S_ISGID if file.mode & S_IXGRP else 0)
    # "When the owner or group of an executable file is changed (by any user), all capability sets
    # for the file are cleared."
    return "ok", replace(then, mode=file.mode & ~cleared, attribute=False)


def chmod(process: Process, file: File, mode: int) -> tuple[str, File]:
    """chmod(2): the answer, and the file then."""
    # "The effective UID of the calling process must match the owner of the file, or the process
    # must be privileged (Linux: it must have the CAP_FOWNER capability)." "Linux uses the fsuid
    # instead of the effective user ID in permission checks" (path_resolution(7)).
    if process.fsuid != file.owner and not process.has(CAP_FOWNER):
        return "eperm", file
    # "If the calling process is not privileged (Linux: does not have the CAP_FSETID capability),
    # and the group of the file does not match the effective group ID of the process or one of its
    # supplementary group IDs, the S_ISGID bit will be turned off, but this will not cause an error
    # to be returned."
    if not process.has(CAP_FSETID) and not process.is_in(file.group):
        mode &= ~S_ISGID
    return "ok", replace(file, mode=mode)


def setattr_(process: Process, file: File, given: bool, is_one: bool = True) -> tuple[str, File]:
    """setxattr(2) of an attribute, or removexattr(2): the answer, and the file then."""
    # "Writing to this extended attribute requires the CAP_SETFCAP capability." (capabilities(7))
    if not process.has(CAP_SETFCAP):
        return "eperm", file
    if not is_one:
        return "einval", file
    return "ok", replace(file, attribute=given)


def make(script: Script, process: Process, task: int = 2) -> None:
    """Makes a child of root this process. Its other ids are of no file."""
    script.fork(1, task, task)
    script.ids(task, f"setgroups {process.supplementary}")
    script.ids(task, "setresgid 90 90 90")
    script.changes(task, f"setfsgid {process.fsgid}", answer="ok was 90")
    script.ids(task, "setresuid 90 90 90")
    script.changes(task, f"setfsuid {process.fsuid}", answer="ok was 90")
    script.changes(task, f"capset {ALL:x} 0 {process.effective():x}")


def begin(script: Script, files: dict[str, File]) -> None:
    """Declares files, and a first task whose sets stay as its ids change."""
    script.declares(*(file.declared(name) for name, file in files.items()))
    script.init(1, 1, 0, 0)
    script.changes(1, f"securebits {NO_SETUID_FIXUP}")


def calls(script: Script, task: int, call: str, name: str, rest: str, answer: str) -> None:
    """A call on a file."""
    words = " ".join(it for it in (name, rest) if it)
    script.line(f"t{task} {call} {words}")
    held, *_ = script.labels()
    script.entry(f"take {held} t{task}", script.named(script.acts_with(task)))
    script.entry(f"{call} {held} {words}", answer)
    script.entry(f"drop {held}", "ok")


def stranger(script: Script, task: int = 3) -> None:
    """Makes a child of root a process without capabilities, to whom no file belongs."""
    script.fork(1, task, task)
    script.ids(task, f"setresgid {STRANGER} {STRANGER} {STRANGER}")
    script.ids(task, f"setresuid {STRANGER} {STRANGER} {STRANGER}")
    script.changes(task, "capset 0 0 0")


def executed(file: File, gives: tuple[int, bool]) -> tuple[int, int, int, int] | None:
    """The effective user and group, and what is permitted and effective, once the stranger has
    executed the file; none where it may not.
    """
    # "EACCES The file or a script interpreter is not a regular file." "EACCES Execute permission is
    # denied for the file" (execve(2)).
    if file.kind != "reg" or not file.mode & S_IXOTH:
        return None
    # "If the set-user-ID bit is set on the program file referred to by pathname, then the effective
    # user ID of the calling process is changed to that of the owner of the program file. Similarly,
    # if the set-group-ID bit is set on the program file, then the effective group ID of the calling
    # process is set to the group of the program file." That is where the group may execute it.
    setgid = file.mode & S_ISGID and file.mode & S_IXGRP
    # "P'(permitted) = (P(inheritable) & F(inheritable)) | (F(permitted) & P(bounding)) |
    # P'(ambient)" (capabilities(7)), of which the first and the last are empty.
    permitted, effective = gives if file.attribute else (0, False)
    return (
        file.owner if file.mode & S_ISUID else STRANGER,
        file.group if setgid else STRANGER,
        permitted,
        permitted if effective else 0,
    )


def executes(
    script: Script,
    name: str,
    file: File,
    gives: tuple[int, bool] = GIVES,
    task: int = 3,
    child: int = 4,
) -> None:
    """A child of the stranger executes the file as it stands, and is asked what it is then."""
    script.fork(task, child, child)
    then = executed(file, gives)
    if then:
        script.changes(child, f"exec {name}", then=f" ended 0 gain {then[2]:x} 0 0")
    else:
        script.changes(child, f"exec {name}", "eacces")
    user, group, permitted, effective = then or (STRANGER, STRANGER, 0, 0)
    ids = (STRANGER, *3 * (user,), STRANGER, *3 * (group,))
    script.asks(child, "ids", f"ok {' '.join(map(str, ids))}")
    script.asks(child, "caps", f"ok {permitted:x} 0 {effective:x} {ALL:x} 0")
    script.exit(child)


def tries(
    script: Script,
    name: str,
    before: File,
    call: str,
    rest: str,
    answer: str,
    then: File,
    gives: tuple[int, bool] = GIVES,
) -> None:
    """The file is asked for, the process makes its call, and the file is asked for again and
    executed.
    """
    calls(script, 2, "stat", name, "", before.told())
    calls(script, 2, call, name, rest, answer)
    calls(script, 2, "stat", name, "", then.told())
    executes(script, name, then, gives)
